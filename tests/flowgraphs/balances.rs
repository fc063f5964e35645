//! How often blocks fire for one another, and how large buffers are for it.
use super::drawn::Make::{Add, Delay, Keep, Mux, Not, Repeat, Skip};
use super::drawn::{Drawn, Make, SINK, SOURCE, Wire, build, plain};
use rates::{Rates, balance, capacities};
use std::alloc::Global;
use std::process::Abort;
use std::test::Fail;

/// What is expected of the rates.
#[derive(Clone, Copy)]
enum Expected<'a> {
    Balanced(&'a [u32]),
    Uneven,
    TooLarge,
}

fn is_expected(rates: &Rates, expected: Expected<'_>) -> bool {
    match (rates, expected) {
        (Rates::Balanced(found), Expected::Balanced(firings)) => found.firings() == firings,
        (Rates::Uneven, Expected::Uneven) | (Rates::TooLarge, Expected::TooLarge) => true,
        _ => false,
    }
}

// The rates, and the capacities of all used outputs, one block behind the other.
fn assert_rates(
    rt: &impl Abort,
    alloc: Global,
    case: &str,
    blocks: &[Drawn<'_>],
    wires: &[Wire],
    expected: Expected<'_>,
    sizes: &[u32],
) {
    let Ok(graph) = build(alloc, blocks, wires, blocks.len()) else {
        panic!(rt; "{case}: the graph is refused");
    };
    let Ok(rates) = balance(alloc, &graph) else {
        panic!(rt; "{case}: no memory");
    };
    assert!(rt; is_expected(&rates, expected), "{case}: rates");
    let Ok(found) = capacities(alloc, &graph, &rates) else {
        panic!(rt; "{case}: no memory");
    };
    let mut left = sizes;
    for row in found.rows() {
        let Some((first, rest)) = left.split_at_checked(row.len()) else {
            panic!(rt; "{case}: more outputs");
        };
        assert!(rt; row.as_slice() == first, "{case}: capacities");
        left = rest;
    }
    assert!(rt; left.is_empty(), "{case}: fewer outputs");
}

// Blocks between a source and a sink, in a row, and what is expected.
type Chain = (
    &'static str,
    &'static [Make],
    Expected<'static>,
    &'static [u32],
);

// Each block fires as often as the others.
const ONES: Expected<'static> = Expected::Balanced(&[1, 1, 1]);

const CHAINS: [Chain; 7] = [
    (
        "three for one, then one for two",
        &[Repeat(3), Keep(2)],
        Expected::Balanced(&[2, 2, 3, 3]),
        &[2, 6, 3],
    ),
    (
        "one in 2 to the 20th",
        &[Keep(1_024), Keep(1_024)],
        Expected::TooLarge,
        &[1_024, 1_024, 1],
    ),
    (
        "128,000 items in an iteration",
        &[Repeat(1_024), Keep(1_000)],
        Expected::TooLarge,
        &[1, 1_024, 1],
    ),
    ("two zeros first", &[Delay(2)], ONES, &[1, 2]),
    ("two items left out", &[Skip(2)], ONES, &[1, 1]),
    ("65,536 items left out", &[Skip(65_536)], ONES, &[1, 1]),
    ("one more", &[Skip(65_537)], Expected::TooLarge, &[1, 1]),
];

#[test]
fn rates_are_the_least_and_buffers_hold_them(rt: HostRuntime) -> Result<(), Fail> {
    let alloc = rt.alloc();
    let wires = [(0, 0, 1, 0), (1, 0, 2, 0), (2, 0, 3, 0)];
    for (case, middle, expected, sizes) in CHAINS {
        let mut blocks = vec![in alloc; plain(b"src", SOURCE)]?;
        for (name, make) in [b"a", b"b"].iter().zip(middle) {
            blocks.push(plain(*name, *make))?;
        }
        blocks.push(plain(b"out", SINK))?;
        let wires = &wires[..middle.len() + 1];
        assert_rates(&rt, alloc, case, &blocks, wires, expected, sizes);
    }
    assert_joins(&rt, alloc);
    for (case, blocks, wires, expected, sizes) in OTHERS {
        assert_rates(&rt, alloc, case, blocks, wires, expected, sizes);
    }
    Ok(())
}

// A source goes to a join, directly and through another block.
fn assert_joins(rt: &impl Abort, alloc: Global) {
    let wires = [(0, 0, 1, 0), (0, 0, 2, 0), (2, 0, 1, 1), (1, 0, 3, 0)];
    let ones = Expected::Balanced(&[1, 1, 1, 1]);
    let half = Keep(2);
    for (case, capacity, way, expected, sizes) in [
        ("with half of itself", 4, half, Expected::Uneven, [4, 1, 1]),
        ("with all but three", 1, Skip(3), ones, [4, 1, 1]),
        ("with itself two later", 1, Delay(2), ones, [1, 1, 3]),
    ] {
        let blocks = [
            (b"src".as_slice(), SOURCE, 1, capacity),
            plain(b"j", Add),
            plain(b"w", way),
            plain(b"out", SINK),
        ];
        assert_rates(rt, alloc, case, &blocks, &wires, expected, &sizes);
    }
}

const SRC: Drawn<'static> = (b"src", SOURCE, 1, 1);

const HALF: Drawn<'static> = (b"k", Keep(2), 1, 1);

const OUT: Drawn<'static> = (b"out", SINK, 1, 1);

// Any graph, and what is expected.
type Case = (
    &'static str,
    &'static [Drawn<'static>],
    &'static [Wire],
    Expected<'static>,
    &'static [u32],
);

const OTHERS: [Case; 6] = [
    (
        "a configured capacity",
        &[(b"src", SOURCE, 1, 4), HALF, OUT],
        &[(0, 0, 1, 0), (1, 0, 2, 0)],
        Expected::Balanced(&[2, 1, 1]),
        &[4, 1],
    ),
    (
        "a multiple of four",
        &[SRC, (b"a", Not, 4, 1), OUT],
        &[(0, 0, 1, 0), (1, 0, 2, 0)],
        Expected::Balanced(&[4, 1, 4]),
        &[4, 4],
    ),
    (
        "halved on both ways",
        &[SRC, (b"j", Add, 1, 1), HALF, (b"l", Keep(2), 1, 1), OUT],
        &[
            (0, 0, 3, 0),
            (3, 0, 1, 0),
            (0, 0, 2, 0),
            (2, 0, 1, 1),
            (1, 0, 4, 0),
        ],
        Expected::Balanced(&[2, 1, 1, 1, 1]),
        &[2, 1, 1, 1],
    ),
    (
        "two items of one for one of the other",
        &[SRC, (b"t", SOURCE, 1, 1), (b"x", Mux, 1, 1), OUT],
        &[(0, 0, 2, 0), (1, 0, 2, 1), (2, 0, 3, 0)],
        Expected::Balanced(&[2, 1, 1, 3]),
        &[2, 1, 3],
    ),
    (
        "two parts, one each for itself",
        &[
            SRC,
            (b"k", Keep(3), 1, 1),
            OUT,
            (b"more", SOURCE, 1, 1),
            (b"end", SINK, 1, 1),
        ],
        &[(0, 0, 1, 0), (1, 0, 2, 0), (3, 0, 4, 0)],
        Expected::Balanced(&[3, 1, 1, 1, 1]),
        &[3, 1, 1],
    ),
    ("no blocks", &[], &[], Expected::Balanced(&[]), &[]),
];
