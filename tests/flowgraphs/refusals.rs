//! Which graphs are refused, for what, and which are taken.
use super::drawn::{Drawn, Make, SINK, SOURCE, Wire, add, build, plain};
use flowgraph::{BlockId, BlockOption, Graph, GraphFault, Limit, Policy, Side};
use items::ItemType;
use kinds::Kind;
use std::alloc::Global;
use std::process::Abort;
use std::test::Fail;

const NOBODY: usize = 256;

const SRC: Drawn<'static> = (b"src", SOURCE, 1, 1);

const OUT: Drawn<'static> = (b"out", SINK, 1, 1);

const ADDS: Drawn<'static> = (b"x", Make::Add, 1, 1);

// Three that each give 1,024 items for one.
const U: Drawn<'static> = (b"u", Make::Repeat(1_024), 1, 1);

const V: Drawn<'static> = (b"v", Make::Repeat(1_024), 1, 1);

const W: Drawn<'static> = (b"w", Make::Repeat(1_024), 1, 1);

fn assert_built(
    rt: &impl Abort,
    alloc: Global,
    case: &str,
    blocks: &[Drawn<'_>],
    wires: &[Wire],
    one_to_one: usize,
    expected: Option<GraphFault>,
) {
    assert!(rt;
        build(alloc, blocks, wires, one_to_one).err() == expected,
        "{case}"
    );
}

// Whether a block alone is refused for this, or taken.
fn assert_added(
    rt: &impl Abort,
    alloc: Global,
    case: &str,
    block: Drawn<'_>,
    bad: Option<BlockOption>,
) {
    let mut graph = Graph::new(alloc);
    let fault = add(alloc, &mut graph, block, Policy::All).err();
    assert!(rt; fault == bad.map(GraphFault::BadParameter), "{case}");
}

#[test]
fn blocks_are_refused(rt: HostRuntime) -> Result<(), Fail> {
    let a = b"a".as_slice();
    let named = Some(BlockOption::Name);
    for (case, name, bad) in [
        ("an empty name", b"".as_slice(), named),
        ("a space", b"a b", named),
        ("33 bytes", b"abcdefghijklmnopqrstuvwxyz0123456", named),
    ] {
        assert_added(&rt, rt.alloc(), case, plain(name, Make::Not), bad);
    }
    let multiple = Some(BlockOption::Multiple);
    for (case, make, firings) in [
        ("no base firings", Make::Not, 0),
        ("65 base firings", Make::Not, 65),
        ("two at a source", SOURCE, 2),
        ("two at a sink", SINK, 2),
        ("two at a limit", Make::Head(3), 2),
        ("two at a shift", Make::Delay(3), 2),
    ] {
        assert_added(&rt, rt.alloc(), case, (a, make, firings, 1), multiple);
    }
    let longest = b"abcdefghijklmnopqrstuvwxyz012345".as_slice();
    let capacity = Some(BlockOption::Capacity);
    for (case, name, firings, room, bad) in [
        ("no capacity", a, 1, 0, capacity),
        ("too much", a, 1, 65_537, capacity),
        ("the name is first", b"", 0, 0, named),
        ("then the multiple", a, 0, 0, multiple),
        ("all at their ends", longest, 64, 65_536, None),
    ] {
        let block = (name, Make::Not, firings, room);
        assert_added(&rt, rt.alloc(), case, block, bad);
    }
    assert_named(&rt, rt.alloc());
    Ok(())
}

// A name stands once in a graph, and a block that is refused takes no number.
fn assert_named(rt: &impl Abort, alloc: Global) {
    let mut graph = Graph::new(alloc);
    for (name, expected) in [
        (b"a", Ok(BlockId(0))),
        (b"b", Ok(BlockId(1))),
        (b"a", Err(GraphFault::DuplicateName)),
        (b"c", Ok(BlockId(2))),
    ] {
        let added = add(alloc, &mut graph, plain(name, Make::Not), Policy::All);
        assert!(rt; added == expected, "{added:?}");
    }
}

// A port that the block may not have.
fn no_port(block: u32, side: Side, port: usize) -> Option<GraphFault> {
    let block = BlockId(block);
    Some(GraphFault::PortRange { block, side, port })
}

// One connection of a source, block 0, and another block.
fn assert_connected(rt: &impl Abort, alloc: Global) {
    let shorts = plain(b"out", Make::Sink(ItemType::Short));
    let not = plain(b"y", Make::Not);
    let unknown = Some(GraphFault::UnknownBlock);
    let (block, port) = (BlockId(1), 0);
    let mismatch = Some(GraphFault::TypeMismatch { block, port });
    for (case, other, wire, expected) in [
        ("a chain", OUT, (0, 0, 1, 0), None),
        ("from nowhere", OUT, (2, 9, 1, 9), unknown),
        ("to nowhere", OUT, (0, 9, 2, 9), unknown),
        ("output 1", OUT, (0, 1, 1, 1), no_port(0, Side::Out, 1)),
        ("of a sink", OUT, (1, 0, 0, 0), no_port(1, Side::Out, 0)),
        ("to a source", not, (1, 0, 0, 0), no_port(0, Side::In, 0)),
        ("input 16", ADDS, (0, 0, 1, 16), no_port(1, Side::In, 16)),
        ("bytes to shorts", shorts, (0, 0, 1, 0), mismatch),
    ] {
        let blocks = [SRC, other];
        assert_built(rt, alloc, case, &blocks, &[wire], NOBODY, expected);
    }
}

// A join whose tags go one to one.
fn assert_one_to_one(rt: &impl Abort, alloc: Global) {
    let blocks = [SRC, ADDS, OUT];
    let block = BlockId(1);
    let refused = Some(GraphFault::OneToOne { block });
    let (first, second, sink) = ((0, 0, 1, 0), (0, 0, 1, 1), (1, 0, 2, 0));
    for (case, wires, expected) in [
        ("two inputs", &[first, second, sink][..], refused),
        ("one input", &[first, sink], None),
    ] {
        assert_built(rt, alloc, case, &blocks, wires, 1, expected);
    }
}

// Any graph, and for what it is refused.
type Case = (
    &'static str,
    &'static [Drawn<'static>],
    &'static [Wire],
    Option<GraphFault>,
);

const CHAIN: [Wire; 4] = [(0, 0, 1, 0), (1, 0, 2, 0), (2, 0, 3, 0), (3, 0, 4, 0)];

const GRAPHS: [Case; 8] = [
    ("no blocks", &[], &[], None),
    (
        "twice into one input",
        &[SRC, OUT],
        &[(0, 0, 1, 0), (0, 0, 1, 0)],
        Some(GraphFault::InputTaken {
            block: BlockId(1),
            port: 0,
        }),
    ),
    (
        "no first input",
        &[SRC, ADDS, OUT],
        &[(0, 0, 1, 1), (1, 0, 2, 0)],
        Some(GraphFault::PortGap {
            block: BlockId(1),
            side: Side::In,
            port: 0,
        }),
    ),
    (
        "a sink alone",
        &[SRC, OUT, (b"more", SINK, 1, 1)],
        &[(0, 0, 1, 0)],
        Some(GraphFault::TooFewPorts { block: BlockId(2) }),
    ),
    (
        "a loop",
        &[SRC, ADDS, (b"y", Make::Not, 1, 1), OUT],
        &[(0, 0, 1, 0), (2, 0, 1, 1), (1, 0, 2, 0), (2, 0, 3, 0)],
        Some(GraphFault::Loop { block: BlockId(1) }),
    ),
    (
        "2 to the 30th",
        &[SRC, U, V, W, OUT],
        &CHAIN,
        Some(GraphFault::Gain { block: BlockId(3) }),
    ),
    (
        "2 to the 24th",
        &[SRC, U, V, (b"w", Make::Repeat(16), 1, 1), OUT],
        &CHAIN,
        None,
    ),
    (
        "the steep path comes second",
        &[SRC, ADDS, OUT, U, V, W],
        &[
            (0, 0, 1, 0),
            (0, 0, 3, 0),
            (3, 0, 4, 0),
            (4, 0, 5, 0),
            (5, 0, 1, 1),
            (1, 0, 2, 0),
        ],
        Some(GraphFault::Gain { block: BlockId(1) }),
    ),
];

#[test]
fn connections_and_graphs_are_refused(rt: HostRuntime) -> Result<(), Fail> {
    assert_connected(&rt, rt.alloc());
    assert_one_to_one(&rt, rt.alloc());
    for (case, blocks, wires, expected) in GRAPHS {
        assert_built(&rt, rt.alloc(), case, blocks, wires, NOBODY, expected);
    }
    Ok(())
}

fn names_of(number: u32) -> [u8; 3] {
    [
        b'0' + (number / 100 % 10) as u8,
        b'0' + (number / 10 % 10) as u8,
        b'0' + (number % 10) as u8,
    ]
}

// 256 blocks: a source, 52 that add, and 203 sinks, the first 52 of them behind those.
fn fill(alloc: Global, graph: &mut Graph<Kind>) -> Result<(), GraphFault> {
    for number in 0..256 {
        let make = match number {
            0 => SOURCE,
            1..=52 => Make::Add,
            _ => SINK,
        };
        add(alloc, graph, plain(&names_of(number), make), Policy::All)?;
    }
    for input in 0..821 {
        graph.connect(BlockId(0), 0, BlockId(1 + input / 16), input as usize % 16)?;
    }
    for sink in 53..256 {
        let writer = if sink < 105 { sink - 52 } else { 0 };
        graph.connect(BlockId(writer), 0, BlockId(sink), 0)?;
    }
    Ok(())
}

#[test]
fn graphs_are_as_large_as_they_may_be(rt: HostRuntime) -> Result<(), Fail> {
    let mut graph = Graph::new(rt.alloc());
    assert!(rt; fill(rt.alloc(), &mut graph) == Ok(()));
    let more = add(rt.alloc(), &mut graph, plain(b"more", SINK), Policy::All);
    assert!(rt; more == Err(GraphFault::TooLarge(Limit::Blocks)));
    let more = graph.connect(BlockId(0), 0, BlockId(52), 5);
    assert!(rt; more == Err(GraphFault::TooLarge(Limit::Connections)));
    match graph.validate(rt.alloc()) {
        Ok(valid) => {
            assert!(rt; valid.len() == 256 && valid.connections().len() == 1_024);
            assert!(rt; valid.find(b"255") == Some(BlockId(255)));
            assert!(rt; valid.find(b"256") == None);
        }
        Err(_) => panic!(rt; "the largest graph is valid"),
    }
    Ok(())
}
