//! How long tapes may be in a graph.
use super::drawn::{Make, SINK, SOURCE, Wire, build, plain};
use std::process::Abort;
use std::test::Fail;

const NOBODY: usize = 256;

// A source, blocks in a row and a sink.
const ROW: [Wire; 4] = [(0, 0, 1, 0), (1, 0, 2, 0), (2, 0, 3, 0), (3, 0, 4, 0)];

// 2 to the 61st, divided by the greatest product of items given for one along a path.
#[test]
fn tapes_are_as_long_as_gains_allow(rt: HostRuntime) -> Result<(), Fail> {
    for (case, makes, expected) in [
        (
            "as many as there come",
            [Make::Not, Make::Head(7), Make::Delay(3)],
            2_305_843_009_213_693_952,
        ),
        (
            "three for one",
            [Make::Not, Make::Repeat(3), Make::Not],
            768_614_336_404_564_650,
        ),
        (
            "and one in three again",
            [Make::Repeat(3), Make::Keep(3), Make::Not],
            768_614_336_404_564_650,
        ),
        (
            "six for one in all",
            [Make::Repeat(2), Make::Not, Make::Repeat(3)],
            384_307_168_202_282_325,
        ),
        (
            "2 to the 24th",
            [Make::Repeat(1_024), Make::Repeat(1_024), Make::Repeat(16)],
            137_438_953_472,
        ),
    ] {
        let [x, y, z] = makes;
        let blocks = [
            plain(b"src", SOURCE),
            plain(b"x", x),
            plain(b"y", y),
            plain(b"z", z),
            plain(b"out", SINK),
        ];
        let longest = build(rt.alloc(), &blocks, &ROW, NOBODY).map(|graph| graph.longest_tape());
        assert!(&rt; longest == Ok(expected), "{case}: {longest:?}");
    }
    Ok(())
}

// Beside one another blocks do not multiply: the greater of their numbers counts.
#[test]
fn the_steepest_path_counts(rt: HostRuntime) -> Result<(), Fail> {
    let blocks = [
        plain(b"src", SOURCE),
        plain(b"x", Make::Repeat(4)),
        plain(b"y", Make::Repeat(2)),
        plain(b"out", SINK),
        plain(b"more", SINK),
    ];
    let wires = [(0, 0, 1, 0), (0, 0, 2, 0), (1, 0, 3, 0), (2, 0, 4, 0)];
    let longest = build(rt.alloc(), &blocks, &wires, NOBODY).map(|graph| graph.longest_tape());
    assert!(&rt; longest == Ok(576_460_752_303_423_488), "{longest:?}");
    Ok(())
}
