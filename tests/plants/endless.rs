//! A stream that goes on for long, with tags, through a plant that streams: however much comes, the process has no more
//! memory than at first. No clause says so of the room of tags in order, nor of that of items once they are appended.
use super::drawn::{MIDDLE, Make, SINK, SOURCE, bytes, mark, streaming};
use crate::Host;
use items::{Items, Mark};
use kinds::Kind;
use settings::Value;
use std::alloc::Global;
use std::fs;
use std::test::Fail;
use streaming::{Settled, StreamingPlant};

// Items of a piece; a tag stands on each tenth.
const PIECE: u64 = 1_000;

const TAGS: u64 = PIECE / 10;

const PIECES: u64 = 10_000;

// By then each vector has come to its size.
const FIRST: u64 = 200;

// In KiB: of 10^7 bytes, or of 10^6 tags, that stayed, this is a tenth at most.
const MORE: u64 = 1_000;

// How many KiB of memory the process had at most so far, touched or not.
fn greatest(rt: &impl Host) -> u64 {
    let Ok(status) = fs::read(rt, "/proc/self/status") else {
        panic!(rt; "no status of the process");
    };
    let Some(at) = status.windows(7).position(|word| word == b"VmPeak:".as_slice()) else {
        panic!(rt; "no greatest size");
    };
    let mut kib = 0;
    for byte in &status[at + 7..] {
        match *byte {
            b'\n' => return kib,
            b'0'..=b'9' => kib = kib * 10 + u64::from(*byte - b'0'),
            _ => {},
        }
    }
    kib
}

// Feeds a piece, runs the plant, and drains the sink.
fn pass(
    rt: &impl Host,
    alloc: Global,
    plant: &mut StreamingPlant<Kind>,
    items: &Items,
    marks: &mut [Mark],
) {
    assert!(rt; plant.feed(SOURCE, items, marks).is_ok(), "fed");
    for mark in marks.iter_mut() {
        mark.offset += PIECE;
    }
    assert!(rt; matches!(plant.settle(alloc, 512), Ok(Settled::Quiet)), "all is taken");
    let Ok(piece) = plant.drain(alloc, SINK, u64::MAX) else {
        panic!(rt; "drained");
    };
    assert!(rt; piece.items.len() as u64 == PIECE && piece.tags.len() as u64 == TAGS, "all came");
    assert!(rt; plant.items_in_memory(SOURCE) == 0 && plant.tags_in_memory(SOURCE) == 0, "released");
}

#[test]
fn memory_is_that_of_a_piece(rt: HostRuntime) -> Result<(), Fail> {
    let alloc = rt.alloc();
    let blocks = [Make::Source, Make::AddConst(1), Make::Sink];
    let mut plant = streaming(&rt, alloc, &blocks, &[(0, 0, 1, 0), (1, 0, 2, 0)], 2_048);
    let items = bytes(&rt, alloc, &[7; PIECE as usize]);
    let mut marks = Vec::new(alloc);
    for number in 0..TAGS {
        marks.push(mark(&rt, 10 * number, b'k', number as i64))?;
    }
    for _ in 0..FIRST {
        pass(&rt, alloc, &mut plant, &items, &mut marks);
    }
    let before = greatest(&rt);
    for number in FIRST..PIECES {
        let value = Value::Number((number % 100) as i64);
        assert!(rt; plant.set(MIDDLE, None, value).is_ok(), "set");
        pass(&rt, alloc, &mut plant, &items, &mut marks);
    }
    let after = greatest(&rt);
    let headway = plant.headway();
    assert!(rt; headway.fed == PIECES * PIECE && headway.given == headway.fed, "all that was fed");
    assert!(rt; before > 0 && after <= before + MORE, "{before} KiB at first, and {after} at last");
    Ok(())
}
