//! Long runs, and runs in any order.
use super::drawn::{Make, bytes, mark, plant, run};
use flowgraph::BlockId;
use items::{ItemType, Items};
use kinds::Kind;
use plant::{Claim, Plant};
use std::alloc::Global;
use std::process::Abort;
use std::test::Fail;

// The number that item `n` of the long tape has.
fn long_item(n: usize) -> i64 {
    (n % 251) as i64
}

#[test]
fn a_long_tape_goes_through_small_buffers(rt: HostRuntime) -> Result<(), Fail> {
    let alloc = rt.alloc();
    let wires = [(0, 0, 1, 0), (1, 0, 2, 0), (2, 0, 3, 0)];
    let blocks = [
        Make::Source,
        Make::AddConst(1),
        Make::AddConst(255),
        Make::Sink,
    ];
    let mut plant = plant(&rt, alloc, &blocks, &wires, 3);
    let mut numbers = Vec::with_capacity(alloc, 100_000)?;
    for n in 0..100_000 {
        numbers.push(long_item(n))?;
    }
    let Ok(items) = Items::from_numbers(alloc, ItemType::Byte, &numbers) else {
        panic!(rt; "no items");
    };
    let source = BlockId(0);
    assert!(rt; plant.feed(source, items, &[]).is_ok(), "fed");
    assert!(rt; plant.close(source).is_ok(), "closed");
    run(&rt, alloc, &mut plant, 1_024);
    let Ok(piece) = plant.read(alloc, BlockId(3), 0, 100_000) else {
        panic!(rt; "read");
    };
    assert!(rt; piece.held == 100_000 && piece.done, "all items");
    assert!(rt;
        matches!(Items::from_numbers(alloc, ItemType::Byte, &numbers), Ok(all) if all == piece.items),
        "the same items"
    );
    Ok(())
}

/// The next of a row of numbers that look drawn by chance (Knuth's constants).
pub fn drawn(number: u64) -> u64 {
    number
        .wrapping_mul(6_364_136_223_846_793_005)
        .wrapping_add(1_442_695_040_888_963_407)
}

// A claim of a block, which is given up, or worked and committed.
fn act(rt: &impl Abort, alloc: Global, plant: &mut Plant<Kind>, chance: u64) {
    let block = BlockId(((chance >> 33) % 6) as u32);
    let max = ((chance >> 20) % 3) as u32 + 1;
    match plant.claim(alloc, block, max) {
        Ok(Claim::Claimed(job)) => {
            if chance >> 60 == 0 {
                assert!(rt; plant.abandon(job).is_ok(), "given up");
            } else {
                assert!(rt; plant.commit(job.work()).is_ok(), "committed");
            }
        }
        Ok(_) => {}
        Err(_) => panic!(rt; "refused"),
    }
}

// A source to a join by two ways, one of which halves and then doubles its items.
fn joined(rt: &impl Abort, alloc: Global) -> Plant<Kind> {
    let wires = [
        (0, 0, 1, 0),
        (0, 0, 4, 0),
        (1, 0, 2, 0),
        (2, 0, 4, 1),
        (4, 0, 5, 0),
        (2, 0, 3, 0),
    ];
    let blocks = [
        Make::Source,
        Make::Keep(2),
        Make::Repeat(2),
        Make::Sink,
        Make::Add,
        Make::Sink,
    ];
    let mut plant = plant(rt, alloc, &blocks, &wires, 4);
    let marks = [
        mark(rt, 0, b'a', 1),
        mark(rt, 3, b'b', 2),
        mark(rt, 3, b'a', 3),
        mark(rt, 8, b'c', 4),
    ];
    let items = bytes(rt, alloc, &[1, 2, 3, 4, 5, 6, 7, 8, 9, 10]);
    assert!(rt; plant.feed(BlockId(0), items, &marks).is_ok(), "fed");
    assert!(rt; plant.close(BlockId(0)).is_ok(), "closed");
    plant
}

#[test]
fn the_order_of_calls_does_not_matter(rt: HostRuntime) -> Result<(), Fail> {
    let alloc = rt.alloc();
    for seed in 0..20 {
        let mut plant = joined(&rt, alloc);
        let mut chance = drawn(seed);
        for _ in 0..2_000 {
            act(&rt, alloc, &mut plant, chance);
            chance = drawn(chance);
        }
        assert!(rt; plant.all_done() && plant.quiet(), "order {seed}: all done");
        let Ok(piece) = plant.read(alloc, BlockId(5), 0, 100) else {
            panic!(rt; "order {seed}: read");
        };
        let sums = bytes(&rt, alloc, &[3, 4, 7, 8, 11, 12, 15, 16, 19, 20]);
        assert!(rt; piece.items == sums, "order {seed}: the sums");
        // Each tag comes by both ways: at its own item, and at twice the item to which halving moved it.
        let mut offsets = Vec::with_capacity(alloc, piece.tags.len())?;
        for tag in &piece.tags {
            offsets.push(tag.offset)?;
        }
        assert!(rt;
            offsets.as_slice() == [0, 0, 3, 3, 4, 4, 8, 8].as_slice(),
            "order {seed}: the tags"
        );
    }
    Ok(())
}
