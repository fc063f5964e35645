//! What blocks wait for, and where the waits lead.
use super::drawn::{Make, bytes, plant, run};
use flowgraph::BlockId;
use kinds::Kind;
use plant::{BlockNeed, Claim, Plant, PlantFault, Settled, Step};
use std::alloc::Global;
use std::process::Abort;
use std::test::Fail;

fn fed(rt: &impl Abort, alloc: Global, plant: &mut Plant<Kind>, numbers: &[i64]) {
    let items = bytes(rt, alloc, numbers);
    assert!(rt; plant.feed(BlockId(0), items, &[]).is_ok(), "fed");
}

// Asserts what a block waits for.
fn waits(
    rt: &impl Abort,
    plant: &Plant<Kind>,
    block: u32,
    wanted: Result<BlockNeed, PlantFault>,
    what: &str,
) {
    assert!(rt; plant.need(BlockId(block)) == wanted, "{what}");
}

// A step of a block, of so many firings at most, does so many.
fn steps(
    rt: &impl Abort,
    alloc: Global,
    plant: &mut Plant<Kind>,
    block: u32,
    max: u32,
    wanted: u32,
) {
    let did = plant.step(alloc, BlockId(block), max);
    assert!(rt; did == Ok(Step::Did(wanted)), "{wanted} of block {block}");
}

fn items_of(port: usize, writer: u32) -> Result<BlockNeed, PlantFault> {
    Ok(BlockNeed::Items {
        port,
        writer: BlockId(writer),
    })
}

fn room_for(port: usize, reader: u32) -> Result<BlockNeed, PlantFault> {
    Ok(BlockNeed::Room {
        port,
        reader: BlockId(reader),
    })
}

#[test]
fn a_chain_waits_for_its_source(rt: HostRuntime) -> Result<(), Fail> {
    let alloc = rt.alloc();
    let blocks = [Make::Source, Make::AddConst(10), Make::Sink];
    let mut plant = plant(&rt, alloc, &blocks, &[(0, 0, 1, 0), (1, 0, 2, 0)], 4);
    waits(&rt, &plant, 0, Ok(BlockNeed::Feed), "the tape is open");
    waits(&rt, &plant, 1, items_of(0, 0), "items of the source");
    waits(&rt, &plant, 2, items_of(0, 1), "items of the middle");
    waits(&rt, &plant, 3, Err(PlantFault::NoSuchBlock), "no block");
    assert!(rt; plant.ring() == Some(BlockId(0)), "the open source");
    fed(&rt, alloc, &mut plant, &[1, 2]);
    waits(&rt, &plant, 0, Ok(BlockNeed::Ready), "a firing fits");
    let Ok(Claim::Claimed(job)) = plant.claim(alloc, BlockId(0), 1) else {
        panic!(rt; "claimed");
    };
    waits(&rt, &plant, 0, Ok(BlockNeed::Busy), "in flight");
    assert!(rt; plant.commit(job.work()).is_ok(), "committed");
    assert!(rt; plant.close(BlockId(0)).is_ok(), "closed");
    run(&rt, alloc, &mut plant, 8);
    for block in 0..3 {
        waits(&rt, &plant, block, Ok(BlockNeed::Done), "done");
    }
    assert!(rt; plant.ring() == None, "no block is live");
    Ok(())
}

// One way of the join has half as many items as the other, and the source runs out of room.
#[test]
fn an_uneven_join_waits_in_a_ring(rt: HostRuntime) -> Result<(), Fail> {
    let alloc = rt.alloc();
    let wires = [(0, 0, 1, 0), (0, 0, 2, 0), (2, 0, 1, 1), (1, 0, 3, 0)];
    let blocks = [Make::Source, Make::Add, Make::Keep(2), Make::Sink];
    let mut plant = plant(&rt, alloc, &blocks, &wires, 4);
    fed(&rt, alloc, &mut plant, &[7; 20]);
    assert!(rt; plant.close(BlockId(0)).is_ok(), "closed");
    assert!(rt; plant.settle(alloc, 8) == Ok(Settled::Quiet), "at rest");
    waits(&rt, &plant, 0, room_for(0, 1), "the join has not read");
    waits(&rt, &plant, 1, items_of(1, 2), "items of the slow way");
    waits(&rt, &plant, 2, items_of(0, 0), "items of the source");
    waits(&rt, &plant, 3, items_of(0, 1), "items of the join");
    // Four waits lead from block 0 over 1, 2 and 0 again to 1.
    assert!(rt; plant.ring() == Some(BlockId(1)), "a block of the ring");
    Ok(())
}

#[test]
fn room_is_up_to_the_slowest_reader(rt: HostRuntime) -> Result<(), Fail> {
    let alloc = rt.alloc();
    let wires = [(0, 0, 1, 0), (0, 0, 2, 0)];
    let blocks = [Make::Source, Make::Sink, Make::Sink];
    let mut plant = plant(&rt, alloc, &blocks, &wires, 4);
    fed(&rt, alloc, &mut plant, &[1; 10]);
    steps(&rt, alloc, &mut plant, 0, 9, 4);
    waits(&rt, &plant, 0, room_for(0, 1), "the first of two");
    steps(&rt, alloc, &mut plant, 1, 2, 2);
    waits(&rt, &plant, 0, room_for(0, 2), "the slower");
    steps(&rt, alloc, &mut plant, 2, 1, 1);
    waits(&rt, &plant, 0, Ok(BlockNeed::Ready), "a firing fits");
    Ok(())
}
