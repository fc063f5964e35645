//! Each call of a plant, and of one that streams, as it is answered and as it is refused, where there is memory enough:
//! none of them says that there is too little. The clauses of a call let it say so at any time, since what the
//! allocator refuses is known to no clause.
use super::drawn::{MIDDLE, Make, SINK, SOURCE, Wire, bytes, mark, plant, streaming};
use flowgraph::BlockId;
use items::{ItemType, Items};
use plant::{Claim, PlantFault};
use settings::Value;
use std::process::Abort;
use std::test::Fail;
use streaming::NoHelpers;

const NOBODY: BlockId = BlockId(9);

const EACH: [BlockId; 4] = [SOURCE, MIDDLE, SINK, NOBODY];

const BLOCKS: [Make; 3] = [Make::Source, Make::AddConst(10), Make::Sink];

const WIRES: [Wire; 2] = [(0, 0, 1, 0), (1, 0, 2, 0)];

// How often all calls are made, each time of a plant that is further on.
const TIMES: u64 = 40;

fn sees_memory<T: Drop>(rt: &impl Abort, answer: Result<T, PlantFault>) {
    assert!(rt; !matches!(answer, Err(PlantFault::Memory)), "there is memory");
}

#[test]
fn a_plant_is_refused_no_memory(rt: HostRuntime) -> Result<(), Fail> {
    let alloc = rt.alloc();
    let mut plant = plant(&rt, alloc, &BLOCKS, &WIRES, 16);
    let shorts = Items::from_numbers(alloc, ItemType::Short, &[1])?;
    for time in 0..TIMES {
        for block in EACH {
            let marks = [mark(&rt, 3 * time, b'k', 7), mark(&rt, 3 * time + 9, b'k', 7)];
            sees_memory(&rt, plant.feed(block, bytes(&rt, alloc, &[1, 2, 3]), &marks[..1]));
            sees_memory(&rt, plant.feed(block, bytes(&rt, alloc, &[1, 2, 3]), &marks));
            sees_memory(&rt, plant.feed_from(block, &shorts, &[]));
            sees_memory(&rt, plant.feed_numbers(alloc, block, &[300], &[]));
            sees_memory(&rt, plant.set(block, None, Value::Number(time as i64)));
            sees_memory(&rt, plant.set(block, Some(0), Value::Number(1)));
            match plant.claim(alloc, block, 2) {
                Ok(Claim::Claimed(job)) if time % 2 == 0 => {
                    assert!(rt; plant.commit(job.work()).is_ok(), "taken");
                },
                Ok(Claim::Claimed(job)) => assert!(rt; plant.abandon(job).is_ok(), "given up"),
                answer => sees_memory(&rt, answer),
            }
            sees_memory(&rt, plant.step(alloc, block, 1));
            sees_memory(&rt, plant.read(alloc, block, 0, 5));
            sees_memory(&rt, plant.read(alloc, block, 1_000, 5));
        }
        let handed = plant.handed(alloc)?;
        assert!(rt; plant.agrees(&handed) && plant.opening(alloc).is_ok(), "copied");
        assert!(rt; plant.settle(alloc, 3).is_ok(), "settled");
    }
    sees_memory(&rt, plant.close(SOURCE));
    sees_memory(&rt, plant.feed(SOURCE, bytes(&rt, alloc, &[1]), &[]));
    assert!(rt; plant.settle(alloc, 3).is_ok() && plant.all_done(), "done");
    Ok(())
}

#[test]
fn one_that_streams_is_refused_no_memory(rt: HostRuntime) -> Result<(), Fail> {
    let alloc = rt.alloc();
    let mut plant = streaming(&rt, alloc, &BLOCKS, &WIRES, 16);
    let mut items = bytes(&rt, alloc, &[]);
    let mut shorts = Items::from_numbers(alloc, ItemType::Short, &[1])?;
    let mut tags = Vec::new(alloc);
    for time in 0..TIMES {
        for block in EACH {
            let marks = [mark(&rt, 3 * time, b'k', 7), mark(&rt, 3 * time + 9, b'k', 7)];
            sees_memory(&rt, plant.feed(block, &bytes(&rt, alloc, &[1, 2, 3]), &marks[..1]));
            sees_memory(&rt, plant.feed(block, &bytes(&rt, alloc, &[1, 2, 3]), &marks));
            sees_memory(&rt, plant.feed(block, &shorts, &[]));
            sees_memory(&rt, plant.feed_numbers(alloc, block, &[300], &[]));
            sees_memory(&rt, plant.set(block, None, Value::Number(time as i64)));
            sees_memory(&rt, plant.set(block, Some(0), Value::Number(1)));
            sees_memory(&rt, plant.step(alloc, block, 1));
            sees_memory(&rt, plant.peek(alloc, block, 2));
            sees_memory(&rt, plant.drain(alloc, block, 1));
            sees_memory(&rt, plant.drain_into(block, 1, &mut items, &mut tags));
            sees_memory(&rt, plant.drain_into(block, 1, &mut shorts, &mut tags));
            sees_memory(&rt, plant.consume(block, 1));
        }
        plant.release();
        assert!(rt; plant.round(alloc, 1).is_ok(), "a round");
        assert!(rt; plant.round_with(alloc, 1, &mut NoHelpers).is_ok(), "a round with helpers");
        assert!(rt; plant.settle(alloc, 3).is_ok(), "settled");
    }
    sees_memory(&rt, plant.close(SOURCE));
    sees_memory(&rt, plant.feed(SOURCE, &bytes(&rt, alloc, &[1]), &[]));
    assert!(rt; plant.settle(alloc, 3).is_ok() && plant.all_done(), "done");
    Ok(())
}
