//! Rounds of a plant behind its first ones: claims that are no larger than those before, bring no tags and fill no
//! sink.
use fir_blocks::Fir;
use flowgraph::{BlockId, Graph, Options, Policy};
use items::{ItemType, Items};
use kinds::{Kind, NullSink, VectorSource};
use math_blocks::{Add, AddConst};
use plant::{Claim, Plant, PlantFault, Step};
use rate_blocks::KeepOneInN;
use std::alloc::Global;

const INT: ItemType = ItemType::Int;

const SOURCE: BlockId = BlockId(0);

// The source, a block with a number, a filter, a block with two inputs, one with another rate, and the sink.
const BLOCKS: u32 = 6;

// The last block is the only one behind which nothing is connected.
const WIRES: [(u32, u32, usize); 6] = [
    (0, 1, 0),
    (1, 2, 0),
    (2, 3, 0),
    (0, 3, 1),
    (3, 4, 0),
    (4, 5, 0),
];

const FED: usize = 480;

/// How many firings the rounds behind the first ones do: in each of 22, 16 of the first four blocks and 8 of the other
/// two.
pub const FIRINGS: u64 = 1_760;

// A block fires so often at once, at most.
const MOST: u32 = 16;

// Rounds until each block has claimed as much as it ever does.
const FIRST: u32 = 8;

fn made(alloc: Global, number: u32) -> Option<Kind> {
    Some(match number {
        0 => Kind::VectorSource(VectorSource::new(INT)),
        1 => Kind::AddConst(AddConst::new(INT, 1).ok()?),
        2 => Kind::Fir(Fir::new(alloc, INT, &[1, 2, 3], 1, 0).ok()?),
        3 => Kind::Add(Add::new(INT)),
        4 => Kind::KeepOneInN(KeepOneInN::new(INT, 2).ok()?),
        _ => Kind::NullSink(NullSink::new(INT)),
    })
}

fn opened(alloc: Global) -> Option<Plant<Kind>> {
    let mut graph = Graph::new(alloc);
    let options = Options {
        policy: Policy::All,
        multiple: 1,
        capacity: 64,
    };
    for number in 0..BLOCKS {
        let name = [b'a' + number as u8];
        let block = made(alloc, number)?;
        graph.add_block(alloc, &name, block, options).ok()?;
    }
    for (from, to, port) in WIRES {
        graph.connect(BlockId(from), 0, BlockId(to), port).ok()?;
    }
    Plant::open(alloc, graph.validate(alloc).ok()?).ok()
}

/// A plant that was fed and has done its first rounds; `None` where an allocation failed.
pub fn make_ready(alloc: Global) -> Option<Plant<Kind>> {
    let mut plant = opened(alloc)?;
    let mut tape = Items::empty(alloc, INT);
    tape.reserve(FED).ok()?;
    tape.push_zeros(FED);
    plant.feed(SOURCE, tape, &[]).ok()?;
    for _ in 0..FIRST {
        for number in 0..BLOCKS {
            step(alloc, &mut plant, BlockId(number)).ok()?;
        }
    }
    Some(plant)
}

/// How many firings are done until no block can act: by steps, by claims that are committed, and with claims that are
/// given up in between. The fault is that of the first call that is refused.
pub fn go_on(alloc: Global, plant: &mut Plant<Kind>) -> Result<u64, PlantFault> {
    let mut done = 0;
    let mut round: u64 = 0;
    loop {
        let before = done;
        for number in 0..BLOCKS {
            let block = BlockId(number);
            done += match round % 3 {
                0 => step(alloc, plant, block)?,
                1 => claim(alloc, plant, block)?,
                _ => {
                    give_up(alloc, plant, block)?;
                    step(alloc, plant, block)?
                }
            };
        }
        if done == before {
            return Ok(done);
        }
        round += 1;
    }
}

fn step(alloc: Global, plant: &mut Plant<Kind>, block: BlockId) -> Result<u64, PlantFault> {
    match plant.step(alloc, block, MOST)? {
        Step::Did(count) => Ok(u64::from(count)),
        _ => Ok(0),
    }
}

fn claim(alloc: Global, plant: &mut Plant<Kind>, block: BlockId) -> Result<u64, PlantFault> {
    let Claim::Claimed(job) = plant.claim(alloc, block, MOST)? else {
        return Ok(0);
    };
    match plant.commit(job.work()) {
        Ok(did) => Ok(u64::from(did.0)),
        Err(_) => Ok(0),
    }
}

fn give_up(alloc: Global, plant: &mut Plant<Kind>, block: BlockId) -> Result<(), PlantFault> {
    if let Claim::Claimed(job) = plant.claim(alloc, block, MOST)? {
        let _ = plant.abandon(job);
    }
    Ok(())
}
