//! What a gate is told of turns and waits, and a watch of steps: as many firings as the plant makes, in each way of
//! running it.
use super::drawn::{Drawing, Make, fed};
use super::gates::Counts;
use super::runs::{End, Host, ended, piece, share, shared, split};
use super::ways::{WAYS, Way, run_in_way};
use flowgraph::BlockId;
use kinds::Kind;
use plant::{Headway, Need, Plant, Settled, Step, Watch};
use std::alloc::Global;
use std::process::Abort;
use std::sync::Arc;
use std::sync::atomic::{AtomicU64, Ordering};
use std::test::Fail;
use std::time::Duration;
use threads::{Gate, Turns};

// A source whose every third item goes on, twice: firings 3,000, 1,000, 1,000 and 2,000.
const THINNED: Drawing<'static> = Drawing {
    makes: &[Make::Source, Make::Keep(3), Make::Repeat(2), Make::Sink],
    wires: &[(0, 0, 1, 0), (1, 0, 2, 0), (2, 0, 3, 0)],
    capacity: 16,
    items: 3_000,
};
const FIRINGS: [u64; 4] = [3_000, 1_000, 1_000, 2_000];
const SINK: BlockId = BlockId(3);

// What is told of one block.
#[derive(Drop)]
struct Told {
    begun: AtomicU64,
    turns: AtomicU64,
    firings: AtomicU64,
    items: AtomicU64,
    room: AtomicU64,
}

// The gate that counts what it is told of each block.
#[derive(Drop)]
struct Counting {
    blocks: Vec<Told>,
    counts: Counts,
}

impl Counting {
    fn new(rt: &impl Abort, alloc: Global, blocks: usize) -> Counting {
        let mut told = Vec::new(alloc);
        for _ in 0..blocks {
            let one = Told {
                begun: AtomicU64::new(0),
                turns: AtomicU64::new(0),
                firings: AtomicU64::new(0),
                items: AtomicU64::new(0),
                room: AtomicU64::new(0),
            };
            assert!(rt; told.push(one).is_ok(), "no memory");
        }
        Counting {
            blocks: told,
            counts: Counts::new(),
        }
    }

    fn told(&self, block: BlockId) -> Option<&Told> {
        self.blocks.get(block.0 as usize)
    }
}

impl Gate for Counting {
    fn pass(&self, block: BlockId, firing: u64) {
        self.counts.pass(block, firing);
    }

    fn begins(&self, block: BlockId) {
        if let Some(told) = self.told(block) {
            told.begun.fetch_add(1, Ordering::SeqCst);
        }
    }

    fn worked(&self, block: BlockId, firings: u32) {
        if let Some(told) = self.told(block) {
            told.turns.fetch_add(1, Ordering::SeqCst);
            told.firings
                .fetch_add(u64::from(firings), Ordering::SeqCst);
        }
    }

    fn waits(&self, block: BlockId, need: Need) {
        let Some(told) = self.told(block) else {
            return;
        };
        match need {
            Need::Items(_) => told.items.fetch_add(1, Ordering::SeqCst),
            Need::Room(_) => told.room.fetch_add(1, Ordering::SeqCst),
        };
    }
}

fn run_in<R: Host + 'static>(
    rt: R,
    alloc: Global,
    way: Way,
    gate: &Arc<Counting, Global>,
) -> Plant<Kind> {
    let plant = fed(&rt, alloc, &THINNED);
    match run_in_way(rt, alloc, way, plant, Turns::default(), share(&rt, gate)) {
        Ok(outcome) => {
            let (end, plant) = split(&rt, outcome);
            assert!(&rt; end == End::Done, "{way:?}: {end:?}");
            plant
        }
        Err(fault) => panic!(&rt; "{way:?}: not run: {fault}"),
    }
}

#[test]
fn a_gate_is_told_of_each_firing(rt: HostRuntime) -> Result<(), Fail> {
    let alloc = rt.alloc();
    for way in WAYS {
        let gate = shared(&rt, alloc, Counting::new(&rt, alloc, FIRINGS.len()));
        let plant = run_in(rt, alloc, way, &gate);
        let held = piece(&rt, alloc, &plant, SINK).held;
        assert!(rt; held == 2_000, "{way:?}: the sink holds {held}");
        for (number, (told, wanted)) in gate.blocks.iter().zip(FIRINGS).enumerate() {
            let firings = told.firings.load(Ordering::SeqCst);
            let turns = told.turns.load(Ordering::SeqCst);
            let begun = told.begun.load(Ordering::SeqCst);
            assert!(rt; firings == wanted, "{way:?}: block {number} fired {firings} times");
            assert!(rt; 0 < turns && turns <= begun, "{way:?}: block {number}: {turns} of {begun} turns");
        }
        // A sink waits for no room, and a source for no items.
        let waits = [
            gate.blocks[0].items.load(Ordering::SeqCst),
            gate.blocks[3].room.load(Ordering::SeqCst),
        ];
        assert!(rt; waits == [0, 0], "{way:?}: {waits:?}");
        if way == Way::EachBlock {
            for told in &gate.blocks {
                let turns = told.turns.load(Ordering::SeqCst);
                assert!(rt; turns == told.begun.load(Ordering::SeqCst), "each turn of a worker fires");
            }
        }
    }
    Ok(())
}

// What a watch is told.
#[derive(Drop)]
struct Steps {
    begun: [u64; 4],
    firings: [u64; 4],
    waits: u64,
}

impl Watch for Steps {
    fn pause(&self) -> Option<Duration> {
        None
    }

    fn show(&mut self, _headway: Headway) {}

    fn end(&mut self) {}

    fn begins(&mut self, block: BlockId) {
        if let Some(begun) = self.begun.get_mut(block.0 as usize) {
            *begun = begun.saturating_add(1);
        }
    }

    fn stepped(&mut self, block: BlockId, step: Step) {
        match step {
            Step::Did(count) => {
                if let Some(firings) = self.firings.get_mut(block.0 as usize) {
                    *firings = firings.saturating_add(u64::from(count));
                }
            }
            Step::Waiting(_) => self.waits = self.waits.saturating_add(1),
            Step::Done | Step::Busy => {}
        }
    }
}

#[test]
fn a_watch_is_told_of_each_step(rt: HostRuntime) -> Result<(), Fail> {
    let alloc = rt.alloc();
    let mut plant = fed(&rt, alloc, &THINNED);
    assert!(rt; plant.idle(), "idle");
    let mut steps = Steps {
        begun: [0; 4],
        firings: [0; 4],
        waits: 0,
    };
    let settled = plant.settle_watched(alloc, 7, &mut steps)?;
    assert!(rt; settled == Settled::Done, "done");
    assert!(rt; steps.firings == FIRINGS, "{:?}", steps.firings);
    assert!(rt; steps.begun[0] == steps.begun[3], "each round steps each block");
    Ok(())
}
