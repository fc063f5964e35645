//! Workers of blocks that do not wait for one another run at the same time.
use super::drawn::{Drawing, Make, TWO_TURNED, fed, feed, kind, opened};
use super::gates::{Counts, Flag};
use super::probes::{Habit, Meeting, Probe};
use super::runs::{End, ended, holds_turned, launched, ran_to, share, shared};
use flowgraph::BlockId;
use plant::Plant;
use std::alloc::Global;
use std::process::Abort;
use std::sync::Arc;
use std::test::Fail;
use threads::Gate;

const ITEMS: u32 = 3_000;

const TWO_CHAINS: Drawing<'static> = Drawing {
    capacity: 64,
    items: ITEMS,
    ..TWO_TURNED
};

const HELD: BlockId = BlockId(2);

const GOES_ON: BlockId = BlockId(3);

const SINKS: [BlockId; 2] = [BlockId(4), BlockId(5)];

// The gate that holds one block in its first pass until another passes behind its own first firing.
#[derive(Drop)]
struct Overtaken {
    counts: Counts,
    goes_on: Flag,
    saw: Flag,
}

impl Gate for Overtaken {
    fn pass(&self, block: BlockId, firing: u64) {
        if block == GOES_ON && 0 < firing {
            self.goes_on.raise();
        }
        if block == HELD && firing == 0 && self.goes_on.wait() {
            self.saw.raise();
        }
    }

    fn missed(&self) {
        Gate::missed(&self.counts);
    }
}

#[test]
fn a_chain_goes_on_while_the_other_is_held_at_the_gate(rt: HostRuntime) -> Result<(), Fail> {
    let alloc = rt.alloc();
    let gate = shared(
        &rt,
        alloc,
        Overtaken {
            counts: Counts::new(),
            goes_on: Flag::new(),
            saw: Flag::new(),
        },
    );
    let running = launched(rt, alloc, fed(&rt, alloc, &TWO_CHAINS), &gate);
    let (end, plant) = ended(&rt, running);
    assert!(rt; end == End::Done, "{end:?}");
    assert!(rt; gate.saw.is_up(), "the other chain did not go on");
    assert!(rt; gate.counts.missed() == 0, "a sleeper was missed");
    for sink in SINKS {
        holds_turned(&rt, alloc, &plant, sink, ITEMS);
    }
    Ok(())
}

// The two chains, whose blocks meet in the work from their first firing on.
fn meeting_chains(rt: &impl Abort, alloc: Global, meeting: &Arc<Meeting, Global>) -> Plant<Probe> {
    let mut blocks = Vec::new(alloc);
    for (number, make) in TWO_CHAINS.makes.iter().enumerate() {
        let habit = match make {
            Make::Not => Habit::Meets(number % 2, share(rt, meeting)),
            _ => Habit::Plain,
        };
        let kind = kind(rt, *make);
        assert!(rt; blocks.push(Probe { kind, habit }).is_ok(), "no memory");
    }
    let mut plant = opened(rt, alloc, blocks, TWO_CHAINS.wires, TWO_CHAINS.capacity);
    for source in [BlockId(0), BlockId(1)] {
        feed(rt, alloc, &mut plant, source, ITEMS);
        assert!(rt; plant.close(source).is_ok(), "closed");
    }
    plant
}

#[test]
fn two_blocks_work_at_the_same_time(rt: HostRuntime) -> Result<(), Fail> {
    let alloc = rt.alloc();
    let meeting = shared(&rt, alloc, Meeting::new());
    let chains = meeting_chains(&rt, alloc, &meeting);
    let plant = ran_to(rt, alloc, chains, End::Done, "both");
    assert!(rt; meeting.both_saw(), "they did not work at the same time");
    for sink in SINKS {
        holds_turned(&rt, alloc, &plant, sink, ITEMS);
    }
    Ok(())
}
