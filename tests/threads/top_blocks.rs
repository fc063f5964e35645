//! Top blocks: graphs of kinds that are fed, closed and run to their end, and runs with callers.
use super::desks::{ADDER, Sets, holds_what_was_set};
use super::drawn::{Drawing, TWO_TURNED, graph, plant, tape};
use super::gates::Counts;
use super::live_runs::{Does, doing};
use super::replays::{replay, same_logs};
use super::runs::{End, Host, ended_as, holds_turned, share, shared};
use super::ways::{adaptive, per_block};
use flowgraph::{BlockId, Valid};
use items::{ItemType, Items};
use kinds::Kind;
use plant::{Headway, PlantFault, Unwatched, Watch};
use std::alloc::{AllocError, Global};
use std::process::Abort;
use std::test::Fail;
use std::time::Duration;
use threads::{Finished, RunOptions, Turns};
use top_block::TopBlock;

const ITEMS: u32 = 3_000;

// Two chains that nothing joins.
const TWO_CHAINS: Drawing<'static> = Drawing {
    capacity: 64,
    items: ITEMS,
    ..TWO_TURNED
};

const SOURCES: [BlockId; 2] = [BlockId(0), BlockId(1)];

const SINKS: [BlockId; 2] = [BlockId(4), BlockId(5)];

fn made(rt: &impl Abort, alloc: Global, graph: Valid<Kind>) -> TopBlock {
    match TopBlock::from_graph(alloc, graph) {
        Ok(top) => top,
        Err(_) => panic!(rt; "no memory"),
    }
}

fn feed(rt: &impl Abort, alloc: Global, top: &mut TopBlock, source: BlockId) {
    let (numbers, marks) = tape(rt, alloc, ITEMS);
    let Ok(items) = Items::from_numbers(alloc, ItemType::Byte, &numbers) else {
        panic!(rt; "no bytes");
    };
    let fed = top.feed(source, items, &marks);
    assert!(rt;
        matches!(fed, Ok(total) if total.0 == u64::from(ITEMS)),
        "source {}",
        source.0
    );
}

// The two chains, each with its items on its tape. One source is still open: the run closes it.
fn fed_chains(rt: &impl Abort, alloc: Global) -> TopBlock {
    let mut top = made(rt, alloc, graph(rt, alloc, &TWO_CHAINS));
    for source in SOURCES {
        feed(rt, alloc, &mut top, source);
    }
    let closed = top.close(SOURCES[0]);
    assert!(rt;
        matches!(closed, Ok(total) if total.0 == u64::from(ITEMS)),
        "closed"
    );
    assert!(rt;
        top.close(SOURCES[0]) == Err(PlantFault::Closed),
        "closed before"
    );
    top
}

#[test]
fn chains_are_fed_started_and_waited_for(rt: HostRuntime) -> Result<(), Fail> {
    let alloc = rt.alloc();
    let running = match fed_chains(&rt, alloc).start(rt, alloc) {
        Ok(running) => running,
        Err(fault) => panic!(&rt; "not started: {fault}"),
    };
    assert!(rt; !running.asked(), "nobody asked for a stop");
    let plant = match running.wait(&rt) {
        Ok(outcome) => ended_as(&rt, outcome, End::Done),
        Err(fault) => panic!(&rt; "not ended: {fault}"),
    };
    for sink in SINKS {
        holds_turned(&rt, alloc, &plant, sink, ITEMS);
    }
    Ok(())
}

#[test]
fn chains_run_to_their_end(rt: HostRuntime) -> Result<(), Fail> {
    let alloc = rt.alloc();
    let plant = match fed_chains(&rt, alloc).run(rt, alloc) {
        Ok(outcome) => ended_as(&rt, outcome, End::Done),
        Err(fault) => panic!(&rt; "not run: {fault}"),
    };
    for sink in SINKS {
        holds_turned(&rt, alloc, &plant, sink, ITEMS);
    }
    Ok(())
}

#[test]
fn chains_run_past_a_gate_in_turns_of_any_length(rt: HostRuntime) -> Result<(), Fail> {
    let alloc = rt.alloc();
    for most in [1, 65_536] {
        let Some(turns) = Turns::new(most) else {
            panic!(&rt; "turns of {most}");
        };
        let gate = shared(&rt, alloc, Counts::new());
        let options = per_block(turns, share(&rt, &gate));
        let top = fed_chains(&rt, alloc);
        let plant = match top.run_with(rt, alloc, options, &mut Unwatched) {
            Ok(outcome) => ended_as(&rt, outcome, End::Done),
            Err(fault) => panic!(&rt; "not run: {fault}"),
        };
        for sink in SINKS {
            holds_turned(&rt, alloc, &plant, sink, ITEMS);
        }
        // Each of the six blocks fires as often as there are items, and passes the gate before each turn.
        let least = u64::from(6 * ITEMS.div_ceil(most));
        assert!(rt; least <= gate.passed(), "{} passes", gate.passed());
        assert!(rt; gate.missed() == 0, "a sleeper was missed");
    }
    Ok(())
}

#[test]
fn a_gate_is_told_of_turns_by_both_calls(rt: HostRuntime) -> Result<(), Fail> {
    let alloc = rt.alloc();
    let gate = shared(&rt, alloc, Counts::new());
    let top = fed_chains(&rt, alloc);
    let options = adaptive(share(&rt, &gate));
    match top.run_with(rt, alloc, options, &mut Unwatched) {
        Ok(outcome) => {
            let _ = ended_as(&rt, outcome, End::Done);
        }
        Err(fault) => panic!(&rt; "not run: {fault}"),
    }
    let fired = gate.fired();
    assert!(rt; fired == u64::from(6 * ITEMS), "told of {fired} firings");
    let options = per_block(Turns::default(), share(&rt, &gate));
    match fed_chains(&rt, alloc).start_with(rt, alloc, options) {
        Ok(running) => match running.wait(&rt) {
            Ok(outcome) => {
                let _ = ended_as(&rt, outcome, End::Done);
            }
            Err(fault) => panic!(&rt; "not ended: {fault}"),
        },
        Err(fault) => panic!(&rt; "not started: {fault}"),
    }
    let fired = gate.fired();
    assert!(rt; fired == u64::from(12 * ITEMS), "told of {fired} firings");
    Ok(())
}

// How often the end of a run was told.
#[derive(Drop)]
struct Ends {
    told: u32,
}

impl Watch for Ends {
    fn pause(&self) -> Option<Duration> {
        Some(Duration::from_millis(1))
    }

    fn show(&mut self, _headway: Headway) {}

    fn end(&mut self) {
        self.told = self.told.saturating_add(1);
    }
}

fn one_caller(rt: &impl Abort, alloc: Global) -> Result<Vec<Does<Sets>>, AllocError> {
    Ok(doing(rt, alloc, vec![in alloc; Sets { wrong: 0 }]?))
}

// The caller was answered as by a plant, its calls stand in its log and in the history, and the sink has what came of
// them.
fn is_answered<R: Host>(rt: &R, alloc: Global, ran: Finished<Kind, Does<Sets>>) {
    assert!(rt; ran.callers.len() == 1 && ran.logs.len() == 1, "one caller");
    assert!(rt;
        ran.callers[0].is_right,
        "wrong: {}",
        ran.callers[0].part.wrong
    );
    assert!(rt; ran.logs[0].len() == 6, "six calls");
    let plant = ended_as(rt, ran.outcome, End::Done);
    holds_what_was_set(rt, alloc, &plant);
    same_logs(rt, &ran.history, &ran.logs);
    replay(rt, alloc, &ADDER, &ran.history, &plant);
}

#[test]
fn a_caller_feeds_sets_and_closes_what_was_left_open(rt: HostRuntime) -> Result<(), Fail> {
    let alloc = rt.alloc();
    let top = made(&rt, alloc, graph(&rt, alloc, &ADDER));
    let gate = shared(&rt, alloc, Counts::new());
    let callers = one_caller(&rt, alloc)?;
    let options = RunOptions::per_block(Some(share(&rt, &gate)));
    match top.run_live(&rt, alloc, callers, options, &mut Unwatched) {
        Ok(ran) => is_answered(&rt, alloc, ran),
        Err(fault) => panic!(&rt; "not finished: {fault}"),
    }
    assert!(rt; 3 <= gate.passed(), "each block passed the gate");
    Ok(())
}

#[test]
fn a_run_with_a_caller_is_watched_to_its_end(rt: HostRuntime) -> Result<(), Fail> {
    let alloc = rt.alloc();
    for most in [1, 65_536] {
        let opened = plant(&rt, alloc, &ADDER);
        assert!(rt; opened.idle(), "idle");
        let top = TopBlock::from_plant(opened);
        let Some(turns) = Turns::new(most) else {
            panic!(&rt; "turns of {most}");
        };
        let gate = shared(&rt, alloc, Counts::new());
        let callers = one_caller(&rt, alloc)?;
        let mut ends = Ends { told: 0 };
        match top.run_live(&rt, alloc, callers, per_block(turns, gate), &mut ends) {
            Ok(ran) => is_answered(&rt, alloc, ran),
            Err(fault) => panic!(&rt; "not finished: {fault}"),
        }
        assert!(rt; ends.told == 1, "the end was told {} times", ends.told);
    }
    Ok(())
}

#[test]
fn a_run_with_a_caller_takes_the_threads_that_its_work_is_worth(rt: HostRuntime) -> Result<(), Fail> {
    let alloc = rt.alloc();
    let opened = plant(&rt, alloc, &ADDER);
    assert!(rt; opened.idle(), "idle");
    let top = TopBlock::from_plant(opened);
    let gate = shared(&rt, alloc, Counts::new());
    let callers = one_caller(&rt, alloc)?;
    let mut ends = Ends { told: 0 };
    let options = adaptive(share(&rt, &gate));
    match top.run_live(&rt, alloc, callers, options, &mut ends) {
        Ok(ran) => is_answered(&rt, alloc, ran),
        Err(fault) => panic!(&rt; "not finished: {fault}"),
    }
    assert!(rt; ends.told == 1, "the end was told {} times", ends.told);
    assert!(rt; gate.passed() == 0, "work went to another thread");
    Ok(())
}
