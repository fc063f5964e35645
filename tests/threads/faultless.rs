//! Runs with ample memory and threads: none fails or is told as stopped, and each tells its gate of turns, whatever the
//! graph, the call and the length of turns.
use super::drawn::fed;
use super::gates::Counts;
use super::live_runs::{Answered, Does, Part, Seat, doing};
use super::random::drawn_graph;
use super::runs::{End, Host, same_sinks, settled, share, shared, split};
use super::ways::chosen;
use flowgraph::BlockId;
use kinds::Kind;
use plant::{Plant, PlantFault, Unwatched};
use std::alloc::{AllocError, Global};
use std::sync::{Arc, Wait};
use std::test::Fail;
use threads::{
    Gate, Outcome, RunFault, Threading, Turns, launch, launch_with, live, live_with, run, run_with,
};
use top_block::TopBlock;

const GRAPHS: u64 = 30;

const MOST_BLOCKS: u64 = 12;

const LENGTHS: [u32; 3] = [1, 5, 1_024];

/// A call that runs a plant to its end, with the one that waits for that.
#[derive(Clone, Copy, Debug, PartialEq, Eq)]
enum Call {
    Launch,
    LaunchWith(Threading),
    Run,
    RunWith(Threading),
    Live,
    LiveWith(Threading),
    Start,
    StartWith(Threading),
    TopRun,
    TopRunWith(Threading),
    RunLive(Threading),
}

const CALLS: [Call; 17] = [
    Call::Launch,
    Call::LaunchWith(Threading::PerBlock),
    Call::LaunchWith(Threading::Adaptive),
    Call::Run,
    Call::RunWith(Threading::PerBlock),
    Call::RunWith(Threading::Adaptive),
    Call::Live,
    Call::LiveWith(Threading::PerBlock),
    Call::LiveWith(Threading::Adaptive),
    Call::Start,
    Call::StartWith(Threading::PerBlock),
    Call::StartWith(Threading::Adaptive),
    Call::TopRun,
    Call::TopRunWith(Threading::PerBlock),
    Call::TopRunWith(Threading::Adaptive),
    Call::RunLive(Threading::PerBlock),
    Call::RunLive(Threading::Adaptive),
];

// A caller that asks for what is refused.
#[derive(Drop)]
struct Asks;

impl Part for Asks {
    fn make_calls<G: Gate + Drop, R: Wait>(&mut self, seat: &mut Seat<G, R>) -> Answered {
        Ok(seat.close(BlockId(u32::MAX)) == Err(PlantFault::NoSuchBlock))
    }
}

// How a plant ran by a call that takes callers, of whom there is one.
fn ran_live<R: Host + Sync>(
    rt: &R,
    alloc: Global,
    call: Call,
    plant: Plant<Kind>,
    turns: Turns,
    gate: Arc<Counts, Global>,
) -> Result<Outcome<Kind>, RunFault<Kind>> {
    let callers: Vec<Does<Asks>> = match vec![in alloc; Asks] {
        Ok(parts) => doing(rt, alloc, parts),
        Err(_) => return Err(RunFault::Memory(plant)),
    };
    let ended = match call {
        Call::LiveWith(threading) => {
            let options = chosen(threading, turns, gate);
            live_with(rt, alloc, plant, callers, options, &mut Unwatched)?
        }
        Call::RunLive(threading) => {
            let options = chosen(threading, turns, gate);
            let top = TopBlock::from_plant(plant);
            top.run_live(rt, alloc, callers, options, &mut Unwatched)?
        }
        _ => live(rt, alloc, plant, gate, callers, turns)?,
    };
    assert!(rt; ended.callers[0].is_right, "{call:?}: the caller");
    Ok(ended.outcome)
}

// How a plant ran by a call.
fn ran_by_call<R: Host + Sync + 'static>(
    rt: R,
    alloc: Global,
    call: Call,
    plant: Plant<Kind>,
    turns: Turns,
    gate: Arc<Counts, Global>,
) -> Result<Outcome<Kind>, RunFault<Kind>> {
    match call {
        Call::Launch => launch(rt, alloc, plant, gate)?.wait(&rt),
        Call::LaunchWith(threading) => {
            launch_with(rt, alloc, plant, chosen(threading, turns, gate))?.wait(&rt)
        }
        Call::Run => run(rt, alloc, plant, gate),
        Call::RunWith(threading) => {
            let options = chosen(threading, turns, gate);
            run_with(rt, alloc, plant, options, &mut Unwatched)
        }
        Call::Start => TopBlock::from_plant(plant).start(rt, alloc)?.wait(&rt),
        Call::StartWith(threading) => {
            let options = chosen(threading, turns, gate);
            TopBlock::from_plant(plant).start_with(rt, alloc, options)?.wait(&rt)
        }
        Call::TopRun => TopBlock::from_plant(plant).run(rt, alloc),
        Call::TopRunWith(threading) => {
            let options = chosen(threading, turns, gate);
            TopBlock::from_plant(plant).run_with(rt, alloc, options, &mut Unwatched)
        }
        _ => ran_live(&rt, alloc, call, plant, turns, gate),
    }
}

// Whether a call takes a gate.
fn has_gate(call: Call) -> bool {
    !matches!(call, Call::Start | Call::TopRun)
}

// One graph, by each call.
fn runs_without_a_fault<R: Host + Sync + 'static>(
    rt: R,
    alloc: Global,
    seed: u64,
    turns: Turns,
) -> Result<(), AllocError> {
    let graph = drawn_graph(alloc, seed, MOST_BLOCKS)?;
    let drawing = graph.drawing();
    let settled = settled(&rt, alloc, &drawing);
    let wanted = if settled.all_done() { End::Done } else { End::Stalled };
    let has_moved = 0 < settled.headway().given;
    for call in CALLS {
        let what = format!(in alloc; "graph {seed}, turns of {}, {call:?}", turns.most())?;
        let gate = shared(&rt, alloc, Counts::new());
        let plant = fed(&rt, alloc, &drawing);
        match ran_by_call(rt, alloc, call, plant, turns, share(&rt, &gate)) {
            Ok(outcome) => {
                let (end, plant) = split(&rt, outcome);
                assert!(&rt; end == wanted, "{what}: {end:?}");
                same_sinks(&rt, alloc, &drawing, &plant, &settled, &what);
            }
            Err(fault) => panic!(&rt; "{what}: {fault}"),
        }
        assert!(&rt;
            (0 < gate.fired()) == (has_moved && has_gate(call)),
            "{what}: the gate was told of {} firings",
            gate.fired()
        );
    }
    Ok(())
}

#[test]
fn no_run_fails_where_memory_and_threads_are_ample(rt: HostRuntime) -> Result<(), Fail> {
    let alloc = rt.alloc();
    for seed in 0..GRAPHS {
        for most in LENGTHS {
            match Turns::new(most) {
                Some(turns) => runs_without_a_fault(rt, alloc, 5_000 + seed, turns)?,
                None => panic!(rt; "no turns of {most}"),
            }
        }
    }
    Ok(())
}
