//! Stops: asked for once or twice, before, in the midst of, and behind a run.
use super::drawn::{Drawing, EMPTY, SINK, TURNED, TWO_TURNED, fed};
use super::gates::{Counts, Holds};
use super::runs::{End, Host, ended, holds_turned, launched, piece, ran, ran_to, shared};
use flowgraph::BlockId;
use kinds::Kind;
use plant::{Claim, Plant};
use std::alloc::Global;
use std::process::Abort;
use std::test::Fail;
use std::thread;

const ITEMS: u32 = 3_000;

const CHAIN: Drawing<'static> = Drawing {
    capacity: 64,
    items: ITEMS,
    ..TURNED
};

// The same with few items, so that it ends within some 30 claims.
const SHORT: Drawing<'static> = Drawing {
    items: 300,
    ..CHAIN
};

const TWO_CHAINS: Drawing<'static> = Drawing {
    capacity: 64,
    items: ITEMS,
    ..TWO_TURNED
};

// So often another thread is let go first before a stop is asked for in any case.
const MOST_YIELDS: u32 = 10_000;

const NOT: BlockId = BlockId(1);

// The first of the firings that a sink may claim, and how many they are: so many items have come to it. The claim is
// given up again.
fn claimable(rt: &impl Abort, alloc: Global, plant: &mut Plant<Kind>, sink: BlockId) -> (u64, u32) {
    match plant.claim(alloc, sink, ITEMS) {
        Ok(Claim::Claimed(job)) => {
            let firings = (job.first(), job.count());
            assert!(rt; plant.abandon(job).is_ok(), "given up");
            firings
        }
        _ => panic!(rt; "nothing has come to sink {}", sink.0),
    }
}

// The plant of a run that is stopped, so many times, while these blocks are held in their first work.
fn stopped_while_held<R: Host + 'static>(
    rt: R,
    alloc: Global,
    drawing: &Drawing<'_>,
    held: &[u32],
    times: u32,
) -> Plant<Kind> {
    let gate = shared(&rt, alloc, Holds::new(held));
    let mut running = launched(rt, alloc, fed(&rt, alloc, drawing), &gate);
    assert!(&rt; gate.wait_for_all(), "a block does not come to the gate");
    assert!(&rt; !running.asked(), "not asked yet");
    for _ in 0..times {
        running.stop(&rt);
        assert!(&rt; running.asked(), "asked");
    }
    gate.open.raise();
    let (end, plant) = ended(&rt, running);
    assert!(&rt;
        gate.was_kept(),
        "the gate gave up, or a sleeper was missed"
    );
    assert!(&rt; end == End::Stopped, "{end:?}");
    plant
}

#[test]
fn a_stop_lets_the_work_in_hand_be_committed(rt: HostRuntime) -> Result<(), Fail> {
    let alloc = rt.alloc();
    let mut plant = stopped_while_held(rt, alloc, &CHAIN, &[NOT.0], 1);
    // What was in hand is on its output, and the sink claims no more. The source gave that, and no more than its buffer
    // holds while it is in hand.
    assert!(rt;
        piece(&rt, alloc, &plant, SINK).held == 0,
        "nothing was taken"
    );
    let (first, committed) = claimable(&rt, alloc, &mut plant, SINK);
    let given = plant.headway().given;
    assert!(rt; first == 0 && 1 <= committed, "committed: {committed}");
    assert!(rt;
        u64::from(committed) <= given && given <= 64,
        "{committed} of {given}"
    );
    let plant = ran_to(rt, alloc, plant, End::Done, "again");
    holds_turned(&rt, alloc, &plant, SINK, ITEMS);
    Ok(())
}

#[test]
fn a_second_stop_changes_nothing(rt: HostRuntime) -> Result<(), Fail> {
    let alloc = rt.alloc();
    let mut plant = stopped_while_held(rt, alloc, &TWO_CHAINS, &[2, 3], 2);
    for sink in [4, 5] {
        let (first, committed) = claimable(&rt, alloc, &mut plant, BlockId(sink));
        assert!(rt;
            first == 0 && 1 <= committed,
            "sink {sink}: {committed} from {first} on"
        );
    }
    let plant = ran_to(rt, alloc, plant, End::Done, "again");
    for sink in [4, 5] {
        holds_turned(&rt, alloc, &plant, BlockId(sink), ITEMS);
    }
    Ok(())
}

// Lets other threads go first until workers have passed so often, for a bounded number of turns.
fn let_pass(gate: &Counts, passes: u64) {
    for _ in 0..MOST_YIELDS {
        if passes <= gate.passed() {
            return;
        }
        thread::yield_now();
    }
}

#[test]
fn a_stop_at_any_moment_loses_nothing(rt: HostRuntime) -> Result<(), Fail> {
    let alloc = rt.alloc();
    for number in 0..30 {
        let gate = shared(&rt, alloc, Counts::new());
        let mut running = launched(rt, alloc, fed(&rt, alloc, &SHORT), &gate);
        // (the first is stopped as it begins, and each next one when one claim more was made)
        let_pass(&gate, number);
        running.stop(&rt);
        let (end, plant) = ended(&rt, running);
        assert!(rt; end != End::Stalled, "run {number}: {end:?}");
        assert!(rt; gate.missed() == 0, "run {number}: a sleeper was missed");
        let (end, plant) = ran(rt, alloc, plant);
        assert!(rt; end == End::Done, "run {number} again: {end:?}");
        holds_turned(&rt, alloc, &plant, SINK, SHORT.items);
    }
    Ok(())
}

#[test]
fn many_stops_in_a_row_come_to_the_end(rt: HostRuntime) -> Result<(), Fail> {
    let alloc = rt.alloc();
    let mut plant = fed(&rt, alloc, &CHAIN);
    for number in 0..10_000 {
        let gate = shared(&rt, alloc, Counts::new());
        let mut running = launched(rt, alloc, plant, &gate);
        let_pass(&gate, 9);
        running.stop(&rt);
        let (end, back) = ended(&rt, running);
        assert!(rt; end != End::Stalled, "run {number}: {end:?}");
        plant = back;
        if end == End::Done {
            holds_turned(&rt, alloc, &plant, SINK, ITEMS);
            return Ok(());
        }
    }
    panic!(rt; "not done");
}

#[test]
fn what_was_done_before_the_stop_is_done(rt: HostRuntime) -> Result<(), Fail> {
    let alloc = rt.alloc();
    let whole = ran_to(rt, alloc, fed(&rt, alloc, &CHAIN), End::Done, "whole");
    for (what, plant) in [("no block", fed(&rt, alloc, &EMPTY)), ("all done", whole)] {
        let gate = shared(&rt, alloc, Counts::new());
        let mut running = launched(rt, alloc, plant, &gate);
        running.stop(&rt);
        assert!(rt; running.asked(), "{what}: asked");
        let (end, _) = ended(&rt, running);
        assert!(rt; end == End::Done, "{what}: {end:?}");
        assert!(rt;
            gate.passed() == 0 && gate.missed() == 0,
            "{what}: nothing is claimed"
        );
    }
    Ok(())
}
