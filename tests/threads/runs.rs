//! Runs in threads and on one, and what their sinks show.
use super::drawn::{Drawing, Make, fed, tape_item};
use super::gates::Counts;
use super::ways::per_block;
use block_trait::Block;
use flowgraph::BlockId;
use kinds::Kind;
use plant::{Piece, Plant, Unwatched};
use std::alloc::Global;
use std::process::Abort;
use std::sync::{Arc, Wait};
use std::thread::Threads;
use std::time::Clock;
use threads::{Gate, Outcome, Running, Turns, launch, run_with};

// More items than any sink of the tests holds.
pub const ALL: u64 = 1_000_000;
// How many firings a step is of where that does not matter.
const STEP: u32 = 1_024;

/// How a run came to its end, without the plant.
#[derive(Clone, Copy, Debug, PartialEq, Eq)]
pub enum End {
    Done,
    Stopped,
    Stalled,
}

/// The end of a run, and the plant, which has no claim in flight.
pub fn split<B: Block>(rt: &impl Abort, outcome: Outcome<B>) -> (End, Plant<B>) {
    let (end, plant) = match outcome {
        Outcome::Done(plant) => (End::Done, plant),
        Outcome::Stopped(plant) => (End::Stopped, plant),
        Outcome::Stalled(plant) => (End::Stalled, plant),
    };
    assert!(rt; plant.idle(), "no claim is in flight");
    assert!(rt;
        plant.all_done() == (end == End::Done),
        "done where it says so"
    );
    assert!(rt;
        end != End::Stalled || plant.quiet(),
        "quiet where it stalled"
    );
    (end, plant)
}

/// The plant of a run that ended as is wanted.
pub fn ended_as<B: Block>(rt: &impl Abort, outcome: Outcome<B>, wanted: End) -> Plant<B> {
    let (end, plant) = split(rt, outcome);
    assert!(rt; end == wanted, "{end:?}");
    plant
}

/// What threads share, as a gate.
pub fn shared<T: Drop>(rt: &impl Abort, alloc: Global, value: T) -> Arc<T, Global> {
    match Arc::new(alloc, value) {
        Ok(value) => value,
        Err(_) => panic!(rt; "no memory"),
    }
}

/// Another share of it.
pub fn share<T>(rt: &impl Abort, shared: &Arc<T, Global>) -> Arc<T, Global> {
    match Arc::try_clone(shared) {
        Ok(share) => share,
        Err(_) => panic!(rt; "no share"),
    }
}

/// What a test that starts threads is handed.
pub trait Host: Abort + Threads + Wait + Clock + Copy + Send {}

impl<R: Abort + Threads + Wait + Clock + Copy + Send> Host for R {}

/// Launches a plant.
pub fn launched<
    B: Block + Send + Sync + 'static,
    G: Gate + Drop + Send + Sync + 'static,
    R: Host + 'static,
>(rt: R, alloc: Global, plant: Plant<B>, gate: &Arc<G, Global>) -> Running<B, G>
where
    B::Places: Send + Sync + 'static,
{
    match launch(rt, alloc, plant, share(&rt, gate)) {
        Ok(running) => running,
        Err(fault) => panic!(&rt; "not launched: {fault}"),
    }
}

/// How a run ended.
pub fn ended<B: Block, G: Gate + Drop, R: Host>(rt: &R, running: Running<B, G>) -> (End, Plant<B>) {
    match running.wait(rt) {
        Ok(outcome) => split(rt, outcome),
        Err(fault) => panic!(rt; "not ended: {fault}"),
    }
}

/// Runs a plant with turns of this length. No sleeper is missed.
pub fn ran_with<B: Block + Send + Sync + 'static, R: Host + 'static>(
    rt: R,
    alloc: Global,
    plant: Plant<B>,
    turns: Turns,
) -> (End, Plant<B>)
where
    B::Places: Send + Sync + 'static,
{
    let gate = shared(&rt, alloc, Counts::new());
    let options = per_block(turns, share(&rt, &gate));
    match run_with(rt, alloc, plant, options, &mut Unwatched) {
        Ok(outcome) => {
            assert!(&rt;
                gate.missed() == 0,
                "{} sleepers were missed",
                gate.missed()
            );
            split(&rt, outcome)
        }
        Err(fault) => panic!(&rt; "not run: {fault}"),
    }
}

/// Runs a plant. No sleeper is missed.
pub fn ran<B: Block + Send + Sync + 'static, R: Host + 'static>(
    rt: R,
    alloc: Global,
    plant: Plant<B>,
) -> (End, Plant<B>)
where
    B::Places: Send + Sync + 'static,
{
    ran_with(rt, alloc, plant, Turns::default())
}

/// The plant of a run that ends as is wanted.
pub fn ran_to<B: Block + Send + Sync + 'static, R: Host + 'static>(
    rt: R,
    alloc: Global,
    plant: Plant<B>,
    wanted: End,
    what: &str,
) -> Plant<B>
where
    B::Places: Send + Sync + 'static,
{
    let (end, plant) = ran(rt, alloc, plant);
    assert!(&rt; end == wanted, "{what}: {end:?}");
    plant
}

/// Settles a plant on one thread.
pub fn settle(rt: &impl Abort, alloc: Global, plant: &mut Plant<Kind>) {
    assert!(rt;
        plant.idle() && plant.settle(alloc, STEP).is_ok(),
        "settled"
    );
}

/// The plant of a drawing after it has settled on one thread.
pub fn settled(rt: &impl Abort, alloc: Global, drawing: &Drawing<'_>) -> Plant<Kind> {
    let mut plant = fed(rt, alloc, drawing);
    settle(rt, alloc, &mut plant);
    plant
}

/// What a sink shows.
pub fn piece<B: Block>(rt: &impl Abort, alloc: Global, plant: &Plant<B>, sink: BlockId) -> Piece {
    match plant.read(alloc, sink, 0, ALL) {
        Ok(piece) => piece,
        Err(_) => panic!(rt; "sink {} is not read", sink.0),
    }
}

/// Asserts that the sinks of a drawing show the same in both plants: items, tags, and whether that is all.
pub fn same_sinks(
    rt: &impl Abort,
    alloc: Global,
    drawing: &Drawing<'_>,
    one: &Plant<Kind>,
    other: &Plant<Kind>,
    what: &str,
) {
    for (block, make) in (0..u32::MAX).zip(drawing.makes) {
        if let Make::Sink = *make {
            let one = piece(rt, alloc, one, BlockId(block));
            let other = piece(rt, alloc, other, BlockId(block));
            assert!(rt;
                one.items == other.items,
                "{what}: the items of sink {block}"
            );
            assert!(rt;
                one.tags.as_slice() == other.tags.as_slice(),
                "{what}: the tags of sink {block}"
            );
            assert!(rt;
                one.done == other.done && one.held == other.held,
                "{what}: the end of sink {block}"
            );
        }
    }
}

/// Asserts that a sink holds the tape of so many items with their bits turned, and nothing else.
pub fn holds_turned<B: Block>(
    rt: &impl Abort,
    alloc: Global,
    plant: &Plant<B>,
    sink: BlockId,
    count: u32,
) {
    let piece = piece(rt, alloc, plant, sink);
    assert!(rt;
        piece.done && piece.held == u64::from(count),
        "sink {} has {} items",
        sink.0,
        piece.held
    );
    for n in 0..count {
        let wanted = 255 - tape_item(n);
        let number = piece.items.number(n as usize);
        assert!(rt; number == wanted, "item {n} of sink {} is {number}", sink.0);
    }
}
