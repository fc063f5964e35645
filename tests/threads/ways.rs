//! The ways in which a plant runs in threads, for tests that hold of each.
use super::drawn::Drawing;
use super::gates::Counts;
use super::runs::{End, Host, share, shared, split};
use block_trait::Block;
use plant::{Plant, Unwatched};
use std::alloc::Global;
use std::io;
use std::process::Abort;
use std::sync::{Arc, Wait};
use std::thread::Threads;
use std::time::{Clock, Duration};
use threads::{
    Gate, Outcome, RunFault, RunOptions, Threading, Turns, launch_with, run_with,
};

/// A way.
#[derive(Clone, Copy, Debug, PartialEq, Eq)]
pub enum Way {
    /// A thread for each block.
    EachBlock,
    /// As many threads as the work is worth.
    Adaptive,
    /// The same by a clock that makes a block seem dear now and then, so that a pool of threads runs the plant, and
    /// blocks go in and out of the lock.
    Erratic,
    /// The same from the start in a pool.
    ErraticPool,
}

/// All of them.
pub const WAYS: [Way; 4] = [
    Way::EachBlock,
    Way::Adaptive,
    Way::Erratic,
    Way::ErraticPool,
];

/// Such threads, turns and a gate.
pub fn chosen<G: Gate + Drop>(
    threading: Threading,
    turns: Turns,
    gate: Arc<G, Global>,
) -> RunOptions<G> {
    RunOptions {
        threading,
        turns,
        gate: Some(gate),
    }
}

/// As many threads as the work is worth, turns of usual length, and a gate.
pub fn adaptive<G: Gate + Drop>(gate: Arc<G, Global>) -> RunOptions<G> {
    chosen(Threading::Adaptive, Turns::default(), gate)
}

/// A thread for each block, such turns, and a gate.
pub fn per_block<G: Gate + Drop>(turns: Turns, gate: Arc<G, Global>) -> RunOptions<G> {
    chosen(Threading::PerBlock, turns, gate)
}

/// Runs a plant in a way.
pub fn run_in_way<
    B: Block + Send + Sync + 'static,
    G: Gate + Drop + Send + Sync + 'static,
    R: Host + 'static,
>(
    rt: R,
    alloc: Global,
    way: Way,
    plant: Plant<B>,
    turns: Turns,
    gate: Arc<G, Global>,
) -> Result<Outcome<B>, RunFault<B>>
where
    B::Places: Send + Sync + 'static,
{
    let erratic = WithClock {
        rt,
        clock: ByChance,
    };
    match way {
        Way::EachBlock => run_with(rt, alloc, plant, per_block(turns, gate), &mut Unwatched),
        Way::Adaptive => {
            let options = chosen(Threading::Adaptive, turns, gate);
            run_with(rt, alloc, plant, options, &mut Unwatched)
        }
        Way::Erratic => {
            let options = chosen(Threading::Adaptive, turns, gate);
            run_with(erratic, alloc, plant, options, &mut Unwatched)
        }
        Way::ErraticPool => {
            let options = chosen(Threading::Adaptive, turns, gate);
            match launch_with(erratic, alloc, plant, options) {
                Ok(running) => running.wait(&rt),
                Err(fault) => Err(fault),
            }
        }
    }
}

/// A runtime with a clock of its own.
#[derive(Clone, Copy)]
pub struct WithClock<R, C> {
    pub rt: R,
    pub clock: C,
}

impl<R: Threads, C> Threads for WithClock<R, C> {}

impl<R: Wait, C> Wait for WithClock<R, C> {}

/// What a clock shows where the runtime's shows so many nanoseconds.
pub trait Shows: Copy + Send {
    fn shows(&self, nanos: u64) -> u64;
}

impl<R: Clock, C: Shows> Clock for WithClock<R, C> {
    fn monotonic(&self) -> io::Result<Duration> {
        let time = self.rt.monotonic()?;
        Ok(Duration::from_nanos(
            self.clock.shows(time.as_nanos() as u64),
        ))
    }

    fn since_1970(&self) -> io::Result<Duration> {
        self.rt.since_1970()
    }
}

/// Each time that it shows is off by up to some hundred microseconds, as by chance (Knuth's constants).
#[derive(Clone, Copy)]
pub struct ByChance;

impl Shows for ByChance {
    fn shows(&self, nanos: u64) -> u64 {
        let drawn = nanos
            .wrapping_mul(6_364_136_223_846_793_005)
            .wrapping_add(1_442_695_040_888_963_407);
        nanos.wrapping_add(drawn >> 47)
    }
}

/// It stands still.
#[derive(Clone, Copy)]
pub struct Still;

impl Shows for Still {
    fn shows(&self, _nanos: u64) -> u64 {
        1
    }
}

/// Runs a plant in a way. No sleeper is missed.
pub fn ran_by<B: Block + Send + Sync + 'static, R: Host + 'static>(
    rt: R,
    alloc: Global,
    way: Way,
    plant: Plant<B>,
    turns: Turns,
) -> (End, Plant<B>)
where
    B::Places: Send + Sync + 'static,
{
    let gate = shared(&rt, alloc, Counts::new());
    match run_in_way(rt, alloc, way, plant, turns, share(&rt, &gate)) {
        Ok(outcome) => {
            assert!(&rt;
                gate.missed() == 0,
                "{way:?}: {} sleepers were missed",
                gate.missed()
            );
            split(&rt, outcome)
        }
        Err(fault) => panic!(&rt; "{way:?}: not run: {fault}"),
    }
}

/// The plant of a run that ends as is wanted.
pub fn ran_by_to<B: Block + Send + Sync + 'static, R: Host + 'static>(
    rt: R,
    alloc: Global,
    way: Way,
    plant: Plant<B>,
    wanted: End,
    what: &str,
) -> Plant<B>
where
    B::Places: Send + Sync + 'static,
{
    let (end, plant) = ran_by(rt, alloc, way, plant, Turns::default());
    assert!(&rt; end == wanted, "{way:?}, {what}: {end:?}");
    plant
}
