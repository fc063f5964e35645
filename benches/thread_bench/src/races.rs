//! A graph that runs to its end with a thread for each block, on one thread, and in as many as the work is worth, and
//! plain loops over slices that do the same work: how long each takes.

ghost use Rattle.std.specs.Prelude.{◌≤◌};

use crate::feeds::Fault;
use crate::filters::{TAPS, filter};
use crate::graphs::{Shape, Work, fed_plant, fed_stream};
use crate::plain::{Item, add_one, counted};
use flowgraph::BlockId;
use helper_threads::HelperThreads;
use items::ItemType;
use kinds::Kind;
use plant::{Claim, Plant, Settled, Unwatched};
use std::alloc::Global;
use std::io;
use std::sync::{Arc, Wait};
use std::thread::Threads;
use std::time::{Clock, CpuClock, Instant};
use threads::{Caller, Desk, Gate, Open, Outcome, RunOptions, Threading, Turns, live, run_with};

// On one thread a block fires as often as items and room let it.
const MOST_FIRINGS: u32 = u32::MAX;

/// How long a run takes, in nanoseconds: by the clock, and of the processors.
#[derive(Clone, Copy)]
pub struct Span {
    pub elapsed: u128,
    pub processor: u128,
}

impl Span {
    /// Longer than any run.
    pub const LONGEST: Span = Span {
        elapsed: u128::MAX,
        processor: u128::MAX,
    };

    // The one that took less by the clock.
    fn or_shorter(self, other: Span) -> Span {
        if other.elapsed < self.elapsed {
            other
        } else {
            self
        }
    }
}

/// How long a shape takes in plain loops, on one thread, with a thread for each block, in as many as the work is worth,
/// and as a plant that streams, of one thread with helpers, how long a turn holds the lock in the mean, how long it
/// takes in threads whose claims and commits are noted in a history, and how many entries that has.
#[derive(Clone, Copy)]
pub struct Times {
    pub plain: u128,
    pub settled: u128,
    pub threads: Span,
    pub adaptive: Span,
    pub helped: Span,
    pub hold: u128,
    pub live: u128,
    pub entries: usize,
}

/// What a race is handed.
pub trait Host: Threads + Wait + Clock + CpuClock + Copy + Send + Sync {}

impl<R: Threads + Wait + Clock + CpuClock + Copy + Send + Sync> Host for R {}

/// The least times of so many runs.
pub fn race<R: Host + 'static>(rt: R, alloc: Global, shape: Shape, runs: u32) -> io::Result<Times> {
    let mut times = Times {
        plain: u128::MAX,
        settled: u128::MAX,
        threads: Span::LONGEST,
        adaptive: Span::LONGEST,
        helped: Span::LONGEST,
        hold: u128::MAX,
        live: u128::MAX,
        entries: 0,
    };
    for _ in 0..runs {
        let (live, entries) = live_time(&rt, alloc, shape)?;
        times = Times {
            plain: times.plain.min(plain_time(&rt, alloc, shape)?),
            settled: times.settled.min(settled_time(&rt, alloc, shape)?),
            threads: times
                .threads
                .or_shorter(ungated_span(rt, alloc, shape, Threading::PerBlock)?),
            adaptive: times
                .adaptive
                .or_shorter(ungated_span(rt, alloc, shape, Threading::Adaptive)?),
            helped: times.helped.or_shorter(helped_span(rt, alloc, shape)?),
            hold: times.hold.min(hold_time(&rt, alloc, shape)?),
            live: times.live.min(live),
            entries,
        };
    }
    Ok(times)
}

// How long a run takes that has no gate, and knows of none.
fn ungated_span<R: Host + 'static>(
    rt: R,
    alloc: Global,
    shape: Shape,
    threading: Threading,
) -> io::Result<Span> {
    let plant = fed_plant(alloc, shape)?.plant;
    run_span::<Open, R>(rt, alloc, shape, plant, threading, None)
}

/// How long a run of this plant takes, whose shape this is.
pub fn run_span<G: Gate + Drop + Send + Sync + 'static, R: Host + 'static>(
    rt: R,
    alloc: Global,
    shape: Shape,
    plant: Plant<Kind>,
    threading: Threading,
    gate: Option<Arc<G, Global>>,
) -> io::Result<Span> {
    let Some(turns) = Turns::new(shape.turns) else {
        return Err(io::Error::from(Fault::Run));
    };
    if !plant.idle() {
        return Err(io::Error::from(Fault::Run));
    }
    let options = RunOptions {
        threading,
        turns,
        gate,
    };
    let start = Instant::now(&rt)?;
    let used = rt.process_cpu_time()?;
    let ended = run_with(rt, alloc, plant, options, &mut Unwatched);
    let elapsed = start.elapsed(&rt)?.as_nanos();
    let processor = rt.process_cpu_time()?.saturating_sub(used).as_nanos();
    // (The plant is let go of once the clock was read, as that of `settle` is.)
    match ended {
        Ok(Outcome::Done(_)) => Ok(Span { elapsed, processor }),
        _ => Err(io::Error::from(Fault::Run)),
    }
}

// How long a plant that streams takes, in rounds of one thread which helpers help, and the threads their start and
// their end.
fn helped_span<R: Host + 'static>(rt: R, alloc: Global, shape: Shape) -> io::Result<Span> {
    let mut plant = fed_stream(alloc, shape)?;
    let start = Instant::now(&rt)?;
    let used = rt.process_cpu_time()?;
    let mut helpers = HelperThreads::start(rt, alloc, plant.graph())?;
    for _ in rt.forever() {
        if !plant.round_with(alloc, MOST_FIRINGS, &mut helpers)? {
            break;
        }
    }
    helpers.finish();
    let elapsed = start.elapsed(&rt)?.as_nanos();
    let processor = rt.process_cpu_time()?.saturating_sub(used).as_nanos();
    match plant.settle(alloc, MOST_FIRINGS)? {
        Settled::Done => Ok(Span { elapsed, processor }),
        Settled::Quiet => Err(io::Error::from(Fault::Run)),
    }
}

// Nobody makes calls.
#[derive(Drop)]
struct Nobody;

impl Caller<Kind> for Nobody {
    fn run<G: Gate + Drop, R: Wait>(&mut self, _rt: &R, _alloc: Global, _desk: &mut Desk<Kind, G>) {
    }
}

// How long a run takes whose calls are noted, and how many there are.
fn live_time<R: Host>(rt: &R, alloc: Global, shape: Shape) -> io::Result<(u128, usize)> {
    let plant = fed_plant(alloc, shape)?.plant;
    let (Some(turns), Ok(gate)) = (Turns::new(shape.turns), Arc::new(alloc, Open)) else {
        return Err(io::Error::from(Fault::Run));
    };
    if !plant.idle() {
        return Err(io::Error::from(Fault::Run));
    }
    let callers: Vec<Nobody> = Vec::new(alloc);
    let start = Instant::now(rt)?;
    let Ok(finished) = live(rt, alloc, plant, gate, callers, turns) else {
        return Err(io::Error::from(Fault::Run));
    };
    let time = start.elapsed(rt)?.as_nanos();
    Ok((time, finished.history.len()))
}

fn settled_time<R: Host>(rt: &R, alloc: Global, shape: Shape) -> io::Result<u128> {
    let mut plant = fed_plant(alloc, shape)?.plant;
    if !plant.idle() {
        return Err(io::Error::from(Fault::Run));
    }
    let start = Instant::now(rt)?;
    let settled = plant.settle(alloc, MOST_FIRINGS)?;
    let time = start.elapsed(rt)?.as_nanos();
    match settled {
        Settled::Done => Ok(time),
        Settled::Quiet => Err(io::Error::from(Fault::Run)),
    }
}

// What is done under the lock: claims and commits. Nobody else waits for it here.
#[derive(Drop)]
struct Held {
    nanos: u128,
    turns: u128,
}

// How long a turn holds the lock in the mean: its claim and its commit are timed apart from the work, by turns on one
// thread.
fn hold_time<R: Host>(rt: &R, alloc: Global, shape: Shape) -> io::Result<u128> {
    let mut plant = fed_plant(alloc, shape)?.plant;
    let half = shape.capacity / 2 / shape.multiple.max(1);
    let most = shape.turns.min(half).max(1);
    let mut held = Held { nanos: 0, turns: 0 };
    for _ in rt.forever() {
        let before = held.turns;
        for block in (0..u32::MAX).take(plant.graph().len()) {
            turn(rt, alloc, &mut plant, BlockId(block), most, &mut held)?;
        }
        if held.turns == before {
            break;
        }
    }
    Ok(held.nanos / held.turns.max(1))
}

// A turn of a block, where it can act.
fn turn<R: Host>(
    rt: &R,
    alloc: Global,
    plant: &mut Plant<Kind>,
    block: BlockId,
    most: u32,
    held: &mut Held,
) -> io::Result<()>
    requires { 1 ≤ most }
{
    let start = Instant::now(rt)?;
    let claim = plant.claim(alloc, block, most);
    let claimed = start.elapsed(rt)?.as_nanos();
    let job = match claim {
        Ok(Claim::Claimed(job)) => job,
        Ok(_) => return Ok(()),
        Err(fault) => return Err(io::Error::from(Fault::Plant(fault))),
    };
    let worked = job.work();
    let start = Instant::now(rt)?;
    let is_taken = plant.commit(worked).is_ok();
    let committed = start.elapsed(rt)?.as_nanos();
    if !is_taken {
        return Err(io::Error::from(Fault::Run));
    }
    held.nanos = held.nanos.saturating_add(claimed).saturating_add(committed);
    held.turns = held.turns.saturating_add(1);
    Ok(())
}

// A loop for each block that works, over all items at once, and nothing for sources and sinks.
fn plain_time<R: Host>(rt: &R, alloc: Global, shape: Shape) -> io::Result<u128> {
    let loops = shape.blocks.saturating_mul(shape.chains);
    match (shape.work, shape.item) {
        (Work::Filter, _) => filter_time(rt, alloc, loops, shape.items),
        (Work::Add, ItemType::Byte) => adder_time::<u8, R>(rt, alloc, loops, shape.items),
        (Work::Add, ItemType::Short) => adder_time::<i16, R>(rt, alloc, loops, shape.items),
        (Work::Add, ItemType::Int) => adder_time::<i32, R>(rt, alloc, loops, shape.items),
    }
}

fn adder_time<T: Item, R: Host>(
    rt: &R,
    alloc: Global,
    loops: u32,
    count: usize,
) -> io::Result<u128> {
    let items = counted::<T>(alloc, count)?;
    let mut out = counted::<T>(alloc, count)?;
    let start = Instant::now(rt)?;
    for _ in 0..loops {
        add_one(&items, &mut out);
    }
    Ok(start.elapsed(rt)?.as_nanos())
}

fn filter_time<R: Host>(rt: &R, alloc: Global, loops: u32, count: usize) -> io::Result<u128> {
    let items = counted::<i16>(alloc, count)?;
    let taps = Vec::from_elem(alloc, 1_i16, TAPS)?;
    let mut out = counted::<i32>(alloc, count)?;
    let start = Instant::now(rt)?;
    for _ in 0..loops {
        filter(&items, &taps, &mut out);
    }
    Ok(start.elapsed(rt)?.as_nanos())
}
