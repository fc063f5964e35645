//! Runs in as many threads as their work is worth, of what no contract says: that cheap work stays on one thread, that
//! dear work is done side by side, that blocks change sides, and that a stop is seen.
use super::drawn::{Drawing, Make, SINK, TURNED, TWO_TURNED, fed, feed, kind, opened};
use super::gates::Counts;
use super::helpers::alone;
use super::probes::{Habit, Probe, Spinner};
use super::runs::{End, Host, ended, ended_as, holds_turned, same_sinks, settled, share, shared};
use super::ways::{ByChance, Still, Way, WithClock, adaptive, ran_by_to};
use flowgraph::BlockId;
use plant::{Plant, Unwatched};
use std::alloc::Global;
use std::hint::spin_loop;
use std::process::Abort;
use std::sync::Arc;
use std::sync::atomic::{AtomicU64, Ordering};
use std::test::Fail;
use std::thread;
use std::time::{Duration, Instant};
use threads::{Gate, launch_with, run_with};

const ITEMS: u32 = 3_000;

// More than a run gives before it is stopped.
const MANY: u32 = 20_000;

// So often a run is made again until what depends on the machine comes about.
const RUNS: u32 = 100;

/// A source, a block that turns bits, and a sink, with more items than a buffer holds.
pub const CHAIN: Drawing<'static> = Drawing {
    capacity: 64,
    items: ITEMS,
    ..TURNED
};

const TWO_CHAINS: Drawing<'static> = Drawing {
    capacity: 64,
    items: ITEMS,
    ..TWO_TURNED
};

const SINKS: [BlockId; 2] = [BlockId(4), BlockId(5)];

#[test]
fn work_that_takes_no_time_stays_on_one_thread(rt: HostRuntime) -> Result<(), Fail> {
    let alloc = rt.alloc();
    let still = WithClock { rt, clock: Still };
    let gate = shared(&rt, alloc, Counts::new());
    let plant = fed(&rt, alloc, &CHAIN);
    let options = adaptive(share(&rt, &gate));
    match run_with(still, alloc, plant, options, &mut Unwatched) {
        Ok(outcome) => {
            let plant = ended_as(&rt, outcome, End::Done);
            holds_turned(&rt, alloc, &plant, SINK, ITEMS);
        }
        Err(fault) => panic!(rt; "not run: {fault}"),
    }
    // No work was given away, nor is any in a pool.
    let plant = fed(&rt, alloc, &CHAIN);
    match launch_with(still, alloc, plant, adaptive(share(&rt, &gate))) {
        Ok(running) => {
            let (end, plant) = ended(&rt, running);
            assert!(rt; end == End::Done, "{end:?}");
            holds_turned(&rt, alloc, &plant, SINK, ITEMS);
        }
        Err(fault) => panic!(rt; "not launched: {fault}"),
    }
    assert!(rt;
        gate.passed() == 0 && gate.missed() == 0,
        "{} pieces of work were given away",
        gate.passed()
    );
    Ok(())
}

// The gate at which work waits a while for other work beside it, and that notes whether there was any.
#[derive(Drop)]
struct Beside {
    inside: AtomicU64,
    met: AtomicU64,
    passed: AtomicU64,
}

impl Beside {
    fn new() -> Beside {
        Beside {
            inside: AtomicU64::new(0),
            met: AtomicU64::new(0),
            passed: AtomicU64::new(0),
        }
    }
}

impl Gate for Beside {
    fn pass(&self, _block: BlockId, _firing: u64) {
        self.passed.fetch_add(1, Ordering::SeqCst);
        self.inside.fetch_add(1, Ordering::SeqCst);
        for _ in 0..1_000 {
            if 2 <= self.inside.load(Ordering::SeqCst) {
                self.met.fetch_add(1, Ordering::SeqCst);
                break;
            }
            thread::yield_now();
        }
        self.inside.fetch_sub(1, Ordering::SeqCst);
    }
}

#[test]
fn dear_work_is_done_side_by_side(rt: HostRuntime) -> Result<(), Fail> {
    let alloc = rt.alloc();
    let gate = shared(&rt, alloc, Beside::new());
    for _ in 0..RUNS {
        let plant = dear_chains(&rt, alloc, [0, u64::MAX]);
        let options = adaptive(share(&rt, &gate));
        match run_with(rt, alloc, plant, options, &mut Unwatched) {
            Ok(outcome) => {
                let plant = ended_as(&rt, outcome, End::Done);
                for sink in SINKS {
                    holds_turned(&rt, alloc, &plant, sink, ITEMS);
                }
            }
            Err(fault) => panic!(rt; "not run: {fault}"),
        }
        if 0 < gate.met.load(Ordering::SeqCst) || alone(&rt) {
            return Ok(());
        }
    }
    let passed = gate.passed.load(Ordering::SeqCst);
    panic!(rt; "no two of {passed} pieces of work were done side by side");
}

/// Two chains in which the second block is dear in its firings of this range.
pub fn dear_chains(rt: &impl Abort, alloc: Global, dear: [u64; 2]) -> Plant<Probe> {
    let mut blocks = Vec::new(alloc);
    for make in TWO_CHAINS.makes {
        let habit = match *make {
            Make::Not => Habit::IsDear(dear, Spinner::new()),
            _ => Habit::Plain,
        };
        let kind = kind(rt, *make);
        assert!(rt; blocks.push(Probe { kind, habit }).is_ok(), "no memory");
    }
    let mut plant = opened(rt, alloc, blocks, TWO_CHAINS.wires, TWO_CHAINS.capacity);
    for source in [BlockId(0), BlockId(1)] {
        feed(rt, alloc, &mut plant, source, ITEMS);
        assert!(rt; plant.close(source).is_ok(), "closed");
    }
    plant
}

// The gate that counts the work of the first and of the second half of the firings.
#[derive(Drop)]
struct Halves {
    passed: [AtomicU64; 2],
    counts: Counts,
}

impl Halves {
    fn new() -> Halves {
        Halves {
            passed: [AtomicU64::new(0), AtomicU64::new(0)],
            counts: Counts::new(),
        }
    }

    fn passed(&self, half: usize) -> u64 {
        self.passed[half].load(Ordering::SeqCst)
    }
}

impl Gate for Halves {
    fn pass(&self, _block: BlockId, firing: u64) {
        let half = if firing < u64::from(ITEMS / 2) { 0 } else { 1 };
        self.passed[half].fetch_add(1, Ordering::SeqCst);
    }

    fn missed(&self) {
        Gate::missed(&self.counts);
    }
}

// How a run of the dear chains is begun.
#[derive(Clone, Copy, Debug)]
enum Begun {
    Run,
    Launched,
}

// Runs chains that are dear in this range past a gate, and looks at their sinks.
fn run_dear<R: Host + 'static>(
    rt: R,
    alloc: Global,
    begun: Begun,
    dear: [u64; 2],
    gate: &Arc<Halves, Global>,
) {
    let plant = dear_chains(&rt, alloc, dear);
    let own = share(&rt, gate);
    let ended = match begun {
        Begun::Run => run_with(rt, alloc, plant, adaptive(own), &mut Unwatched),
        Begun::Launched => match launch_with(rt, alloc, plant, adaptive(own)) {
            Ok(running) => running.wait(&rt),
            Err(fault) => Err(fault),
        },
    };
    let plant = match ended {
        Ok(outcome) => ended_as(&rt, outcome, End::Done),
        Err(fault) => panic!(&rt; "{begun:?}: not run: {fault}"),
    };
    for sink in SINKS {
        holds_turned(&rt, alloc, &plant, sink, ITEMS);
    }
    assert!(&rt; gate.counts.missed() == 0, "a sleeper was missed");
}

#[test]
fn blocks_become_dear_and_cheap(rt: HostRuntime) -> Result<(), Fail> {
    let alloc = rt.alloc();
    let middle = u64::from(ITEMS / 2);
    for (half, dear) in [(0, [0, middle]), (1, [middle, u64::MAX])] {
        for begun in [Begun::Run, Begun::Launched] {
            let gate = shared(&rt, alloc, Halves::new());
            // (on a busy machine a claim may seem as dear as the work)
            for _ in 0..RUNS {
                if gate.passed(half) == 0 {
                    run_dear(rt, alloc, begun, dear, &gate);
                }
            }
            assert!(rt;
                0 < gate.passed(half),
                "{begun:?}: dear work of half {half} was never given away"
            );
        }
    }
    Ok(())
}

// A source whose items are repeated so often that a run on one thread goes on for long.
const LONG: Drawing<'static> = Drawing {
    makes: &[
        Make::Source,
        Make::Repeat(1_000),
        Make::Not,
        Make::Keep(1_000),
        Make::Sink,
    ],
    wires: &[(0, 0, 1, 0), (1, 0, 2, 0), (2, 0, 3, 0), (3, 0, 4, 0)],
    capacity: 4_096,
    items: MANY,
};

#[test]
fn a_stop_is_seen_while_cheap_blocks_run_flat_out(rt: HostRuntime) -> Result<(), Fail> {
    let alloc = rt.alloc();
    let mut least = Duration::from_secs(u64::from(u32::MAX));
    // (on a busy machine it takes its time until a thread is woken)
    for _ in 0..RUNS {
        let gate = shared(&rt, alloc, Counts::new());
        let plant = fed(&rt, alloc, &LONG);
        let mut running = match launch_with(rt, alloc, plant, adaptive(gate)) {
            Ok(running) => running,
            Err(fault) => panic!(rt; "not launched: {fault}"),
        };
        let mut given = 0;
        for _ in 0..1_000_000 {
            given = running.headway(&rt).given;
            if 0 < given {
                break;
            }
            thread::yield_now();
        }
        assert!(rt; 0 < given, "nothing was given");
        let Ok(asked) = Instant::now(&rt) else {
            panic!(rt; "no clock");
        };
        running.stop(&rt);
        let (end, plant) = ended(&rt, running);
        let Ok(took) = asked.elapsed(&rt) else {
            panic!(rt; "no clock");
        };
        assert!(rt; end == End::Stopped, "{end:?}");
        assert!(rt;
            plant.headway().given < u64::from(MANY),
            "all was given"
        );
        least = least.min(took);
        if least < Duration::from_millis(50) {
            return Ok(());
        }
    }
    panic!(rt; "no stop was seen within 50 ms, but one in {least:?}");
}

#[test]
fn a_stop_at_any_moment_loses_nothing_in_a_pool(rt: HostRuntime) -> Result<(), Fail> {
    let alloc = rt.alloc();
    let erratic = WithClock {
        rt,
        clock: ByChance,
    };
    for number in 0..60 {
        let gate = shared(&rt, alloc, Counts::new());
        let plant = fed(&rt, alloc, &TWO_CHAINS);
        let own = share(&rt, &gate);
        let mut running = match launch_with(erratic, alloc, plant, adaptive(own)) {
            Ok(running) => running,
            Err(fault) => panic!(rt; "not launched: {fault}"),
        };
        for _ in 0..number * 2 {
            spin_loop();
            thread::yield_now();
        }
        running.stop(&rt);
        assert!(rt; running.asked(), "asked");
        let (end, plant) = ended(&rt, running);
        assert!(rt; end != End::Stalled, "run {number}: {end:?}");
        assert!(rt; gate.missed() == 0, "run {number}: a sleeper was missed");
        let plant = ran_by_to(rt, alloc, Way::Adaptive, plant, End::Done, "again");
        for sink in SINKS {
            holds_turned(&rt, alloc, &plant, sink, ITEMS);
        }
    }
    Ok(())
}

#[test]
fn a_run_shows_what_one_thread_shows(rt: HostRuntime) -> Result<(), Fail> {
    let alloc = rt.alloc();
    let settled = settled(&rt, alloc, &TWO_CHAINS);
    for way in [Way::Adaptive, Way::Erratic, Way::ErraticPool] {
        for _ in 0..10 {
            let plant = fed(&rt, alloc, &TWO_CHAINS);
            let plant = ran_by_to(rt, alloc, way, plant, End::Done, "two chains");
            same_sinks(&rt, alloc, &TWO_CHAINS, &plant, &settled, "an adaptive run");
        }
    }
    Ok(())
}
