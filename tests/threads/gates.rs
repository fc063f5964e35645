//! What the threads of the tests wait at, each for a bounded time: flags, levels, and gates, of which one counts and
//! one holds blocks.
use flowgraph::BlockId;
use std::hint::spin_loop;
use std::sync::atomic::{AtomicBool, AtomicU64, Ordering};
use std::thread;
use threads::Gate;

// After so many turns whoever waits gives up.
const MOST_TURNS: u64 = 1_000_000_000;
// In so many turns another thread is let go first once.
const TURNS_AT_ONCE: u64 = 4_096;

// Waits until something has come, for a bounded number of turns, and returns whether it has.
fn wait_for(has_come: impl Fn() -> bool) -> bool {
    for turn in 0..MOST_TURNS {
        if has_come() {
            return true;
        }
        if turn % TURNS_AT_ONCE == 0 {
            thread::yield_now();
        } else {
            spin_loop();
        }
    }
    false
}

/// Something that happens once, and is looked for.
#[derive(Drop)]
pub struct Flag {
    is_up: AtomicBool,
}

impl Flag {
    /// It has not happened.
    pub fn new() -> Flag {
        Flag {
            is_up: AtomicBool::new(false),
        }
    }

    /// It happens.
    pub fn raise(&self) {
        self.is_up.store(true, Ordering::SeqCst);
    }

    /// Whether it has happened.
    pub fn is_up(&self) -> bool {
        self.is_up.load(Ordering::SeqCst)
    }

    /// Waits until it has happened, for a bounded number of turns, and returns whether it has.
    pub fn wait(&self) -> bool {
        wait_for(|| self.is_up())
    }
}

// Whoever waits for a level lets another thread go first in each turn, and gives up after so many.
const MOST_YIELDS: u32 = 10_000_000;

/// A number that only grows, and that others wait for.
#[derive(Drop)]
pub struct Level {
    height: AtomicU64,
}

impl Level {
    /// It is 0.
    pub fn new() -> Level {
        Level {
            height: AtomicU64::new(0),
        }
    }

    /// It grows to this.
    pub fn rise(&self, height: u64) {
        self.height.fetch_max(height, Ordering::SeqCst);
    }

    /// Waits until it is so high, for a bounded number of turns, and returns whether it is.
    pub fn wait(&self, height: u64) -> bool {
        for _ in 0..MOST_YIELDS {
            if height <= self.height.load(Ordering::SeqCst) {
                return true;
            }
            thread::yield_now();
        }
        false
    }
}

/// The gate that counts how often a worker was found asleep that could act, how often it was passed, and the firings
/// that it was told of.
#[derive(Drop)]
pub struct Counts {
    missed: AtomicU64,
    passed: AtomicU64,
    fired: AtomicU64,
}

impl Counts {
    /// The gate that counts.
    pub fn new() -> Counts {
        Counts {
            missed: AtomicU64::new(0),
            passed: AtomicU64::new(0),
            fired: AtomicU64::new(0),
        }
    }

    /// How many firings it was told of.
    pub fn fired(&self) -> u64 {
        self.fired.load(Ordering::SeqCst)
    }

    /// How often all slept though one could act.
    pub fn missed(&self) -> u64 {
        self.missed.load(Ordering::SeqCst)
    }

    /// How often a worker has passed.
    pub fn passed(&self) -> u64 {
        self.passed.load(Ordering::SeqCst)
    }
}

impl Gate for Counts {
    fn pass(&self, _block: BlockId, _firing: u64) {
        self.passed.fetch_add(1, Ordering::SeqCst);
    }

    fn missed(&self) {
        self.missed.fetch_add(1, Ordering::SeqCst);
    }

    fn worked(&self, _block: BlockId, firings: u32) {
        self.fired.fetch_add(u64::from(firings), Ordering::SeqCst);
    }
}

/// The gate that holds some blocks in their first pass until it is opened, or gives up.
#[derive(Drop)]
pub struct Holds {
    held: u64,
    waiting: AtomicU64,
    /// Raised by whoever lets the blocks go on.
    pub open: Flag,
    gave_up: Flag,
    counts: Counts,
}

impl Holds {
    /// The gate that holds the blocks of these numbers, each below 64.
    pub fn new(blocks: &[u32]) -> Holds {
        Holds {
            held: bits_of(blocks),
            waiting: AtomicU64::new(0),
            open: Flag::new(),
            gave_up: Flag::new(),
            counts: Counts::new(),
        }
    }

    /// Waits until each of its blocks is held, for a bounded number of turns, and returns whether each is.
    pub fn wait_for_all(&self) -> bool {
        wait_for(|| self.waiting.load(Ordering::SeqCst) == self.held)
    }

    /// Whether each block was let go on by whoever opened the gate, and no sleeper was missed.
    pub fn was_kept(&self) -> bool {
        !self.gave_up.is_up() && self.counts.missed() == 0
    }
}

impl Gate for Holds {
    fn pass(&self, block: BlockId, _firing: u64) {
        let own = bits_of(&[block.0]) & self.held;
        if own == 0 || self.open.is_up() {
            return;
        }
        self.waiting.fetch_or(own, Ordering::SeqCst);
        if !self.open.wait() {
            self.gave_up.raise();
        }
    }

    fn missed(&self) {
        Gate::missed(&self.counts);
    }
}

fn bits_of(blocks: &[u32]) -> u64 {
    let mut bits = 0;
    for block in blocks {
        if *block < 64 {
            bits |= 1u64 << *block;
        }
    }
    bits
}
