//! A block of the tests' own: a block of any kind that may look whether another works at the same time, or be equal to
//! none.
ghost use Rattle.kinds.specs.Kind.{meaning_of};

use super::gates::Flag;
use block_trait::{Block, ByPace, Held, Shape};
use items::Items;
use kinds::Kind;
use std::alloc::Global;
use std::sync::Arc;
use std::sync::atomic::{AtomicU64, Ordering};

// A turn takes a few nanoseconds.
const TURNS: u32 = 10_000;

/// What two blocks share that are to work at the same time.
#[derive(Drop)]
pub struct Meeting {
    /// Raised as the one and as the other begins its first work.
    began: [Flag; 2],
    /// Raised where the one and the other saw that in its own first work.
    saw: [Flag; 2],
}

impl Meeting {
    /// Neither has begun.
    pub fn new() -> Meeting {
        Meeting {
            began: [Flag::new(), Flag::new()],
            saw: [Flag::new(), Flag::new()],
        }
    }

    /// Whether each saw the other.
    pub fn both_saw(&self) -> bool {
        self.saw.iter().all(|saw| saw.is_up())
    }

    // One of them, 0 or 1, begins its first work.
    fn attend(&self, number: usize) {
        self.began[number].raise();
        if self.began[1 - number].wait() {
            self.saw[number].raise();
        }
    }
}

/// What a block does beside its work.
#[derive(Drop)]
pub enum Habit {
    /// Nothing.
    Plain,
    /// In the work from its first firing on it looks for the other of the two that meet; it is this of them, 0 or 1.
    Meets(usize, Arc<Meeting, Global>),
    /// It takes some tens of microseconds for each work that begins with a firing of this range.
    IsDear([u64; 2], Spinner),
    /// It is equal to no block, itself included, against what `Eq` is to mean.
    Unlike,
}

/// What takes time.
#[derive(Drop)]
pub struct Spinner {
    turns: AtomicU64,
}

impl Spinner {
    /// It has not turned yet.
    pub fn new() -> Spinner {
        Spinner {
            turns: AtomicU64::new(0),
        }
    }

    // Some tens of microseconds.
    fn spin(&self) {
        for _ in 0..TURNS {
            self.turns.fetch_add(1, Ordering::SeqCst);
        }
    }
}

/// A block of any kind with a habit.
#[derive(Drop)]
pub struct Probe {
    pub kind: Kind,
    pub habit: Habit,
}

// Those that meet are equal by their numbers.
impl PartialEq for Probe {
    // (unproved, as all of these tests)
    ghost eq = { ? };

    ghost laws = { ? };

    fn eq(&self, other: &Probe) -> bool {
        let is_alike = match (&self.habit, &other.habit) {
            (Habit::Plain, Habit::Plain) => true,
            (Habit::Meets(one, _), Habit::Meets(two, _)) => one == two,
            (Habit::IsDear(one, _), Habit::IsDear(two, _)) => one == two,
            _ => false,
        };
        is_alike && self.kind == other.kind
    }
}

impl Eq for Probe {
    ghost laws = { ? };
}

impl Block for Probe {
    ghost meaning = { λ b. meaning_of b.kind };

    type Places = ByPace;

    fn shape(&self, input: usize) -> Shape<'_> {
        self.kind.shape(input)
    }

    fn work(
        &self,
        state: u64,
        first: u64,
        count: u64,
        windows: &[Items],
        held: &[Held],
        out: &mut [Items],
    ) -> u64 {
        match &self.habit {
            Habit::Meets(number, meeting) if first == 0 => meeting.attend(*number),
            Habit::IsDear([from, to], spinner) if *from <= first && first < *to => spinner.spin(),
            _ => {}
        }
        self.kind.work(state, first, count, windows, held, out)
    }

    ghost lawful = { ? };

    ghost same = { ? };
}
