//! A desk.

ghost use Rattle.std.specs.Prelude.{ℕ, ◌≤◌, ◌≡◌};

use low::Size;
use std::marker::Model;

/// Who chooses.
pub trait Chooser {
    /// Of what it is shown.
    ghost choice: { ℕ → ℕ };

    fn choose(&self, number: u32) -> u32
        ensures { result ≡ choice number };
}

/// What is replied.
pub enum Reply {
    Told(u32),
    Silent,
}

/// Where one asks.
pub struct Desk<C: Chooser> {
    /// Who chooses.
    chooser: C,
    pair: (u32, u32),
}

impl<C: Chooser> Model for Desk<C> {
    ghost use Rattle.high.specs.Top.{DeskState, state_of};

    ghost Value = { DeskState };

    ghost view = { λ d. state_of d.pair.0 d.pair.1 };
}

impl<C: Chooser> Desk<C> {
    ghost use Rattle.high.specs.Top.{Answers, said};
    ghost use Rattle.low.specs.Again.{weight};

    /// Asks.
    pub fn ask(&mut self, size: Size) -> Reply
        requires { 1 ≤ weight size }
        ensures answered { Answers C.choice self.new (said result) }
    {
        Reply::Silent
    }
}
