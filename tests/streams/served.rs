//! Calls of `serve` over streams in memory.
use super::fakes::{Pieces, Written};
use flow_runs::serve::{Action, Verbosity, serve};
use plant::Unwatched;
use std::alloc::Global;
use std::sync::{Arc, Wait};
use std::thread::Threads;
use std::time::Clock;
use threads::Open;

/// How the input comes, and how much can be written.
#[derive(Clone, Copy)]
pub struct Ends {
    /// How many bytes one read gives at most.
    pub most: usize,
    /// How many bytes come before a read fails.
    pub good: usize,
    /// How many bytes of replies are taken, and how many of errors.
    pub output_room: usize,
    pub errors_room: usize,
}

pub const GOOD: Ends = Ends {
    most: usize::MAX,
    good: usize::MAX,
    output_room: usize::MAX,
    errors_room: usize::MAX,
};

/// What a call leaves.
#[derive(Drop)]
pub struct Left {
    pub output: Vec<u8>,
    pub errors: Vec<u8>,
    pub status: u8,
}

impl Left {
    /// Whether the call left these.
    pub fn is(&self, output: &[u8], errors: &str, status: u8) -> bool {
        self.status == status
            && self.output.as_slice() == output
            && self.errors.as_slice() == errors.as_bytes()
    }
}

/// What a command leaves. Why a run stalled is explained.
pub fn served<R: Threads + Wait + Clock + Copy + Send + Sync + 'static>(
    rt: R,
    alloc: Global,
    ends: Ends,
    command: Action,
    file: &[u8],
    input: &str,
) -> Left {
    served_with(rt, alloc, ends, command, Verbosity::WithNotes, file, input)
}

/// The same with notes or without.
pub fn served_with<R: Threads + Wait + Clock + Copy + Send + Sync + 'static>(
    rt: R,
    alloc: Global,
    ends: Ends,
    command: Action,
    verbosity: Verbosity,
    file: &[u8],
    input: &str,
) -> Left {
    let mut input = Pieces {
        left: input.as_bytes(),
        most: ends.most,
        good: ends.good,
        failures: 0,
    };
    let mut output = Written {
        bytes: Vec::new(alloc),
        room: ends.output_room,
        failures: 0,
    };
    let mut errors = Written {
        bytes: Vec::new(alloc),
        room: ends.errors_room,
        failures: 0,
    };
    let status = serve(
        rt,
        alloc,
        command,
        verbosity,
        "g.toml",
        file,
        &mut input,
        &mut output,
        &mut errors,
        None::<Arc<Open, Global>>,
        &mut Unwatched,
    );
    Left {
        output: output.bytes,
        errors: errors.bytes,
        status,
    }
}
