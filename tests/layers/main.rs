//! The tests of some folders, of which the first word names one; tasks in which an allocation fails, where the program
//! has them; and what the programs of `benches/` and those of `examples/` print. Where the first word is `copy`, the
//! program copies the file `program`, which lies where it runs, to where the second word says.
#![tactic(auto)]

mod called;

use std::env::Env;
use std::fs::Files;
use std::io::{Eprint, Print};
use std::process::{Abort, ExitCode};
use std::sync::Wait;
use std::thread::Threads;
use std::time::{Clock, CpuClock};
use std::{env, fs, io};

/// What a test may do.
pub trait Host:
    Abort
    + Threads
    + Wait
    + Clock
    + CpuClock
    + AllocGlobal
    + Env
    + Files
    + Print
    + Eprint
    + Copy
    + Send
    + Sync
    + 'static
{
}

impl<
    R: Abort
        + Threads
        + Wait
        + Clock
        + CpuClock
        + AllocGlobal
        + Env
        + Files
        + Print
        + Eprint
        + Copy
        + Send
        + Sync
        + 'static,
> Host for R
{
}

fn main(rt: HostRuntime) -> io::Result<ExitCode> {
    if let Some(status) = called::task(rt) {
        return Ok(status);
    }
    // The first word is the program's name.
    let words = env::args(&rt)?.collect::<Vec<String>>(rt.alloc())?;
    match words.as_slice() {
        [_, word, to] if word.as_str() == "copy" => {
            let program = fs::read(&rt, "program")?;
            fs::write(&rt, to.as_str(), &program)?;
            Ok(ExitCode::SUCCESS)
        }
        [_, name] => Ok(called::call(rt, name.as_str())),
        _ => Ok(ExitCode::from(2)),
    }
}
