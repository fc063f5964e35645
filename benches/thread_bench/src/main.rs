//! The program `thread_bench`: times graphs that run with a thread for each block, and in as many as the work is worth,
//! against the same on one thread, and against plain loops.
#![tactic(auto)]

mod feeds;
mod filters;
mod gates;
mod graphs;
mod plain;
mod races;
mod small;
mod table;

use std::process::ExitCode;
use std::{env, io};

// The exit status of words that say nothing.
const BAD_WORDS: u8 = 2;

fn main(rt: HostRuntime) -> io::Result<ExitCode> {
    // The first word is the program's name.
    let words = env::args(&rt)?.collect::<Vec<String>>(rt.alloc())?;
    match words.as_slice() {
        [] | [_] => small::print_small(rt, rt.alloc())?,
        [_, word] if word.as_str() == "measure" => table::print_table(rt, rt.alloc())?,
        [_, word, part] if word.as_str() == "measure" && table::is_part(part) => {
            table::print_part(rt, rt.alloc(), part)?;
        }
        _ => {
            eprintln!(rt; "usage: thread_bench [measure [lengths|chains|filters|tuning|gates]]")?;
            return Ok(ExitCode::from(BAD_WORDS));
        }
    }
    Ok(ExitCode::SUCCESS)
}
