//! The program `graph_bench`: times graphs that run to their end against plain loops over slices.
#![tactic(auto)]

mod feeds;
mod graphs;
mod once;
mod plain;
mod races;
mod small;
mod table;

use std::process::ExitCode;
use std::{env, io};

// The exit status of words that say nothing.
const BAD_WORDS: u8 = 2;

fn main(rt: HostRuntime) -> io::Result<ExitCode> {
    // The first word is the program's name.
    let words = env::args(&rt)?.collect::<Vec<String>>(rt.alloc())?;
    match words.as_slice() {
        [] | [_] => small::print_small(&rt)?,
        [_, word] if word.as_str() == "measure" => table::print_table(&rt)?,
        [_, word, item, adders, sink, capacity, most, items] if word.as_str() == "once" => {
            let Some(shape) = once::shape_of(item, adders, sink, capacity, most, items) else {
                return bad_words(&rt);
            };
            once::run_once(&rt, shape)?;
        }
        _ => return bad_words(&rt),
    }
    Ok(ExitCode::SUCCESS)
}

fn bad_words(rt: &HostRuntime) -> io::Result<ExitCode> {
    eprintln!(rt;
        "usage: graph_bench [measure | once byte|short|int ADDERS null|kept CAPACITY MOST ITEMS]"
    )?;
    Ok(ExitCode::from(BAD_WORDS))
}
