//! The program `kernel_bench`: times each kernel against the plain loop that its definition suggests.
#![tactic(auto)]

mod bit_streams;
mod contest;
mod contests;
mod item;
mod kind_arithmetic;
mod kind_choices;
mod kind_codes;
mod kind_contest;
mod kind_frames;
mod kind_plain;
mod kind_table;
mod kind_trellis;
mod plain;
mod plain_arithmetic;
mod small;
mod table;

use std::process::ExitCode;
use std::{env, io};

// The exit status of words that say nothing.
const BAD_WORDS: u8 = 2;

fn main(rt: HostRuntime) -> io::Result<ExitCode> {
    // The first word is the program's name.
    let words = env::args(&rt)?.collect::<Vec<String>>(rt.alloc())?;
    match words.as_slice() {
        [] | [_] => small::print_small(&rt)?,
        [_, word] if word.as_str() == "measure" => {
            table::print_table(&rt)?;
            print_all_kinds(&rt)?;
        }
        [_, word, part] if word.as_str() == "measure" && part.as_str() == "kinds" => {
            print_all_kinds(&rt)?;
        }
        [_, word, part] if word.as_str() == "measure" && table::is_part(part) => {
            table::print_part(&rt, part)?;
        }
        _ => {
            eprintln!(rt; "usage: kernel_bench [measure [16|64|near|far|filters|kinds]]")?;
            return Ok(ExitCode::from(BAD_WORDS));
        }
    }
    Ok(ExitCode::SUCCESS)
}

fn print_all_kinds(rt: &HostRuntime) -> io::Result<()> {
    kind_table::print_kinds(rt)?;
    kind_frames::print_frames(rt)?;
    kind_choices::print_choices(rt)?;
    kind_codes::print_codes(rt)?;
    kind_trellis::print_trellis(rt)
}
