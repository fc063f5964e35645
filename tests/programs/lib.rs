//! What each program of `benches/`, without words, and those of `examples/` print.
use crate::Host;
use std::fmt::Display;
use std::io;
use std::process::ExitCode;

/// Prints what the program of this name does.
pub fn print<R: Host>(rt: R, name: &str) -> io::Result<ExitCode> {
    match name {
        "benches/kernel_bench" => kernel_bench::small::print_small(&rt)?,
        "benches/graph_bench" => graph_bench::small::print_small(&rt)?,
        "benches/thread_bench" => thread_bench::small::print_small(rt, rt.alloc())?,
        "examples/embed" => return ended(&rt, embed::main(rt)),
        "examples/own_block" => return ended(&rt, own_block::main(rt)),
        "examples/pipeline" => return ended(&rt, pipeline_program::main(rt)),
        _ => return Ok(ExitCode::from(2)),
    }
    Ok(ExitCode::SUCCESS)
}

// The status of a program that ended so, which says why it failed.
fn ended<R: Host, E: Display + Drop>(rt: &R, came: Result<(), E>) -> io::Result<ExitCode> {
    if let Err(fault) = came {
        eprintln!(rt; "{fault}")?;
        return Ok(ExitCode::FAILURE);
    }
    Ok(ExitCode::SUCCESS)
}
