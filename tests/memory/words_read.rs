//! The words of the program and its file, as they are read before anything is done, of which one allocation may fail.
use super::words::{Asked, asked_by};
use crate::Host;
use clap::error::ErrorKind;
use flow_runs::serve::Action;
use flow_core::start_fault::StartFault;
use std::alloc::Global;
use std::{env, fs};

// What is wrong where the words could not be read: memory alone.
fn is_memory(fault: StartFault) -> bool {
    fault == StartFault::Memory
}

/// The words of a call, made while nothing fails.
pub fn make_words(alloc: Global) -> Option<Vec<String>> {
    let mut words = Vec::new(alloc);
    for word in ["flow", "run", "--one-thread", "-q", "graph.toml"] {
        words.push(String::from_str(alloc, word).ok()?).ok()?;
    }
    Some(words)
}

/// Whether the words of this process are read, or there is no memory for them.
pub fn are_read(rt: &impl Host, alloc: Global, count: usize) -> bool {
    let arguments = match env::args(rt) {
        Ok(arguments) => arguments,
        Err(error) => return is_memory(StartFault::of_words(error.kind())),
    };
    match arguments.collect::<Vec<String>>(alloc) {
        Ok(words) => words.len() == count,
        Err(_) => true,
    }
}

/// Whether the words are taken for the call that they ask for, or there is no memory for that.
pub fn are_understood(alloc: Global, words: &[String]) -> bool {
    match asked_by(alloc, words, false) {
        Ok(Asked::Kinds(_) | Asked::New(..)) => false,
        Ok(Asked::Call(call)) => {
            call.action == Action::RunAlone
                && call.path == "graph.toml"
                && call.is_quiet
                && !call.explains
                && call.ends.are_none()
        }
        Err(error) => is_memory(StartFault::of_call(error.kind() == ErrorKind::OutOfMemory)),
    }
}

/// Whether a file of this many bytes is read whole, or there is no memory for it.
pub fn is_read(rt: &impl Host, path: &str, bytes: usize) -> bool {
    match fs::read(rt, path) {
        Ok(file) => file.len() == bytes,
        Err(error) => is_memory(StartFault::of_file(error.kind())),
    }
}
