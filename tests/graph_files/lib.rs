//! Tests of graph files, through the public call: files with their refusals, files that are cut, a block of each kind,
//! files that are drawn, files that stream, and files to start from.

mod drawings;
mod each_kind;
mod forgetful;
mod hostile;
mod refusals;
mod sliced;
mod starting;
mod streamed;
