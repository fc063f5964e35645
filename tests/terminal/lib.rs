//! Tests of the line that tells on a terminal how far a run is, over a clock and a screen in memory, and of the words
//! of the program: what no contract says.

mod lines;
mod runs;
// (the program's own files)
mod call;
mod end_words;
mod ends;
mod kind_words;
mod pace;
mod slice;
mod stretch;
mod talk;
mod terminal;
mod words;
