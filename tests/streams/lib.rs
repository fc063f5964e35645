//! Tests of scripts and calls over streams that fail or come in pieces, and of the texts that they are made of: what no
//! contract says.

mod ends;
mod fakes;
mod lines;
mod live;
mod noted;
mod raw;
mod refusals;
mod runs;
mod served;
mod texts;
mod times;
mod traces;
