//! Tests of blocks through their public calls: what no contract says, and each call once with ample memory.

mod arithmetic;
mod arithmetic_more;
mod bit_streams;
mod bits;
mod chosen;
mod divided;
mod codes;
mod filters;
mod frames;
mod harness;
mod places;
mod ports;
mod rates;
mod runs;
mod trellises;
