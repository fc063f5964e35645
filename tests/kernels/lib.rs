//! Tests of the kernels: each at all lengths about a block's, with the least and the greatest items.

mod appended;
mod conversions;
mod filters;
mod in_turn;
mod items;
mod packed_bytes;
mod streams;
