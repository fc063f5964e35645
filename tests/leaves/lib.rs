//! Tests of the leaves through their public calls: what no contract says, and each call once with ample memory.

mod names;
mod output_buffers;
mod raw_items;
mod rings;
mod tag_lists;
mod timelines;
mod typed_items;
