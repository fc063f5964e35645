//! Tests of plants through their public calls: each call once, jobs that are copied and brought back, what blocks wait
//! for and what buffers store, long runs in any order, balanced graphs that never stall, plants that stream, alone and
//! with helpers, for long, and pipelines; slices on threads; and calls that have memory enough.

mod ample;
mod asked;
mod balanced;
mod calls;
mod drawn;
mod endless;
mod faulty;
mod handed;
mod helped;
mod marked;
mod needs;
mod orders;
mod piped;
mod pipelines;
mod ready;
mod sliced;
mod stores;
mod streamed;
