//! A graph that runs to its end beside a plain loop over a slice and a copy of one: how many items each does a second.

use crate::feeds::Fault;
use crate::graphs::{Shape, fed_plant};
use crate::plain::{Item, add_one, counted};
use items::ItemType;
use plant::Settled;
use std::io;
use std::time::Instant;

// Of so many runs the best one counts.
const RUNS: u32 = 5;

/// How many thousand items a second: through each block of the graph, through a loop that adds 1, and through a copy.
#[derive(Clone, Copy)]
pub struct Rates {
    pub graph: u128,
    pub plain: u128,
    pub copy: u128,
}

/// The rates of a shape.
pub fn race(rt: &HostRuntime, shape: Shape) -> io::Result<Rates> {
    let mut times = [u128::MAX; 3];
    for _ in 0..RUNS {
        let [graph, plain, copy] = times;
        let (by_loop, by_copy) = match shape.item {
            ItemType::Byte => slice_times::<u8>(rt, shape.items)?,
            ItemType::Short => slice_times::<i16>(rt, shape.items)?,
            ItemType::Int => slice_times::<i32>(rt, shape.items)?,
        };
        times = [
            graph.min(graph_time(rt, shape)?),
            plain.min(by_loop),
            copy.min(by_copy),
        ];
    }
    let [graph, plain, copy] = times;
    let blocks = 1 + u128::from(shape.chains) * (1 + u128::from(shape.adders));
    let items = shape.items as u128;
    Ok(Rates {
        graph: rate(items.saturating_mul(blocks), graph),
        plain: rate(items, plain),
        copy: rate(items, copy),
    })
}

// So many items in so many nanoseconds, in thousands a second.
fn rate(items: u128, nanoseconds: u128) -> u128 {
    items.saturating_mul(1_000_000) / nanoseconds.max(1)
}

// How long a graph runs to its end, in nanoseconds.
fn graph_time(rt: &HostRuntime, shape: Shape) -> io::Result<u128> {
    let mut plant = match fed_plant(rt.alloc(), shape) {
        Ok(plant) => plant,
        Err(fault) => return Err(io::Error::from(fault)),
    };
    if !plant.idle() {
        return Err(io::Error::from(Fault::Run));
    }
    let start = Instant::now(rt)?;
    let settled = plant.settle(rt.alloc(), shape.most.max(1))?;
    let time = start.elapsed(rt)?.as_nanos();
    match settled {
        Settled::Done => Ok(time),
        Settled::Quiet => Err(io::Error::from(Fault::Run)),
    }
}

// How long a loop over so many items runs, and a copy of them.
fn slice_times<T: Item + PartialEq>(rt: &HostRuntime, count: usize) -> io::Result<(u128, u128)> {
    let items = counted::<T>(rt.alloc(), count)?;
    let mut out = counted::<T>(rt.alloc(), count)?;
    let start = Instant::now(rt)?;
    add_one(&items, &mut out);
    let by_loop = start.elapsed(rt)?.as_nanos();
    let start = Instant::now(rt)?;
    copy(&items, &mut out);
    let by_copy = start.elapsed(rt)?.as_nanos();
    if items == out {
        Ok((by_loop, by_copy))
    } else {
        Err(io::Error::from(Fault::Run))
    }
}

#[inline(never)]
fn copy<T: Item>(items: &[T], out: &mut [T]) {
    if items.len() == out.len() {
        out.copy_from_slice(items);
    }
}
