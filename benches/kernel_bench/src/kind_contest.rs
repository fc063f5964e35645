//! A contest of a kind of block and its plain loop: how many items a second go through the block's `work`, called as a
//! plant calls it.
ghost use Rattle.std.specs.Prelude.{◌≡◌, ◌+◌, ◌^◌, ◌<◌, ◌≤◌, ℕ, [], length, map, All, IfOk, OnOk, IsTrue};
ghost use Rattle.stream_model.specs.Lists.{window};
ghost use Rattle.stream_model.specs.Meaning.{input};
ghost use Rattle.stream_model.specs.Meaning as meanings;
ghost use Rattle.items.specs.Items.{type_of, numbers_of};
ghost use Rattle.settings.specs.Values as values;
ghost use Rattle.block_trait.specs.Work.{least_windows, most_windows, IsReady};
ghost use Rattle.kernel_bench.specs.Calls.{CanCall};

use crate::contest::{RUN_TIME, RUNS, Row, copies, noise, print_row};
use crate::item::Item;
use block_parameters::ParamFault;
use block_trait::{Block, Held, Role};
use items::Items;
use settings::Timeline;
use std::alloc::Global;
use std::io;
use std::time::Instant;

/// How many items a call takes or gives on the port that has the most.
pub const ITEMS: u32 = 4096;

/// How many ports of a block are used, and how often it fires in a call.
#[derive(Clone, Copy)]
pub struct Call {
    pub inputs: usize,
    pub outputs: usize,
    pub firings: u64,
}

/// A plain loop. Of the two inputs and outputs it leaves alone those that its kind has not.
pub trait PlainLoop<T, U> {
    fn run(&self, a: &[T], b: &[T], out: &mut [U], other: &mut [U]);
}

/// A block that could not be made, or that has other ports.
pub fn unfit() -> io::Error {
    io::Error::from(io::ErrorKind::InvalidData)
}

// Items `from - past` to below `to`, with zeros before item 0.
fn window_of(alloc: Global, items: &Items, past: usize, from: usize, to: usize) -> io::Result<Items>
    requires past { past < 2 ^ 32 }
    requires small { to < 2 ^ 63 }
    ensures item_type { IfOk result (λ w. type_of w ≡ type_of items.now) }
    ensures numbers { IfOk result (λ w. numbers_of w ≡ window (numbers_of items.now) past from to) }
    ensures there { OnOk result (to ≤ length (numbers_of items.now)) }
{
    let mut padded = Items::empty(alloc, items.item_type());
    padded.reserve(past + items.len())?;
    padded.push_zeros(past);
    padded.push_slice(items);
    match padded.slice(alloc, from, past + to) {
        Ok(window) => Ok(window),
        Err(_) => Err(unfit()),
    }
}

// The items that the firings take, behind the past that they read, of each input.
fn windows_of<B: Block>(
    alloc: Global,
    block: &B,
    inputs: &[Items],
    first: u64,
    count: u64,
) -> io::Result<Vec<Items>>
    requires few { first + count ≤ 2 ^ 32 }
    ensures windows { IfOk result (λ ws. map numbers_of ws.items ≡ meanings.windows_of (B.meaning block.now) (map numbers_of inputs.now) first count) }
    ensures types { IfOk result (λ ws. All (λ w. type_of w ≡ (B.meaning block.now).inputs.item) ws.items) }
    ensures there { OnOk result ((p : ℕ) → p < length (map numbers_of inputs.now) → (B.meaning block.now).taken p (first + count) ≤ length (input (map numbers_of inputs.now) p)) }
{
    let mut windows = Vec::new(alloc);
    let past = block.history().saturating_sub(1) as usize;
    for (input, items) in inputs.iter().enumerate() {
        if items.item_type() != block.inputs().item {
            return Err(unfit());
        }
        let from = block.taken(input, first) as usize;
        let to = block.taken(input, first + count) as usize;
        windows.push(window_of(alloc, items, past, from, to)?)?;
    }
    Ok(windows)
}

// The block's own value in force over the items that the firings take.
fn held_over<B: Block>(alloc: Global, block: &B, first: u64, count: u64) -> io::Result<Vec<Held>>
    requires few { first + count ≤ 2 ^ 32 }
    ensures { IfOk result (λ held. map values.held_of held.items ≡ meanings.held_of (B.meaning block.now) [] first count) }
{
    let Some(own) = block.own(alloc)? else {
        return Ok(Vec::new(alloc));
    };
    let timeline = Timeline::new(alloc, own);
    let from = block.taken(0, first);
    let to = block.taken(0, first + count);
    match timeline.between(alloc, from, to) {
        Ok(held) => Ok(held),
        Err(_) => Err(unfit()),
    }
}

// Whether the block may have so many windows and outputs.
fn has_ports<B: Block>(block: &B, windows: usize, outputs: usize) -> bool
    ensures least { IsTrue result → least_windows (B.meaning block.now).role (B.meaning block.now).inputs ≤ windows }
    ensures most { IsTrue result → windows ≤ most_windows (B.meaning block.now).role (B.meaning block.now).inputs }
    ensures outputs_least { IsTrue result → (B.meaning block.now).outputs.least ≤ outputs }
    ensures outputs_most { IsTrue result → outputs ≤ (B.meaning block.now).outputs.most }
{
    let (least, most) = match block.role() {
        Role::Source => (1, 1),
        _ => (block.inputs().least as usize, block.inputs().most as usize),
    };
    let given = block.outputs();
    least <= windows
        && windows <= most
        && given.least as usize <= outputs
        && outputs <= given.most as usize
}

// What `work` is given, besides places for what it makes.
#[derive(Clone, Copy)]
struct Given<'a> {
    state: u64,
    first: u64,
    count: u64,
    windows: &'a [Items],
    held: &'a [Held],
}

// Makes it an empty place for what the firings give on one output, in the memory that it has where that is enough.
fn make_ready<B: Block>(
    alloc: Global,
    block: &B,
    first: u64,
    count: u64,
    place: &mut Items,
) -> io::Result<()>
    requires few { first + count ≤ 2 ^ 32 }
    ensures { OnOk result (IsReady (B.meaning block.now) first count place.new) }
{
    let item = block.outputs().item;
    if place.item_type() == item {
        place.clear();
    } else {
        *place = Items::empty(alloc, item);
    }
    let room = block
        .given(first + count)
        .saturating_sub(block.given(first));
    place.reserve(room as usize)?;
    Ok(())
}

// Makes each an empty place for what the firings give.
fn make_all_ready<B: Block>(
    alloc: Global,
    block: &B,
    first: u64,
    count: u64,
    out: &mut [Items],
) -> io::Result<()>
    requires few { first + count ≤ 2 ^ 32 }
    ensures { OnOk result (All (IsReady (B.meaning block.now) first count) out.new) }
{
    for place in out.iter_mut() {
        make_ready(alloc, block, first, count, place)?;
    }
    Ok(())
}

// Does the firings, as a plant does them.
fn do_work<B: Block>(alloc: Global, block: &B, given: Given, out: &mut [Items]) -> io::Result<u64>
    requires few { given.first + given.count ≤ 2 ^ 32 }
    requires can { CanCall (B.meaning block.now) given.first given.count given.state given.windows.now given.held.now (length out.old) }
{
    make_all_ready(alloc, block, given.first, given.count, out)?;
    Ok(block.work(
        given.state,
        given.first,
        given.count,
        given.windows,
        given.held,
        out,
    ))
}

// How long so many calls take, in nanoseconds.
#[inline(never)]
fn time_work<B: Block>(
    rt: &HostRuntime,
    block: &B,
    given: Given,
    out: &mut [Items],
    calls: u128,
) -> io::Result<u128>
    requires few { given.first + given.count ≤ 2 ^ 32 }
    requires can { CanCall (B.meaning block.now) given.first given.count given.state given.windows.now given.held.now (length out.old) }
{
    let start = Instant::now(rt)?;
    for _ in 0..calls {
        do_work(rt.alloc(), block, given, out)?;
    }
    Ok(start.elapsed(rt)?.as_nanos())
}

// The least time of several runs of so many calls.
fn best_work<B: Block>(
    rt: &HostRuntime,
    block: &B,
    given: Given,
    out: &mut [Items],
) -> io::Result<u128>
    requires few { given.first + given.count ≤ 2 ^ 32 }
    requires can { CanCall (B.meaning block.now) given.first given.count given.state given.windows.now given.held.now (length out.old) }
{
    let calls = (RUN_TIME / time_work(rt, block, given, out, 1)?.max(1)).max(1);
    let mut least = u128::MAX;
    for _ in 0..RUNS {
        least = least.min(time_work(rt, block, given, out, calls)?);
    }
    Ok(rate(calls, least))
}

// How many items are done in 1,000 seconds.
fn rate(calls: u128, nanoseconds: u128) -> u128 {
    let items = calls.saturating_mul(u128::from(ITEMS));
    items.saturating_mul(1_000_000) / nanoseconds.max(1)
}

// The rate of a block that starts with these inputs.
fn work_rate<B: Block>(
    rt: &HostRuntime,
    block: &B,
    inputs: &[Items],
    firings: u64,
    out: &mut [Items],
) -> io::Result<u128>
    requires few { firings ≤ 2 ^ 32 }
{
    if !has_ports(block, inputs.len(), out.len()) {
        return Err(unfit());
    }
    let windows = windows_of(rt.alloc(), block, inputs, 0, firings)?;
    let held = held_over(rt.alloc(), block, 0, firings)?;
    let given = Given {
        state: block.start(),
        first: 0,
        count: firings,
        windows: &windows,
        held: &held,
    };
    best_work(rt, block, given, out)
}

// How long so many calls of a plain loop take, in nanoseconds.
#[inline(never)]
fn time_plain<T, U, P: PlainLoop<T, U>>(
    rt: &HostRuntime,
    plain: &P,
    a: &[T],
    b: &[T],
    out: &mut [U],
    other: &mut [U],
    calls: u128,
) -> io::Result<u128> {
    let start = Instant::now(rt)?;
    for _ in 0..calls {
        plain.run(a, b, out, other);
    }
    Ok(start.elapsed(rt)?.as_nanos())
}

fn plain_rate<T, U, P: PlainLoop<T, U>>(
    rt: &HostRuntime,
    plain: &P,
    a: &[T],
    b: &[T],
    out: &mut [U],
    other: &mut [U],
) -> io::Result<u128> {
    let calls = (RUN_TIME / time_plain(rt, plain, a, b, out, other, 1)?.max(1)).max(1);
    let mut least = u128::MAX;
    for _ in 0..RUNS {
        least = least.min(time_plain(rt, plain, a, b, out, other, calls)?);
    }
    Ok(rate(calls, least))
}

// So many inputs, each of other items.
fn inputs_of<T: Item>(alloc: Global, count: usize) -> io::Result<Vec<Items>>
    requires { count ≤ 16 }
{
    let mut inputs = Vec::new(alloc);
    for port in 0..count {
        let from = 64 * port;
        let to = from + ITEMS as usize;
        match T::items(noise(alloc, to)?).slice(alloc, from, to) {
            Ok(items) => inputs.push(items)?,
            Err(_) => return Err(unfit()),
        }
    }
    Ok(inputs)
}

// The items of a port, none where there is no such port.
fn port_of<T: Item>(items: &[Items], port: usize) -> &[T] {
    match items.get(port) {
        Some(items) => T::slice(items),
        None => &[],
    }
}

/// Times a block's `work` and its plain loop, and prints the row.
pub fn print_kind<B: Block, T: Item, U: Item + Default + PartialEq, P: PlainLoop<T, U>>(
    rt: &HostRuntime,
    row: Row,
    made: Result<B, ParamFault>,
    call: Call,
    plain: &P,
) -> io::Result<()>
    requires inputs { call.inputs ≤ 16 }
    requires few { call.firings ≤ 2 ^ 32 }
{
    let Ok(block) = made else {
        return Err(unfit());
    };
    let alloc = rt.alloc();
    let inputs = inputs_of::<T>(alloc, call.inputs)?;
    let mut out = Vec::new(alloc);
    for _ in 0..call.outputs {
        out.push(Items::empty(alloc, block.outputs().item))?;
    }
    let rate = work_rate(rt, &block, &inputs, call.firings, &mut out)?;
    let windows = windows_of(alloc, &block, &inputs, 0, call.firings)?;
    let (first, second) = (port_of::<U>(&out, 0), port_of::<U>(&out, 1));
    let mut by_plain = copies(alloc, first.len(), U::default())?;
    let mut other = copies(alloc, second.len(), U::default())?;
    let (a, b) = (port_of::<T>(&windows, 0), port_of::<T>(&windows, 1));
    let plain_rate = plain_rate(rt, plain, a, b, &mut by_plain, &mut other)?;
    let agree = first == by_plain.as_slice() && second == other.as_slice();
    print_row(rt, row, rate, plain_rate, agree)
}
