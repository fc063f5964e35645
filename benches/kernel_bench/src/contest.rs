//! A contest of a kernel and its plain loop: how many items each does a second.
ghost use Rattle.std.specs.Prelude.{◌≡◌, ◌≤◌, ◌<◌, ◌-◌, ◌^◌, ℕ, length, IfOk, vec_len};

use crate::item::Item;
use numbers::vectors::append_copies;
use std::alloc::{AllocError, Global};
use std::io;
use std::rt::Clock;
use std::time::Instant;

// Of so many runs the best one counts.
pub const RUNS: u32 = 15;

// A run lasts about so many nanoseconds at the pace of the first round, which is slower than the others.
pub const RUN_TIME: u128 = 2_000_000;

// The calls of a round begin at item 0, 64, 128 and 192.
const SPARE: usize = 192;

/// What a row is about.
#[derive(Clone, Copy)]
pub struct Row<'a> {
    pub kernel: &'a str,
    pub item: &'a str,
    pub length: u32,
}

/// The two of a contest.
#[derive(Clone, Copy)]
pub enum Side {
    Kernel,
    Plain,
}

/// A kernel and its plain loop.
pub trait Contest<T, U> {
    /// So many items of input and of output fit one another.
    ghost fits: { Self → ℕ → ℕ → Type 0 };

    fn call(&self, side: Side, x: &[T], out: &mut [U])
        requires { fits self.now (length x.now) (length out.old) };
}

/// So many items, evenly over the type's range.
pub fn noise<T: Item>(alloc: Global, count: usize) -> Result<Vec<T>, AllocError>
    ensures { IfOk result (λ v. vec_len v ≡ count) }
{
    let mut items = copies(alloc, count, T::wrapped(0))?;
    let mut state: u64 = 1;
    for item in items.as_mut_slice() {
        // Knuth's linear congruential generator, whose high bits are the better ones.
        state = state
            .wrapping_mul(6364136223846793005)
            .wrapping_add(1442695040888963407);
        *item = T::wrapped((state >> 32) as i64);
    }
    Ok(items)
}

pub fn copies<T: Copy>(alloc: Global, count: usize, x: T) -> Result<Vec<T>, AllocError>
    ensures { IfOk result (λ v. vec_len v ≡ count) }
{
    let mut items = Vec::with_capacity(alloc, count)?;
    append_copies(&mut items, count, x);
    Ok(items)
}

/// Times a kernel and its plain loop, which take and give so many items a call, and prints the row.
pub fn print_contest<T: Item, U: Copy + Default + PartialEq, C: Contest<T, U>>(
    rt: &HostRuntime,
    row: Row,
    contest: &C,
    input: usize,
    output: usize,
) -> io::Result<()>
    requires small { input < 2 ^ 36 }
    requires fits { C.fits contest.now input output }
{
    let x = noise::<T>(rt.alloc(), input + SPARE)?;
    let mut by_kernel = copies(rt.alloc(), output, U::default())?;
    let mut by_plain = copies(rt.alloc(), output, U::default())?;
    let rate = best_rate(rt, contest, Side::Kernel, row.length, &x, &mut by_kernel)?;
    let plain_rate = best_rate(rt, contest, Side::Plain, row.length, &x, &mut by_plain)?;
    print_row(rt, row, rate, plain_rate, by_kernel == by_plain)
}

// How many items are done in 1,000 seconds, so many of them a call.
fn best_rate<T, U, C: Contest<T, U>>(
    rt: &impl Clock,
    contest: &C,
    side: Side,
    per_call: u32,
    input: &[T],
    out: &mut [U],
) -> io::Result<u128>
    requires spare { SPARE ≤ length input.now }
    requires fits { C.fits contest.now (length input.now - SPARE) (length out.old) }
{
    let rounds = (RUN_TIME / time(rt, contest, side, 1, input, out)?.max(1)).max(1);
    let mut least = u128::MAX;
    for _ in 0..RUNS {
        least = least.min(time(rt, contest, side, rounds, input, out)?);
    }
    let items = rounds.saturating_mul(4 * u128::from(per_call));
    Ok(items.saturating_mul(1_000_000) / least.max(1))
}

// How long so many rounds take, in nanoseconds.
#[inline(never)]
fn time<T, U, C: Contest<T, U>>(
    rt: &impl Clock,
    contest: &C,
    side: Side,
    rounds: u128,
    input: &[T],
    out: &mut [U],
) -> io::Result<u128>
    requires spare { SPARE ≤ length input.now }
    requires fits { C.fits contest.now (length input.now - SPARE) (length out.old) }
{
    let start = Instant::now(rt)?;
    match side {
        Side::Kernel => repeat(contest, Side::Kernel, rounds, input, out),
        Side::Plain => repeat(contest, Side::Plain, rounds, input, out),
    }
    Ok(start.elapsed(rt)?.as_nanos())
}

// So many rounds. A caller names `side`, so that no call looks at it.
#[inline(always)]
fn repeat<T, U, C: Contest<T, U>>(contest: &C, side: Side, rounds: u128, input: &[T], out: &mut [U])
    requires spare { SPARE ≤ length input.now }
    requires fits { C.fits contest.now (length input.now - SPARE) (length out.old) }
{
    let count = input.len() - SPARE;
    for _ in 0..rounds {
        for call in 0..4 {
            let at = 64 * call;
            contest.call(side, &input[at..at + count], out);
        }
    }
}

pub fn print_row(
    rt: &impl Print,
    row: Row,
    rate: u128,
    plain_rate: u128,
    agree: bool,
) -> io::Result<()> {
    let Row {
        kernel,
        item,
        length,
        ..
    } = row;
    let percent = rate.saturating_mul(100) / plain_rate.max(1);
    let (whole, part) = (percent / 100, percent % 100);
    let (millions, thousands) = (rate / 1000, rate % 1000);
    let (plain_millions, plain_thousands) = (plain_rate / 1000, plain_rate % 1000);
    let remark = if agree { "" } else { " differs" };
    println!(rt;
        "{kernel:<18} {item:<16} {length:>8} {millions:>8}.{thousands:03} {plain_millions:>8}.{plain_thousands:03} {whole:>4}.{part:02}{remark}"
    )
}
