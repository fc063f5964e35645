//! The kinds that keep some items of each frame, put a list into each, or give each another order: their rows, and each
//! as a plain loop over slices.
ghost use Rattle.std.specs.Prelude.{◌≡◌};

use crate::contest::Row;
use crate::kind_contest::{Call, ITEMS, PlainLoop, print_kind};
use items::ItemType::Byte;
use rate_blocks::{Insert, KeepMInN, Permute};
use std::alloc::Global;
use std::io;

/// The loops from bytes to bytes, by kind, with their parameters.
#[derive(Drop)]
enum Frames<'a> {
    KeepMInN(usize, usize, usize),
    Insert(&'a [u8], usize, usize),
    Permute(&'a [u8]),
}

impl PlainLoop<u8, u8> for Frames<'_> {
    #[inline(never)]
    fn run(&self, a: &[u8], _b: &[u8], out: &mut [u8], _other: &mut [u8]) {
        match self {
            Frames::KeepMInN(m, n, offset) => keep_m_in_n(*m, *n, *offset, a, out),
            Frames::Insert(values, period, offset) => insert(values, *period, *offset, a, out),
            Frames::Permute(order) => permute(order, a, out),
        }
    }
}

// Of each `n` bytes the `m` from `offset` on.
fn keep_m_in_n(m: usize, n: usize, offset: usize, x: &[u8], out: &mut [u8]) {
    if m == 0 || n == 0 {
        return;
    }
    for (kept, frame) in out.chunks_exact_mut(m).zip(x.chunks_exact(n)) {
        for (y, item) in kept.iter_mut().zip(frame.iter().skip(offset)) {
            *y = *item;
        }
    }
}

// The values in each `period` bytes, from `offset` on.
fn insert(values: &[u8], period: usize, offset: usize, x: &[u8], out: &mut [u8]) {
    if period == 0 {
        return;
    }
    let mut rest = x.iter();
    for frame in out.chunks_exact_mut(period) {
        for (y, item) in frame.iter_mut().take(offset).zip(&mut rest) {
            *y = *item;
        }
        for (y, value) in frame.iter_mut().skip(offset).zip(values) {
            *y = *value;
        }
        for (y, item) in frame
            .iter_mut()
            .skip(offset)
            .skip(values.len())
            .zip(&mut rest)
        {
            *y = *item;
        }
    }
}

// The bytes of each frame in this order.
fn permute(order: &[u8], x: &[u8], out: &mut [u8]) {
    if order.is_empty() {
        return;
    }
    let frames = x.chunks_exact(order.len());
    for (placed, frame) in out.chunks_exact_mut(order.len()).zip(frames) {
        for (y, place) in placed.iter_mut().zip(order) {
            if let Some(item) = frame.get(*place as usize) {
                *y = *item;
            }
        }
    }
}

// What a row says of its kind.
fn row<'a>(kernel: &'a str, item: &'a str) -> Row<'a> {
    Row {
        kernel,
        item,
        length: ITEMS,
    }
}

// So many firings over one input and one output.
fn calls(firings: u64) -> Call
    ensures { result ≡ record { inputs = 1; outputs = 1; firings = firings } }
{
    Call {
        inputs: 1,
        outputs: 1,
        firings,
    }
}

// The order that writes 8 rows of 8 as columns, as bytes and as a maker of blocks takes it.
fn columns(alloc: Global) -> io::Result<(Vec<u8>, Vec<i64>)> {
    let (mut bytes, mut places) = (Vec::new(alloc), Vec::new(alloc));
    for column in 0..8u8 {
        for line in 0..8u8 {
            let place = line.wrapping_mul(8).wrapping_add(column);
            bytes.push(place)?;
            places.push(i64::from(place))?;
        }
    }
    Ok((bytes, places))
}

/// Prints each row once it is measured.
pub fn print_frames(rt: &HostRuntime) -> io::Result<()> {
    let alloc = rt.alloc();
    print_kind(
        rt,
        row("keep_m_in_n", "byte 3 of 8"),
        KeepMInN::new(Byte, 3, 8, 2),
        calls(512),
        &Frames::KeepMInN(3, 8, 2),
    )?;
    print_kind(
        rt,
        row("keep_m_in_n", "byte 48 of 64"),
        KeepMInN::new(Byte, 48, 64, 16),
        calls(64),
        &Frames::KeepMInN(48, 64, 16),
    )?;
    print_kind(
        rt,
        row("insert", "byte 4 in 64"),
        Insert::new(alloc, Byte, &[1, 2, 3, 4], 64, 0),
        calls(64),
        &Frames::Insert(&[1, 2, 3, 4], 64, 0),
    )?;
    let (order, places) = columns(alloc)?;
    print_kind(
        rt,
        row("permute", "byte 8 by 8"),
        Permute::new(alloc, Byte, &places),
        calls(64),
        &Frames::Permute(&order),
    )
}
