//! The table: a row for each kernel, type and length.
ghost use Rattle.std.specs.Prelude.{◌≤◌, ◌<◌, ◌≤ℤ◌, pos};

use crate::contest::{Row, noise, print_contest};
use crate::contests::{
    AddConstWrap, AddWrap, And, Chosen, Differences, Dot, Fir, Items, MulWrap, Narrow, Not, Or,
    Pack, Scale, Unpack, Widen, Xor,
};
use crate::item::Item;
use lane_filters::FilterLane;
use lane_kernels::{NarrowsTo, SimdLane, WidensTo};
use std::io;

// The distances from 0 of 256 taps over so much sum up to less than `2 ^ 16`.
const LIGHT: i16 = 128;

// The parts of the table, in its order.
const PARTS: [&str; 5] = ["16", "64", "near", "far", "filters"];

/// Whether a part of the table has this name.
pub fn is_part(name: &str) -> bool {
    PARTS.contains(&name)
}

/// Prints each row once it is measured.
pub fn print_table(rt: &HostRuntime) -> io::Result<()> {
    print_head(rt)?;
    for part in PARTS {
        print_rows(rt, part)?;
    }
    Ok(())
}

/// Prints each row of one part once it is measured.
pub fn print_part(rt: &HostRuntime, name: &str) -> io::Result<()> {
    print_head(rt)?;
    print_rows(rt, name)
}

fn print_head(rt: &HostRuntime) -> io::Result<()> {
    println!(rt; "kernel             type             length    M items/s   plain loop   ratio")
}

// Slices of 16 and of 64 items, those of 4 KiB, which stand in the first cache, and of 256 KiB, which stand in the
// second, and filters.
fn print_rows(rt: &HostRuntime, part: &str) -> io::Result<()> {
    match part {
        "16" => print_slices(rt, 16, 16, 16),
        "64" => print_slices(rt, 64, 64, 64),
        "near" => print_slices(rt, 4096, 2048, 1024),
        "far" => print_slices(rt, 262_144, 131_072, 65_536),
        _ => print_filters(rt),
    }
}

// So many bytes, shorts and ints a call.
fn print_slices(rt: &HostRuntime, bytes: u32, shorts: u32, ints: u32) -> io::Result<()>
    requires some_bytes { 0 < bytes }
    requires some_shorts { 0 < shorts }
    requires some_ints { 0 < ints }
{
    print_items::<u8>(rt, "byte", bytes)?;
    print_items::<i16>(rt, "short", shorts)?;
    print_items::<i32>(rt, "int", ints)?;
    print_widened::<u8, i16>(rt, "byte short", shorts)?;
    print_widened::<u8, i32>(rt, "byte int", ints)?;
    print_widened::<i16, i32>(rt, "short int", ints)?;
    print_narrowed::<i16, u8>(rt, "short byte", shorts)?;
    print_narrowed::<i32, u8>(rt, "int byte", ints)?;
    print_narrowed::<i32, i16>(rt, "int short", ints)?;
    print_packed(rt, ints)?;
    print_differences(rt, bytes)
}

fn print_filters(rt: &HostRuntime) -> io::Result<()> {
    print_dots(rt, 64)?;
    print_dots(rt, 256)?;
    print_few_taps(rt, 1024)?;
    print_firs(rt, 16)?;
    print_firs(rt, 64)?;
    print_firs(rt, 1024)?;
    print_firs(rt, 65_536)
}

// The kernels of one type.
fn print_items<T: SimdLane + Item + Default + PartialEq>(
    rt: &HostRuntime,
    item: &str,
    length: u32,
) -> io::Result<()>
    requires { 0 < length }
{
    print_item::<T, AddWrap>(rt, "add_wrap", item, length, AddWrap)?;
    print_item::<T, AddConstWrap>(rt, "add_const_wrap", item, length, AddConstWrap)?;
    print_item::<T, MulWrap>(rt, "mul_wrap", item, length, MulWrap)?;
    print_scaled::<T>(rt, item, length)?;
    print_item::<T, And>(rt, "and", item, length, And)?;
    print_item::<T, Or>(rt, "or", item, length, Or)?;
    print_item::<T, Xor>(rt, "xor", item, length, Xor)?;
    print_item::<T, Not>(rt, "not", item, length, Not)
}

fn print_item<T: SimdLane + Item + Default + PartialEq, K: Chosen + Drop>(
    rt: &HostRuntime,
    name: &str,
    item: &str,
    length: u32,
    kernel: K,
) -> io::Result<()>
    requires { 0 < length }
{
    let row = Row {
        kernel: name,
        item,
        length,
    };
    let count = length as usize;
    let y = noise::<T>(rt.alloc(), count)?;
    let items = Items {
        y: y.as_slice(),
        kernel,
    };
    print_contest(rt, row, &items, count, count)
}

fn print_scaled<T: SimdLane + Item + Default + PartialEq>(
    rt: &HostRuntime,
    item: &str,
    length: u32,
) -> io::Result<()> {
    let row = Row {
        kernel: "scale_sat",
        item,
        length,
    };
    let scale = Scale {
        factor: -181,
        shift: 7,
    };
    print_contest::<T, T, Scale>(rt, row, &scale, length as usize, length as usize)
}

fn print_widened<T: WidensTo<U> + Item, U: SimdLane + Item + Default + PartialEq>(
    rt: &HostRuntime,
    item: &str,
    length: u32,
) -> io::Result<()> {
    let row = Row {
        kernel: "widen",
        item,
        length,
    };
    print_contest::<T, U, Widen>(rt, row, &Widen, length as usize, length as usize)
}

fn print_narrowed<T: NarrowsTo<U> + Item, U: SimdLane + Item + Default + PartialEq>(
    rt: &HostRuntime,
    item: &str,
    length: u32,
) -> io::Result<()> {
    let row = Row {
        kernel: "narrow",
        item,
        length,
    };
    print_contest::<T, U, Narrow>(rt, row, &Narrow, length as usize, length as usize)
}

fn print_packed(rt: &HostRuntime, length: u32) -> io::Result<()> {
    let count = length as usize;
    let row = Row {
        kernel: "pack_bits",
        item: "byte k=8",
        length,
    };
    print_contest(rt, row, &Pack { k: 8 }, 8 * count, count)?;
    let row = Row {
        kernel: "pack_bits",
        item: "byte k=2",
        length,
    };
    print_contest(rt, row, &Pack { k: 2 }, 2 * count, count)?;
    let row = Row {
        kernel: "unpack_bits",
        item: "byte k=8",
        length,
    };
    print_contest(rt, row, &Unpack { k: 8 }, count, 8 * count)?;
    let row = Row {
        kernel: "unpack_bits",
        item: "byte k=2",
        length,
    };
    print_contest(rt, row, &Unpack { k: 2 }, count, 2 * count)
}

fn print_differences(rt: &HostRuntime, length: u32) -> io::Result<()> {
    let count = length as usize;
    let row = Row {
        kernel: "diff_decode",
        item: "byte m=4",
        length,
    };
    print_contest(rt, row, &Differences { m: 4 }, count, count)?;
    let row = Row {
        kernel: "diff_decode",
        item: "byte m=3",
        length,
    };
    print_contest(rt, row, &Differences { m: 3 }, count, count)
}

fn print_dots(rt: &HostRuntime, length: u32) -> io::Result<()>
    requires { length ≤ 256 }
{
    let taps = noise::<i16>(rt.alloc(), length as usize)?;
    let dot = Dot {
        taps: taps.as_slice(),
    };
    let row = Row {
        kernel: "dot_i16",
        item: "short",
        length,
    };
    print_contest::<i16, i64, Dot>(rt, row, &dot, length as usize, 1)?;
    let row = Row {
        kernel: "dot_i32",
        item: "int",
        length,
    };
    print_contest::<i32, i64, Dot>(rt, row, &dot, length as usize, 1)
}

fn print_few_taps(rt: &HostRuntime, length: u32) -> io::Result<()> {
    print_fir::<i16>(rt, "short 8 taps", length, 8, 1)?;
    print_fir::<i16>(rt, "short 8 light", length, 8, LIGHT)?;
    print_fir::<i32>(rt, "int 8 taps", length, 8, 1)?;
    print_fir::<i16>(rt, "short 16 taps", length, 16, 1)?;
    print_fir::<i16>(rt, "short 16 light", length, 16, LIGHT)?;
    print_fir::<i32>(rt, "int 16 taps", length, 16, 1)
}

fn print_firs(rt: &HostRuntime, length: u32) -> io::Result<()> {
    print_fir::<i16>(rt, "short 64 taps", length, 64, 1)?;
    print_fir::<i16>(rt, "short 64 light", length, 64, LIGHT)?;
    print_fir::<i32>(rt, "int 64 taps", length, 64, 1)?;
    print_fir::<i16>(rt, "short 256 taps", length, 256, 1)?;
    print_fir::<i16>(rt, "short 256 light", length, 256, LIGHT)?;
    print_fir::<i32>(rt, "int 256 taps", length, 256, 1)
}

// Taps over the type's whole range, or over a part of it.
fn print_fir<T: FilterLane + Item + Default + PartialEq>(
    rt: &HostRuntime,
    item: &str,
    length: u32,
    taps: usize,
    part: i16,
) -> io::Result<()>
    requires least { 1 ≤ taps }
    requires most { taps ≤ 256 }
    requires part { pos 1 ≤ℤ part }
{
    let mut h = noise::<i16>(rt.alloc(), taps)?;
    for tap in h.as_mut_slice() {
        *tap /= part;
    }
    let row = Row {
        kernel: "fir_row",
        item,
        length,
    };
    let count = length as usize;
    print_contest::<T, T, Fir>(
        rt,
        row,
        &Fir { taps: h.as_slice() },
        count + taps - 1,
        count,
    )
}
