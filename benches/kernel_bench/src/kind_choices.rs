//! The kinds that divide, slice, encode, choose of frames, hold items, repeat a list and count: their rows, and each as
//! a plain loop over slices.

use crate::kind_contest::{PlainLoop, print_kind};
use crate::kind_table::{EACH, calls, row};
use items::ItemType::Short;
use math_blocks::{AlawEncode, BinarySlicer, Divide, DivideConst, SampleAndHold, UlawEncode};
use rate_blocks::{Argmax, Counter, FrameMaximum, FrameMinimum, Pattern};
use std::io;

/// The loops from shorts to shorts, by kind, with their parameters.
#[derive(Drop)]
enum Choices<'a> {
    DivideConst(i16),
    Divide,
    FrameMinimum(usize),
    FrameMaximum(usize),
    Argmax(usize),
    SampleAndHold,
    Pattern(&'a [i16]),
    Counter(i16),
}

impl PlainLoop<i16, i16> for Choices<'_> {
    #[inline(never)]
    fn run(&self, a: &[i16], b: &[i16], out: &mut [i16], _other: &mut [i16]) {
        match self {
            Choices::DivideConst(c) => divide_const(*c, a, out),
            Choices::Divide => divide(a, b, out),
            Choices::FrameMinimum(n) => frame_minimum(*n, a, out),
            Choices::FrameMaximum(n) => frame_maximum(*n, a, out),
            Choices::Argmax(n) => argmax(*n, a, out),
            Choices::SampleAndHold => sample_and_hold(a, b, out),
            Choices::Pattern(values) => pattern(values, out),
            Choices::Counter(n) => counter(*n, out),
        }
    }
}

/// The loops from shorts to bytes.
#[derive(Drop)]
enum Bits {
    BinarySlicer(i16),
    UlawEncode,
    AlawEncode,
}

impl PlainLoop<i16, u8> for Bits {
    #[inline(never)]
    fn run(&self, a: &[i16], _b: &[i16], out: &mut [u8], _other: &mut [u8]) {
        match self {
            Bits::BinarySlicer(threshold) => binary_slicer(*threshold, a, out),
            Bits::UlawEncode => ulaw_encode(a, out),
            Bits::AlawEncode => alaw_encode(a, out),
        }
    }
}

fn quotient(x: i16, y: i16) -> i16 {
    if y == 0 { 0 } else { x.wrapping_div(y) }
}

// Each item over a number.
fn divide_const(c: i16, x: &[i16], out: &mut [i16]) {
    for (y, x) in out.iter_mut().zip(x) {
        *y = quotient(*x, c);
    }
}

// The quotients of two inputs.
fn divide(a: &[i16], b: &[i16], out: &mut [i16]) {
    for ((y, a), b) in out.iter_mut().zip(a).zip(b) {
        *y = quotient(*a, *b);
    }
}

// Whether each item is at least a threshold.
fn binary_slicer(threshold: i16, x: &[i16], out: &mut [u8]) {
    for (y, x) in out.iter_mut().zip(x) {
        *y = if *x < threshold { 0 } else { 1 };
    }
}

// The segment of a magnitude, by its highest bit.
fn segment(magnitude: u32) -> u32 {
    24u32.saturating_sub((magnitude | 255).leading_zeros())
}

fn ulaw_encode(x: &[i16], out: &mut [u8]) {
    for (y, x) in out.iter_mut().zip(x) {
        let magnitude = u32::from(x.unsigned_abs()).wrapping_add(132).min(32_767);
        let s = segment(magnitude);
        let code = (s.wrapping_mul(16)) | (magnitude.wrapping_shr(s.wrapping_add(3)) & 15);
        let sign = if *x < 0 { 127 } else { 255 };
        *y = ((code ^ sign) & 255) as u8;
    }
}

fn alaw_encode(x: &[i16], out: &mut [u8]) {
    for (y, x) in out.iter_mut().zip(x) {
        let size = u32::from(x.unsigned_abs());
        let magnitude = if *x < 0 {
            size.saturating_sub(8)
        } else {
            size.min(32_767)
        };
        let s = segment(magnitude);
        let code = (s.wrapping_mul(16)) | (magnitude.wrapping_shr(s.max(1).wrapping_add(3)) & 15);
        let sign = if *x < 0 { 85 } else { 213 };
        *y = ((code ^ sign) & 255) as u8;
    }
}

// The least of each `n` items.
fn frame_minimum(n: usize, x: &[i16], out: &mut [i16]) {
    if n == 0 {
        return;
    }
    for (y, frame) in out.iter_mut().zip(x.chunks_exact(n)) {
        let mut least = i16::MAX;
        for item in frame {
            least = least.min(*item);
        }
        *y = least;
    }
}

// The greatest of each `n` items.
fn frame_maximum(n: usize, x: &[i16], out: &mut [i16]) {
    if n == 0 {
        return;
    }
    for (y, frame) in out.iter_mut().zip(x.chunks_exact(n)) {
        let mut greatest = i16::MIN;
        for item in frame {
            greatest = greatest.max(*item);
        }
        *y = greatest;
    }
}

// Where the first of the greatest of each `n` items is.
fn argmax(n: usize, x: &[i16], out: &mut [i16]) {
    if n == 0 {
        return;
    }
    for (y, frame) in out.iter_mut().zip(x.chunks_exact(n)) {
        let (mut place, mut greatest) = (0, i16::MIN);
        let mut k: i16 = 0;
        for item in frame {
            if greatest < *item {
                greatest = *item;
                place = k;
            }
            k = k.wrapping_add(1);
        }
        *y = place;
    }
}

// The item from where another is not 0 on.
fn sample_and_hold(a: &[i16], b: &[i16], out: &mut [i16]) {
    let mut held = 0;
    for ((y, a), b) in out.iter_mut().zip(a).zip(b) {
        if *b != 0 {
            held = *a;
        }
        *y = held;
    }
}

// The list again and again.
fn pattern(values: &[i16], out: &mut [i16]) {
    for (y, value) in out.iter_mut().zip(values.iter().cycle()) {
        *y = *value;
    }
}

// 0 to `n - 1` again and again.
fn counter(n: i16, out: &mut [i16]) {
    let mut count: i16 = 0;
    for y in out.iter_mut() {
        *y = count;
        count = count.wrapping_add(1);
        if count == n {
            count = 0;
        }
    }
}

/// Prints each row once it is measured.
pub fn print_choices(rt: &HostRuntime) -> io::Result<()> {
    print_quotients(rt)?;
    print_bits(rt)?;
    print_frames(rt)?;
    print_held(rt)?;
    let alloc = rt.alloc();
    print_kind(
        rt,
        row("pattern", "short 7"),
        Pattern::new(alloc, Short, &[1, 2, 3, 4, 5, 6, 7]),
        EACH,
        &Choices::Pattern(&[1, 2, 3, 4, 5, 6, 7]),
    )?;
    print_kind(
        rt,
        row("counter", "short 1000"),
        Counter::new(Short, 1_000),
        EACH,
        &Choices::Counter(1_000),
    )
}

fn print_quotients(rt: &HostRuntime) -> io::Result<()> {
    print_kind(
        rt,
        row("divide_const", "short"),
        DivideConst::new(Short, -7),
        EACH,
        &Choices::DivideConst(-7),
    )?;
    print_kind(
        rt,
        row("divide", "short"),
        Ok(Divide::new(Short)),
        calls(2, 1, 4096),
        &Choices::Divide,
    )
}

fn print_bits(rt: &HostRuntime) -> io::Result<()> {
    print_kind(
        rt,
        row("binary_slicer", "short byte"),
        BinarySlicer::new(Short, 3),
        EACH,
        &Bits::BinarySlicer(3),
    )?;
    print_kind(
        rt,
        row("ulaw_encode", "short byte"),
        Ok(UlawEncode::new(Short)),
        EACH,
        &Bits::UlawEncode,
    )?;
    print_kind(
        rt,
        row("alaw_encode", "short byte"),
        Ok(AlawEncode::new(Short)),
        EACH,
        &Bits::AlawEncode,
    )
}

fn print_frames(rt: &HostRuntime) -> io::Result<()> {
    print_kind(
        rt,
        row("frame_minimum", "short 32"),
        FrameMinimum::new(Short, 32),
        calls(1, 1, 128),
        &Choices::FrameMinimum(32),
    )?;
    print_kind(
        rt,
        row("frame_maximum", "short 32"),
        FrameMaximum::new(Short, 32),
        calls(1, 1, 128),
        &Choices::FrameMaximum(32),
    )?;
    print_kind(
        rt,
        row("argmax", "short 32"),
        Argmax::new(Short, 32),
        calls(1, 1, 128),
        &Choices::Argmax(32),
    )
}

fn print_held(rt: &HostRuntime) -> io::Result<()> {
    print_kind(
        rt,
        row("sample_and_hold", "short"),
        Ok(SampleAndHold::new(Short)),
        calls(2, 1, 4096),
        &Choices::SampleAndHold,
    )
}
