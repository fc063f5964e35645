//! Each kind of block as a plain loop over slices: the measuring stick. Where a block reads the past, the input begins
//! with it.

use crate::bit_streams::{correlate, recut, recut_turned};
use crate::item::Item;
use crate::kind_contest::PlainLoop;
use crate::plain::{self, Operation, rounded};
use crate::plain_arithmetic::{
    abs, add_const, and_const, clip, maximum, minimum, multiply, multiply_const, not, or_const,
    sub, xor_const,
};

/// The loops from bytes to bytes, by kind, with their parameters.
#[derive(Drop)]
pub enum Bytes<'a> {
    AddConst(u8),
    MultiplyConst(u8),
    AndConst(u8),
    OrConst(u8),
    XorConst(u8),
    Scale(i16, u32),
    Add,
    Multiply,
    Sub,
    Minimum,
    Maximum,
    And,
    Or,
    Xor,
    Not,
    Clip(u8, u8),
    MapBb(&'a [u8]),
    MovingSum(usize),
    KeepOneInN(usize),
    Integrate(usize),
    Repeat(usize),
    Interleave,
    Deinterleave,
    StreamMux(usize, usize),
    SkipHead(usize),
    Delay(usize),
    PackKBits(u32),
    UnpackKBits(u32),
    RepackBits(usize, usize),
    CorrelateAccessCode(u64, u32),
    DiffEncoder(u32),
    DiffDecoder(u32),
    Scrambler(Bits),
    Descrambler(Bits),
    AdditiveScrambler(Bits),
}

impl PlainLoop<u8, u8> for Bytes<'_> {
    #[inline(never)]
    fn run(&self, a: &[u8], b: &[u8], out: &mut [u8], other: &mut [u8]) {
        match self {
            Bytes::AddConst(c) => add_const(*c, a, out),
            Bytes::MultiplyConst(c) => multiply_const(*c, a, out),
            Bytes::AndConst(c) => and_const(*c, a, out),
            Bytes::OrConst(c) => or_const(*c, a, out),
            Bytes::XorConst(c) => xor_const(*c, a, out),
            Bytes::Scale(factor, shift) => scale(*factor, *shift, a, out),
            Bytes::Add => zip(Operation::Sum, a, b, out),
            Bytes::Multiply => multiply(a, b, out),
            Bytes::Sub => sub(a, b, out),
            Bytes::Minimum => minimum(a, b, out),
            Bytes::Maximum => maximum(a, b, out),
            Bytes::And => zip(Operation::And, a, b, out),
            Bytes::Or => zip(Operation::Or, a, b, out),
            Bytes::Xor => zip(Operation::Xor, a, b, out),
            Bytes::Not => not(a, out),
            Bytes::Clip(low, high) => clip(*low, *high, a, out),
            Bytes::MapBb(table) => map_bb(table, a, out),
            Bytes::MovingSum(length) => moving_sum(*length, a, out),
            Bytes::KeepOneInN(n) => keep_one_in_n(*n, a, out),
            Bytes::Integrate(n) => integrate(*n, a, out),
            Bytes::Repeat(n) => repeat(*n, a, out),
            Bytes::Interleave => interleave(a, b, out),
            Bytes::Deinterleave => deinterleave(a, out, other),
            Bytes::StreamMux(of_a, of_b) => stream_mux(*of_a, *of_b, a, b, out),
            Bytes::SkipHead(n) => skiphead(*n, a, out),
            Bytes::Delay(n) => delay(*n, a, out),
            Bytes::PackKBits(k) => pack_k_bits(*k, a, out),
            Bytes::UnpackKBits(k) => unpack_k_bits(*k, a, out),
            Bytes::RepackBits(from, to) => recut(*from, *to, a, out),
            Bytes::CorrelateAccessCode(code, wrong) => correlate(*code, *wrong, a, out),
            Bytes::DiffEncoder(modulus) => diff_encoder(*modulus, a, out),
            Bytes::DiffDecoder(modulus) => diff_decoder(*modulus, a, out),
            Bytes::Scrambler(bits) => scrambler(*bits, a, out),
            Bytes::Descrambler(bits) => descrambler(*bits, a, out),
            Bytes::AdditiveScrambler(bits) => additive_scrambler(*bits, a, out),
        }
    }
}

/// Shorts to bytes.
#[derive(Drop)]
pub struct Narrowed;

impl PlainLoop<i16, u8> for Narrowed {
    #[inline(never)]
    fn run(&self, a: &[i16], _b: &[i16], out: &mut [u8], _other: &mut [u8]) {
        for (y, x) in out.iter_mut().zip(a) {
            *y = u8::wrapped(i64::from(*x));
        }
    }
}

/// The loops over shorts.
#[derive(Drop)]
pub enum Shorts<'a> {
    Fir(&'a [i16]),
    InterpFir(&'a [i16]),
    Recut(usize, usize),
    RecutTurned(usize),
}

impl PlainLoop<i16, i16> for Shorts<'_> {
    #[inline(never)]
    fn run(&self, a: &[i16], _b: &[i16], out: &mut [i16], _other: &mut [i16]) {
        match self {
            Shorts::Fir(h) => fir(h, a, out),
            Shorts::InterpFir(h) => interp_fir(h, a, out),
            Shorts::Recut(from, to) => recut(*from, *to, a, out),
            Shorts::RecutTurned(to) => recut_turned(*to, a, out),
        }
    }
}

/// The loops over ints.
#[derive(Drop)]
pub enum Ints<'a> {
    MultiplyConst(i32),
    Scale(i16, u32),
    Multiply,
    Abs,
    Fir(&'a [i16]),
}

impl PlainLoop<i32, i32> for Ints<'_> {
    #[inline(never)]
    fn run(&self, a: &[i32], b: &[i32], out: &mut [i32], _other: &mut [i32]) {
        match self {
            Ints::MultiplyConst(c) => multiply_const(*c, a, out),
            Ints::Scale(factor, shift) => scale(*factor, *shift, a, out),
            Ints::Multiply => multiply(a, b, out),
            Ints::Abs => abs(a, out),
            Ints::Fir(h) => fir(h, a, out),
        }
    }
}

fn scale<T: Item>(factor: i16, shift: u32, x: &[T], out: &mut [T]) {
    if shift <= 31 && x.len() == out.len() {
        plain::scale_sat(x, factor, shift, out);
    }
}

#[inline(always)]
fn zip(operation: Operation, a: &[u8], b: &[u8], out: &mut [u8]) {
    if a.len() == b.len() && a.len() == out.len() {
        plain::zip(operation, a, b, out);
    }
}

// Over `2 ^ 15`, as the interpolating one: taps are fractions.
fn fir<T: Item>(h: &[i16], x: &[T], out: &mut [T]) {
    if h.is_empty() || out.is_empty() || x.len() < h.len() {
        return;
    }
    if x.len() - h.len() == out.len() - 1 {
        plain::fir_row(h, x, 15, out);
    }
}

fn pack_k_bits(k: u32, x: &[u8], out: &mut [u8]) {
    if 1 <= k {
        plain::pack_bits(k, x, out);
    }
}

fn unpack_k_bits(k: u32, x: &[u8], out: &mut [u8]) {
    if 1 <= k {
        plain::unpack_bits(k, x, out);
    }
}

fn diff_decoder(modulus: u32, x: &[u8], out: &mut [u8]) {
    if let Some((past, x)) = x.split_first() {
        if 2 <= modulus && modulus <= 256 && x.len() == out.len() {
            plain::diff_decode(modulus, *past, x, out);
        }
    }
}

// What the table has at each byte, or the byte past its end.
fn map_bb(table: &[u8], x: &[u8], out: &mut [u8]) {
    for (y, x) in out.iter_mut().zip(x) {
        *y = match table.get(usize::from(*x)) {
            Some(to) => *to,
            None => *x,
        };
    }
}

// The sum of each `length` bytes.
fn moving_sum(length: usize, x: &[u8], out: &mut [u8]) {
    if length == 0 {
        return;
    }
    let Some(coming) = x.get(length - 1..) else {
        return;
    };
    let mut sum: u8 = 0;
    for item in x.iter().take(length - 1) {
        sum = sum.wrapping_add(*item);
    }
    for ((y, new), old) in out.iter_mut().zip(coming).zip(x) {
        sum = sum.wrapping_add(*new);
        *y = sum;
        sum = sum.wrapping_sub(*old);
    }
}

// Four items for one.
fn interp_fir(h: &[i16], x: &[i16], out: &mut [i16]) {
    if h.len() < 4 {
        return;
    }
    for (group, items) in out.chunks_exact_mut(4).zip(x.windows(h.len() / 4)) {
        let mut sums = [0i64; 4];
        for (taps, item) in h.chunks_exact(4).zip(items.iter().rev()) {
            for (sum, tap) in sums.iter_mut().zip(taps) {
                *sum = sum.wrapping_add(i64::from(*tap).wrapping_mul(i64::from(*item)));
            }
        }
        for (y, sum) in group.iter_mut().zip(&sums) {
            *y = i16::saturated(rounded(*sum, 15));
        }
    }
}

// The last of each `n` bytes.
fn keep_one_in_n(n: usize, x: &[u8], out: &mut [u8]) {
    if n == 0 {
        return;
    }
    for (y, items) in out.iter_mut().zip(x.chunks_exact(n)) {
        if let Some(last) = items.last() {
            *y = *last;
        }
    }
}

// The sum of each `n` bytes.
fn integrate(n: usize, x: &[u8], out: &mut [u8]) {
    if n == 0 {
        return;
    }
    for (y, items) in out.iter_mut().zip(x.chunks_exact(n)) {
        let mut sum: u8 = 0;
        for item in items {
            sum = sum.wrapping_add(*item);
        }
        *y = sum;
    }
}

// Each byte `n` times.
fn repeat(n: usize, x: &[u8], out: &mut [u8]) {
    if n == 0 {
        return;
    }
    for (group, item) in out.chunks_exact_mut(n).zip(x) {
        group.fill(*item);
    }
}

fn interleave(a: &[u8], b: &[u8], out: &mut [u8]) {
    for ((pair, a), b) in out.chunks_exact_mut(2).zip(a).zip(b) {
        if let [first, second] = pair {
            *first = *a;
            *second = *b;
        }
    }
}

fn deinterleave(x: &[u8], out: &mut [u8], other: &mut [u8]) {
    for ((first, second), pair) in out.iter_mut().zip(other).zip(x.chunks_exact(2)) {
        if let [a, b] = pair {
            *first = *a;
            *second = *b;
        }
    }
}

// So many bytes of the one and so many of the other in turn.
fn stream_mux(of_a: usize, of_b: usize, a: &[u8], b: &[u8], out: &mut [u8]) {
    if of_a == 0 || of_b == 0 || 1024 < of_a || 1024 < of_b {
        return;
    }
    let rounds = out.chunks_exact_mut(of_a + of_b);
    for ((round, a), b) in rounds.zip(a.chunks_exact(of_a)).zip(b.chunks_exact(of_b)) {
        for (y, item) in round.iter_mut().zip(a) {
            *y = *item;
        }
        for (y, item) in round.iter_mut().skip(of_a).zip(b) {
            *y = *item;
        }
    }
}

// All but the first `n` bytes.
fn skiphead(n: usize, x: &[u8], out: &mut [u8]) {
    for (y, item) in out.iter_mut().zip(x.iter().skip(n)) {
        *y = *item;
    }
}

fn delay(n: usize, x: &[u8], out: &mut [u8]) {
    for y in out.iter_mut().take(n) {
        *y = 0;
    }
    for (y, item) in out.iter_mut().skip(n).zip(x) {
        *y = *item;
    }
}

fn diff_encoder(modulus: u32, x: &[u8], out: &mut [u8]) {
    if modulus < 2 || 256 < modulus {
        return;
    }
    let mut sum: u32 = 0;
    for (y, item) in out.iter_mut().zip(x) {
        sum = sum.wrapping_add(u32::from(*item)) % modulus;
        *y = sum as u8;
    }
}

/// A shift register of up to 31 bits: those of `mask` are summed, and those of `all` are kept.
#[derive(Clone, Copy)]
pub struct Bits {
    pub mask: u32,
    pub init: u32,
    pub all: u32,
}

impl Bits {
    // The sum of a byte and the bits of a word, modulo 2.
    fn sum(&self, word: u32, byte: u8) -> u8 {
        (byte ^ ((word & self.mask).count_ones() % 2) as u8) & 1
    }

    fn push(&self, word: u32, bit: u8) -> u32 {
        (word << 1 | u32::from(bit)) & self.all
    }
}

fn scrambler(bits: Bits, x: &[u8], out: &mut [u8]) {
    let mut word = bits.init;
    for (y, item) in out.iter_mut().zip(x) {
        let bit = bits.sum(word, *item);
        *y = bit;
        word = bits.push(word, bit);
    }
}

fn descrambler(bits: Bits, x: &[u8], out: &mut [u8]) {
    let mut word = bits.init;
    for (y, item) in out.iter_mut().zip(x) {
        *y = bits.sum(word, *item);
        word = bits.push(word, *item & 1);
    }
}

fn additive_scrambler(bits: Bits, x: &[u8], out: &mut [u8]) {
    let mut word = bits.init;
    for (y, item) in out.iter_mut().zip(x) {
        let bit = bits.sum(word, 0);
        *y = (*item ^ bit) & 1;
        word = bits.push(word, bit);
    }
}
