//! Each kernel as the plain loop that its definition suggests: the measuring stick.
ghost use Rattle.std.specs.Prelude.{◌≡◌, ◌+◌, ◌≤◌, length};

use crate::item::Item;

/// What a kernel makes of two numbers, before the low bits are kept.
#[derive(Clone, Copy)]
pub enum Operation {
    First,
    Sum,
    Product,
    And,
    Or,
    Xor,
}

/// The operation on each two items.
#[inline(always)]
pub fn zip<T: Item>(operation: Operation, a: &[T], b: &[T], out: &mut [T])
    requires b_length { length b.now ≡ length a.now }
    requires out_length { length out.old ≡ length a.now }
{
    for i in 0..a.len() {
        out[i] = T::wrapped(apply(operation, a[i].widen(), b[i].widen()));
    }
}

/// The operation on each item and `c`.
#[inline(always)]
pub fn map<T: Item, U: Item>(operation: Operation, a: &[T], c: i64, out: &mut [U])
    requires { length out.old ≡ length a.now }
{
    for i in 0..a.len() {
        out[i] = U::wrapped(apply(operation, a[i].widen(), c));
    }
}

// A caller names `operation`, so that no loop looks at it.
#[inline(always)]
fn apply(operation: Operation, a: i64, b: i64) -> i64 {
    match operation {
        Operation::First => a,
        Operation::Sum => a.wrapping_add(b),
        Operation::Product => a.wrapping_mul(b),
        Operation::And => a & b,
        Operation::Or => a | b,
        Operation::Xor => a ^ b,
    }
}

pub fn scale_sat<T: Item>(a: &[T], factor: i16, shift: u32, out: &mut [T])
    requires in_range { shift ≤ 31 }
    requires out_length { length out.old ≡ length a.now }
{
    for i in 0..a.len() {
        let product = a[i].widen().wrapping_mul(i64::from(factor));
        out[i] = T::saturated(rounded(product, shift));
    }
}

pub fn dot<T: Item>(h: &[i16], x: &[T]) -> i64
    requires { length h.now ≡ length x.now }
{
    let mut sum: i64 = 0;
    for j in 0..h.len() {
        sum = sum.wrapping_add(i64::from(h[j]).wrapping_mul(x[j].widen()));
    }
    sum
}

pub fn fir_row<T: Item>(h: &[i16], x: &[T], shift: u32, out: &mut [T])
    requires taps { 1 ≤ length h.now }
    requires lengths { length x.now + 1 ≡ length out.old + length h.now }
    requires in_range { shift ≤ 31 }
{
    for n in 0..out.len() {
        let mut sum: i64 = 0;
        for j in 0..h.len() {
            let item = x[n + (h.len() - 1 - j)].widen();
            sum = sum.wrapping_add(i64::from(h[j]).wrapping_mul(item));
        }
        out[n] = T::saturated(rounded(sum, shift));
    }
}

pub fn pack_bits(k: u32, x: &[u8], out: &mut [u8])
    requires { 1 ≤ k }
{
    for (byte, bits) in out.iter_mut().zip(x.chunks_exact(k as usize)) {
        let mut packed = 0;
        for bit in bits {
            packed = packed << 1 | *bit & 1;
        }
        *byte = packed;
    }
}

pub fn unpack_bits(k: u32, x: &[u8], out: &mut [u8])
    requires { 1 ≤ k }
{
    for (bits, byte) in out.chunks_exact_mut(k as usize).zip(x) {
        let mut place = k;
        for bit in bits {
            place = place.wrapping_sub(1);
            *bit = byte.wrapping_shr(place) & 1;
        }
    }
}

pub fn diff_decode(m: u32, before: u8, x: &[u8], out: &mut [u8])
    requires least { 2 ≤ m }
    requires most { m ≤ 256 }
    requires lengths { length x.now ≡ length out.old }
{
    let mut past = before;
    for n in 0..x.len() {
        let difference = u32::from(x[n]) + 256 * m - u32::from(past);
        out[n] = (difference % m) as u8;
        past = x[n];
    }
}

// Over `2 ^ shift`, a half upwards.
pub fn rounded(sum: i64, shift: u32) -> i64
    requires { shift ≤ 31 }
{
    let half = if shift == 0 { 0 } else { 1 << (shift - 1) };
    sum.wrapping_add(half) >> shift
}
