//! The kernels, each with its plain loop.
ghost use Rattle.std.specs.Prelude.{◌≡◌, ◌≤◌, ◌+◌, ◌*◌, ◌<◌, length};

use crate::contest::{Contest, Side};
use crate::item::Item;
use crate::plain::{self, Operation};
use lane_filters::{FilterLane, diff_decode, dot_i16, dot_i32, fir_row, pack_bits, unpack_bits};
use lane_kernels::{
    AndBits, NarrowsTo, OrBits, SimdLane, WidensTo, XorBits, add_const_wrap, add_wrap, join_bits,
    mul_wrap, narrow, not, scale_sat, widen,
};

/// A kernel that gives an item for each item.
#[derive(Clone, Copy)]
pub enum Kernel {
    AddWrap,
    AddConstWrap,
    MulWrap,
    And,
    Or,
    Xor,
    Not,
}

/// A type for each of these kernels, so that the code of its contest looks at no other.
pub trait Chosen {
    const KERNEL: Kernel;
}

#[derive(Drop)]
pub struct AddWrap;

impl Chosen for AddWrap {
    const KERNEL: Kernel = Kernel::AddWrap;
}

#[derive(Drop)]
pub struct AddConstWrap;

impl Chosen for AddConstWrap {
    const KERNEL: Kernel = Kernel::AddConstWrap;
}

#[derive(Drop)]
pub struct MulWrap;

impl Chosen for MulWrap {
    const KERNEL: Kernel = Kernel::MulWrap;
}

#[derive(Drop)]
pub struct And;

impl Chosen for And {
    const KERNEL: Kernel = Kernel::And;
}

#[derive(Drop)]
pub struct Or;

impl Chosen for Or {
    const KERNEL: Kernel = Kernel::Or;
}

#[derive(Drop)]
pub struct Xor;

impl Chosen for Xor {
    const KERNEL: Kernel = Kernel::Xor;
}

#[derive(Drop)]
pub struct Not;

impl Chosen for Not {
    const KERNEL: Kernel = Kernel::Not;
}

/// A kernel of `x` and `y`, or of `x` and the first item of `y`.
#[derive(Drop)]
pub struct Items<'a, T, K> {
    pub y: &'a [T],
    pub kernel: K,
}

impl<T: SimdLane + Item, K: Chosen> Contest<T, T> for Items<'_, T, K> {
    ghost fits = { λ s n m. (length s.y.now ≡ n) × (m ≡ n) × (0 < n) };

    #[inline(always)]
    fn call(&self, side: Side, x: &[T], out: &mut [T]) {
        match side {
            Side::Kernel => call_kernel(K::KERNEL, x, self.y, out),
            Side::Plain => call_plain(K::KERNEL, x, self.y, out),
        }
    }
}

/// The kernel of `x` and `y`, or of `x` and the first item of `y`.
#[inline(always)]
pub fn call_kernel<T: SimdLane>(kernel: Kernel, x: &[T], y: &[T], out: &mut [T])
    requires some { 0 < length x.now }
    requires same_length { length y.now ≡ length x.now }
    requires out_length { length out.old ≡ length x.now }
{
    match kernel {
        Kernel::AddWrap => add_wrap(x, y, out),
        Kernel::AddConstWrap => add_const_wrap(x, y[0], out),
        Kernel::MulWrap => mul_wrap(x, y[0], out),
        Kernel::And => join_bits::<T, AndBits>(x, y, out),
        Kernel::Or => join_bits::<T, OrBits>(x, y, out),
        Kernel::Xor => join_bits::<T, XorBits>(x, y, out),
        Kernel::Not => not(x, out),
    }
}

#[inline(always)]
fn call_plain<T: Item>(kernel: Kernel, x: &[T], y: &[T], out: &mut [T])
    requires some { 0 < length x.now }
    requires same_length { length y.now ≡ length x.now }
    requires out_length { length out.old ≡ length x.now }
{
    match kernel {
        Kernel::AddWrap => plain::zip(Operation::Sum, x, y, out),
        Kernel::AddConstWrap => plain::map(Operation::Sum, x, y[0].widen(), out),
        Kernel::MulWrap => plain::map(Operation::Product, x, y[0].widen(), out),
        Kernel::And => plain::zip(Operation::And, x, y, out),
        Kernel::Or => plain::zip(Operation::Or, x, y, out),
        Kernel::Xor => plain::zip(Operation::Xor, x, y, out),
        Kernel::Not => plain::map(Operation::Xor, x, -1, out),
    }
}

#[derive(Drop)]
pub struct Scale {
    pub factor: i16,
    pub shift: u32,
}

impl<T: SimdLane + Item> Contest<T, T> for Scale {
    ghost fits = { λ s n m. (m ≡ n) × (s.shift ≤ 31) };

    #[inline(always)]
    fn call(&self, side: Side, x: &[T], out: &mut [T]) {
        match side {
            Side::Kernel => scale_sat(x, self.factor, self.shift, out),
            Side::Plain => plain::scale_sat(x, self.factor, self.shift, out),
        }
    }
}

#[derive(Drop)]
pub struct Widen;

impl<T: WidensTo<U> + Item, U: SimdLane + Item> Contest<T, U> for Widen {
    ghost fits = { λ s n m. m ≡ n };

    #[inline(always)]
    fn call(&self, side: Side, x: &[T], out: &mut [U]) {
        match side {
            Side::Kernel => widen(x, out),
            Side::Plain => plain::map(Operation::First, x, 0, out),
        }
    }
}

#[derive(Drop)]
pub struct Narrow;

impl<T: NarrowsTo<U> + Item, U: SimdLane + Item> Contest<T, U> for Narrow {
    ghost fits = { λ s n m. m ≡ n };

    #[inline(always)]
    fn call(&self, side: Side, x: &[T], out: &mut [U]) {
        match side {
            Side::Kernel => narrow(x, out),
            Side::Plain => plain::map(Operation::First, x, 0, out),
        }
    }
}

#[derive(Drop)]
pub struct Pack {
    pub k: u32,
}

impl Contest<u8, u8> for Pack {
    ghost fits = { λ s n m. (n ≡ s.k * m) × (1 ≤ s.k) × (s.k ≤ 8) };

    #[inline(always)]
    fn call(&self, side: Side, x: &[u8], out: &mut [u8]) {
        match side {
            Side::Kernel => pack_bits(self.k, x, out),
            Side::Plain => plain::pack_bits(self.k, x, out),
        }
    }
}

#[derive(Drop)]
pub struct Unpack {
    pub k: u32,
}

impl Contest<u8, u8> for Unpack {
    ghost fits = { λ s n m. (m ≡ s.k * n) × (1 ≤ s.k) × (s.k ≤ 8) };

    #[inline(always)]
    fn call(&self, side: Side, x: &[u8], out: &mut [u8]) {
        match side {
            Side::Kernel => unpack_bits(self.k, x, out),
            Side::Plain => plain::unpack_bits(self.k, x, out),
        }
    }
}

#[derive(Drop)]
pub struct Differences {
    pub m: u32,
}

impl Contest<u8, u8> for Differences {
    ghost fits = { λ s n m. (m ≡ n) × (2 ≤ s.m) × (s.m ≤ 256) };

    #[inline(always)]
    fn call(&self, side: Side, x: &[u8], out: &mut [u8]) {
        match side {
            Side::Kernel => diff_decode(self.m, 0, x, out),
            Side::Plain => plain::diff_decode(self.m, 0, x, out),
        }
    }
}

#[derive(Drop)]
pub struct Dot<'a> {
    pub taps: &'a [i16],
}

impl Contest<i16, i64> for Dot<'_> {
    ghost fits = { λ s n m. (m ≡ 1) × (length s.taps.now ≡ n) × (n ≤ 256) };

    #[inline(always)]
    fn call(&self, side: Side, x: &[i16], out: &mut [i64]) {
        out[0] = match side {
            Side::Kernel => dot_i16(self.taps, x),
            Side::Plain => plain::dot(self.taps, x),
        };
    }
}

impl Contest<i32, i64> for Dot<'_> {
    ghost fits = { λ s n m. (m ≡ 1) × (length s.taps.now ≡ n) × (n ≤ 256) };

    #[inline(always)]
    fn call(&self, side: Side, x: &[i32], out: &mut [i64]) {
        out[0] = match side {
            Side::Kernel => dot_i32(self.taps, x),
            Side::Plain => plain::dot(self.taps, x),
        };
    }
}

#[derive(Drop)]
pub struct Fir<'a> {
    pub taps: &'a [i16],
}

// The sums are over `2 ^ 15`: taps are fractions.
impl<T: FilterLane + Item> Contest<T, T> for Fir<'_> {
    ghost fits = { λ s n m. (n + 1 ≡ m + length s.taps.now) × (1 ≤ length s.taps.now) × (length s.taps.now ≤ 256) };

    #[inline(always)]
    fn call(&self, side: Side, x: &[T], out: &mut [T]) {
        match side {
            Side::Kernel => fir_row(self.taps, x, 15, out),
            Side::Plain => plain::fir_row(self.taps, x, 15, out),
        }
    }
}
