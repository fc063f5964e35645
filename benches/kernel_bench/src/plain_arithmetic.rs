//! The plain loops of arithmetic and logic.

use crate::item::Item;

/// Each byte plus a number.
pub fn add_const(c: u8, x: &[u8], out: &mut [u8]) {
    for (y, x) in out.iter_mut().zip(x) {
        *y = x.wrapping_add(c);
    }
}

/// Each item times a number.
pub fn multiply_const<T: Item>(c: T, x: &[T], out: &mut [T]) {
    for (y, x) in out.iter_mut().zip(x) {
        *y = T::wrapped(x.widen().wrapping_mul(c.widen()));
    }
}

/// The bits that each byte and a number both have.
pub fn and_const(c: u8, x: &[u8], out: &mut [u8]) {
    for (y, x) in out.iter_mut().zip(x) {
        *y = *x & c;
    }
}

/// The bits that each byte or a number has.
pub fn or_const(c: u8, x: &[u8], out: &mut [u8]) {
    for (y, x) in out.iter_mut().zip(x) {
        *y = *x | c;
    }
}

/// The bits that each byte or a number has alone.
pub fn xor_const(c: u8, x: &[u8], out: &mut [u8]) {
    for (y, x) in out.iter_mut().zip(x) {
        *y = *x ^ c;
    }
}

/// The products of two inputs.
pub fn multiply<T: Item>(a: &[T], b: &[T], out: &mut [T]) {
    for ((y, a), b) in out.iter_mut().zip(a).zip(b) {
        *y = T::wrapped(a.widen().wrapping_mul(b.widen()));
    }
}

/// The differences of two inputs.
pub fn sub(a: &[u8], b: &[u8], out: &mut [u8]) {
    for ((y, a), b) in out.iter_mut().zip(a).zip(b) {
        *y = a.wrapping_sub(*b);
    }
}

/// The lesser of two inputs.
pub fn minimum(a: &[u8], b: &[u8], out: &mut [u8]) {
    for ((y, a), b) in out.iter_mut().zip(a).zip(b) {
        *y = if *b < *a { *b } else { *a };
    }
}

/// The greater of two inputs.
pub fn maximum(a: &[u8], b: &[u8], out: &mut [u8]) {
    for ((y, a), b) in out.iter_mut().zip(a).zip(b) {
        *y = if *a < *b { *b } else { *a };
    }
}

/// Each int without its sign.
pub fn abs(x: &[i32], out: &mut [i32]) {
    for (y, x) in out.iter_mut().zip(x) {
        *y = x.wrapping_abs();
    }
}

/// Each byte, or the nearer of two ends.
pub fn clip(low: u8, high: u8, x: &[u8], out: &mut [u8]) {
    for (y, x) in out.iter_mut().zip(x) {
        *y = if *x < low {
            low
        } else if high < *x {
            high
        } else {
            *x
        };
    }
}

/// Each byte with all bits inverted.
pub fn not(x: &[u8], out: &mut [u8]) {
    for (y, x) in out.iter_mut().zip(x) {
        *y = !*x;
    }
}
