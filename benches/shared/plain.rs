//! Slices of items of one type, and the loop over one that a block which adds 1 stands for. Programs that time graphs
//! share it.

use std::alloc::{AllocError, Global};

/// A type of items.
pub trait Item: Copy + Drop {
    const ZERO: Self;

    /// The next number, or the least behind the greatest.
    fn next(self) -> Self;
}

impl Item for u8 {
    const ZERO: u8 = 0;

    fn next(self) -> u8 {
        self.wrapping_add(1)
    }
}

impl Item for i16 {
    const ZERO: i16 = 0;

    fn next(self) -> i16 {
        self.wrapping_add(1)
    }
}

impl Item for i32 {
    const ZERO: i32 = 0;

    fn next(self) -> i32 {
        self.wrapping_add(1)
    }
}

/// So many items that count from 0 on.
pub fn counted<T: Item>(alloc: Global, count: usize) -> Result<Vec<T>, AllocError> {
    let mut items = Vec::with_capacity(alloc, count)?;
    let mut item = T::ZERO;
    for _ in 0..count {
        items.push(item)?;
        item = item.next();
    }
    Ok(items)
}

/// Writes the next number of each item.
#[inline(never)]
pub fn add_one<T: Item>(items: &[T], out: &mut [T]) {
    for (item, next) in items.iter().zip(out.iter_mut()) {
        *next = item.next();
    }
}
