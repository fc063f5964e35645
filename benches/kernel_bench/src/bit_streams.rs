//! The kinds that see the bits of items as one stream, beside plain loops that go bit by bit.

use crate::item::Item;
use crate::kind_contest::print_kind;
use crate::kind_plain::{Bytes, Shorts};
use crate::kind_table::{EACH, calls, row};
use bit_blocks::BitOrder::{LsbFirst, MsbFirst};
use bit_blocks::{CorrelateAccessCode, PackedToUnpacked, RepackBits, UnpackedToPacked};
use items::ItemType::Short;
use std::io;

// A code of 64 bits, and how many of them may be wrong.
const CODE: u64 = 0xacdd_a4e2_f28c_20fc;
const WRONG: u32 = 4;

/// Prints their rows.
pub fn print_bit_streams(rt: &HostRuntime) -> io::Result<()> {
    print_kind(
        rt,
        row("repack_bits", "byte 7 8"),
        RepackBits::new(7, 8, MsbFirst),
        calls(1, 1, 512),
        &Bytes::RepackBits(7, 8),
    )?;
    print_kind(
        rt,
        row("packed_to_unpacked", "short 4"),
        PackedToUnpacked::new(Short, 4, MsbFirst),
        calls(1, 1, 1024),
        &Shorts::Recut(16, 4),
    )?;
    print_kind(
        rt,
        row("packed_to_unpacked", "short 4 lsb"),
        PackedToUnpacked::new(Short, 4, LsbFirst),
        calls(1, 1, 1024),
        &Shorts::RecutTurned(4),
    )?;
    print_kind(
        rt,
        row("unpacked_to_packed", "short 4"),
        UnpackedToPacked::new(Short, 4, MsbFirst),
        calls(1, 1, 1024),
        &Shorts::Recut(4, 16),
    )?;
    print_kind(
        rt,
        row("correlate_access_code", "byte 64"),
        CorrelateAccessCode::new(CODE, 64, WRONG),
        EACH,
        &Bytes::CorrelateAccessCode(CODE, WRONG),
    )
}

/// The lowest `from` bits of each item, the highest first, in items of `to` bits.
#[inline(always)]
pub fn recut<T: Item>(from: usize, to: usize, x: &[T], out: &mut [T]) {
    if from == 0 || 32 < from {
        return;
    }
    let mut place: usize = 0;
    for y in out.iter_mut() {
        let mut word: i64 = 0;
        for _ in 0..to {
            let bit = match x.get(place / from) {
                Some(item) => (item.widen() >> (from - 1 - place % from) as u32) & 1,
                None => 0,
            };
            word = word.wrapping_mul(2).wrapping_add(bit);
            place = place.wrapping_add(1);
        }
        *y = T::wrapped(word);
    }
}

/// All bits of each short, the lowest first, in shorts of `to` bits.
#[inline(always)]
pub fn recut_turned(to: usize, x: &[i16], out: &mut [i16]) {
    let mut place: usize = 0;
    for y in out.iter_mut() {
        let mut word: i64 = 0;
        for _ in 0..to {
            let bit = match x.get(place / 16) {
                Some(item) => (i64::from(*item) >> (place % 16) as u32) & 1,
                None => 0,
            };
            word = word.wrapping_mul(2).wrapping_add(bit);
            place = place.wrapping_add(1);
        }
        *y = i16::wrapped(word);
    }
}

/// The bit of each byte behind a word of 64, and 2 where that is a code but for so many bits.
#[inline(always)]
pub fn correlate(code: u64, wrong: u32, x: &[u8], out: &mut [u8]) {
    let mut word: u64 = 0;
    for item in x.iter().take(64) {
        word = (word << 1) | u64::from(*item & 1);
    }
    for (y, item) in out.iter_mut().zip(x.iter().skip(64)) {
        let near = (word ^ code).count_ones() <= wrong;
        *y = (*item & 1) | if near { 2 } else { 0 };
        word = (word << 1) | u64::from(*item & 1);
    }
}
