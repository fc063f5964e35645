//! Dot products and rows of filter outputs.

use super::in_turn::{MOST, in_turn};
use lane_filters::{FilterLane, dot_i16, dot_i32, fir_row};
use lane_kernels::SimdLane;

// A tap and an item, each as often as the dot is long.
const SHORT_DOTS: [(&str, i16, i16); 3] = [
    ("least tap, greatest short", -32768, 32767),
    ("greatest tap, least short", 32767, -32768),
    ("least tap, least short", -32768, -32768),
];

const INT_DOTS: [(&str, i16, i32); 3] = [
    ("least tap, greatest int", -32768, 2147483647),
    ("greatest tap, least int", 32767, -2147483648),
    ("least tap, least int", -32768, -2147483648),
];

fn is_short_dot(tap: i16, item: i16, n: usize) -> bool {
    let product = i64::from(tap) * i64::from(item);
    dot_i16(&[tap; MOST][..n], &[item; MOST][..n]) == product.wrapping_mul(n as i64)
}

fn is_int_dot(tap: i16, item: i32, n: usize) -> bool {
    let product = i64::from(tap) * i64::from(item);
    dot_i32(&[tap; MOST][..n], &[item; MOST][..n]) == product.wrapping_mul(n as i64)
}

#[test]
fn dots_are_exact(rt: HostRuntime) {
    for n in 0..MOST + 1 {
        for (name, tap, item) in SHORT_DOTS {
            let holds = is_short_dot(tap, item, n);
            assert!(rt; holds, "{name}, {n} items");
        }
        for (name, tap, item) in INT_DOTS {
            let holds = is_int_dot(tap, item, n);
            assert!(rt; holds, "{name}, {n} items");
        }
    }
    let greatest = dot_i32(&[-32768; 256], &[-2147483648; 256]) == 18014398509481984;
    assert!(rt; greatest, "256 of the least taps and ints");
}

// Taps, items, a shift and the outputs.
type Row<T> = (
    &'static str,
    &'static [i16],
    &'static [T],
    u32,
    &'static [T],
);

const SHORT_ROWS: [Row<i16>; 7] = [
    (
        "both ends of shorts",
        &[32767],
        &[2, -2],
        0,
        &[32767, -32768],
    ),
    (
        "taps that sum up to 65,535",
        &[32767, 32767, 1],
        &[-32768; 18],
        16,
        &[-32767; 16],
    ),
    (
        "taps that sum up to 65,536",
        &[32767, 32767, 2],
        &[-32768; 18],
        16,
        &[-32768; 16],
    ),
    // Taps whose distances from 0 sum up to more, so that rows go by their halves.
    (
        "pairs that sum up to 65,535",
        &[32767, -32768, 32767, -32768],
        &[2; 36],
        0,
        &[-4; 33],
    ),
    (
        "fours that sum up to 65,532",
        &[16383; 8],
        &[32767; 40],
        18,
        &[16383; 33],
    ),
    (
        "a four and what is left",
        &[16383; 7],
        &[-32768; 39],
        17,
        &[-28670; 33],
    ),
    (
        "a pair of the least taps",
        &[-32768, -32768, 1],
        &[-32768; 35],
        17,
        &[16384; 33],
    ),
];

const INT_ROWS: [Row<i32>; 3] = [
    (
        "an impulse gives the taps",
        &[1, 2, 3],
        &[0, 0, 1, 0, 0, 4],
        0,
        &[1, 2, 3, 4],
    ),
    ("halves go up", &[1], &[3, -3], 1, &[2, -1]),
    (
        "the greatest sum",
        &[-32768; 256],
        &[-2147483648; 256],
        31,
        &[8388608],
    ),
];

// A row whose lengths do not fit one another is none.
fn is_row<T: FilterLane + SimdLane + Default + PartialEq>(
    taps: &[i16],
    items: &[T],
    shift: u32,
    out: &[T],
) -> bool {
    if taps.is_empty() || taps.len() > 256 || out.len() > MOST || shift > 31 {
        return false;
    }
    if items.len() != out.len() + taps.len() - 1 {
        return false;
    }
    let mut found = [T::default(); MOST];
    let found = &mut found[..out.len()];
    fir_row(taps, items, shift, found);
    &*found == out
}

// The least short, the greatest and the place, in turn.
fn marked_shorts() -> [i16; MOST] {
    let mut items = in_turn([-32768, -32768]);
    for i in 0..MOST {
        if i % 3 > 0 {
            items[i] = if i % 3 == 1 { 32767 } else { i as i16 };
        }
    }
    items
}

// By one tap each output is the item before, and by another the item itself.
fn are_delayed<T: FilterLane + SimdLane + Default + PartialEq>(items: &[T], n: usize) -> bool {
    is_row(&[0, 1], &items[..n + 1], 0, &items[..n])
        && is_row(&[1, 0], &items[..n + 1], 0, &items[1..n + 1])
}

#[test]
fn rows_are_filtered(rt: HostRuntime) {
    for (name, taps, items, shift, out) in SHORT_ROWS {
        let holds = is_row(taps, items, shift, out);
        assert!(rt; holds, "{name}");
    }
    for (name, taps, items, shift, out) in INT_ROWS {
        let holds = is_row(taps, items, shift, out);
        assert!(rt; holds, "{name}");
    }
    let shorts = marked_shorts();
    let ints = in_turn([-2147483648, 2147483647]);
    for n in 0..MOST {
        let holds = are_delayed(&shorts, n);
        assert!(rt; holds, "delayed shorts, {n} items");
        let holds = are_delayed(&ints, n);
        assert!(rt; holds, "delayed ints, {n} items");
    }
}

// Two taps in turn: those at the ends, and those at which a low half goes over.
const TAPS: [(&str, [i16; 2]); 8] = [
    ("the least taps", [-32768, -32768]),
    ("the greatest taps", [32767, 32767]),
    ("both in turn", [-32768, 32767]),
    ("taps of 127", [127, 127]),
    ("taps of 128", [128, 128]),
    ("taps of -128", [-128, -128]),
    ("taps of -129", [-129, -129]),
    ("great taps about them", [32639, -32641]),
];

const ITEMS: [[i16; 2]; 3] = [[-32768, -32768], [32767, 32767], [-32768, 32767]];

const TAP_COUNTS: [usize; 6] = [1, 2, 3, 31, 255, 256];
const OUTPUT_COUNTS: [usize; 5] = [31, 32, 33, 64, 100];
const SHIFTS: [u32; 4] = [0, 15, 16, 31];

// The items of a hundred outputs and 256 taps.
const LONG: usize = 355;

fn long_in_turn(items: [i16; 2]) -> [i16; LONG] {
    let mut list = [0; LONG];
    for i in 0..LONG {
        list[i] = items[i % 2];
    }
    list
}

// Shorts of all sizes, in no order: the step is odd, so that none comes twice.
fn scattered(step: usize) -> [i16; LONG] {
    let mut list = [0; LONG];
    for i in 0..LONG {
        list[i] = (((i + 1) * step % 65536) as i32 - 32768) as i16;
    }
    list
}

// The taps times the items up to each of a hundred outputs, summed.
fn plain_sums(taps: &[i16], items: &[i16; LONG]) -> [i64; 100] {
    let mut sums = [0; 100];
    for n in 0..100 {
        for j in 0..taps.len() {
            sums[n] += i64::from(taps[j]) * i64::from(items[n + taps.len() - 1 - j]);
        }
    }
    sums
}

fn nearest_short(sum: i64, shift: u32) -> i16 {
    let half = (1i64 << shift) / 2;
    ((sum + half) >> shift).clamp(-32768, 32767) as i16
}

// Whether rows of each length are the plain sums, rounded and saturated.
fn are_plain(taps: &[i16], items: &[i16; LONG], shift: u32, sums: &[i64; 100]) -> bool {
    for count in OUTPUT_COUNTS {
        let mut found = [0; 100];
        let found = &mut found[..count];
        fir_row(taps, &items[..count + taps.len() - 1], shift, found);
        for n in 0..count {
            if found[n] != nearest_short(sums[n], shift) {
                return false;
            }
        }
    }
    true
}

#[test]
fn rows_of_shorts_are_plain_sums(rt: HostRuntime) {
    for (name, pair) in TAPS {
        let taps = long_in_turn(pair);
        for items in ITEMS {
            let items = long_in_turn(items);
            for count in TAP_COUNTS {
                let sums = plain_sums(&taps[..count], &items);
                for shift in SHIFTS {
                    let holds = are_plain(&taps[..count], &items, shift, &sums);
                    assert!(rt; holds, "{name}, {count} of them, shift {shift}");
                }
            }
        }
    }
}

#[test]
fn rows_of_scattered_shorts_are_plain_sums(rt: HostRuntime) {
    let taps = scattered(40503);
    let items = scattered(25717);
    for count in TAP_COUNTS {
        let sums = plain_sums(&taps[..count], &items);
        for shift in SHIFTS {
            let holds = are_plain(&taps[..count], &items, shift, &sums);
            assert!(rt; holds, "{count} taps, shift {shift}");
        }
    }
}
