//! The loop that a filter stands for.

/// How many taps the filters have. Each is 1.
pub const TAPS: usize = 64;

/// Writes for each item the sum of it and those before it, as many as there are taps.
#[inline(never)]
pub fn filter(items: &[i16], taps: &[i16], out: &mut [i32]) {
    for (window, sum) in items.windows(TAPS).zip(out.iter_mut()) {
        *sum = product(window, taps);
    }
}

fn product(window: &[i16], taps: &[i16]) -> i32 {
    let mut sum = 0_i32;
    for (item, tap) in window.iter().zip(taps.iter()) {
        sum = sum.wrapping_add(i32::from(*item).wrapping_mul(i32::from(*tap)));
    }
    sum
}
