//! Kernels that give an item for each item.

use super::in_turn::{MOST, in_turn};
use lane_kernels::{
    AndBits, OrBits, SimdLane, XorBits, add_const_wrap, add_wrap, add_wrap_into,
    append_add_const_wrap, append_add_wrap, append_joined_bits, append_mul_wrap, append_not,
    append_scale_sat, join_bits, join_bits_into, mul_wrap, not, scale_sat,
};
use std::alloc::{AllocError, Global};
use std::process::Abort;

#[derive(Clone, Copy)]
enum Kernel {
    AddWrap,
    AddConstWrap,
    MulWrap,
    /// By a factor and a shift.
    ScaleSat(i16, u32),
    And,
    Or,
    Xor,
    Not,
}

use Kernel::*;

// Two items in turn, two others for a kernel of two lists, or the constant twice, and the two of the output.
type Case<T> = (&'static str, Kernel, [T; 2], [T; 2], [T; 2]);

const BYTES: [Case<u8>; 9] = [
    ("sums of bytes", AddWrap, [255, 0], [1, 255], [0, 255]),
    (
        "bytes plus 255",
        AddConstWrap,
        [255, 0],
        [255; 2],
        [254, 255],
    ),
    ("bytes times 3", MulWrap, [100, 255], [3; 2], [44, 253]),
    (
        "bytes times 3/2",
        ScaleSat(3, 1),
        [255, 1],
        [0; 2],
        [255, 2],
    ),
    (
        "bytes below 0",
        ScaleSat(-32768, 31),
        [0, 255],
        [0; 2],
        [0, 0],
    ),
    ("bits of both bytes", And, [12, 255], [10, 0], [8, 0]),
    ("bits of either byte", Or, [12, 0], [10, 255], [14, 255]),
    ("bits of one byte", Xor, [12, 255], [10, 255], [6, 0]),
    ("turned bytes", Not, [255, 12], [0; 2], [0, 243]),
];

const SHORTS: [Case<i16>; 10] = [
    (
        "sums of shorts",
        AddWrap,
        [32767, -32768],
        [1, -1],
        [-32768, 32767],
    ),
    (
        "shorts less 32768",
        AddConstWrap,
        [32767, -32768],
        [-32768; 2],
        [-1, 0],
    ),
    (
        "shorts times 3",
        MulWrap,
        [32767, -32768],
        [3; 2],
        [32765, -32768],
    ),
    ("shorts times 3/2", ScaleSat(3, 1), [1, -1], [0; 2], [2, -1]),
    (
        "shorts at both ends",
        ScaleSat(3, 1),
        [30000, -30000],
        [0; 2],
        [32767, -32768],
    ),
    (
        "shorts over 2^16",
        ScaleSat(-32768, 31),
        [-32768, 32767],
        [0; 2],
        [1, 0],
    ),
    (
        "bits of both shorts",
        And,
        [-32768, 32767],
        [-1, 1],
        [-32768, 1],
    ),
    (
        "bits of either short",
        Or,
        [-32768, 32767],
        [1, -32768],
        [-32767, -1],
    ),
    (
        "bits of one short",
        Xor,
        [-32768, 32767],
        [-1, -1],
        [32767, -32768],
    ),
    (
        "turned shorts",
        Not,
        [-32768, 32767],
        [0; 2],
        [32767, -32768],
    ),
];

const LEAST: i32 = -2147483648;

const GREATEST: i32 = 2147483647;

const INTS: [Case<i32>; 9] = [
    (
        "sums of ints",
        AddWrap,
        [LEAST, GREATEST],
        [-1, 1],
        [GREATEST, LEAST],
    ),
    (
        "ints plus the greatest",
        AddConstWrap,
        [GREATEST, LEAST],
        [GREATEST; 2],
        [-2, -1],
    ),
    (
        "ints times -1",
        MulWrap,
        [GREATEST, LEAST],
        [-1; 2],
        [-2147483647, LEAST],
    ),
    (
        "ints over -2^16",
        ScaleSat(-32768, 31),
        [LEAST, GREATEST],
        [0; 2],
        [32768, -32768],
    ),
    (
        "ints at both ends",
        ScaleSat(-32768, 0),
        [LEAST, GREATEST],
        [0; 2],
        [GREATEST, LEAST],
    ),
    (
        "bits of both ints",
        And,
        [LEAST, GREATEST],
        [-1, 1],
        [LEAST, 1],
    ),
    (
        "bits of either int",
        Or,
        [LEAST, GREATEST],
        [1, LEAST],
        [-2147483647, -1],
    ),
    (
        "bits of one int",
        Xor,
        [LEAST, GREATEST],
        [-1, -1],
        [GREATEST, LEAST],
    ),
    (
        "turned ints",
        Not,
        [LEAST, GREATEST],
        [0; 2],
        [GREATEST, LEAST],
    ),
];

fn assert_cases<T: SimdLane + PartialEq>(
    rt: &impl Abort,
    alloc: Global,
    cases: &[Case<T>],
) -> Result<(), AllocError> {
    for (name, kernel, a, b, out) in cases {
        for n in 0..MOST + 1 {
            let holds = gives(*kernel, *a, *b, *out, n);
            assert!(rt; holds, "{name}, {n} items");
            let holds = appends(alloc, *kernel, *a, *b, *out, n)?;
            assert!(rt; holds, "{name}, {n} items appended");
            let holds = joins(*kernel, *a, *b, *out, n);
            assert!(rt; holds, "{name}, {n} items in place");
        }
    }
    Ok(())
}

// The output is there from the first item to the last, since it begins with the expected items the other way round.
fn gives<T: SimdLane + PartialEq>(
    kernel: Kernel,
    a: [T; 2],
    b: [T; 2],
    out: [T; 2],
    n: usize,
) -> bool {
    let expected = in_turn(out);
    let mut found = in_turn([out[1], out[0]]);
    let x = in_turn(a);
    let y = in_turn(b);
    call(kernel, &x[..n], &y[..n], b[0], &mut found[..n]);
    found[..n] == expected[..n]
}

fn call<T: SimdLane>(kernel: Kernel, x: &[T], y: &[T], c: T, out: &mut [T]) {
    match kernel {
        AddWrap => add_wrap(x, y, out),
        AddConstWrap => add_const_wrap(x, c, out),
        MulWrap => mul_wrap(x, c, out),
        ScaleSat(factor, shift) => scale_sat(x, factor, shift % 32, out),
        And => join_bits::<T, AndBits>(x, y, out),
        Or => join_bits::<T, OrBits>(x, y, out),
        Xor => join_bits::<T, XorBits>(x, y, out),
        Not => not(x, out),
    }
}

// The output stands behind an item that was there, and nothing behind it.
fn appends<T: SimdLane + PartialEq>(
    alloc: Global,
    kernel: Kernel,
    a: [T; 2],
    b: [T; 2],
    out: [T; 2],
    n: usize,
) -> Result<bool, AllocError> {
    let expected = in_turn(out);
    let mut found = Vec::with_capacity(alloc, 1 + n)?;
    found.push_reserved(out[1]);
    let x = in_turn(a);
    let y = in_turn(b);
    call_appending(kernel, &x[..n], &y[..n], b[0], &mut found);
    Ok(found.len() == 1 + n && found[0] == out[1] && found[1..] == expected[..n])
}

fn call_appending<T: SimdLane>(kernel: Kernel, x: &[T], y: &[T], c: T, out: &mut Vec<T>) {
    match kernel {
        AddWrap => append_add_wrap(x, y, out),
        AddConstWrap => append_add_const_wrap(x, c, out),
        MulWrap => append_mul_wrap(x, c, out),
        ScaleSat(factor, shift) => append_scale_sat(x, factor, shift % 32, out),
        And => append_joined_bits::<T, AndBits>(x, y, out),
        Or => append_joined_bits::<T, OrBits>(x, y, out),
        Xor => append_joined_bits::<T, XorBits>(x, y, out),
        Not => append_not(x, out),
    }
}

// Where a kernel has two inputs, the items of one are joined into those of the other, and what lies behind them stays.
fn joins<T: SimdLane + PartialEq>(
    kernel: Kernel,
    a: [T; 2],
    b: [T; 2],
    out: [T; 2],
    n: usize,
) -> bool {
    let expected = in_turn(out);
    let mut found = in_turn(a);
    let y = in_turn(b);
    match kernel {
        AddWrap => add_wrap_into(&y[..n], &mut found[..n]),
        And => join_bits_into::<T, AndBits>(&y[..n], &mut found[..n]),
        Or => join_bits_into::<T, OrBits>(&y[..n], &mut found[..n]),
        Xor => join_bits_into::<T, XorBits>(&y[..n], &mut found[..n]),
        AddConstWrap | MulWrap | ScaleSat(_, _) | Not => return true,
    }
    found[..n] == expected[..n] && found[n..] == in_turn(a)[n..]
}

#[test]
fn an_item_for_each_item(rt: HostRuntime) -> Result<(), AllocError> {
    assert_cases(&rt, rt.alloc(), &BYTES)?;
    assert_cases(&rt, rt.alloc(), &SHORTS)?;
    assert_cases(&rt, rt.alloc(), &INTS)
}
