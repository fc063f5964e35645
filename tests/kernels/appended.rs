//! Kernels that append an item for each item, or join one in place.

use super::in_turn::{MOST, in_turn};
use lane_kernels::{
    AndBits, OrBits, SimdLane, XorBits, append_abs_wrap, append_clip, append_joined_bits_const,
    append_maximum, append_minimum, append_multiply_wrap, append_sub_wrap, maximum_into,
    minimum_into, multiply_wrap_into, sub_wrap_into,
};
use std::alloc::{AllocError, Global};
use std::process::Abort;

#[derive(Clone, Copy)]
enum Kernel {
    Multiply,
    Sub,
    Minimum,
    Maximum,
    AndConst,
    OrConst,
    XorConst,
    Abs,
    Clip,
}

use Kernel::*;

// Two items in turn; two others for a kernel of two lists, the constant twice, or the ends of a range; and the two of
// the output.
type Case<T> = (&'static str, Kernel, [T; 2], [T; 2], [T; 2]);

const BYTES: [Case<u8>; 9] = [
    ("products of bytes", Multiply, [255, 16], [255, 17], [1, 16]),
    ("differences of bytes", Sub, [0, 255], [1, 255], [255, 0]),
    ("the lesser byte", Minimum, [0, 200], [255, 199], [0, 199]),
    (
        "the greater byte",
        Maximum,
        [0, 200],
        [255, 199],
        [255, 200],
    ),
    ("bits of a byte", AndConst, [255, 12], [10; 2], [10, 8]),
    ("set bits of bytes", OrConst, [0, 12], [10; 2], [10, 14]),
    (
        "turned bits of bytes",
        XorConst,
        [255, 12],
        [10; 2],
        [245, 6],
    ),
    ("bytes have no sign", Abs, [255, 128], [0; 2], [255, 128]),
    ("clipped bytes", Clip, [255, 0], [16, 235], [235, 16]),
];

const SHORTS: [Case<i16>; 9] = [
    (
        "products of shorts",
        Multiply,
        [-32768, 200],
        [-1, 200],
        [-32768, -25536],
    ),
    (
        "differences of shorts",
        Sub,
        [-32768, 5],
        [1, -2],
        [32767, 7],
    ),
    (
        "the lesser short",
        Minimum,
        [-32768, -1],
        [32767, 0],
        [-32768, -1],
    ),
    (
        "the greater short",
        Maximum,
        [-32768, -1],
        [32767, -2],
        [32767, -1],
    ),
    (
        "the sign of shorts",
        AndConst,
        [-1, 32767],
        [-32768; 2],
        [-32768, 0],
    ),
    (
        "set bits of shorts",
        OrConst,
        [0, -32768],
        [1; 2],
        [1, -32767],
    ),
    ("turned shorts", XorConst, [5, -32768], [-1; 2], [-6, 32767]),
    (
        "shorts without sign",
        Abs,
        [-32768, -5],
        [0; 2],
        [-32768, 5],
    ),
    ("clipped shorts", Clip, [-3, 32767], [-2, 3], [-2, 3]),
];

const LEAST: i32 = -2147483648;

const GREATEST: i32 = 2147483647;

const INTS: [Case<i32>; 9] = [
    (
        "products of ints",
        Multiply,
        [LEAST, 65536],
        [-1, 32768],
        [LEAST, LEAST],
    ),
    (
        "differences of ints",
        Sub,
        [LEAST, GREATEST],
        [1, -1],
        [GREATEST, LEAST],
    ),
    (
        "the lesser int",
        Minimum,
        [LEAST, 7],
        [GREATEST, -7],
        [LEAST, -7],
    ),
    (
        "the greater int",
        Maximum,
        [LEAST, 7],
        [GREATEST, -7],
        [GREATEST, 7],
    ),
    (
        "bits of ints",
        AndConst,
        [-1, LEAST],
        [GREATEST; 2],
        [GREATEST, 0],
    ),
    ("set bits of ints", OrConst, [0, LEAST], [-1; 2], [-1, -1]),
    (
        "turned ints",
        XorConst,
        [LEAST, GREATEST],
        [-1; 2],
        [GREATEST, LEAST],
    ),
    (
        "ints without sign",
        Abs,
        [LEAST, -GREATEST],
        [0; 2],
        [LEAST, GREATEST],
    ),
    ("clipped ints", Clip, [LEAST, GREATEST], [-5, 5], [-5, 5]),
];

fn assert_cases<T: SimdLane + PartialEq>(
    rt: &impl Abort,
    alloc: Global,
    cases: &[Case<T>],
) -> Result<(), AllocError> {
    for (name, kernel, a, b, out) in cases {
        for n in 0..MOST + 1 {
            let holds = appends(alloc, *kernel, *a, *b, *out, n)?;
            assert!(rt; holds, "{name}, {n} items appended");
            let holds = joins(*kernel, *a, *b, *out, n);
            assert!(rt; holds, "{name}, {n} items in place");
        }
    }
    Ok(())
}

// The output stands behind an item that was there, and nothing behind it.
fn appends<T: SimdLane + PartialEq>(
    alloc: Global,
    kernel: Kernel,
    a: [T; 2],
    b: [T; 2],
    out: [T; 2],
    n: usize,
) -> Result<bool, AllocError> {
    let expected = in_turn(out);
    let mut found = Vec::with_capacity(alloc, 1 + n)?;
    found.push_reserved(out[1]);
    let x = in_turn(a);
    let y = in_turn(b);
    call(kernel, &x[..n], &y[..n], b, &mut found);
    Ok(found.len() == 1 + n && found[0] == out[1] && found[1..] == expected[..n])
}

fn call<T: SimdLane>(kernel: Kernel, x: &[T], y: &[T], c: [T; 2], out: &mut Vec<T>) {
    match kernel {
        Multiply => append_multiply_wrap(x, y, out),
        Sub => append_sub_wrap(x, y, out),
        Minimum => append_minimum(x, y, out),
        Maximum => append_maximum(x, y, out),
        AndConst => append_joined_bits_const::<T, AndBits>(x, c[0], out),
        OrConst => append_joined_bits_const::<T, OrBits>(x, c[0], out),
        XorConst => append_joined_bits_const::<T, XorBits>(x, c[0], out),
        Abs => append_abs_wrap(x, out),
        Clip => append_clip(x, c[0], c[1], out),
    }
}

// Where a kernel has two inputs, the items of one are joined into those of the other, and what lies behind them stays.
fn joins<T: SimdLane + PartialEq>(
    kernel: Kernel,
    a: [T; 2],
    b: [T; 2],
    out: [T; 2],
    n: usize,
) -> bool {
    let expected = in_turn(out);
    let mut found = in_turn(a);
    let y = in_turn(b);
    match kernel {
        Multiply => multiply_wrap_into(&y[..n], &mut found[..n]),
        Sub => sub_wrap_into(&y[..n], &mut found[..n]),
        Minimum => minimum_into(&y[..n], &mut found[..n]),
        Maximum => maximum_into(&y[..n], &mut found[..n]),
        AndConst | OrConst | XorConst | Abs | Clip => return true,
    }
    found[..n] == expected[..n] && found[n..] == in_turn(a)[n..]
}

#[test]
fn items_appended(rt: HostRuntime) -> Result<(), AllocError> {
    assert_cases(&rt, rt.alloc(), &BYTES)?;
    assert_cases(&rt, rt.alloc(), &SHORTS)?;
    assert_cases(&rt, rt.alloc(), &INTS)
}
