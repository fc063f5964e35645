//! Each kernel once, on a few items whose outputs are worked out by hand.
use crate::contests::{Kernel, call_kernel};
use crate::item::Item;
use lane_filters::{diff_decode, dot_i16, dot_i32, fir_row, pack_bits, unpack_bits};
use lane_kernels::{SimdLane, narrow, scale_sat, widen};
use std::fmt::Display;
use std::io;

// Two items and two more of each type.
struct Inputs {
    kernel: Kernel,
    name: &'static str,
    bytes: [[u8; 2]; 2],
    shorts: [[i16; 2]; 2],
    ints: [[i32; 2]; 2],
}

const ARITHMETIC: [Inputs; 3] = [
    Inputs {
        kernel: Kernel::AddWrap,
        name: "add_wrap",
        bytes: [[250, 1], [10, 10]],
        shorts: [[32767, -32768], [1, -1]],
        ints: [[2147483647, -2147483648], [1, -1]],
    },
    Inputs {
        kernel: Kernel::AddConstWrap,
        name: "add_const_wrap",
        bytes: [[250, 3], [7, 7]],
        shorts: [[32760, -5], [10, 10]],
        ints: [[-2147483640, 5], [-10, -10]],
    },
    Inputs {
        kernel: Kernel::MulWrap,
        name: "mul_wrap",
        bytes: [[100, 7], [3, 3]],
        shorts: [[20000, -7], [3, 3]],
        ints: [[1500000000, -7], [3, 3]],
    },
];

const LOGIC: [Inputs; 4] = [
    Inputs {
        kernel: Kernel::And,
        name: "and",
        bytes: [[12, 255], [10, 129]],
        shorts: [[12, -1], [10, -32768]],
        ints: [[12, -1], [10, -2147483648]],
    },
    Inputs {
        kernel: Kernel::Or,
        name: "or",
        bytes: [[12, 128], [10, 1]],
        shorts: [[12, -32768], [10, 1]],
        ints: [[12, -2147483648], [10, 1]],
    },
    Inputs {
        kernel: Kernel::Xor,
        name: "xor",
        bytes: [[12, 255], [10, 129]],
        shorts: [[12, -1], [10, -32768]],
        ints: [[12, -1], [10, -2147483648]],
    },
    Inputs {
        kernel: Kernel::Not,
        name: "not",
        bytes: [[0, 170], [0, 0]],
        shorts: [[0, 32767], [0, 0]],
        ints: [[0, 2147483647], [0, 0]],
    },
];

/// Prints a line for each kernel and type.
pub fn print_small(rt: &impl Print) -> io::Result<()> {
    print_lines(rt, &ARITHMETIC)?;
    print_scaled(rt)?;
    print_lines(rt, &LOGIC)?;
    print_converted(rt)?;
    print_filtered(rt)?;
    print_bits(rt)
}

fn print_lines(rt: &impl Print, rows: &[Inputs]) -> io::Result<()> {
    for row in rows {
        print_outputs(rt, row.kernel, row.name, "byte", &row.bytes)?;
        print_outputs(rt, row.kernel, row.name, "short", &row.shorts)?;
        print_outputs(rt, row.kernel, row.name, "int", &row.ints)?;
    }
    Ok(())
}

fn print_outputs<T: SimdLane + Display>(
    rt: &impl Print,
    kernel: Kernel,
    name: &str,
    item: &str,
    inputs: &[[T; 2]; 2],
) -> io::Result<()> {
    let [x, y] = inputs;
    let mut out = *x;
    call_kernel(kernel, x, y, &mut out);
    print_line(rt, name, item, &out)
}

fn print_line<T: Display>(
    rt: &impl Print,
    name: &str,
    item: &str,
    numbers: &[T],
) -> io::Result<()> {
    print!(rt; "{name} {item}")?;
    for n in numbers {
        print!(rt; " {n}")?;
    }
    println!(rt; "")
}

fn print_scaled(rt: &impl Print) -> io::Result<()> {
    let mut bytes = [0; 3];
    scale_sat::<u8>(&[1, 3, 200], 3, 1, &mut bytes);
    print_line(rt, "scale_sat", "byte", &bytes)?;
    let mut shorts = [0; 4];
    scale_sat::<i16>(&[1, -1, 30000, -30000], 3, 1, &mut shorts);
    print_line(rt, "scale_sat", "short", &shorts)?;
    let mut ints = [0; 4];
    scale_sat::<i32>(&[1, -1, 2000000000, -2000000000], 3, 1, &mut ints);
    print_line(rt, "scale_sat", "int", &ints)
}

fn print_converted(rt: &impl Print) -> io::Result<()> {
    let mut shorts = [0; 2];
    widen::<u8, i16>(&[0, 255], &mut shorts);
    print_line(rt, "widen", "byte short", &shorts)?;
    let mut ints = [0; 2];
    widen::<u8, i32>(&[1, 255], &mut ints);
    print_line(rt, "widen", "byte int", &ints)?;
    widen::<i16, i32>(&[-32768, 32767], &mut ints);
    print_line(rt, "widen", "short int", &ints)?;
    let mut bytes = [0; 3];
    narrow::<i16, u8>(&[-1, 256, 511], &mut bytes);
    print_line(rt, "narrow", "short byte", &bytes)?;
    narrow::<i32, u8>(&[-2, 256, 300], &mut bytes);
    print_line(rt, "narrow", "int byte", &bytes)?;
    let mut low = [0; 3];
    narrow::<i32, i16>(&[32768, -32769, 65541], &mut low);
    print_line(rt, "narrow", "int short", &low)
}

fn print_filtered(rt: &impl Print) -> io::Result<()> {
    let sum = dot_i16(&[1, 2, -3], &[-32768, 100, 32767]);
    print_line(rt, "dot_i16", "short", &[sum])?;
    let sum = dot_i32(&[32767, -32768], &[2147483647, -2147483648]);
    print_line(rt, "dot_i32", "int", &[sum])?;
    let mut shorts = [0i16; 4];
    fir_row(&[1, 2], &[1, 3, -11, 32767, 32767], 1, &mut shorts);
    print_line(rt, "fir_row", "short", &shorts)?;
    let mut ints = [0i32; 4];
    fir_row(&[1, 2], &[1, 3, -11, 2147483647, 2147483647], 1, &mut ints);
    print_line(rt, "fir_row", "int", &ints)
}

fn print_bits(rt: &impl Print) -> io::Result<()> {
    let mut packed = [0; 2];
    pack_bits(4, &[1, 0, 1, 1, 2, 3, 0, 129], &mut packed);
    print_line(rt, "pack_bits", "byte", &packed)?;
    let mut unpacked = [0; 6];
    unpack_bits(3, &[5, 14], &mut unpacked);
    print_line(rt, "unpack_bits", "byte", &unpacked)?;
    let mut decoded = [0; 3];
    diff_decode(4, 3, &[1, 3, 2], &mut decoded);
    print_line(rt, "diff_decode", "byte", &decoded)
}
