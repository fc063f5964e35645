//! Bits packed into bytes and unpacked, and differences of bytes.

use super::in_turn::{MOST, in_turn};
use lane_filters::{diff_decode, pack_bits, unpack_bits};

const BITS: usize = 8 * MOST;

// Each byte has the lowest bits of k items, which are all the same.
fn are_packed(k: u32, n: usize, item: u8, byte: u8) -> bool {
    let mut found = [9; MOST];
    pack_bits(k, &[item; BITS][..k as usize * n], &mut found[..n]);
    found[..n] == [byte; MOST][..n]
}

// Each item gives k times the same bit.
fn are_unpacked(k: u32, n: usize, item: u8, bit: u8) -> bool {
    let bits = k as usize * n;
    let mut found = [9; BITS];
    unpack_bits(k, &[item; MOST][..n], &mut found[..bits]);
    found[..bits] == [bit; BITS][..bits]
}

// A modulus, the byte before, two bytes in turn, and the two differences in turn.
const DIFFERENCES: [(&str, u32, u8, [u8; 2], [u8; 2]); 4] = [
    ("by 4", 4, 3, [1, 3], [2, 2]),
    ("by 256", 256, 255, [0, 255], [1, 255]),
    ("by 100", 100, 0, [255, 0], [55, 45]),
    ("by 2", 2, 0, [255, 0], [1, 1]),
];

fn are_differences(m: u32, before: u8, items: [u8; 2], out: [u8; 2], n: usize) -> bool {
    let mut found = in_turn([out[1], out[0]]);
    diff_decode(
        m.clamp(2, 256),
        before,
        &in_turn(items)[..n],
        &mut found[..n],
    );
    found[..n] == in_turn(out)[..n]
}

#[test]
fn bytes_are_packed_and_decoded(rt: HostRuntime) {
    for n in 0..MOST + 1 {
        for k in 1..9 {
            let holds = are_packed(k, n, 255, 255 >> (8 - k)) && are_packed(k, n, 254, 0);
            assert!(rt; holds, "{k} bits packed, {n} bytes");
            let holds = are_unpacked(k, n, 255, 1) && are_unpacked(k, n, 0, 0);
            assert!(rt; holds, "{k} bits unpacked, {n} bytes");
        }
        for (name, m, before, items, out) in DIFFERENCES {
            let holds = are_differences(m, before, items, out, n);
            assert!(rt; holds, "differences {name}, {n} bytes");
        }
    }
    let mut bytes = [0; 2];
    pack_bits(4, &[0, 1, 0, 1, 129, 0, 0, 0], &mut bytes);
    assert!(rt; bytes == [5, 8], "the first bit packed is the highest");
    let mut bits = [9; 8];
    unpack_bits(4, &[245, 8], &mut bits);
    assert!(rt;
        bits == [0, 1, 0, 1, 1, 0, 0, 0],
        "the first bit unpacked is the highest"
    );
}
