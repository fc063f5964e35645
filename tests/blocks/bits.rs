//! The blocks of bits.
use super::runs::{LANE_COUNTS, Trials, is_bad, ramp};
use bit_blocks::register::Register;
use bit_blocks::{
    AdditiveScrambler, Descrambler, DiffDecoder, DiffEncoder, PackKBits, Scrambler, UnpackKBits,
};
use block_parameters::Parameter;
use std::alloc::Global;
use std::process::Abort;
use std::test::Fail;

#[test]
fn bits(rt: HostRuntime) -> Result<(), Fail> {
    let a = rt.alloc();
    let trials = Trials::new(&rt, a);
    check_sums(&trials, a)?;
    let bits = [0, 1, 0, 1, 129, 0, 0, 0];
    trials.gives("packed", PackKBits::new(4), &bits, &[5, 8])?;
    let bits = [0, 1, 0, 1, 1, 0, 0, 0];
    trials.gives("unpacked", UnpackKBits::new(4), &[245, 8], &bits)?;
    for (case, modulus, items, sums) in [
        ("encoded", 4, &[1, 2, 3, 1][..], &[1, 3, 2, 3][..]),
        ("encoded above", 3, &[5, 255, 4], &[2, 2, 0]),
    ] {
        trials.gives(case, DiffEncoder::new(modulus), items, sums)?;
    }
    for (case, modulus, items, differences) in [
        ("decoded", 4, &[1, 3, 2, 3][..], &[1, 2, 3, 1][..]),
        ("decoded below", 4, &[3, 1, 3], &[3, 2, 2]),
        ("decoded bytes", 256, &[255, 0], &[255, 1]),
    ] {
        trials.gives(case, DiffDecoder::new(modulus), items, differences)?;
    }
    let register = || Register::new(3, 5, 1);
    let (plain, scrambled) = ([1, 0, 0, 1], [0, 0, 1, 0]);
    let scrambler = Scrambler::new(register()?);
    trials.gives("scrambled", Ok(scrambler), &plain, &scrambled)?;
    let descrambler = Descrambler::new(register()?);
    trials.gives("descrambled", Ok(descrambler), &scrambled, &plain)?;
    let additive = AdditiveScrambler::new(register()?);
    trials.gives("added", Ok(additive), &[0, 0, 0, 0], &[1, 1, 0, 1])?;
    for count in LANE_COUNTS {
        let (ones, steps) = (ramp(a, count, 1, 0)?, ramp(a, count, 1, 1)?);
        trials.gives("sums", DiffEncoder::new(256), &ones, &steps)?;
        trials.gives("differences", DiffDecoder::new(256), &steps, &ones)?;
        let (bits, bytes) = (ramp(a, 8 * count, 1, 0)?, ramp(a, count, 255, 0)?);
        trials.gives("bits in lanes", PackKBits::new(8), &bits, &bytes)?;
        trials.gives("bytes in lanes", UnpackKBits::new(8), &bytes, &bits)?;
    }
    Ok(())
}

// A byte again and again: behind byte k the sum is (k + 1) times it, modulo the number.
fn check_sums<R: Abort>(trials: &Trials<'_, R>, a: Global) -> Result<(), Fail> {
    for modulus in [2, 3, 4, 5, 7, 8, 10, 16, 64, 100, 128, 255, 256] {
        for byte in [0, 1, 5, 127, 254, 255] {
            for count in [0, 1, 63, 64, 65] {
                let bytes = ramp(a, count, byte, 0)?;
                let mut sums = Vec::new(a);
                for k in 0..count {
                    sums.push((k as i64 + 1) * byte % modulus)?;
                }
                trials.gives("sums", DiffEncoder::new(modulus as u32), &bytes, &sums)?;
            }
        }
    }
    Ok(())
}

// Each item plus the one 32 before it: of ones the first 32 stay, and the others become zeros.
#[test]
fn oldest_bits(rt: HostRuntime) -> Result<(), Fail> {
    let a = rt.alloc();
    let trials = Trials::new(&rt, a);
    for count in [31, 32, 33, 64, 65, 100] {
        let (ones, mut sums) = (ramp(a, count, 1, 0)?, ramp(a, count, 1, 0)?);
        for k in 32..sums.len() {
            sums[k] = 0;
        }
        let oldest = Descrambler::new(Register::new(32, 2_147_483_648, 0)?);
        trials.gives("oldest bits", Ok(oldest), &ones, &sums)?;
    }
    Ok(())
}

#[test]
fn parameters(rt: HostRuntime) -> Result<(), Fail> {
    for (k, good) in [(0, false), (1, true), (8, true), (9, false)] {
        assert!(rt; PackKBits::new(k).is_ok() == good, "{k}");
        assert!(rt; UnpackKBits::new(k).is_ok() == good, "{k}");
    }
    for (modulus, good) in [(1, false), (2, true), (256, true), (257, false)] {
        assert!(rt; DiffEncoder::new(modulus).is_ok() == good, "{modulus}");
        assert!(rt; DiffDecoder::new(modulus).is_ok() == good, "{modulus}");
    }
    for (bits, mask, init) in [(2, 1, 0), (2, 3, 3), (32, 4_294_967_295, 4_294_967_295)] {
        assert!(rt; Register::new(bits, mask, init).is_ok(), "{bits}");
    }
    // The first bad parameter is named.
    for (bits, mask, init, bad) in [
        (1, 1, 0, Parameter::Bits),
        (33, 0, 0, Parameter::Bits),
        (2, 0, 0, Parameter::Mask),
        (2, 4, 4, Parameter::Mask),
        (2, 1, 4, Parameter::Init),
        (32, 1, 4_294_967_296, Parameter::Init),
    ] {
        assert!(rt; is_bad(Register::new(bits, mask, init), bad), "{bad}");
    }
    Ok(())
}

// Registers of bits, a mask and what they hold, and what they hold behind so many items. One of 3 bits goes round in 7
// steps, 1, 3, 7, 6, 5, 2, 4, and one of 2 bits in 3 steps, 1, 3, 2: 2^32 is 4 modulo 7, 2^64 - 1 is 1, and 2^40 is 1
// modulo 3. One that sums its last place alone turns its bits about.
const LATER: [(u32, u64, u64, u64, u64); 18] = [
    (3, 5, 1, 0, 1),
    (3, 5, 1, 1, 3),
    (3, 5, 1, 6, 4),
    (3, 5, 1, 7, 1),
    (3, 5, 1, 1 << 32, 5),
    (3, 5, 1, u64::MAX, 3),
    (3, 5, 0, 1_000_000, 0),
    (2, 3, 1, 2, 2),
    (2, 3, 1, 1 << 40, 3),
    (32, 1 << 31, 0x8000_0001, 1, 3),
    (32, 1 << 31, 0x8000_0001, 33, 3),
    (32, 1 << 31, 0x8000_0001, 1 << 63, 0x8000_0001),
    (31, 1 << 30, 0x4000_0001, 1, 3),
    (31, 1 << 30, 5, 31 << 40, 5),
    // The newest bit comes again and again.
    (32, 1, 1, 30, 0x7fff_ffff),
    (32, 1, 1, 31, 0xffff_ffff),
    (32, 1, 0xffff_fffe, 31, 0),
    // An even number of ones gives none.
    (32, 0xffff_ffff, 0xffff_ffff, 2, 0xffff_fffd),
];

#[test]
fn an_additive_scrambler_goes_on(rt: HostRuntime) -> Result<(), Fail> {
    for (bits, mask, init, items, held) in LATER {
        let Ok(first) = Register::new(bits, mask, init) else {
            panic!(rt; "a register");
        };
        let Ok(then) = Register::new(bits, mask, held) else {
            panic!(rt; "a register");
        };
        let later = AdditiveScrambler::new(first).after(items);
        assert_eq!(rt; later, AdditiveScrambler::new(then), "{bits} bits behind {items} items");
    }
    Ok(())
}
