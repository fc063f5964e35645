//! The blocks that check and code frames and symbols.
use super::runs::{LANE_COUNTS, Trials, is_bad, ramp};
use block_parameters::Parameter;
use code_blocks::BitOrder::{self, LsbFirst, MsbFirst};
use code_blocks::{Checksum, CrcAppend, CrcCheck, StateMachine};
use std::alloc::Global;
use std::test::Fail;

// The text "123456789", whose checksums the catalogues have.
const DIGITS: [i64; 9] = [49, 50, 51, 52, 53, 54, 55, 56, 57];

// Checksums of the catalogues: bits, polynomial, init, final_xor, order, and what they make of the digits.
const CHECKED: [(&str, u32, u64, u64, u64, BitOrder, u64); 20] = [
    ("CRC-8/SMBUS", 8, 0x07, 0, 0, MsbFirst, 0xf4),
    ("CRC-8/MAXIM-DOW", 8, 0x31, 0, 0, LsbFirst, 0xa1),
    ("CRC-10/ATM", 10, 0x233, 0, 0, MsbFirst, 0x199),
    ("CRC-11/FLEXRAY", 11, 0x385, 0x1a, 0, MsbFirst, 0x5a3),
    ("CRC-12/DECT", 12, 0x80f, 0, 0, MsbFirst, 0xf5b),
    ("CRC-14/DARC", 14, 0x805, 0, 0, LsbFirst, 0x82d),
    ("CRC-15/CAN", 15, 0x4599, 0, 0, MsbFirst, 0x59e),
    ("CRC-16/ARC", 16, 0x8005, 0, 0, LsbFirst, 0xbb3d),
    ("CRC-16/MODBUS", 16, 0x8005, 0xffff, 0, LsbFirst, 0x4b37),
    ("CRC-16/IBM-3740", 16, 0x1021, 0xffff, 0, MsbFirst, 0x29b1),
    ("CRC-16/IBM-SDLC", 16, 0x1021, 0xffff, 0xffff, LsbFirst, 0x906e),
    ("CRC-16/XMODEM", 16, 0x1021, 0, 0, MsbFirst, 0x31c3),
    ("CRC-16/KERMIT", 16, 0x1021, 0, 0, LsbFirst, 0x2189),
    ("CRC-16/GENIBUS", 16, 0x1021, 0xffff, 0xffff, MsbFirst, 0xd64e),
    ("CRC-24/OPENPGP", 24, 0x86_4cfb, 0xb7_04ce, 0, MsbFirst, 0x21_cf02),
    ("CRC-31/PHILIPS", 31, 0x4c1_1db7, 0x7fff_ffff, 0x7fff_ffff, MsbFirst, 0xce9_e46c),
    ("CRC-32/ISO-HDLC", 32, 0x4c1_1db7, 0xffff_ffff, 0xffff_ffff, LsbFirst, 0xcbf4_3926),
    ("CRC-32/BZIP2", 32, 0x4c1_1db7, 0xffff_ffff, 0xffff_ffff, MsbFirst, 0xfc89_1918),
    ("CRC-32/ISCSI", 32, 0x1edc_6f41, 0xffff_ffff, 0xffff_ffff, LsbFirst, 0xe306_9283),
    ("CRC-32/MPEG-2", 32, 0x4c1_1db7, 0xffff_ffff, 0, MsbFirst, 0x376_e6e7),
];

// Appends the bytes of a checksum, the highest first or the lowest.
fn push_sum(bits: u32, order: BitOrder, sum: u64, out: &mut Vec<i64>) -> Result<(), Fail> {
    let count = (bits + 7) / 8;
    for j in 0..count {
        let place = if order == MsbFirst { count - 1 - j } else { j };
        out.push((sum >> (8 * place) & 255) as i64)?;
    }
    Ok(())
}

#[test]
fn catalogued(rt: HostRuntime) -> Result<(), Fail> {
    let a = rt.alloc();
    let trials = Trials::new(&rt, a);
    for (case, bits, polynomial, init, final_xor, order, sum) in CHECKED {
        let rule = Checksum {
            bits,
            polynomial,
            init,
            final_xor,
            order,
        };
        let mut framed = Vec::from_slice(a, &DIGITS)?;
        push_sum(bits, order, sum, &mut framed)?;
        trials.gives(case, CrcAppend::new(a, 9, rule), &DIGITS, &framed)?;
        trials.gives(case, CrcCheck::new(a, 9, rule), &framed, &[1])?;
        framed[9] = (framed[9] + 1) % 256;
        trials.gives(case, CrcCheck::new(a, 9, rule), &framed, &[0])?;
    }
    Ok(())
}

const SMBUS: Checksum = Checksum {
    bits: 8,
    polynomial: 7,
    init: 0,
    final_xor: 0,
    order: MsbFirst,
};

// By x^8 + x^2 + x + 1 the remainder of a byte, bit by bit.
fn smbus(byte: i64) -> i64 {
    let mut register = byte;
    for _ in 0..8 {
        register = if register < 128 { 2 * register } else { 2 * register % 256 ^ 7 };
    }
    register
}

#[test]
fn many_frames(rt: HostRuntime) -> Result<(), Fail> {
    let a = rt.alloc();
    let trials = Trials::new(&rt, a);
    let all = ramp(a, 256, 0, 1)?;
    let mut framed = Vec::new(a);
    let mut right = Vec::new(a);
    for byte in &all {
        framed.push(*byte)?;
        framed.push(smbus(*byte))?;
        right.push(1)?;
    }
    trials.gives("each byte", CrcAppend::new(a, 1, SMBUS), &all, &framed)?;
    trials.gives("each is right", CrcCheck::new(a, 1, SMBUS), &framed, &right)?;
    for count in LANE_COUNTS {
        let items = ramp(a, count, 1, 1)?;
        let mut expected = Vec::new(a);
        for item in &items {
            expected.push(*item)?;
            expected.push(smbus(*item))?;
        }
        trials.gives("so many", CrcAppend::new(a, 1, SMBUS), &items, &expected)?;
    }
    // Zeros divide without a remainder, however many they are.
    let mut zeros = ramp(a, 1_020, 0, 0)?;
    let longest = CrcAppend::new(a, 1_020, SMBUS);
    let frame = Vec::from_slice(a, &zeros)?;
    zeros.push(0)?;
    trials.gives("the longest frame", longest, &frame, &zeros)?;
    trials.gives("it is right", CrcCheck::new(a, 1_020, SMBUS), &zeros, &[1])
}

#[test]
fn refused(rt: HostRuntime) -> Result<(), Fail> {
    let a = rt.alloc();
    let wide = Checksum {
        bits: 32,
        polynomial: 0xffff_ffff,
        init: 0xffff_ffff,
        final_xor: 0xffff_ffff,
        order: LsbFirst,
    };
    assert!(rt; CrcAppend::new(a, 1, wide).is_ok(), "the greatest numbers");
    for (rule, length, bad) in [
        (Checksum { bits: 7, ..SMBUS }, 1, Parameter::Bits),
        (Checksum { bits: 33, ..wide }, 1, Parameter::Bits),
        (Checksum { polynomial: 256, ..SMBUS }, 1, Parameter::Polynomial),
        (Checksum { polynomial: 1 << 32, ..wide }, 1, Parameter::Polynomial),
        (Checksum { init: 256, ..SMBUS }, 1, Parameter::Init),
        (Checksum { final_xor: u64::MAX, ..wide }, 1, Parameter::FinalXor),
        (SMBUS, 0, Parameter::N),
        (SMBUS, 1_021, Parameter::N),
    ] {
        assert!(rt; is_bad(CrcAppend::new(a, length, rule), bad), "{length}");
        assert!(rt; is_bad(CrcCheck::new(a, length, rule), bad), "{length}");
    }
    Ok(())
}

// The tables of the convolutional code of 1 + D^2 and 1 + D + D^2, whose state is the last two bits, the newest the
// highest.
const NEXT: [i64; 8] = [0, 2, 0, 2, 1, 3, 1, 3];
const OUTPUT: [i64; 8] = [0, 3, 3, 0, 1, 2, 2, 1];

// The code by its polynomials: the bit of the first is the higher.
fn convolved(alloc: Global, items: &[i64]) -> Result<Vec<i64>, Fail> {
    let mut out = Vec::new(alloc);
    let (mut last, mut before) = (0, 0);
    for item in items {
        let bit = *item % 2;
        out.push(2 * ((bit + before) % 2) + (bit + last + before) % 2)?;
        before = last;
        last = bit;
    }
    Ok(out)
}

#[test]
fn machines(rt: HostRuntime) -> Result<(), Fail> {
    let a = rt.alloc();
    let trials = Trials::new(&rt, a);
    let code = StateMachine::new(a, 2, &NEXT, &OUTPUT, 0);
    trials.gives("a code", code, &[1, 0, 1, 1, 0, 0], &[3, 1, 0, 2, 2, 3])?;
    for count in LANE_COUNTS {
        let items = ramp(a, count, 1, 3)?;
        let code = StateMachine::new(a, 2, &NEXT, &OUTPUT, 0);
        trials.gives("so many", code, &items, &convolved(a, &items)?)?;
    }
    // From state 3, as behind two bits 1.
    let later = StateMachine::new(a, 2, &NEXT, &OUTPUT, 3);
    trials.gives("a first state", later, &[0, 0, 1], &[2, 3, 3])?;
    // Bytes count modulo the number of symbols.
    let thirds = StateMachine::new(a, 3, &[0, 0, 0], &[7, 8, 255], 0);
    trials.gives("thirds", thirds, &[0, 4, 254, 255], &[7, 8, 255, 7])
}

#[test]
fn large_machines(rt: HostRuntime) -> Result<(), Fail> {
    let a = rt.alloc();
    let trials = Trials::new(&rt, a);
    // With a state for each item it counts them, from the last state on.
    let mut after = ramp(a, 4_096, 1, 1)?;
    after[4_095] = 0;
    let mut numbers = Vec::new(a);
    for state in 0..4_096 {
        numbers.push(state % 256)?;
    }
    let items = ramp(a, 300, 0, 0)?;
    let mut counted = Vec::new(a);
    counted.push(255)?;
    for n in 0..299 {
        counted.push(n % 256)?;
    }
    let counter = StateMachine::new(a, 1, &after, &numbers, 4_095);
    trials.gives("a state for each", counter, &items, &counted)?;
    // With one state it is a table.
    let stays = ramp(a, 4_096, 0, 0)?;
    let table = StateMachine::new(a, 4_096, &stays, &numbers, 0);
    trials.gives("one state", table, &[0, 1, 128, 255], &[0, 1, 128, 255])
}

#[test]
fn no_machines(rt: HostRuntime) -> Result<(), Fail> {
    let a = rt.alloc();
    let many = ramp(a, 4_097, 0, 0)?;
    let cases: [(u32, &[i64], &[i64], u32, Parameter); 14] = [
        (0, &NEXT, &OUTPUT, 0, Parameter::Symbols),
        (4_097, &[], &[], 9, Parameter::Symbols),
        (2, &[], &[], 9, Parameter::Next),
        (1, &many, &many, 0, Parameter::Next),
        (2, &NEXT[..7], &OUTPUT, 0, Parameter::Next),
        (16, &NEXT, &OUTPUT, 0, Parameter::Next),
        (2, &[0, 2, 0, 2, 1, 3, 1, 4], &OUTPUT, 0, Parameter::Next),
        (2, &[0, 2, 0, 2, 1, 3, 1, -1], &OUTPUT, 0, Parameter::Next),
        (2, &NEXT, &OUTPUT[..7], 0, Parameter::Output),
        (2, &NEXT, &many, 9, Parameter::Output),
        (2, &NEXT, &[0, 3, 3, 0, 1, 2, 2, 256], 9, Parameter::Output),
        (2, &NEXT, &[0, 3, 3, 0, 1, 2, 2, -1], 0, Parameter::Output),
        (2, &NEXT, &OUTPUT, 4, Parameter::Init),
        (8, &[0, 0, 0, 0, 0, 0, 0, 0], &OUTPUT, 1, Parameter::Init),
    ];
    for (symbols, next, output, start, bad) in &cases {
        let made = StateMachine::new(a, *symbols, *next, *output, *start);
        assert!(rt; is_bad(made, *bad), "{symbols} {start}");
    }
    Ok(())
}
