//! The kinds that check and code: their rows, and each as a plain loop, which divides bit by bit where frames are
//! checked.

use crate::kind_contest::{PlainLoop, print_kind};
use crate::kind_table::{EACH, calls, row};
use code_blocks::{BitOrder, Checksum, CrcAppend, CrcCheck, StateMachine};
use std::io;

// CRC-16/IBM-3740, behind frames of 126 bytes.
const RULE: Checksum = Checksum {
    bits: 16,
    polynomial: 0x1021,
    init: 0xffff,
    final_xor: 0,
    order: BitOrder::MsbFirst,
};

const FRAME: usize = 126;

// The convolutional code of 1 + D^2 and 1 + D + D^2.
const NEXT: [u8; 8] = [0, 2, 0, 2, 1, 3, 1, 3];

const OUTPUT: [u8; 8] = [0, 3, 3, 0, 1, 2, 2, 1];

/// The loops, by kind.
#[derive(Drop)]
enum Codes {
    CrcAppend,
    CrcCheck,
    StateMachine,
}

impl PlainLoop<u8, u8> for Codes {
    #[inline(never)]
    fn run(&self, a: &[u8], _b: &[u8], out: &mut [u8], _other: &mut [u8]) {
        match self {
            Codes::CrcAppend => append(a, out),
            Codes::CrcCheck => check(a, out),
            Codes::StateMachine => encode(a, out),
        }
    }
}

// The remainder of a frame.
fn checksum(frame: &[u8]) -> u16 {
    let mut register: u16 = 0xffff;
    for byte in frame {
        register ^= u16::from(*byte) << 8;
        for _ in 0..8 {
            let polynomial = if register & 0x8000 == 0 { 0 } else { 0x1021 };
            register = (register << 1) ^ polynomial;
        }
    }
    register
}

// Each frame with its checksum behind it.
fn append(x: &[u8], out: &mut [u8]) {
    for (framed, frame) in out.chunks_exact_mut(FRAME + 2).zip(x.chunks_exact(FRAME)) {
        let sum = checksum(frame);
        let bytes = [(sum >> 8) as u8, (sum & 255) as u8];
        for (y, byte) in framed.iter_mut().zip(frame.iter().chain(&bytes)) {
            *y = *byte;
        }
    }
}

// Whether the bytes behind each frame are its checksum: behind them, too, nothing remains.
fn check(x: &[u8], out: &mut [u8]) {
    for (y, framed) in out.iter_mut().zip(x.chunks_exact(FRAME + 2)) {
        *y = if checksum(framed) == 0 { 1 } else { 0 };
    }
}

// What the machine gives from state 0 on.
fn encode(x: &[u8], out: &mut [u8]) {
    let mut state: u8 = 0;
    for (y, byte) in out.iter_mut().zip(x) {
        let row = usize::from(state.wrapping_mul(2).wrapping_add(*byte % 2) % 8);
        *y = match OUTPUT.get(row) {
            Some(output) => *output,
            None => 0,
        };
        state = match NEXT.get(row) {
            Some(next) => *next,
            None => 0,
        };
    }
}

/// Prints each row once it is measured.
pub fn print_codes(rt: &HostRuntime) -> io::Result<()> {
    let alloc = rt.alloc();
    print_kind(
        rt,
        row("crc_append", "byte 126 16"),
        CrcAppend::new(alloc, 126, RULE),
        calls(1, 1, 32),
        &Codes::CrcAppend,
    )?;
    print_kind(
        rt,
        row("crc_check", "byte 126 16"),
        CrcCheck::new(alloc, 126, RULE),
        calls(1, 1, 32),
        &Codes::CrcCheck,
    )?;
    let (mut next, mut output) = ([0; 8], [0; 8]);
    for place in 0..8 {
        next[place] = i64::from(NEXT[place]);
        output[place] = i64::from(OUTPUT[place]);
    }
    print_kind(
        rt,
        row("state_machine", "byte 2 8"),
        StateMachine::new(alloc, 2, &next, &output, 0),
        EACH,
        &Codes::StateMachine,
    )
}
