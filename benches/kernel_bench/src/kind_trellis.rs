//! The kind that finds the path through a machine: its row, and a plain loop of the same code.
ghost use Rattle.std.specs.Prelude.{◌≡◌, length};

use crate::kind_contest::{PlainLoop, print_kind};
use crate::kind_table::{calls, row};
use code_blocks::{Trellis, Viterbi};
use items::ItemType::Byte;
use std::io;

// The code of the polynomials 171 and 133, whose state is the last six bits, the newest the highest, in blocks of 256
// bits that begin in state 0.
const STATES: usize = 64;

const STEPS: usize = 256;

const OUTPUTS: usize = 4;

// More than the metrics of a path come to.
const FAR: u32 = 1 << 20;

/// The loop, with the output of each row: of state `s` and bit `b` at `2 * s + b`.
#[derive(Drop)]
struct Decoding {
    output: [u8; 2 * STATES],
}

impl PlainLoop<u8, u8> for Decoding {
    #[inline(never)]
    fn run(&self, a: &[u8], _b: &[u8], out: &mut [u8], _other: &mut [u8]) {
        let mut odd = [0; STATES * STEPS];
        let blocks = a.chunks_exact(STEPS * OUTPUTS);
        for (bits, metrics) in out.chunks_exact_mut(STEPS).zip(blocks) {
            let sums = go(&self.output, metrics, &mut odd);
            trace(&odd, least(&sums), bits);
        }
    }
}

// The sums of the cheapest paths to all states, and in `odd` which of the two states before each was the odd one.
fn go(output: &[u8; 2 * STATES], metrics: &[u8], odd: &mut [u8; STATES * STEPS]) -> [u32; STATES] {
    let mut sums = [FAR; STATES];
    sums[0] = 0;
    for (step, metrics) in metrics.chunks_exact(OUTPUTS).enumerate() {
        let mut after = [0; STATES];
        for to in 0..STATES {
            let (bit, state) = (to / 32, to % 32 * 2);
            let even = with(sums[state], metrics, output[2 * state + bit]);
            let later = with(sums[state + 1], metrics, output[2 * state + 2 + bit]);
            after[to] = even.min(later);
            if let Some(place) = odd.get_mut(STATES.wrapping_mul(step).wrapping_add(to)) {
                *place = if later < even { 1 } else { 0 };
            }
        }
        sums = after;
    }
    sums
}

// A sum with the metric of an output behind it.
fn with(sum: u32, metrics: &[u8], output: u8) -> u32 {
    match metrics.get(usize::from(output)) {
        Some(metric) => sum.wrapping_add(u32::from(*metric)),
        None => sum,
    }
}

// The first state of the least sum.
fn least(sums: &[u32; STATES]) -> usize {
    let (mut found, mut least) = (0, u32::MAX);
    for (state, sum) in sums.iter().enumerate() {
        if *sum < least {
            (found, least) = (state, *sum);
        }
    }
    found
}

// Goes back along a path, whose bits are the highest of its states.
fn trace(odd: &[u8; STATES * STEPS], last: usize, bits: &mut [u8]) {
    let mut state = last;
    for step in (0..bits.len()).rev() {
        bits[step] = if state < 32 { 0 } else { 1 };
        state = match odd.get(STATES.wrapping_mul(step).wrapping_add(state)) {
            Some(odd) => state % 32 * 2 + usize::from(*odd),
            None => 0,
        };
    }
}

// The output of the bits that a polynomial meets: the newest, and behind it the state.
fn output_of(bits: u32) -> u32 {
    (bits & 0o171).count_ones() % 2 * 2 + (bits & 0o133).count_ones() % 2
}

/// Prints the row once it is measured.
pub fn print_trellis(rt: &HostRuntime) -> io::Result<()> {
    let mut decoding = Decoding {
        output: [0; 2 * STATES],
    };
    let (mut next, mut output) = ([0; 2 * STATES], [0; 2 * STATES]);
    for place in 0..2 * STATES {
        let bits = place % 2 * 64 + place / 2;
        let given = output_of(bits as u32);
        decoding.output[place] = (given & 255) as u8;
        next[place] = (bits / 2) as i64;
        output[place] = i64::from(given);
    }
    let trellis = Trellis {
        symbols: 2,
        next: &next,
        outputs: OUTPUTS as u32,
        output: &output,
        steps: STEPS as u32,
        start: Some(0),
        end: None,
    };
    print_kind(
        rt,
        row("viterbi", "byte 64 states"),
        Viterbi::new(rt.alloc(), Byte, &trellis),
        calls(1, 1, 4),
        &decoding,
    )
}
