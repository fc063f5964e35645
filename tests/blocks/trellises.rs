//! The block that finds the symbols that took a machine through metrics.
use super::runs::{Trials, is_bad, ramp};
use block_parameters::Parameter;
use code_blocks::{Trellis, Viterbi};
use items::ItemType::{Byte, Int, Short};
use std::alloc::Global;
use std::test::Fail;

// The tables of the convolutional code of 1 + D^2 and 1 + D + D^2, whose state is the last two bits, the newest the
// highest.
const NEXT: [i64; 8] = [0, 2, 0, 2, 1, 3, 1, 3];
const OUTPUT: [i64; 8] = [0, 3, 3, 0, 1, 2, 2, 1];

// The code, in blocks of so many steps.
fn code<'a>(steps: u32, start: Option<u32>, end: Option<u32>) -> Trellis<'a> {
    Trellis {
        symbols: 2,
        next: &NEXT,
        outputs: 4,
        output: &OUTPUT,
        steps,
        start,
        end,
    }
}

// The code by its polynomials, from state 0: the bit of the first is the higher.
fn convolved(alloc: Global, bits: &[i64]) -> Result<Vec<i64>, Fail> {
    let mut out = Vec::new(alloc);
    let (mut last, mut before) = (0, 0);
    for bit in bits {
        out.push(2 * ((*bit + before) % 2) + (*bit + last + before) % 2)?;
        before = last;
        last = *bit;
    }
    Ok(out)
}

// Of each pair of bits, in how many it differs from each of the four that there are.
fn distances(alloc: Global, pairs: &[i64]) -> Result<Vec<i64>, Fail> {
    let mut out = Vec::new(alloc);
    for pair in pairs {
        for other in 0..4 {
            out.push((*pair / 2 + other / 2) % 2 + (*pair + other) % 2)?;
        }
    }
    Ok(out)
}

#[test]
fn decoded(rt: HostRuntime) -> Result<(), Fail> {
    let a = rt.alloc();
    let trials = Trials::new(&rt, a);
    let free = Viterbi::new(a, Byte, &code(3, Some(0), None));
    trials.gives("1 0 1", free, &distances(a, &[3, 1, 0])?, &[1, 0, 1])?;
    // Of the two paths from state 0 to state 0, the second is the nearer, and then the first. What fills no block gives
    // nothing.
    let tied = Viterbi::new(a, Byte, &code(3, Some(0), Some(0)));
    let came = distances(a, &[3, 1, 2, 0, 1, 0, 3])?;
    trials.gives("two blocks", tied, &came, &[1, 0, 0, 0, 0, 0])?;
    // State 0 leads to the states 0 and 2.
    let none = Viterbi::new(a, Byte, &code(1, Some(0), Some(1)));
    trials.gives("no path", none, &distances(a, &[3, 1])?, &[0, 0])
}

#[test]
fn mended(rt: HostRuntime) -> Result<(), Fail> {
    let a = rt.alloc();
    let trials = Trials::new(&rt, a);
    // Bits of a linear congruence, and two zeros that lead back to state 0.
    let mut bits = Vec::new(a);
    let mut word: i64 = 1;
    for _ in 0..98 {
        word = word * 75 % 65_537;
        bits.push(word / 256 % 2)?;
    }
    bits.push(0)?;
    bits.push(0)?;
    let mut pairs = convolved(a, &bits)?;
    let whole = Viterbi::new(a, Byte, &code(100, Some(0), Some(0)));
    trials.gives("as sent", whole, &distances(a, &pairs)?, &bits)?;
    // Paths that part and meet again differ in five bits at least, so one that is far from others is mended, and two
    // beside each other.
    for place in [7, 31, 52, 77] {
        pairs[place] ^= 1;
    }
    pairs[52] ^= 2;
    let mends = Viterbi::new(a, Byte, &code(100, Some(0), Some(0)));
    trials.gives("with errors", mends, &distances(a, &pairs)?, &bits)
}

#[test]
fn ties(rt: HostRuntime) -> Result<(), Fail> {
    let a = rt.alloc();
    let trials = Trials::new(&rt, a);
    // The bits 0 0 1 cost 1 + 0 + 4 by the rows 0, 0 and 1, and 1 0 1 cost 0 + 1 + 4 by the rows 1, 4 and 3.
    let came = [1, 9, 9, 0, 0, 1, 9, 9, 4, 9, 9, 4];
    let rows = Viterbi::new(a, Byte, &code(3, Some(0), Some(2)));
    trials.gives("last rows", rows, &came, &[0, 0, 1])?;
    // The rows 1, 2, 5 and 6 cost the least, and lead to the states 2, 0, 3 and 1.
    let states = Viterbi::new(a, Byte, &code(1, None, None));
    trials.gives("last states", states, &[5, 5, 1, 1], &[0])
}

// A machine with one state, for which each step is decided by itself.
fn choice<'a>(next: &'a [i64], output: &'a [i64], outputs: u32, steps: u32) -> Trellis<'a> {
    Trellis {
        symbols: next.len() as u32,
        next,
        outputs,
        output,
        steps,
        start: None,
        end: Some(0),
    }
}

#[test]
fn extremes(rt: HostRuntime) -> Result<(), Fail> {
    let a = rt.alloc();
    let trials = Trials::new(&rt, a);
    for (item, least, greatest) in [
        (Byte, 0, 255),
        (Short, -32_768, 32_767),
        (Int, -2_147_483_648, 2_147_483_647),
    ] {
        // The sum of all least, and of all greatest.
        let (mut least_twice, mut greatest_twice) = (Vec::new(a), Vec::new(a));
        let (mut first, mut other) = (Vec::new(a), Vec::new(a));
        for step in 0..512 {
            least_twice.push(least)?;
            least_twice.push(least)?;
            greatest_twice.push(greatest)?;
            greatest_twice.push(greatest)?;
            first.push(if step % 2 == 0 { least } else { greatest })?;
            first.push(if step % 2 == 0 { greatest } else { least })?;
            other.push(step % 2)?;
        }
        let zeros = ramp(a, 512, 0, 0)?;
        for (case, items, expected) in [
            ("all least", &least_twice, &zeros),
            ("all greatest", &greatest_twice, &zeros),
            ("in turn", &first, &other),
        ] {
            let block = Viterbi::new(a, item, &choice(&[0, 0], &[0, 1], 2, 512));
            trials.gives(case, block, items, expected)?;
        }
    }
    Ok(())
}

#[test]
fn apart(rt: HostRuntime) -> Result<(), Fail> {
    let a = rt.alloc();
    let trials = Trials::new(&rt, a);
    // Two states, each of which leads by both symbols to itself. Of 341 steps the symbol 1 of state 0 costs one less
    // than the greatest int, the symbol 0 the greatest, and both of state 1 the least: no path from state 0 gets there.
    let mut costs = Vec::new(a);
    for _ in 0..341 {
        costs.push(2_147_483_647)?;
        costs.push(2_147_483_646)?;
        costs.push(-2_147_483_648)?;
    }
    let (ones, zeros) = (ramp(a, 341, 1, 0)?, ramp(a, 341, 0, 0)?);
    for (end, expected) in [(None, &ones), (Some(0), &ones), (Some(1), &zeros)] {
        let trellis = Trellis {
            symbols: 2,
            next: &[0, 0, 1, 1],
            outputs: 3,
            output: &[0, 1, 2, 2],
            steps: 341,
            start: Some(0),
            end,
        };
        trials.gives("two states", Viterbi::new(a, Int, &trellis), &costs, expected)?;
    }
    Ok(())
}

#[test]
fn largest(rt: HostRuntime) -> Result<(), Fail> {
    let a = rt.alloc();
    let trials = Trials::new(&rt, a);
    // 256 symbols, each with an output of its own, of which the one of symbol 255 costs the least, and then that of
    // symbol 128.
    let (stays, numbers) = (ramp(a, 256, 0, 0)?, ramp(a, 256, 0, 1)?);
    let mut costs = ramp(a, 1_024, 7, 0)?;
    costs[255] = 3;
    costs[256 + 128] = 3;
    let wide = Viterbi::new(a, Short, &choice(&stays, &numbers, 256, 4));
    trials.gives("all bytes", wide, &costs, &[255, 128, 0, 0])?;
    // 1,024 states of four symbols lead from s to 4 * s modulo 1,024 and the symbol, so that five symbols are the
    // state: 16 steps of which the first metric of each is less for the symbol 3.
    let mut next = Vec::new(a);
    let mut output = Vec::new(a);
    for state in 0..1_024 {
        for symbol in 0..4 {
            next.push(state * 4 % 1_024 + symbol)?;
            output.push(if symbol == 3 { 0 } else { 1 })?;
        }
    }
    let mut costs = Vec::new(a);
    for _ in 0..16 {
        costs.push(-1)?;
        costs.push(0)?;
    }
    let trellis = Trellis {
        symbols: 4,
        next: &next,
        outputs: 2,
        output: &output,
        steps: 16,
        start: Some(0),
        end: None,
    };
    let deep = Viterbi::new(a, Int, &trellis);
    trials.gives("many states", deep, &costs, &[3; 16])
}

#[test]
fn refused(rt: HostRuntime) -> Result<(), Fail> {
    let a = rt.alloc();
    let (many, few) = (ramp(a, 4_097, 0, 0)?, ramp(a, 1_025, 0, 0)?);
    let good = code(3, Some(0), None);
    let cases = [
        (Trellis { symbols: 0, ..good }, Parameter::Symbols),
        (Trellis { symbols: 257, ..good }, Parameter::Symbols),
        (Trellis { next: &[], ..good }, Parameter::Next),
        (Trellis { next: &many, ..good }, Parameter::Next),
        (Trellis { next: &NEXT[..7], ..good }, Parameter::Next),
        (Trellis { next: &[0, 2, 0, 2, 1, 3, 1, 4], ..good }, Parameter::Next),
        (Trellis { next: &[0, 2, 0, 2, 1, 3, 1, -1], ..good }, Parameter::Next),
        (Trellis { symbols: 1, next: &few, ..good }, Parameter::Next),
        (Trellis { outputs: 0, ..good }, Parameter::Outputs),
        (Trellis { outputs: 1_025, ..good }, Parameter::Outputs),
        (Trellis { outputs: 3, ..good }, Parameter::Output),
        (Trellis { output: &OUTPUT[..7], ..good }, Parameter::Output),
        (Trellis { output: &[0, 3, 3, 0, 1, 2, 2, -1], ..good }, Parameter::Output),
        (Trellis { steps: 0, ..good }, Parameter::Steps),
        (Trellis { steps: 257, ..good }, Parameter::Steps),
        (Trellis { steps: 4_294_967_295, ..good }, Parameter::Steps),
        (Trellis { start: Some(4), ..good }, Parameter::Start),
        (Trellis { end: Some(4), ..good }, Parameter::End),
    ];
    for (trellis, bad) in &cases {
        assert!(rt; is_bad(Viterbi::new(a, Byte, trellis), *bad), "{bad}");
    }
    Ok(())
}
