//! A block's work over whole streams, compared with what it should give.

use super::harness::{are_wanted, has_ports, held_over, places_for, windows_of};
use block_parameters::{ParamFault, Parameter};
use block_trait::{Block, Held, Taps, Value};
use items::Items;
use std::alloc::Global;
use std::process::Abort;
use std::test::Fail;

// How many firings are tried at most.
const MOST: u64 = 70_000;

// The word after some firings, and what they give on each output.
#[derive(Drop)]
struct Worked {
    word: u64,
    out: Vec<Items>,
}

// Does firings `first` to below `first + count` of a block that is in the state `word` before them.
fn work<B: Block>(
    alloc: Global,
    block: &B,
    inputs: &[Items],
    settings: &[Held],
    outputs: usize,
    word: u64,
    first: u64,
    count: u64,
) -> Result<Worked, Fail> {
    if !are_wanted(block, settings) || !has_ports(block, inputs.len(), outputs) {
        return Err(Fail::new("settings or ports that the block has not"));
    }
    let windows = windows_of(alloc, block, inputs, first, count)?;
    let held = held_over(alloc, block, settings, first, count)?;
    let mut out = places_for(alloc, block, outputs, first, count)?;
    let word = block.work(word, first, count, &windows, &held, &mut out);
    Ok(Worked { word, out })
}

// Whether these are the numbers from place `from` on.
fn are_next(items: &Items, expected: &[i64], from: u64) -> bool {
    let mut next = expected.iter().skip(from as usize);
    for n in 0..items.len() {
        if next.next() != Some(&items.number(n)) {
            return false;
        }
    }
    true
}

// How many firings give this many items.
fn firings_for<B: Block>(block: &B, items: usize) -> u64 {
    for firings in 0..MOST {
        if block.given(firings) >= items as u64 {
            return firings;
        }
    }
    MOST
}

// Whether the block gives this on each output, where it does at most `cut` firings at a time.
fn gives<B: Block>(
    alloc: Global,
    block: &B,
    inputs: &[Items],
    settings: &[Held],
    expected: &[&[i64]],
    cut: u64,
) -> Result<bool, Fail> {
    let longest = expected.iter().map(|items| items.len()).max().unwrap_or(0);
    let end = firings_for(block, longest);
    let mut word = block.start();
    let mut first = 0;
    while first < end {
        let count = cut.min(end - first);
        let from = block.given(first);
        let worked = work(
            alloc,
            block,
            inputs,
            settings,
            expected.len(),
            word,
            first,
            count,
        )?;
        for (items, numbers) in worked.out.iter().zip(expected) {
            if !are_next(items, numbers, from) {
                return Ok(false);
            }
        }
        word = worked.word;
        first += count;
    }
    Ok(block.given(end) == longest as u64)
}

/// About the counts of items at which lanes are full.
pub const LANE_COUNTS: [usize; 6] = [15, 16, 17, 33, 64, 65];

/// What the tests of blocks go through: each stops the test where a block does not give what it should, in whole or in
/// cuts.
#[derive(Drop)]
pub struct Trials<'a, R> {
    rt: &'a R,
    alloc: Global,
}

impl<'a, R: Abort> Trials<'a, R> {
    /// Trials that stop the test by this.
    pub fn new(rt: &'a R, alloc: Global) -> Trials<'a, R> {
        Trials { rt, alloc }
    }

    /// Of these items of its one input the block gives those on its one output.
    pub fn gives<B: Block>(
        &self,
        case: &str,
        made: Result<B, ParamFault>,
        items: &[i64],
        expected: &[i64],
    ) -> Result<(), Fail> {
        self.check(case, made, &[items], &[], &[expected])
    }

    /// Of these items of each of its inputs the block gives those on its one output.
    pub fn joins<B: Block>(
        &self,
        case: &str,
        made: Result<B, ParamFault>,
        inputs: &[&[i64]],
        expected: &[i64],
    ) -> Result<(), Fail> {
        self.check(case, made, inputs, &[], &[expected])
    }

    /// Of these items of each input, under these settings, the block gives those on each output.
    pub fn check<B: Block>(
        &self,
        case: &str,
        made: Result<B, ParamFault>,
        inputs: &[&[i64]],
        settings: &[Held],
        expected: &[&[i64]],
    ) -> Result<(), Fail> {
        let (rt, alloc) = (self.rt, self.alloc);
        let block = made?;
        let mut typed = Vec::new(alloc);
        for numbers in inputs {
            typed.push(Items::from_numbers(alloc, block.inputs().item, numbers)?)?;
        }
        for cut in [1, 3, 7, MOST] {
            let right = gives(alloc, &block, &typed, settings, expected, cut)?;
            assert!(rt; right, "{case}, {cut} firings at a time");
        }
        Ok(())
    }
}

/// A number, set at an item.
pub fn number_set(at: u64, number: i64) -> Held {
    Held {
        at,
        value: Value::Number(number),
    }
}

/// Taps, set at an item.
pub fn taps_set(alloc: Global, at: u64, taps: &[i16]) -> Result<Held, Fail> {
    Ok(Held {
        at,
        value: Value::Taps(Taps::new(Vec::from_slice(alloc, taps)?)),
    })
}

/// So many numbers from `first` on, each `step` after the one before it.
pub fn ramp(alloc: Global, count: usize, first: i64, step: i64) -> Result<Vec<i64>, Fail> {
    let mut numbers = Vec::new(alloc);
    let mut next = first;
    for _ in 0..count {
        numbers.push(next)?;
        next = next.saturating_add(step);
    }
    Ok(numbers)
}

/// Whether this parameter was refused.
pub fn is_bad<B: Drop>(made: Result<B, ParamFault>, parameter: Parameter) -> bool {
    match made {
        Err(ParamFault::BadParameter(bad)) => bad == parameter,
        _ => false,
    }
}
