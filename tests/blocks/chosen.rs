//! The blocks that choose an item of each frame, hold one, repeat a list and count.
use super::runs::{LANE_COUNTS, Trials, is_bad, ramp};
use block_parameters::Parameter;
use items::ItemType::{Byte, Int, Short};
use math_blocks::SampleAndHold;
use rate_blocks::{Argmax, Counter, FrameMaximum, FrameMinimum, Pattern};
use std::test::Fail;

const LEAST_INT: i64 = -2_147_483_648;

const GREATEST_INT: i64 = 2_147_483_647;

#[test]
fn of_frames(rt: HostRuntime) -> Result<(), Fail> {
    let a = rt.alloc();
    let trials = Trials::new(&rt, a);
    let shorts = [4, -2, 9, 5, 6, 7, 1];
    trials.gives("the least", FrameMinimum::new(Short, 3), &shorts, &[-2, 5])?;
    trials.gives("the greatest", FrameMaximum::new(Short, 3), &shorts, &[9, 7])?;
    trials.gives("their places", Argmax::new(Short, 3), &shorts, &[2, 2])?;
    let ints = [GREATEST_INT, GREATEST_INT, LEAST_INT, LEAST_INT, 0, -1];
    trials.gives("least ints", FrameMinimum::new(Int, 2), &ints, &[GREATEST_INT, LEAST_INT, -1])?;
    trials.gives("greatest ints", FrameMaximum::new(Int, 2), &ints, &[GREATEST_INT, LEAST_INT, 0])?;
    trials.gives("the first of equals", Argmax::new(Int, 2), &ints, &[0, 0, 0])?;
    let bytes = [0, 255, 128, 127];
    trials.gives("least bytes", FrameMinimum::new(Byte, 2), &bytes, &[0, 127])?;
    trials.gives("greatest bytes", FrameMaximum::new(Byte, 2), &bytes, &[255, 128])?;
    trials.gives("places of bytes", Argmax::new(Byte, 2), &bytes, &[1, 0])?;
    trials.gives("each alone", FrameMinimum::new(Short, 1), &shorts, &shorts)?;
    for n in LANE_COUNTS {
        let items = ramp(a, 3 * n, -50, 1)?;
        let (firsts, lasts) = (ramp(a, 3, -50, n as i64)?, ramp(a, 3, n as i64 - 51, n as i64)?);
        let places = ramp(a, 3, n as i64 - 1, 0)?;
        trials.gives("the first", FrameMinimum::new(Short, n as u64), &items, &firsts)?;
        trials.gives("the last", FrameMaximum::new(Int, n as u64), &items, &lasts)?;
        trials.gives("the last place", Argmax::new(Short, n as u64), &items, &places)?;
    }
    let many = ramp(a, 1_024, 0, 1)?;
    trials.gives("the place of 1,024", Argmax::new(Short, 1_024), &many, &[1_023])?;
    let bits = ramp(a, 300, 0, 0)?;
    trials.gives("the place of equals", Argmax::new(Byte, 300), &bits, &[0])?;
    for n in [0, 1_025] {
        assert!(rt; is_bad(FrameMinimum::new(Byte, n), Parameter::N), "least {n}");
        assert!(rt; is_bad(FrameMaximum::new(Byte, n), Parameter::N), "greatest {n}");
        assert!(rt; is_bad(Argmax::new(Byte, n), Parameter::N), "place {n}");
    }
    Ok(())
}

#[test]
fn place_that_wraps(rt: HostRuntime) -> Result<(), Fail> {
    let a = rt.alloc();
    let trials = Trials::new(&rt, a);
    let mut items = ramp(a, 300, 0, 0)?;
    items[257] = 1;
    trials.gives("place 257 of a byte", Argmax::new(Byte, 300), &items, &[1])
}

#[test]
fn of_a_list(rt: HostRuntime) -> Result<(), Fail> {
    let a = rt.alloc();
    let trials = Trials::new(&rt, a);
    let zeros = [0; 7];
    trials.gives("three", Pattern::new(a, Byte, &[7, 0, 255]), &zeros, &[7, 0, 255, 7, 0, 255, 7])?;
    trials.gives("one", Pattern::new(a, Short, &[-32_768]), &zeros, &[-32_768; 7])?;
    let ends = [LEAST_INT, GREATEST_INT];
    trials.gives("ints", Pattern::new(a, Int, &ends), &[5, 6], &ends)?;
    let values = ramp(a, 256, -128, 1)?;
    trials.gives("256", Pattern::new(a, Short, &values), &ramp(a, 256, 9, 0)?, &values)?;
    for count in LANE_COUNTS {
        let (once, clock) = (ramp(a, count, 1, 1)?, ramp(a, count, 0, 0)?);
        trials.gives("in lanes", Pattern::new(a, Byte, &once), &clock, &once)?;
    }
    let long = ramp(a, 257, 0, 0)?;
    for (case, bad) in [("none", &[][..]), ("a byte below 0", &[-1]), ("257", &long)] {
        assert!(rt; is_bad(Pattern::new(a, Byte, bad), Parameter::Values), "{case}");
    }
    assert!(rt; is_bad(Pattern::new(a, Short, &[0, 32_768]), Parameter::Values), "above a short");
    Ok(())
}

#[test]
fn of_numbers(rt: HostRuntime) -> Result<(), Fail> {
    let a = rt.alloc();
    let trials = Trials::new(&rt, a);
    trials.gives("modulo 3", Counter::new(Short, 3), &[9, 9, 9, 9], &[0, 1, 2, 0])?;
    trials.gives("modulo 1", Counter::new(Int, 1), &[9, 9], &[0, 0])?;
    for count in LANE_COUNTS {
        let (numbers, clock) = (ramp(a, count, 0, 1)?, ramp(a, count, 0, 0)?);
        trials.gives("in lanes", Counter::new(Byte, 256), &clock, &numbers)?;
    }
    let clock = ramp(a, 300, 0, 0)?;
    let mut numbers = ramp(a, 300, 0, 1)?;
    for k in 256..300 {
        numbers[k] = k as i64 - 256;
    }
    trials.gives("a byte wraps", Counter::new(Byte, 1 << 31), &clock, &numbers)?;
    for n in [0, (1 << 31) + 1] {
        assert!(rt; is_bad(Counter::new(Byte, n), Parameter::N), "{n}");
    }
    Ok(())
}

#[test]
fn held(rt: HostRuntime) -> Result<(), Fail> {
    let a = rt.alloc();
    let trials = Trials::new(&rt, a);
    let bytes: [&[i64]; 2] = [&[7, 8, 9, 10], &[0, 1, 0, 255]];
    trials.joins("bytes", Ok(SampleAndHold::new(Byte)), &bytes, &[0, 8, 8, 10])?;
    let shorts: [&[i64]; 2] = [&[-1, 5, -32_768, 32_767, 6], &[-32_768, 0, 256, 32_767, 0]];
    let given = [-1, -1, -32_768, 32_767, 32_767];
    trials.joins("shorts", Ok(SampleAndHold::new(Short)), &shorts, &given)?;
    let ints: [&[i64]; 2] = [&[3, LEAST_INT, 4, GREATEST_INT, 5], &[0, LEAST_INT, 0, 65_536, 0]];
    let given = [0, LEAST_INT, LEAST_INT, GREATEST_INT, GREATEST_INT];
    trials.joins("ints", Ok(SampleAndHold::new(Int)), &ints, &given)?;
    for count in LANE_COUNTS {
        let (items, zeros) = (ramp(a, count, 100, 1)?, ramp(a, count, 0, 0)?);
        let none: [&[i64]; 2] = [&items, &zeros];
        trials.joins("none in lanes", Ok(SampleAndHold::new(Byte)), &none, &zeros)?;
        let (all, mut once) = (ramp(a, count, -1, 0)?, ramp(a, count, 0, 0)?);
        let each: [&[i64]; 2] = [&items, &all];
        trials.joins("all in lanes", Ok(SampleAndHold::new(Int)), &each, &items)?;
        once[0] = -1;
        let (first, held): ([&[i64]; 2], Vec<i64>) = ([&items, &once], ramp(a, count, 100, 0)?);
        trials.joins("the first in lanes", Ok(SampleAndHold::new(Short)), &first, &held)?;
    }
    assert!(rt; SampleAndHold::new(Byte) == SampleAndHold::new(Byte));
    assert!(rt; SampleAndHold::new(Byte) != SampleAndHold::new(Short));
    Ok(())
}
