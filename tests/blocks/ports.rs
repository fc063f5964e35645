//! The blocks with several inputs or outputs, and those that sum.
use super::runs::{LANE_COUNTS, Trials, is_bad, number_set, ramp};
use block_parameters::{ParamFault, Parameter};
use items::ItemType::{Byte, Int, Short};
use math_blocks::{Add, And, MovingSum, Or, Scale, Xor};
use rate_blocks::{Deinterleave, Integrate, Interleave, StreamMux};
use std::alloc::Global;
use std::process::Abort;
use std::test::Fail;

const LEAST_INT: i64 = -2_147_483_648;

// Whether a block was made, and else why not.
fn made<B: Drop>(block: Result<B, ParamFault>) -> Result<(), ParamFault> {
    block?;
    Ok(())
}

#[test]
fn sums(rt: HostRuntime) -> Result<(), Fail> {
    let a = rt.alloc();
    let trials = Trials::new(&rt, a);
    let scale = Scale::new(Short, 3, 1);
    trials.gives("a scale", scale, &[1, -1, 30_000], &[2, -1, 32_767])?;
    for (case, shift, item, scaled) in [
        ("the greatest shift", 31, LEAST_INT, 32_768),
        ("below the range", 0, 2_147_483_647, LEAST_INT),
    ] {
        trials.gives(case, Scale::new(Int, -32_768, shift), &[item], &[scaled])?;
    }
    let (scale, negative) = (Scale::new(Short, 3, 0), [number_set(1, -1)]);
    trials.check("another factor", scale, &[&[5, 5]], &negative, &[&[15, -5]])?;
    let (last_three, items) = (MovingSum::new(Byte, 3), [1, 2, 3, 4, 200, 100]);
    trials.gives("the last three", last_three, &items, &[1, 3, 6, 9, 207, 48])?;
    let (each_two, items) = (Integrate::new(Byte, 2), [200, 100, 5, 6, 7]);
    trials.gives("each two", each_two, &items, &[44, 11])?;
    for count in LANE_COUNTS {
        let (ones, counted, twice, pairs) = (
            ramp(a, count, 1, 0)?,
            ramp(a, count, 1, 1)?,
            ramp(a, 2 * count, 1, 0)?,
            ramp(a, count, 2, 0)?,
        );
        trials.gives("all so far", MovingSum::new(Int, 1_024), &ones, &counted)?;
        trials.gives("many pairs", Integrate::new(Int, 2), &twice, &pairs)?;
    }
    Ok(())
}

#[test]
fn several_ports(rt: HostRuntime) -> Result<(), Fail> {
    let a = rt.alloc();
    let trials = Trials::new(&rt, a);
    let two: [&[i64]; 2] = [&[1, 2, 250, 4], &[10, 20, 10, 40]];
    trials.joins("two inputs", Ok(Add::new(Byte)), &two, &[11, 22, 4, 44])?;
    trials.gives("one input", Ok(Add::new(Short)), &[-7], &[-7])?;
    let two: [&[i64]; 2] = [&[12], &[10]];
    trials.joins("bits of both", Ok(And::new(Byte)), &two, &[8])?;
    trials.joins("bits of either", Ok(Or::new(Byte)), &two, &[14])?;
    trials.joins("bits of one", Ok(Xor::new(Byte)), &two, &[6])?;
    let two: [&[i64]; 2] = [&[1, 2, 3], &[10, 20]];
    trials.joins("in turn", Interleave::new(Byte, 2), &two, &[1, 10, 2, 20])?;
    trials.check(
        "to three in turn",
        Deinterleave::new(Byte, 3),
        &[&[1, 2, 3, 4, 5, 6, 7]],
        &[],
        &[&[1, 4], &[2, 5], &[3, 6]],
    )?;
    trials.joins(
        "two and one",
        StreamMux::new(Byte, &[2, 1]),
        &[&[1, 2, 3, 4, 5], &[10, 20, 30]],
        &[1, 2, 10, 3, 4, 20],
    )?;
    check_rounds(&trials, a)?;
    for count in LANE_COUNTS {
        let (up, tens, high) = (
            ramp(a, count, 0, 1)?,
            ramp(a, count, 10, 0)?,
            ramp(a, count, 10, 1)?,
        );
        trials.joins("many sums", Ok(Add::new(Int)), &[&up, &tens], &high)?;
    }
    Ok(())
}

// Rounds of several items of the first input and one of the second.
fn check_rounds<R: Abort>(trials: &Trials<'_, R>, a: Global) -> Result<(), Fail> {
    for n in [1, 2, 3, 4, 5, 8, 9, 16, 17] {
        let rounds = 5;
        let (first, second) = (ramp(a, rounds * n, 0, 1)?, ramp(a, rounds, 1_000, 1)?);
        let mut merged = Vec::new(a);
        for round in 0..rounds {
            for k in 0..n {
                merged.push((round * n + k) as i64)?;
            }
            merged.push(1_000 + round as i64)?;
        }
        let mux = StreamMux::new(Short, &[n as i64, 1]);
        trials.joins("several and one", mux, &[&first, &second], &merged)?;
    }
    Ok(())
}

#[test]
fn parameters(rt: HostRuntime) -> Result<(), Fail> {
    for (made, bad) in [
        (made(Scale::new(Short, -32_769, 0)), Parameter::Factor),
        (made(Scale::new(Int, 32_768, 32)), Parameter::Factor),
        (made(Scale::new(Int, 32_767, 32)), Parameter::Shift),
        (made(MovingSum::new(Byte, 0)), Parameter::Length),
        (made(MovingSum::new(Byte, 1_025)), Parameter::Length),
        (made(Integrate::new(Byte, 0)), Parameter::N),
        (made(Integrate::new(Byte, 1_025)), Parameter::N),
        (made(Interleave::new(Byte, 0)), Parameter::Ports),
        (made(Interleave::new(Byte, 17)), Parameter::Ports),
        (made(Deinterleave::new(Byte, 0)), Parameter::Ports),
        (made(Deinterleave::new(Byte, 17)), Parameter::Ports),
    ] {
        assert!(rt; is_bad(made, bad), "{bad}");
    }
    let many = [1; 17];
    for lengths in [&[][..], &many, &[0], &[1_024, 1]] {
        let made = StreamMux::new(Byte, lengths);
        assert!(rt; is_bad(made, Parameter::Lengths), "{lengths:?}");
    }
    for (case, made) in [
        ("scale", made(Scale::new(Byte, -32_768, 31))),
        ("moving_sum", made(MovingSum::new(Int, 1_024))),
        ("integrate", made(Integrate::new(Int, 1_024))),
        ("interleave", made(Interleave::new(Int, 16))),
        ("deinterleave", made(Deinterleave::new(Int, 16))),
        ("one length", made(StreamMux::new(Int, &[1_024]))),
        ("16 lengths", made(StreamMux::new(Int, &[64; 16]))),
    ] {
        assert!(rt; made.is_ok(), "{case}");
    }
    Ok(())
}
