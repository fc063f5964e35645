//! The filters.
use super::runs::{LANE_COUNTS, Trials, is_bad, ramp, taps_set};
use block_parameters::Parameter;
use fir_blocks::{Fir, InterpFir};
use items::ItemType::{Byte, Int, Short};
use std::alloc::Global;
use std::process::Abort;
use std::test::Fail;

// The taps of a filter, its rate and its shift; the items of its input, and those that it gives.
type Case = (
    &'static str,
    &'static [i64],
    u64,
    u32,
    &'static [i64],
    &'static [i64],
);

// Of shorts, with items of zero before item 0.
const FIR: [Case; 4] = [
    ("history", &[1, 2, 3], 1, 0, &[1, 0, 0, 4], &[1, 2, 3, 4]),
    ("decimation", &[1, 1], 2, 0, &[1, 2, 3, 4], &[1, 5]),
    ("rounding", &[1], 1, 1, &[3, -3], &[2, -1]),
    ("saturation", &[32_767], 1, 0, &[2, -2], &[32_767, -32_768]),
];

#[test]
fn fir(rt: HostRuntime) -> Result<(), Fail> {
    let a = rt.alloc();
    let trials = Trials::new(&rt, a);
    for (case, taps, decimation, shift, items, expected) in FIR {
        let filter = Fir::new(a, Short, taps, decimation, shift);
        trials.gives(case, filter, items, expected)?;
    }
    let lowest = ramp(a, 256, -32_768, 0)?;
    let (items, sums) = (
        ramp(a, 256, -2_147_483_648, 0)?,
        ramp(a, 256, 32_768, 32_768)?,
    );
    let greatest = Fir::new(a, Int, &lowest, 1, 31);
    trials.gives("greatest sums", greatest, &items, &sums)?;
    fir_set(&trials, a)
}

fn fir_set<R: Abort>(trials: &Trials<'_, R>, a: Global) -> Result<(), Fail> {
    let (pairs, turned) = (
        Fir::new(a, Short, &[1, 1], 1, 0),
        [taps_set(a, 2, &[1, -1])?],
    );
    trials.check(
        "a setting",
        pairs,
        &[&[5, 5, 5, 5]],
        &turned,
        &[&[5, 10, 0, 0]],
    )?;
    let (every_other, tenfold) = (Fir::new(a, Short, &[1], 2, 0), [taps_set(a, 3, &[10])?]);
    trials.check(
        "a setting by input number",
        every_other,
        &[&[1, 2, 3, 4, 5, 6]],
        &tenfold,
        &[&[1, 3, 50]],
    )?;
    let twice = [
        taps_set(a, 5, &[10])?,
        taps_set(a, 6, &[100])?,
        taps_set(a, 6, &[50])?,
    ];
    trials.check(
        "settings between firings",
        Fir::new(a, Int, &[1], 4, 0),
        &[&[1, 2, 3, 4, 5, 6, 7, 8, 9, 10, 11, 12]],
        &twice,
        &[&[1, 5, 450]],
    )
}

#[test]
fn fir_in_lanes(rt: HostRuntime) -> Result<(), Fail> {
    let a = rt.alloc();
    let trials = Trials::new(&rt, a);
    for count in LANE_COUNTS {
        let items = ramp(a, count, 1, 1)?;
        let (ones, halves) = (ramp(a, count, 1, 0)?, ramp(a, count / 2, 1, 4)?);
        for item in [Short, Int] {
            let pairs = Fir::new(a, item, &[1, -1], 1, 0);
            trials.gives("differences", pairs, &items, &ones)?;
        }
        let pairs = Fir::new(a, Int, &[1, 1], 2, 0);
        trials.gives("sums of pairs", pairs, &items, &halves)?;
        let (mut taps, mut late) = (ramp(a, count, 0, 0)?, ramp(a, count, 0, 0)?);
        for row in [&mut taps, &mut late] {
            if let Some(last) = row.last_mut() {
                *last = 1;
            }
        }
        let last = Fir::new(a, Short, &taps, 1, 0);
        trials.gives("the last tap", last, &items, &late)?;
    }
    Ok(())
}

// Of shorts.
const INTERP_FIR: [Case; 4] = [
    ("branches", &[1, 2, 3], 2, 0, &[10, 20], &[10, 20, 50, 40]),
    ("no taps", &[5], 3, 0, &[1, 2], &[5, 0, 0, 10, 0, 0]),
    ("rounding", &[1, 2], 2, 1, &[3, -3], &[2, 3, -1, -3]),
    (
        "saturation",
        &[32_767, 1],
        2,
        0,
        &[2, -2],
        &[32_767, 2, -32_768, -2],
    ),
];

#[test]
fn interp_fir(rt: HostRuntime) -> Result<(), Fail> {
    let a = rt.alloc();
    let trials = Trials::new(&rt, a);
    for (case, taps, interpolation, shift, items, expected) in INTERP_FIR {
        let filter = InterpFir::new(a, Short, taps, interpolation, shift);
        trials.gives(case, filter, items, expected)?;
    }
    let ints = InterpFir::new(a, Int, &[1, 2, 3], 2, 0);
    trials.gives("branches of ints", ints, &[10, 20], &[10, 20, 50, 40])?;
    let (set, ones) = (
        InterpFir::new(a, Short, &[1, 2, 3], 2, 0),
        [taps_set(a, 1, &[1, 1, 1])?],
    );
    trials.check("a setting", set, &[&[10, 20]], &ones, &[&[10, 20, 30, 20]])?;
    for count in LANE_COUNTS {
        let (items, ones) = (ramp(a, count, 1, 1)?, ramp(a, count, 1, 0)?);
        let one = InterpFir::new(a, Short, &[1, -1], 1, 0);
        trials.gives("one branch", one, &items, &ones)?;
        let twice = ramp(a, 2 * count, 1, 0)?;
        let two = InterpFir::new(a, Int, &[1, 1], 2, 0);
        trials.gives("two branches", two, &ones, &twice)?;
    }
    Ok(())
}

#[test]
fn parameters(rt: HostRuntime) -> Result<(), Fail> {
    let a = rt.alloc();
    let (most, too_many) = (ramp(a, 256, 0, 0)?, ramp(a, 257, 0, 0)?);
    for (taps, rate, shift) in [
        (&[-32_768, 32_767][..], 1, 0),
        (&[0], 1_024, 31),
        (&most, 1, 31),
    ] {
        for item in [Short, Int] {
            assert!(rt; Fir::new(a, item, taps, rate, shift).is_ok());
            assert!(rt; InterpFir::new(a, item, taps, rate, shift).is_ok());
        }
    }
    // The first bad parameter is named.
    for (item, taps, rate, shift, bad) in [
        (Byte, &[1][..], 1, 0, Parameter::ItemType),
        (Byte, &[], 0, 32, Parameter::ItemType),
        (Short, &[], 1, 0, Parameter::Taps),
        (Short, &too_many, 1, 0, Parameter::Taps),
        (Int, &[32_768], 1, 0, Parameter::Taps),
        (Int, &[1, -32_769], 0, 32, Parameter::Taps),
        (Short, &[1], 1, u32::MAX, Parameter::Shift),
        (Int, &[1], 1_024, 32, Parameter::Shift),
    ] {
        let fir = Fir::new(a, item, taps, rate, shift);
        assert!(rt; is_bad(fir, bad), "{bad}");
        let interp = InterpFir::new(a, item, taps, rate, shift);
        assert!(rt; is_bad(interp, bad), "{bad}");
    }
    for (rate, shift) in [(0, 0), (1_025, 0), (0, 32), (u64::MAX, 0)] {
        let fir = Fir::new(a, Short, &[1], rate, shift);
        assert!(rt; is_bad(fir, Parameter::Decimation), "{rate}");
        let interp = InterpFir::new(a, Short, &[1], rate, shift);
        assert!(rt; is_bad(interp, Parameter::Interpolation), "{rate}");
    }
    Ok(())
}
