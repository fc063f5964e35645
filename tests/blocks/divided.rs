//! The blocks that divide items, slice them by a threshold, and encode them by the laws of G.711.
use super::runs::{LANE_COUNTS, Trials, is_bad, number_set, ramp};
use block_parameters::Parameter;
use items::ItemType::{Byte, Int, Short};
use math_blocks::{AlawEncode, BinarySlicer, Divide, DivideConst, UlawEncode};
use std::test::Fail;

const LEAST_INT: i64 = -2_147_483_648;

const GREATEST_INT: i64 = 2_147_483_647;

#[test]
fn by_a_constant(rt: HostRuntime) -> Result<(), Fail> {
    let a = rt.alloc();
    let trials = Trials::new(&rt, a);
    let shorts = [7, -7, 1, -32_768, 32_767, 0];
    trials.gives("by -2", DivideConst::new(Short, -2), &shorts, &[-3, 3, 0, 16_384, -16_383, 0])?;
    trials.gives("by -1", DivideConst::new(Short, -1), &shorts, &[-7, 7, -1, -32_768, -32_767, 0])?;
    trials.gives("by 0", DivideConst::new(Short, 0), &shorts, &[0; 6])?;
    let ints = [LEAST_INT, GREATEST_INT, -65_537];
    trials.gives("ints by -1", DivideConst::new(Int, -1), &ints, &[LEAST_INT, -GREATEST_INT, 65_537])?;
    trials.gives("by the least", DivideConst::new(Int, LEAST_INT), &ints, &[1, 0, 0])?;
    trials.gives("by the greatest", DivideConst::new(Int, GREATEST_INT), &ints, &[-1, 1, 0])?;
    trials.gives("bytes", DivideConst::new(Byte, 255), &[0, 254, 255], &[0, 0, 1])?;
    let settings = [number_set(1, 0), number_set(3, 5)];
    let (items, given) = ([100, 100, 100, 100], [50, 0, 0, 20]);
    trials.check("settings", DivideConst::new(Byte, 2), &[&items], &settings, &[&given])?;
    for count in LANE_COUNTS {
        let (threes, ones) = (ramp(a, count, 0, 3)?, ramp(a, count, 0, 1)?);
        let (down, up) = (ramp(a, count, 0, -3)?, ramp(a, count, 0, 1)?);
        trials.gives("bytes in lanes", DivideConst::new(Byte, 3), &threes, &ones)?;
        trials.gives("shorts in lanes", DivideConst::new(Short, -3), &down, &up)?;
        trials.gives("ints in lanes", DivideConst::new(Int, -3), &down, &up)?;
    }
    assert!(rt; is_bad(DivideConst::new(Byte, 256), Parameter::Value), "above a byte");
    assert!(rt; is_bad(DivideConst::new(Short, -32_769), Parameter::Value), "below a short");
    Ok(())
}

#[test]
fn by_other_inputs(rt: HostRuntime) -> Result<(), Fail> {
    let a = rt.alloc();
    let trials = Trials::new(&rt, a);
    let three: [&[i64]; 3] = [&[100, -100, 32_767], &[7, 7, -1], &[3, -3, 2]];
    trials.joins("in turn", Ok(Divide::new(Short)), &three, &[4, 4, -16_383])?;
    let two: [&[i64]; 2] = [&[LEAST_INT, 5, 0, LEAST_INT], &[-1, 0, 0, LEAST_INT]];
    trials.joins("ints", Ok(Divide::new(Int)), &two, &[LEAST_INT, 0, 0, 1])?;
    let two: [&[i64]; 2] = [&[255, 255, 1], &[2, 0, 255]];
    trials.joins("bytes", Ok(Divide::new(Byte)), &two, &[127, 0, 0])?;
    trials.gives("alone", Ok(Divide::new(Short)), &[-9, 9], &[-9, 9])?;
    for count in LANE_COUNTS {
        let (twice, once) = (ramp(a, count, 2, 2)?, ramp(a, count, 1, 1)?);
        let both = ramp(a, count, 2, 0)?;
        let joined: [&[i64]; 2] = [&twice, &once];
        trials.joins("in lanes", Ok(Divide::new(Short)), &joined, &both)?;
    }
    Ok(())
}

#[test]
fn by_a_threshold(rt: HostRuntime) -> Result<(), Fail> {
    let a = rt.alloc();
    let trials = Trials::new(&rt, a);
    trials.gives("shorts", BinarySlicer::new(Short, 0), &[-32_768, -1, 0, 32_767], &[0, 0, 1, 1])?;
    trials.gives("bytes", BinarySlicer::new(Byte, 128), &[0, 127, 128, 255], &[0, 0, 1, 1])?;
    let (ints, all) = ([LEAST_INT, -1, GREATEST_INT], [1, 1, 1]);
    trials.gives("the least", BinarySlicer::new(Int, LEAST_INT), &ints, &all)?;
    trials.gives("the greatest", BinarySlicer::new(Int, GREATEST_INT), &ints, &[0, 0, 1])?;
    for count in LANE_COUNTS {
        let (items, below, from) = (
            ramp(a, count, 0, 1)?,
            ramp(a, count, 0, 0)?,
            ramp(a, count, 1, 0)?,
        );
        trials.gives("none in lanes", BinarySlicer::new(Short, count as i64), &items, &below)?;
        trials.gives("all in lanes", BinarySlicer::new(Byte, 0), &items, &from)?;
    }
    assert!(rt; is_bad(BinarySlicer::new(Byte, -1), Parameter::Threshold), "below a byte");
    assert!(rt; is_bad(BinarySlicer::new(Short, 32_768), Parameter::Threshold), "above a short");
    Ok(())
}

#[test]
fn by_the_laws_of_g711(rt: HostRuntime) -> Result<(), Fail> {
    let a = rt.alloc();
    let trials = Trials::new(&rt, a);
    // Both rows are those of GNU Radio's `ulaw_encode_sb`.
    let shorts = [
        -32_768, -32_636, -32_635, -16_388, -1_124, -125, -124, -4, -1, 0, 3, 4, 123, 124, 125, 1_000,
        4_096, 16_251, 16_252, 32_635, 32_767,
    ];
    let bytes = [
        0, 0, 0, 15, 76, 111, 111, 126, 127, 255, 255, 254, 240, 239, 239, 206, 175, 144, 143, 128, 128,
    ];
    trials.gives("the mu-law", Ok(UlawEncode::new(Short)), &shorts, &bytes)?;
    trials.gives("the mu-law of ints", Ok(UlawEncode::new(Int)), &shorts, &bytes)?;
    // And those of its `alaw_encode_sb`.
    let shorts = [
        -32_768, -32_249, -1_032, -1_008, -520, -264, -263, -24, -23, -8, 0, 15, 16, 255, 256, 511, 512,
        1_023, 1_024, 16_383, 16_384, 32_767,
    ];
    let bytes = [
        42, 42, 101, 122, 117, 69, 90, 84, 85, 85, 213, 213, 212, 218, 197, 202, 245, 250, 229, 186, 165,
        170,
    ];
    trials.gives("the A-law", Ok(AlawEncode::new(Short)), &shorts, &bytes)?;
    trials.gives("the A-law of ints", Ok(AlawEncode::new(Int)), &shorts, &bytes)?;
    trials.gives("next to 0", Ok(AlawEncode::new(Short)), &[-7, -1], &[85, 85])?;
    let ends = [LEAST_INT, -32_769, 32_768, GREATEST_INT];
    trials.gives("far ints by the mu-law", Ok(UlawEncode::new(Int)), &ends, &[0, 0, 128, 128])?;
    trials.gives("far ints by the A-law", Ok(AlawEncode::new(Int)), &ends, &[42, 42, 170, 170])?;
    trials.gives("bytes by the mu-law", Ok(UlawEncode::new(Byte)), &[0, 3, 4, 125], &[255, 255, 254, 239])?;
    trials.gives("bytes by the A-law", Ok(AlawEncode::new(Byte)), &[0, 16, 255], &[213, 212, 218])?;
    for count in LANE_COUNTS {
        let (zeros, silence) = (ramp(a, count, 0, 0)?, ramp(a, count, 255, 0)?);
        trials.gives("in lanes", Ok(UlawEncode::new(Short)), &zeros, &silence)?;
        let quiet = ramp(a, count, 213, 0)?;
        trials.gives("in lanes", Ok(AlawEncode::new(Short)), &zeros, &quiet)?;
    }
    Ok(())
}
