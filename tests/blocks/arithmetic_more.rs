//! The blocks of bits of a constant, of products, differences, ends of ranges, muting and numbers for bytes.
use super::runs::{LANE_COUNTS, Trials, is_bad, number_set, ramp};
use items::ItemType::{Byte, Int, Short};
use math_blocks::{
    Abs, AndConst, Clip, Maximum, Minimum, Multiply, Mute, OrConst, Sub, Table, XorConst,
};
use block_parameters::Parameter;
use std::alloc::Global;
use std::process::Abort;
use std::test::Fail;

const LEAST_INT: i64 = -2_147_483_648;

const GREATEST_INT: i64 = 2_147_483_647;

#[test]
fn constants_of_bits(rt: HostRuntime) -> Result<(), Fail> {
    let a = rt.alloc();
    let trials = Trials::new(&rt, a);
    trials.gives("and", AndConst::new(Byte, 10), &[12, 255], &[8, 10])?;
    trials.gives("or", OrConst::new(Byte, 10), &[12, 0], &[14, 10])?;
    trials.gives("xor", XorConst::new(Byte, 10), &[12, 255], &[6, 245])?;
    let shorts = [5, -32_768, 32_767];
    trials.gives(
        "the sign",
        AndConst::new(Short, -32_768),
        &shorts,
        &[0, -32_768, 0],
    )?;
    trials.gives("set bits", OrConst::new(Short, -1), &shorts, &[-1, -1, -1])?;
    trials.gives(
        "turned bits",
        XorConst::new(Short, -1),
        &shorts,
        &[-6, 32_767, -32_768],
    )?;
    let ints = [LEAST_INT, GREATEST_INT, 7];
    trials.gives("all ints", AndConst::new(Int, -1), &ints, &ints)?;
    trials.gives(
        "ints",
        XorConst::new(Int, GREATEST_INT),
        &ints,
        &[-1, 0, 2_147_483_640],
    )?;
    let settings = [number_set(1, 240), number_set(3, 255)];
    trials.check(
        "settings",
        AndConst::new(Byte, 15),
        &[&[170, 170, 171, 171]],
        &settings,
        &[&[10, 160, 160, 171]],
    )?;
    for count in LANE_COUNTS {
        let (even, odd, all) = (
            ramp(a, count, 0, 2)?,
            ramp(a, count, 1, 2)?,
            ramp(a, count, -1, 0)?,
        );
        trials.gives("and in lanes", AndConst::new(Short, -2), &odd, &even)?;
        trials.gives("or in lanes", OrConst::new(Byte, 1), &even, &odd)?;
        trials.gives("xor in lanes", XorConst::new(Int, 1), &odd, &even)?;
        trials.gives("all in lanes", OrConst::new(Int, -1), &even, &all)?;
    }
    Ok(())
}

#[test]
fn inputs_joined(rt: HostRuntime) -> Result<(), Fail> {
    let a = rt.alloc();
    let trials = Trials::new(&rt, a);
    let three: [&[i64]; 3] = [&[2, 16, 255], &[3, 16, 255], &[5, 1, 1]];
    trials.joins("products", Ok(Multiply::new(Byte)), &three, &[30, 0, 1])?;
    let two: [&[i64]; 2] = [&[LEAST_INT, 65_536, -3], &[-1, 32_768, 7]];
    trials.joins(
        "products wrap",
        Ok(Multiply::new(Int)),
        &two,
        &[LEAST_INT, LEAST_INT, -21],
    )?;
    trials.gives("one factor", Ok(Multiply::new(Short)), &[-7], &[-7])?;
    let three: [&[i64]; 3] = [&[10, 3], &[3, 10], &[1, 0]];
    trials.joins("differences", Ok(Sub::new(Byte)), &three, &[6, 249])?;
    let two: [&[i64]; 2] = [&[LEAST_INT, 0], &[1, LEAST_INT]];
    trials.joins(
        "differences wrap",
        Ok(Sub::new(Int)),
        &two,
        &[GREATEST_INT, LEAST_INT],
    )?;
    trials.gives(
        "negatives",
        Ok(Sub::new(Short)),
        &[5, -32_768, 0],
        &[-5, -32_768, 0],
    )?;
    trials.gives(
        "negative bytes",
        Ok(Sub::new(Byte)),
        &[0, 1, 255],
        &[0, 255, 1],
    )?;
    let three: [&[i64]; 3] = [&[3, -7, 32_767], &[-2, -6, -32_768], &[0, -9, 0]];
    trials.joins(
        "the least",
        Ok(Minimum::new(Short)),
        &three,
        &[-2, -9, -32_768],
    )?;
    trials.joins(
        "the greatest",
        Ok(Maximum::new(Short)),
        &three,
        &[3, -6, 32_767],
    )?;
    let two: [&[i64]; 2] = [&[0, 255, 128], &[255, 0, 127]];
    trials.joins("the least byte", Ok(Minimum::new(Byte)), &two, &[0, 0, 127])?;
    trials.joins(
        "the greatest byte",
        Ok(Maximum::new(Byte)),
        &two,
        &[255, 255, 128],
    )?;
    trials.gives(
        "one least",
        Ok(Minimum::new(Int)),
        &[GREATEST_INT],
        &[GREATEST_INT],
    )?;
    trials.gives(
        "one greatest",
        Ok(Maximum::new(Int)),
        &[LEAST_INT],
        &[LEAST_INT],
    )?;
    inputs_in_lanes(&trials, a)
}

fn inputs_in_lanes<R: Abort>(trials: &Trials<'_, R>, a: Global) -> Result<(), Fail> {
    for count in LANE_COUNTS {
        let (up, threes, threefold, less) = (
            ramp(a, count, 0, 1)?,
            ramp(a, count, 3, 0)?,
            ramp(a, count, 0, 3)?,
            ramp(a, count, -3, 1)?,
        );
        let two: [&[i64]; 2] = [&up, &threes];
        trials.joins(
            "products in lanes",
            Ok(Multiply::new(Short)),
            &two,
            &threefold,
        )?;
        trials.joins("differences in lanes", Ok(Sub::new(Int)), &two, &less)?;
        let (low, high): ([&[i64]; 3], [&[i64]; 3]) = (
            [&threefold, &up, &threefold],
            [&less, &up, &less],
        );
        trials.joins("the least in lanes", Ok(Minimum::new(Byte)), &low, &up)?;
        trials.joins("the greatest in lanes", Ok(Maximum::new(Short)), &high, &up)?;
    }
    Ok(())
}

#[test]
fn ranges(rt: HostRuntime) -> Result<(), Fail> {
    let a = rt.alloc();
    let trials = Trials::new(&rt, a);
    trials.gives(
        "no sign",
        Ok(Abs::new(Short)),
        &[5, -5, -32_768, 0],
        &[5, 5, -32_768, 0],
    )?;
    let ints = [GREATEST_INT, -GREATEST_INT, LEAST_INT];
    trials.gives(
        "ints",
        Ok(Abs::new(Int)),
        &ints,
        &[GREATEST_INT, GREATEST_INT, LEAST_INT],
    )?;
    trials.gives("bytes", Ok(Abs::new(Byte)), &[0, 128, 255], &[0, 128, 255])?;
    let items = [-3, -2, 0, 3, 4, 32_767];
    trials.gives(
        "a range",
        Clip::new(Short, -2, 3),
        &items,
        &[-2, -2, 0, 3, 3, 3],
    )?;
    trials.gives(
        "one number",
        Clip::new(Byte, 7, 7),
        &[0, 7, 255],
        &[7, 7, 7],
    )?;
    let whole = Clip::new(Int, LEAST_INT, GREATEST_INT);
    trials.gives("the whole range", whole, &ints, &ints)?;
    for count in LANE_COUNTS {
        let (down, up, fives) = (
            ramp(a, count, 0, -1)?,
            ramp(a, count, 0, 1)?,
            ramp(a, count, 5, 0)?,
        );
        trials.gives("no sign in lanes", Ok(Abs::new(Int)), &down, &up)?;
        trials.gives("bytes in lanes", Ok(Abs::new(Byte)), &up, &up)?;
        trials.gives("a range in lanes", Clip::new(Short, 5, 9), &down, &fives)?;
    }
    assert!(rt; is_bad(Clip::new(Byte, -1, 300), Parameter::Low));
    assert!(rt; is_bad(Clip::new(Short, 32_768, 0), Parameter::Low));
    assert!(rt; is_bad(Clip::new(Byte, 0, 256), Parameter::High));
    assert!(rt; is_bad(Clip::new(Int, 3, 2), Parameter::High));
    assert!(rt; Clip::new(Int, 1, 2)? == Clip::new(Int, 1, 2)?);
    assert!(rt; Clip::new(Int, 1, 2)? != Clip::new(Int, 1, 3)?);
    assert!(rt; Clip::new(Int, 0, 2)? != Clip::new(Short, 0, 2)?);
    Ok(())
}

#[test]
fn muting(rt: HostRuntime) -> Result<(), Fail> {
    let a = rt.alloc();
    let trials = Trials::new(&rt, a);
    trials.gives("all muted", Mute::new(Byte, 1), &[7, 255], &[0, 0])?;
    trials.gives(
        "none muted",
        Mute::new(Int, 0),
        &[LEAST_INT, 7],
        &[LEAST_INT, 7],
    )?;
    let settings = [number_set(1, 1), number_set(3, 0)];
    let (items, some): ([i64; 4], [i64; 4]) = ([5, -6, 7, -8], [5, 0, 0, -8]);
    trials.check(
        "settings",
        Mute::new(Short, 0),
        &[&items],
        &settings,
        &[&some],
    )?;
    for count in LANE_COUNTS {
        let (items, zeros) = (ramp(a, count, 1, 1)?, ramp(a, count, 0, 0)?);
        trials.gives("muted lanes", Mute::new(Short, 1), &items, &zeros)?;
        trials.gives("lanes", Mute::new(Byte, 0), &items, &items)?;
    }
    assert!(rt; is_bad(Mute::new(Byte, 2), Parameter::On));
    assert!(rt; is_bad(Mute::new(Byte, -1), Parameter::On));
    Ok(())
}

#[test]
fn numbers_for_bytes(rt: HostRuntime) -> Result<(), Fail> {
    let a = rt.alloc();
    let trials = Trials::new(&rt, a);
    let bytes = [0, 1, 2, 255];
    let shorts = Table::new(a, Short, &[-32_768, 32_767]);
    trials.gives("shorts", shorts, &bytes, &[-32_768, 32_767, 32_767, 32_767])?;
    let ints = Table::new(a, Int, &[LEAST_INT, 5, GREATEST_INT]);
    trials.gives(
        "ints",
        ints,
        &bytes,
        &[LEAST_INT, 5, GREATEST_INT, GREATEST_INT],
    )?;
    trials.gives(
        "one number",
        Table::new(a, Byte, &[9]),
        &bytes,
        &[9, 9, 9, 9],
    )?;
    for count in LANE_COUNTS {
        let (items, down) = (ramp(a, count, 0, 1)?, ramp(a, count, 1_000, -1)?);
        trials.gives(
            "many",
            Table::new(a, Short, &ramp(a, 256, 1_000, -1)?),
            &items,
            &down,
        )?;
    }
    let (most, too_many) = (ramp(a, 256, -255, 1)?, ramp(a, 257, 0, 0)?);
    assert!(rt; Table::new(a, Int, &most).is_ok());
    for values in [too_many.as_slice(), &[], &[1, 32_768]] {
        assert!(rt; is_bad(Table::new(a, Short, values), Parameter::Values));
    }
    assert!(rt; is_bad(Table::new(a, Byte, &most), Parameter::Values));
    Ok(())
}

#[test]
fn constants_in_range(rt: HostRuntime) -> Result<(), Fail> {
    for (item, least, most) in [
        (Byte, 0, 255),
        (Short, -32_768, 32_767),
        (Int, LEAST_INT, GREATEST_INT),
    ] {
        for value in [least, most] {
            assert!(rt; AndConst::new(item, value).is_ok());
            assert!(rt; OrConst::new(item, value).is_ok());
            assert!(rt; XorConst::new(item, value).is_ok());
            assert!(rt; Clip::new(item, value, most).is_ok());
        }
        for value in [least - 1, most + 1] {
            assert!(rt; is_bad(AndConst::new(item, value), Parameter::Value));
            assert!(rt; is_bad(OrConst::new(item, value), Parameter::Value));
            assert!(rt; is_bad(XorConst::new(item, value), Parameter::Value));
        }
    }
    Ok(())
}
