//! The blocks of arithmetic, logic, tables and conversion.
use super::runs::{LANE_COUNTS, Trials, is_bad, number_set, ramp};
use block_parameters::Parameter;
use items::ItemType::{Byte, Int, Short};
use kinds::{Kind, VectorSource};
use math_blocks::{AddConst, Convert, MapBb, MultiplyConst, Not};
use std::process::Abort;
use std::test::Fail;

const LEAST_INT: i64 = -2_147_483_648;

#[test]
fn constants(rt: HostRuntime) -> Result<(), Fail> {
    let a = rt.alloc();
    let trials = Trials::new(&rt, a);
    for (case, item, value, items, sums) in [
        ("bytes wrap", Byte, 10, [250, 1], [4, 11]),
        ("shorts wrap", Short, 1, [32_767, -1], [-32_768, 0]),
        ("ints wrap", Int, -3, [LEAST_INT, 7], [2_147_483_645, 4]),
    ] {
        trials.gives(case, AddConst::new(item, value), &items, &sums)?;
    }
    trials.gives("products wrap", MultiplyConst::new(Byte, 3), &[100], &[44])?;
    for count in LANE_COUNTS {
        let (items, sums, products) = (
            ramp(a, count, 0, 1)?,
            ramp(a, count, 10, 1)?,
            ramp(a, count, 0, 3)?,
        );
        trials.gives("sums in lanes", AddConst::new(Byte, 10), &items, &sums)?;
        let threefold = MultiplyConst::new(Int, 3);
        trials.gives("products in lanes", threefold, &items, &products)?;
    }
    constants_set(&trials)
}

fn constants_set<R: Abort>(trials: &Trials<'_, R>) -> Result<(), Fail> {
    for (case, settings, items, sums) in [
        (
            "a setting",
            &[number_set(5, 20)][..],
            &[0, 1, 2, 3, 4, 5, 6][..],
            &[10, 11, 12, 13, 14, 25, 26][..],
        ),
        (
            "the later call",
            &[number_set(1, 20), number_set(1, 30)],
            &[0, 0],
            &[10, 30],
        ),
    ] {
        trials.check(case, AddConst::new(Byte, 10), &[items], settings, &[sums])?;
    }
    let (factor, negative) = (MultiplyConst::new(Short, 2), [number_set(1, -1)]);
    trials.check("a factor", factor, &[&[5, 5]], &negative, &[&[10, -5]])
}

#[test]
fn tables(rt: HostRuntime) -> Result<(), Fail> {
    let a = rt.alloc();
    let trials = Trials::new(&rt, a);
    let bytes = [0, 1, 2, 255];
    trials.gives("a table", MapBb::new(a, &[5, 6]), &bytes, &[5, 6, 2, 255])?;
    let narrow = Convert::new(Short, Byte);
    trials.gives("to bytes", Ok(narrow), &[-1, 256, 300], &[255, 0, 44])?;
    let (narrow, shorts) = (Convert::new(Int, Short), [-25_536, 25_536]);
    trials.gives("to shorts", Ok(narrow), &[40_000, -40_000], &shorts)?;
    let not = Not::new(Short);
    trials.gives("bits turned", Ok(not), &[0, -1, 5], &[-1, 0, -6])?;
    let kind = Kind::AddConst(AddConst::new(Byte, 10)?);
    trials.gives("a kind", Ok(kind), &[250, 1], &[4, 11])?;
    let tape = Kind::VectorSource(VectorSource::new(Int));
    trials.gives("a tape", Ok(tape), &[250, -1], &[250, -1])?;
    for count in LANE_COUNTS {
        let (items, turned) = (ramp(a, count, 0, 1)?, ramp(a, count, 255, -1)?);
        trials.gives("bits in lanes", Ok(Not::new(Byte)), &items, &turned)?;
        trials.gives("wider lanes", Ok(Convert::new(Byte, Int)), &items, &items)?;
        trials.gives("bytes looked up", MapBb::new(a, &turned), &items, &turned)?;
    }
    for count in [0, 1, 15, 16, 17, 63, 64, 65, 256] {
        let (items, turned) = (ramp(a, count, 0, 1)?, ramp(a, count, 255, -1)?);
        let table = MapBb::new(a, &ramp(a, 256, 255, -1)?);
        trials.gives("a table for all bytes", table, &items, &turned)?;
    }
    let (most, too_many) = (ramp(a, 256, 255, -1)?, ramp(a, 257, 0, 0)?);
    assert!(rt; MapBb::new(a, &[]).is_ok());
    assert!(rt; MapBb::new(a, &most).is_ok());
    for table in [too_many.as_slice(), &[-1], &[1, 256]] {
        assert!(rt; is_bad(MapBb::new(a, table), Parameter::Map));
    }
    Ok(())
}

#[test]
fn values(rt: HostRuntime) -> Result<(), Fail> {
    for (item, least, most) in [
        (Byte, 0, 255),
        (Short, -32_768, 32_767),
        (Int, LEAST_INT, 2_147_483_647),
    ] {
        for value in [least, most] {
            let block = AddConst::new(item, value)?;
            assert!(rt; block == AddConst::new(item, value)?);
            assert!(rt; block != AddConst::new(item, 1)?);
            assert!(rt; MultiplyConst::new(item, value).is_ok());
        }
        for value in [least - 1, most + 1] {
            assert!(rt; is_bad(AddConst::new(item, value), Parameter::Value));
            assert!(rt; is_bad(MultiplyConst::new(item, value), Parameter::Value));
        }
    }
    Ok(())
}
