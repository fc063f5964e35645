//! The blocks that see the bits of items as one stream of bits.
use super::runs::{LANE_COUNTS, Trials, is_bad, ramp};
use bit_blocks::BitOrder::{LsbFirst, MsbFirst};
use bit_blocks::{CorrelateAccessCode, PackedToUnpacked, RepackBits, UnpackedToPacked};
use block_parameters::Parameter;
use items::ItemType::{Byte, Int, Short};
use std::alloc::Global;
use std::process::Abort;
use std::test::Fail;

const LEAST_INT: i64 = -2_147_483_648;

#[test]
fn bytes(rt: HostRuntime) -> Result<(), Fail> {
    let a = rt.alloc();
    let trials = Trials::new(&rt, a);
    for (case, k, l, order, items, bytes) in [
        // 10110010 01111000 11000001 is 101 100 100 111 100 011 000 001.
        (
            "cut, highest first",
            8,
            3,
            MsbFirst,
            &[178, 120, 193][..],
            &[5, 4, 4, 7, 4, 3, 0, 1][..],
        ),
        // From the lowest bit on it is 010 011 010 001 111 010 000 011.
        (
            "cut, lowest first",
            8,
            3,
            LsbFirst,
            &[178, 120, 193],
            &[2, 6, 2, 4, 7, 2, 0, 6],
        ),
        ("higher bits", 2, 3, MsbFirst, &[253, 2, 7], &[3, 3]),
        ("a bit each", 1, 8, MsbFirst, &[1, 0, 0, 0, 0, 0, 1, 254], &[130]),
        ("lowest first", 1, 8, LsbFirst, &[1, 0, 0, 0, 0, 0, 1, 254], &[65]),
        ("all bits", 8, 8, LsbFirst, &[0, 1, 128, 255], &[0, 1, 128, 255]),
        ("low bits", 3, 3, MsbFirst, &[0, 7, 8, 255], &[0, 7, 0, 7]),
    ] {
        trials.gives(case, RepackBits::new(k, l, order), items, bytes)?;
    }
    for count in LANE_COUNTS {
        let (sevens, eights) = (ramp(a, 8 * count, 127, 0)?, ramp(a, 7 * count, 255, 0)?);
        for order in [MsbFirst, LsbFirst] {
            trials.gives("to bytes", RepackBits::new(7, 8, order), &sevens, &eights)?;
            trials.gives("to sevens", RepackBits::new(8, 7, order), &eights, &sevens)?;
        }
    }
    Ok(())
}

// Each way: of the items on the left are made those on the right, and of these the others again.
#[test]
fn types(rt: HostRuntime) -> Result<(), Fail> {
    let a = rt.alloc();
    let trials = Trials::new(&rt, a);
    for (case, item, bits, order, packed, unpacked) in [
        // The first bit of an unpacked item is its highest in either order.
        (
            "threes, highest first",
            Byte,
            3,
            MsbFirst,
            &[17, 17, 17][..],
            &[0, 4, 2, 1, 0, 4, 2, 1][..],
        ),
        (
            "threes, lowest first",
            Byte,
            3,
            LsbFirst,
            &[17, 17, 17],
            &[4, 2, 1, 0, 4, 2, 1, 0],
        ),
        ("bits", Byte, 1, LsbFirst, &[133], &[1, 0, 1, 0, 0, 0, 0, 1]),
        ("all of a byte", Byte, 8, LsbFirst, &[1, 3, 255], &[128, 192, 255]),
        ("fours", Short, 4, MsbFirst, &[-2, 4_660], &[15, 15, 15, 14, 1, 2, 3, 4]),
        ("low fours", Short, 4, LsbFirst, &[-2, 4_660], &[7, 15, 15, 15, 2, 12, 4, 8]),
        ("all of a short", Short, 16, MsbFirst, &[-32_768, 32_767], &[-32_768, 32_767]),
        ("halves", Int, 16, MsbFirst, &[-2, LEAST_INT], &[65_535, 65_534, 32_768, 0]),
        ("all of an int", Int, 32, MsbFirst, &[LEAST_INT, -1], &[LEAST_INT, -1]),
        ("turned", Int, 32, LsbFirst, &[LEAST_INT, -2], &[1, 2_147_483_647]),
    ] {
        let (to, from) = (
            PackedToUnpacked::new(item, bits, order),
            UnpackedToPacked::new(item, bits, order),
        );
        trials.gives(case, to, packed, unpacked)?;
        trials.gives(case, from, unpacked, packed)?;
    }
    higher_bits(&trials)?;
    lanes(&trials, a)
}

// Only the lowest bits of an unpacked item count.
fn higher_bits<R: Abort>(trials: &Trials<'_, R>) -> Result<(), Fail> {
    let fours = UnpackedToPacked::new(Short, 4, MsbFirst);
    trials.gives("higher bits", fours, &[-1, 31, 15, 14], &[-2])?;
    let halves = UnpackedToPacked::new(Int, 16, LsbFirst);
    trials.gives("high halves", halves, &[LEAST_INT, 65_536], &[0])
}

fn lanes<R: Abort>(trials: &Trials<'_, R>, a: Global) -> Result<(), Fail> {
    for count in LANE_COUNTS {
        for order in [MsbFirst, LsbFirst] {
            let (ones, whole) = (ramp(a, 32 * count, 1, 0)?, ramp(a, count, -1, 0)?);
            trials.gives("to bits", PackedToUnpacked::new(Int, 1, order), &whole, &ones)?;
            trials.gives("of bits", UnpackedToPacked::new(Int, 1, order), &ones, &whole)?;
        }
    }
    // An int less a bit: a round is 31 of the one and 32 of the other.
    let (less, whole) = (ramp(a, 64, 2_147_483_647, 0)?, ramp(a, 62, -1, 0)?);
    for order in [MsbFirst, LsbFirst] {
        trials.gives("less", PackedToUnpacked::new(Int, 31, order), &whole, &less)?;
        trials.gives("more", UnpackedToPacked::new(Int, 31, order), &less, &whole)?;
    }
    Ok(())
}

// So many of one number, then of the next.
fn runs(a: Global, parts: &[(usize, i64)]) -> Result<Vec<i64>, Fail> {
    let mut numbers = Vec::new(a);
    for (count, number) in parts {
        for _ in 0..*count {
            numbers.push(*number)?;
        }
    }
    Ok(numbers)
}

#[test]
fn codes(rt: HostRuntime) -> Result<(), Fail> {
    let a = rt.alloc();
    let trials = Trials::new(&rt, a);
    // The code 101 ends at the third item: the fourth has the flag, 64 items later.
    let items = runs(a, &[(1, 1), (1, 0), (1, 255), (1, 3), (1, 254), (64, 0)])?;
    let marked = runs(a, &[(64, 0), (1, 1), (1, 0), (1, 1), (1, 3), (1, 0)])?;
    trials.gives("a code", CorrelateAccessCode::new(5, 3, 0), &items, &marked)?;
    // With one wrong bit also 001 and 111, 100: items -2 to 0, 0 to 2, and not 010 or 011.
    let items = runs(a, &[(1, 1), (1, 0), (1, 0), (66, 0)])?;
    let marked = runs(a, &[(64, 0), (1, 1), (1, 2), (1, 0), (1, 2), (1, 0)])?;
    trials.gives("wrong bits", CorrelateAccessCode::new(5, 3, 1), &items, &marked)?;
    // Zeros stand before the first item, but no flag before as many items as the code has bits.
    let marked = [0, 0, 0, 2, 2];
    trials.gives("zeros", CorrelateAccessCode::new(0, 3, 0), &[1, 1, 1, 1, 1], &marked)?;
    for count in LANE_COUNTS {
        let ones = runs(a, &[(128 + count, 1)])?;
        for (case, code, length, threshold, unmarked) in [
            ("ones", u64::MAX, 64, 0, 64),
            ("any", 0, 64, 64, 0),
            ("a bit", 1, 1, 0, 1),
        ] {
            let marked = runs(a, &[(64, 0), (unmarked, 1), (64 + count - unmarked, 3)])?;
            let block = CorrelateAccessCode::new(code, length, threshold);
            trials.gives(case, block, &ones, &marked)?;
        }
    }
    Ok(())
}

#[test]
fn parameters(rt: HostRuntime) -> Result<(), Fail> {
    for (k, l, bad) in [
        (0, 0, Parameter::K),
        (9, 8, Parameter::K),
        (1, 0, Parameter::L),
        (8, 9, Parameter::L),
    ] {
        assert!(rt; is_bad(RepackBits::new(k, l, MsbFirst), bad), "{k} {l}");
    }
    for (item, most) in [(Byte, 8), (Short, 16), (Int, 32)] {
        for (bits, good) in [(0, false), (1, true), (most, true), (most + 1, false)] {
            let (to, from) = (
                PackedToUnpacked::new(item, bits, LsbFirst),
                UnpackedToPacked::new(item, bits, LsbFirst),
            );
            assert!(rt; good || is_bad(to, Parameter::Bits), "{bits}");
            assert!(rt; good || is_bad(from, Parameter::Bits), "{bits}");
        }
    }
    for (code, length, threshold, bad) in [
        (0, 0, 0, Parameter::Code),
        (0, 65, 66, Parameter::Code),
        (2, 1, 0, Parameter::Code),
        (9_223_372_036_854_775_808, 63, 64, Parameter::Code),
        (1, 1, 2, Parameter::Threshold),
        (u64::MAX, 64, 65, Parameter::Threshold),
    ] {
        let made = CorrelateAccessCode::new(code, length, threshold);
        assert!(rt; is_bad(made, bad), "{code} {length}");
    }
    assert!(rt; CorrelateAccessCode::new(u64::MAX, 64, 64).is_ok());
    Ok(())
}
