//! The blocks that keep some items of each frame, put a list into each, or give each another order.
use super::runs::{LANE_COUNTS, Trials, is_bad, ramp};
use block_parameters::Parameter;
use items::ItemType::{Byte, Int, Short};
use rate_blocks::{Insert, KeepMInN, Permute};
use std::alloc::Global;
use std::process::Abort;
use std::test::Fail;

const LEAST_INT: i64 = -2_147_483_648;

const GREATEST_INT: i64 = 2_147_483_647;

#[test]
fn kept(rt: HostRuntime) -> Result<(), Fail> {
    let a = rt.alloc();
    let trials = Trials::new(&rt, a);
    let (two, items) = (KeepMInN::new(Byte, 2, 4, 1), [1, 2, 3, 4, 255, 6, 0, 8, 9]);
    trials.gives("two of four", two, &items, &[2, 3, 6, 0])?;
    let (last, items) = (KeepMInN::new(Int, 1, 2, 1), [0, LEAST_INT, 0, GREATEST_INT]);
    trials.gives(
        "the second of two",
        last,
        &items,
        &[LEAST_INT, GREATEST_INT],
    )?;
    for m in [1, 2, 3, 4, 5, 7, 8, 9, 16, 17] {
        for (n, offset) in [(m, 0), (m + 1, 1), (m + 5, 3)] {
            keep_in_frames(&trials, a, m, n, offset)?;
        }
    }
    let all = ramp(a, 2_048, -1_000, 1)?;
    trials.gives("all", KeepMInN::new(Short, 1_024, 1_024, 0), &all, &all)?;
    let last = KeepMInN::new(Short, 1, 1_024, 1_023);
    trials.gives("the last of many", last, &all, &[23, 1_047])?;
    for (m, n, offset, bad) in [
        (0, 0, 1, Parameter::M),
        (1_025, 1_025, 0, Parameter::M),
        (3, 2, 0, Parameter::N),
        (1, 1_025, 0, Parameter::N),
        (2, 4, 3, Parameter::Offset),
        (1, 1, u64::MAX, Parameter::Offset),
    ] {
        assert!(rt;
            is_bad(KeepMInN::new(Byte, m, n, offset), bad),
            "{m} {n} {offset}"
        );
    }
    Ok(())
}

// As many frames as lanes are about full at.
fn keep_in_frames<R: Abort>(
    trials: &Trials<'_, R>,
    a: Global,
    m: usize,
    n: usize,
    offset: usize,
) -> Result<(), Fail> {
    for count in LANE_COUNTS {
        let items = ramp(a, count * n, 1, 1)?;
        let mut kept = Vec::new(a);
        for frame in 0..count {
            for k in 0..m {
                kept.push((1 + frame * n + offset + k) as i64)?;
            }
        }
        let block = KeepMInN::new(Short, m as u64, n as u64, offset as u64);
        trials.gives("so many of each", block, &items, &kept)?;
    }
    Ok(())
}

#[test]
fn put_in(rt: HostRuntime) -> Result<(), Fail> {
    let a = rt.alloc();
    let trials = Trials::new(&rt, a);
    let items = [1, 2, 3, 4, 5, 6];
    for (case, offset, given) in [
        ("in front", 0, [255, 0, 1, 2, 3, 255, 0, 4, 5, 6]),
        ("among others", 1, [1, 255, 0, 2, 3, 4, 255, 0, 5, 6]),
        ("behind", 3, [1, 2, 3, 255, 0, 4, 5, 6, 255, 0]),
    ] {
        let block = Insert::new(a, Byte, &[255, 0], 5, offset);
        trials.gives(case, block, &items, &given)?;
    }
    let ends = Insert::new(a, Short, &[-32_768, 32_767], 3, 1);
    trials.gives("shorts", ends, &[7], &[7, -32_768, 32_767])?;
    let ends = Insert::new(a, Int, &[LEAST_INT, GREATEST_INT], 3, 0);
    trials.gives("ints", ends, &[-7], &[LEAST_INT, GREATEST_INT, -7])?;
    for count in LANE_COUNTS {
        for offset in [0, 1, count + 1] {
            put_in_frames(&trials, a, count, offset)?;
        }
    }
    put_in_frames(&trials, a, 256, 3)
}

// So many values in a frame with one more of the stream's items.
fn put_in_frames<R: Abort>(
    trials: &Trials<'_, R>,
    a: Global,
    count: usize,
    offset: usize,
) -> Result<(), Fail> {
    let values = ramp(a, count, 1, 1)?;
    let items = ramp(a, 3 * (count + 1), -1, -1)?;
    let mut given = Vec::new(a);
    let mut next = items.iter();
    for _ in 0..3 {
        for place in 0..=count {
            if place == offset {
                given.extend_from_slice(&values)?;
            }
            given.push(*next.next().unwrap_or(&0))?;
        }
        if offset == count + 1 {
            given.extend_from_slice(&values)?;
        }
    }
    let block = Insert::new(a, Short, &values, 2 * count as u64 + 1, offset as u64);
    trials.gives("so many values", block, &items, &given)
}

#[test]
fn put_in_parameters(rt: HostRuntime) -> Result<(), Fail> {
    let a = rt.alloc();
    let (many, more) = (ramp(a, 256, 0, 0)?, ramp(a, 257, 0, 0)?);
    assert!(rt; Insert::new(a, Byte, &[0], 2, 1).is_ok());
    assert!(rt; Insert::new(a, Byte, &many, 1_024, 768).is_ok());
    for (item, values) in [
        (Byte, [256]),
        (Byte, [-1]),
        (Short, [32_768]),
        (Short, [-32_769]),
        (Int, [GREATEST_INT + 1]),
        (Int, [LEAST_INT - 1]),
    ] {
        assert!(rt; is_bad(Insert::new(a, item, &values, 0, 9), Parameter::Values));
    }
    assert!(rt; is_bad(Insert::new(a, Byte, &[], 2, 0), Parameter::Values));
    assert!(rt; is_bad(Insert::new(a, Byte, &more, 1_024, 0), Parameter::Values));
    for (period, offset, bad) in [
        (0, 0, Parameter::Period),
        (2, 9, Parameter::Period),
        (1_025, 0, Parameter::Period),
        (3, 2, Parameter::Offset),
        (1_024, u64::MAX, Parameter::Offset),
    ] {
        let made = Insert::new(a, Byte, &[1, 2], period, offset);
        assert!(rt; is_bad(made, bad), "{period} {offset}");
    }
    Ok(())
}

#[test]
fn reordered(rt: HostRuntime) -> Result<(), Fail> {
    let a = rt.alloc();
    let trials = Trials::new(&rt, a);
    let (order, items) = ([2, 0, 1], [1, 2, 3, 4, 5, 255, 7]);
    let (block, back) = (
        Permute::new(a, Byte, &order),
        Permute::new(a, Byte, &[1, 2, 0]),
    );
    trials.gives("the last first", block, &items, &[3, 1, 2, 255, 4, 5])?;
    trials.gives(
        "and back",
        back,
        &[3, 1, 2, 255, 4, 5],
        &[1, 2, 3, 4, 5, 255],
    )?;
    let columns = Permute::new(a, Short, &[0, 3, 1, 4, 2, 5]);
    trials.gives(
        "by columns",
        columns,
        &[1, 2, 3, -1, -2, -3],
        &[1, -1, 2, -2, 3, -3],
    )?;
    let (same, items) = (Permute::new(a, Int, &[0]), [LEAST_INT, GREATEST_INT]);
    trials.gives("as they are", same, &items, &items)?;
    for count in [15, 16, 17, 33, 64, 65, 256] {
        let (up, down) = (ramp(a, count, 0, 1)?, ramp(a, count, count as i64 - 1, -1)?);
        trials.gives("backwards", Permute::new(a, Short, &down), &up, &down)?;
        trials.gives("forwards", Permute::new(a, Int, &up), &down, &down)?;
    }
    Ok(())
}

#[test]
fn orders(rt: HostRuntime) -> Result<(), Fail> {
    let a = rt.alloc();
    let (twice, far) = ([1, 2, 1], [0, 4_294_967_297]);
    let no_orders: [&[i64]; 7] = [&[], &[1], &[-1], &[0, 0], &[0, 2], &twice, &far];
    for places in no_orders {
        assert!(rt; is_bad(Permute::new(a, Byte, places), Parameter::Places));
    }
    let more = ramp(a, 257, 0, 1)?;
    assert!(rt; is_bad(Permute::new(a, Byte, &more), Parameter::Places));
    let one = Permute::new(a, Short, &[1, 0])?;
    assert!(rt; one == Permute::new(a, Short, &[1, 0])?);
    assert!(rt; one != Permute::new(a, Short, &[0, 1])?);
    Ok(())
}
