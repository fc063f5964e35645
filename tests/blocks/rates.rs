//! The blocks that change a rate or move a stream.
use super::runs::{LANE_COUNTS, Trials, is_bad, ramp};
use block_parameters::Parameter;
use block_trait::Block;
use items::ItemType::{Byte, Int, Short};
use rate_blocks::{Delay, Head, KeepOneInN, Repeat, SkipHead};
use std::test::Fail;

#[test]
fn rates(rt: HostRuntime) -> Result<(), Fail> {
    let a = rt.alloc();
    let trials = Trials::new(&rt, a);
    let (last, items) = (KeepOneInN::new(Byte, 3), [1, 2, 3, 4, 5, 6, 7]);
    trials.gives("the last of three", last, &items, &[3, 6])?;
    let twice = Repeat::new(Short, 2);
    trials.gives("twice each", twice, &[1, -2], &[1, 1, -2, -2])?;
    let first = Head::new(Byte, 3);
    // (what it would give behind its limit, nobody asks for)
    assert!(rt; matches!(&first, Ok(head) if head.limit() == Some(3)));
    trials.gives("the first", first, &[1, 2, 3, 4, 5], &[1, 2, 3])?;
    let late = SkipHead::new(Byte, 2);
    trials.gives("without the first", late, &[7, 8, 9], &[9])?;
    trials.gives("zeros first", Delay::new(Byte, 2), &[7, 8], &[0, 0, 7, 8])?;
    for count in LANE_COUNTS {
        let (items, evens) = (ramp(a, 2 * count, 1, 1)?, ramp(a, count, 2, 2)?);
        trials.gives("every other", KeepOneInN::new(Int, 2), &items, &evens)?;
        let (once, twice) = (ramp(a, count, 9, 0)?, ramp(a, 2 * count, 9, 0)?);
        trials.gives("each twice", Repeat::new(Byte, 2), &once, &twice)?;
        trials.gives("all but nothing", SkipHead::new(Int, 0), &items, &items)?;
        trials.gives("not moved", Delay::new(Int, 0), &items, &items)?;
    }
    for n in [1, 2, 3, 4, 5, 8, 15, 16, 17, 64, 65] {
        for count in [0, 1, 2, 17, 33] {
            let once = ramp(a, count, 1, 1)?;
            let mut often = Vec::new(a);
            for k in 0..count * n {
                often.push(1 + (k / n) as i64)?;
            }
            let repeat = Repeat::new(Short, n as u64);
            trials.gives("each so often", repeat, &once, &often)?;
        }
    }
    for (n, good) in [(0, false), (1, true), (1_024, true), (1_025, false)] {
        assert!(rt; KeepOneInN::new(Byte, n).is_ok() == good, "{n}");
        assert!(rt; Repeat::new(Byte, n).is_ok() == good, "{n}");
    }
    assert!(rt; Delay::new(Byte, 65_536).is_ok());
    assert!(rt; is_bad(Delay::new(Byte, 65_537), Parameter::N));
    Ok(())
}

#[test]
fn a_head_goes_on(rt: HostRuntime) -> Result<(), Fail> {
    for (n, items, left) in [(5, 0, 5), (5, 1, 4), (5, 5, 0), (5, 6, 0), (0, 9, 0), (1 << 32, 1, (1 << 32) - 1), (1 << 32, u64::MAX, 0)] {
        let (Ok(first), Ok(then)) = (Head::new(Short, n), Head::new(Short, left)) else {
            panic!(rt; "a head");
        };
        assert_eq!(rt; first.after(items), then, "{n} behind {items}");
    }
    Ok(())
}
