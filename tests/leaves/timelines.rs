//! Timelines of settings: ties, parts, and what is forgotten.
use settings::{Held, SettingFault, Taps, Timeline, Value};
use std::alloc::Global;
use std::process::Abort;
use std::test::Fail;

// The number that a value is, if it is one.
fn number_of(value: &Value) -> Option<i64> {
    match value {
        Value::Number(number) => Some(*number),
        Value::Taps(_) => None,
    }
}

fn assert_held(rt: &impl Abort, case: &str, held: &[Held], expected: &[(u64, i64)]) {
    assert!(rt; held.len() == expected.len(), "{case}");
    for n in 0..expected.len() {
        assert!(rt; n < held.len(), "{case}");
        let (at, number) = expected[n];
        assert!(rt; held[n].at == at, "{case}");
        assert!(rt; number_of(&held[n].value) == Some(number), "{case}");
    }
}

// The own number 10, and the settings one after another.
fn made(alloc: Global, settings: &[(u64, i64)]) -> Result<Timeline, SettingFault> {
    let mut timeline = Timeline::new(alloc, Value::Number(10));
    for (at, number) in settings {
        timeline.set(*at, Value::Number(*number), 0)?;
    }
    Ok(timeline)
}

fn assert_between(rt: &impl Abort, alloc: Global) -> Result<(), Fail> {
    let tie = [(1, 20), (1, 30)].as_slice();
    let crossed = [(8, 80), (2, 20), (5, 50)].as_slice();
    for (case, settings, from, to, held) in [
        (
            "own, then the later of a tie",
            tie,
            0,
            2,
            [(0, 10), (1, 30)].as_slice(),
        ),
        ("before the tie", tie, 0, 1, [(0, 10)].as_slice()),
        ("no item", tie, 1, 1, [(1, 30)].as_slice()),
        ("behind all", tie, 3, 9, [(1, 30)].as_slice()),
        (
            "crossed",
            crossed,
            0,
            9,
            [(0, 10), (2, 20), (5, 50), (8, 80)].as_slice(),
        ),
        (
            "crossed, a part",
            crossed,
            2,
            8,
            [(2, 20), (5, 50)].as_slice(),
        ),
    ] {
        let timeline = made(alloc, settings)?;
        assert_held(rt, case, &timeline.between(alloc, from, to)?, held);
    }
    Ok(())
}

fn assert_in_force(rt: &impl Abort, alloc: Global) -> Result<(), Fail> {
    let timeline = made(alloc, &[(1, 20), (1, 30)])?;
    for (case, item, number) in [("own", 0, 10), ("tie", 1, 30), ("last", u64::MAX, 30)] {
        assert!(rt;
            number_of(timeline.in_force(item)) == Some(number),
            "{case}"
        );
    }
    assert!(rt; timeline.len() == 1);
    assert!(rt; !timeline.is_empty());
    Ok(())
}

fn assert_late(rt: &impl Abort, alloc: Global) -> Result<(), Fail> {
    let mut timeline = made(alloc, &[])?;
    let late = timeline.set(4, Value::Number(40), 5);
    assert!(rt; late == Err(SettingFault::Late { floor: 5 }));
    assert!(rt; timeline.is_empty());
    timeline.set(5, Value::Number(50), 5)?;
    for (case, item, number) in [("below", 4, 10), ("at the floor", 5, 50)] {
        assert!(rt;
            number_of(timeline.in_force(item)) == Some(number),
            "{case}"
        );
    }
    Ok(())
}

fn assert_forgotten(rt: &impl Abort, alloc: Global) -> Result<(), Fail> {
    let mut timeline = made(alloc, &[(8, 80), (2, 20), (5, 50)])?;
    for (case, before, left) in [("in force yet", 4, 3), ("one", 6, 2)] {
        timeline.prune(before);
        assert!(rt; timeline.len() == left, "{case}");
    }
    assert_held(
        rt,
        "left",
        &timeline.between(alloc, 6, 9)?,
        &[(5, 50), (8, 80)],
    );
    Ok(())
}

fn assert_taps(rt: &impl Abort, alloc: Global) -> Result<(), Fail> {
    let taps = Value::Taps(Taps::new(Vec::from_slice(alloc, &[3, -1])?));
    let timeline = Timeline::new(alloc, taps);
    match timeline.in_force(2).copy(alloc)? {
        Value::Taps(set) => assert!(rt; set.as_slice() == [3, -1].as_slice()),
        Value::Number(_) => panic!(rt; "taps"),
    }
    Ok(())
}

#[test]
fn settings_are_in_force_from_their_items_on(rt: HostRuntime) -> Result<(), Fail> {
    let alloc = rt.alloc();
    assert_in_force(&rt, alloc)?;
    assert_between(&rt, alloc)?;
    assert_late(&rt, alloc)?;
    assert_forgotten(&rt, alloc)?;
    assert_taps(&rt, alloc)
}
