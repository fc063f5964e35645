//! Rings: what readers see when a ring wraps, and which of them it waits for.

use ring_readers::{Reader, Ring};
use std::alloc::Global;
use std::process::Abort;
use std::test::Fail;

// Items are written, and a reader sees its next items with those before them, and takes some.
#[derive(Clone, Copy)]
struct Round {
    written: &'static [i16],
    count: usize,
    seen: &'static [i16],
    taken: usize,
    room: usize,
}

fn write(rt: &impl Abort, case: &str, ring: &mut Ring<i16>, items: &[i16]) {
    assert!(rt; items.len() <= ring.room(), "{case}");
    ring.push_slice(items);
}

fn assert_round(
    rt: &impl Abort,
    alloc: Global,
    case: &str,
    ring: &mut Ring<i16>,
    reader: Reader,
    round: Round,
) -> Result<(), Fail> {
    write(rt, case, ring, round.written);
    assert!(rt; round.count <= ring.unread(reader), "{case}");
    let past = ring.history(reader) as usize - 1;
    let mut out = Vec::with_capacity(alloc, past + round.count)?;
    ring.window(reader, round.count, &mut out);
    assert!(rt; out.as_slice() == round.seen, "{case}");
    let place = ring.place(reader);
    assert!(rt; round.taken <= ring.unread(reader), "{case}");
    ring.advance(reader, round.taken);
    assert!(rt; ring.place(reader) == place + round.taken as u64, "{case}");
    assert!(rt; ring.room() == round.room, "{case}");
    Ok(())
}

fn played(
    written: &'static [i16],
    count: usize,
    seen: &'static [i16],
    taken: usize,
    room: usize,
) -> Round {
    Round {
        written,
        count,
        seen,
        taken,
        room,
    }
}

// Of two readers the one sees two items of its past, and the other none.
fn assert_histories(rt: &impl Abort, alloc: Global) -> Result<(), Fail> {
    let mut ring = Ring::new(alloc, 4, 3)?;
    let short = ring.add_reader(1)?;
    let long = ring.add_reader(3)?;
    for (case, is_long, round) in [
        ("zeros", true, played(&[1, 2, 3, 4], 2, &[0, 0, 1, 2], 2, 0)),
        ("no past", false, played(&[], 4, &[1, 2, 3, 4], 4, 2)),
        ("past", true, played(&[5, 6], 2, &[1, 2, 3, 4], 0, 0)),
    ] {
        let reader = if is_long { long } else { short };
        assert_round(rt, alloc, case, &mut ring, reader, round)?;
    }
    Ok(())
}

// The ring wraps.
fn assert_wraps(rt: &impl Abort, alloc: Global) -> Result<(), Fail> {
    let mut ring = Ring::new(alloc, 4, 3)?;
    let reader = ring.add_reader(3)?;
    for (case, round) in [
        ("first", played(&[-1, 2, -3], 3, &[0, 0, -1, 2, -3], 2, 3)),
        ("full", played(&[4, 5, 6], 4, &[-1, 2, -3, 4, 5, 6], 4, 4)),
        ("wrapped", played(&[7, 8, 9, 10], 3, &[5, 6, 7, 8, 9], 4, 4)),
        ("one more", played(&[11], 1, &[9, 10, 11], 0, 3)),
    ] {
        assert_round(rt, alloc, case, &mut ring, reader, round)?;
    }
    assert!(rt; ring.kept() == 6);
    assert!(rt; ring.written() == 11);
    Ok(())
}

// The slowest reader that is left decides.
fn assert_waits(rt: &impl Abort, alloc: Global) -> Result<(), Fail> {
    let mut ring = Ring::new(alloc, 4, 1)?;
    let slow = ring.add_reader(1)?;
    let fast = ring.add_reader(1)?;
    assert_round(
        rt,
        alloc,
        "fast",
        &mut ring,
        fast,
        played(&[1, 2, 3], 3, &[1, 2, 3], 2, 1),
    )?;
    assert!(rt; ring.slowest() == Some(0));
    ring.drop_reader(slow);
    assert!(rt; ring.room() == 3);
    assert!(rt; ring.slowest() == Some(2));
    ring.drop_reader(fast);
    assert!(rt; ring.room() == 4);
    assert!(rt; ring.slowest() == None);
    Ok(())
}

#[test]
fn readers_see_their_windows(rt: HostRuntime) -> Result<(), Fail> {
    let alloc = rt.alloc();
    assert_histories(&rt, alloc)?;
    assert_wraps(&rt, alloc)?;
    assert_waits(&rt, alloc)
}
