//! What plants were handed, shared and compared; and what costs no more than there is of it.
use super::drawn::{MIDDLE, Make, SINK, SOURCE, bytes, chain, mark, run};
use items::Mark;
use kinds::Kind;
use plant::{Plant, Settled, Step};
use settings::Value;
use std::alloc::Global;
use std::process::Abort;
use std::test::Fail;

// More than could be done in the time of a test at a cost that grows with the square.
const MANY: u32 = 100_000;

// Of tags that go before each other at one item, where each moves all others by one place.
const WAITING: u32 = 10_000;

// A chain whose source was fed with two items, and a tag of this value on the second.
fn tagged(rt: &impl Abort, alloc: Global, added: i64, value: i64) -> Plant<Kind> {
    let mut plant = chain(rt, alloc, Make::AddConst(added), 4);
    let marks = [mark(rt, 1, b'k', value)];
    let fed = plant.feed(SOURCE, bytes(rt, alloc, &[250, 1]), &marks);
    assert!(rt; fed.is_ok(), "fed");
    plant
}

#[test]
fn what_was_handed_is_told_from_all_else(rt: HostRuntime) -> Result<(), Fail> {
    let alloc = rt.alloc();
    let mut own = tagged(&rt, alloc, 10, 7);
    let handed = own.handed(alloc)?;
    assert!(rt; own.agrees(&handed), "as it was");
    assert!(rt; tagged(&rt, alloc, 10, 7).agrees(&handed), "an equal plant");
    assert!(rt; !tagged(&rt, alloc, 11, 7).agrees(&handed), "another block");
    // Firings are not handed in.
    assert!(rt; own.step(alloc, SOURCE, 8) == Ok(Step::Did(2)), "given");
    assert!(rt; own.agrees(&handed), "as far as before");
    let mut set = tagged(&rt, alloc, 10, 7);
    assert!(rt; set.set(MIDDLE, Some(1), Value::Number(3)).is_ok(), "set");
    assert!(rt; !set.agrees(&handed), "a setting");
    let mut closed = tagged(&rt, alloc, 10, 7);
    assert!(rt; closed.close(SOURCE).is_ok(), "closed");
    assert!(rt; !closed.agrees(&handed), "an end");
    let marked = tagged(&rt, alloc, 10, 8);
    assert!(rt; !marked.agrees(&handed), "another tag");
    // What is fed later leaves what was shared.
    let fed = own.feed(SOURCE, bytes(&rt, alloc, &[5]), &[]);
    assert!(rt; fed.is_ok(), "fed more");
    assert!(rt; !own.agrees(&handed), "an item more");
    let equal = tagged(&rt, alloc, 10, 7);
    assert!(rt; equal.agrees(&handed), "what was shared stays");
    Ok(())
}

#[test]
fn openings_tell_how_far_blocks_are(rt: HostRuntime) -> Result<(), Fail> {
    let alloc = rt.alloc();
    let mut plant = tagged(&rt, alloc, 10, 7);
    let fresh = plant.opening(alloc)?;
    assert!(rt; plant.opening(alloc)?.agrees(&fresh), "the same");
    let equal = tagged(&rt, alloc, 10, 7).opening(alloc)?;
    assert!(rt; equal.agrees(&fresh), "of an equal plant");
    assert!(rt; plant.step(alloc, SOURCE, 1) == Ok(Step::Did(1)), "given");
    assert!(rt; !plant.opening(alloc)?.agrees(&fresh), "a firing further");
    Ok(())
}

// So many items with so many marks, each at the place that is given, through the chain to its end.
fn marked_run(
    rt: &impl Abort,
    alloc: Global,
    items: u32,
    marks: &[Mark],
) -> Result<Plant<Kind>, Fail> {
    let mut plant = chain(rt, alloc, Make::AddConst(1), 4_096);
    let numbers = Vec::from_elem(alloc, 1_i64, items as usize)?;
    let fed = plant.feed_numbers(alloc, SOURCE, &numbers, marks);
    assert!(rt; fed.is_ok(), "fed");
    assert!(rt; plant.close(SOURCE).is_ok(), "closed");
    assert!(rt; plant.settle(alloc, 1_024)? == Settled::Done, "done");
    Ok(plant)
}

#[test]
fn many_tags_in_any_order_come_through(rt: HostRuntime) -> Result<(), Fail> {
    let alloc = rt.alloc();
    let mut falling = Vec::with_capacity(alloc, MANY as usize)?;
    let mut equal = Vec::with_capacity(alloc, MANY as usize)?;
    for n in 0..MANY {
        falling.push(mark(&rt, u64::from(MANY - 1 - n), b'k', 5))?;
        equal.push(mark(&rt, 0, b'k', 5))?;
    }
    let plant = marked_run(&rt, alloc, MANY, &falling)?;
    let piece = plant.read(alloc, SINK, 0, u64::from(MANY))?;
    assert!(rt; piece.tags.len() == MANY as usize, "each tag");
    for (n, tag) in piece.tags.iter().enumerate() {
        assert!(rt; tag.offset == n as u64, "in order");
    }
    let plant = marked_run(&rt, alloc, 1, &equal)?;
    let piece = plant.read(alloc, SINK, 0, 1)?;
    assert!(rt; piece.tags.len() == MANY as usize, "each double");
    Ok(())
}

// A few come at a time, and all of them wait on the first item behind the skip.
#[test]
fn many_tags_wait_on_one_item(rt: HostRuntime) -> Result<(), Fail> {
    let alloc = rt.alloc();
    let mut plant = chain(&rt, alloc, Make::Skip(u64::from(WAITING)), 8);
    let mut falling = Vec::with_capacity(alloc, WAITING as usize)?;
    for n in 0..WAITING {
        falling.push(mark(&rt, u64::from(n), b'k', i64::from(WAITING - n)))?;
    }
    let numbers = Vec::from_elem(alloc, 1_i64, WAITING as usize + 1)?;
    assert!(rt; plant.feed_numbers(alloc, SOURCE, &numbers, &falling).is_ok(), "fed");
    assert!(rt; plant.close(SOURCE).is_ok(), "closed");
    assert!(rt; plant.settle(alloc, 8)? == Settled::Done, "done");
    let piece = plant.read(alloc, SINK, 0, 2)?;
    assert!(rt; piece.held == 1 && piece.tags.len() == WAITING as usize, "each tag");
    for (n, tag) in piece.tags.iter().enumerate() {
        assert!(rt; tag.offset == 0 && tag.value == n as i64 + 1, "in order");
    }
    Ok(())
}

#[test]
fn many_settings_in_any_order_are_kept(rt: HostRuntime) -> Result<(), Fail> {
    let alloc = rt.alloc();
    let mut plant = chain(&rt, alloc, Make::AddConst(0), 4);
    for n in 0..MANY {
        let at = u64::from(MANY - n);
        let value = Value::Number(i64::from(n % 2));
        assert!(rt; plant.set(MIDDLE, Some(at), value).is_ok(), "set");
    }
    for _ in 0..MANY {
        let set = plant.set(MIDDLE, None, Value::Number(100));
        assert!(rt; set.is_ok(), "set again");
    }
    let fed = plant.feed(SOURCE, bytes(&rt, alloc, &[0, 0, 0]), &[]);
    assert!(rt; fed.is_ok(), "fed");
    assert!(rt; plant.close(SOURCE).is_ok(), "closed");
    run(&rt, alloc, &mut plant, 4);
    let piece = plant.read(alloc, SINK, 0, 3)?;
    // Item 1 was set by the last turn, whose number is odd, and item 2 by the one before it.
    assert!(rt; piece.items.number(0) == 100, "the last of item 0");
    assert!(rt; piece.items.number(1) == 1, "item 1");
    assert!(rt; piece.items.number(2) == 0, "item 2");
    Ok(())
}
