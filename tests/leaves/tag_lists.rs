//! Tags: their order, their places, and lists of them.
use std::alloc::{AllocError, Global};
use std::cmp::Ordering;
use std::process::Abort;
use std::test::Fail;
use tags::{Tag, TagKey, Tags, place};

fn tag(offset: u64, key: TagKey, value: i64, source: u32) -> Tag {
    Tag {
        offset,
        key,
        value,
        source,
    }
}

fn assert_order(rt: &impl Abort, a: TagKey, b: TagKey) {
    let middle = tag(2, a, 7, 1);
    for (case, other, order) in [
        ("offset before all", tag(1, b, 9, 9), Ordering::Less),
        ("key before value", tag(2, b, -9, 0), Ordering::Greater),
        ("value before source", tag(2, a, -7, 9), Ordering::Less),
        ("source last", tag(2, a, 7, 2), Ordering::Greater),
        ("equal", tag(2, a, 7, 1), Ordering::Equal),
    ] {
        assert!(rt; other.cmp(&middle) == order, "{case}");
        assert!(rt; (other == middle) == (order == Ordering::Equal), "{case}");
    }
}

fn assert_places(rt: &impl Abort) {
    for (case, taken, given, offset, wanted) in [
        ("below a half", 4, 1, 1, 0),
        ("a half", 4, 1, 2, 1),
        ("a half of two", 2, 1, 3, 2),
        ("a third", 3, 1, 4, 1),
        ("twice", 1, 2, 1, 2),
        (
            "the longest rate",
            1024,
            1024,
            4_611_686_018_427_387_904,
            4_611_686_018_427_387_904,
        ),
    ] {
        assert!(rt; place(taken, given, offset) == wanted, "{case}");
    }
}

fn insert_all(tags: &mut Tags, more: &[Tag]) -> Result<(), AllocError> {
    for tag in more {
        tags.reserve(1)?;
        tags.insert_reserved(*tag);
    }
    Ok(())
}

// Doubles are kept, in the order of tags.
fn assert_sorted(
    rt: &impl Abort,
    alloc: Global,
    a: TagKey,
    ab: TagKey,
    b: TagKey,
) -> Result<(), Fail> {
    let mut tags = Tags::new(alloc);
    let given = [
        tag(1, b, 1, 0),
        tag(1, a, 7, 1),
        tag(1, a, 7, 0),
        tag(1, ab, -9, 0),
        tag(1, a, 7, 0),
    ];
    let sorted = [given[2], given[4], given[1], given[3], given[0]];
    insert_all(&mut tags, &given)?;
    assert!(rt; tags.as_slice() == sorted.as_slice());
    assert!(rt; tags.len() == 5);
    Ok(())
}

// A tag on each of ten items, and what is left of them.
fn assert_parts(rt: &impl Abort, alloc: Global, key: TagKey) -> Result<(), Fail> {
    let mut tags = Tags::new(alloc);
    for offset in [2, 7, 4, 9, 0, 1, 8, 3, 6, 5] {
        insert_all(&mut tags, &[tag(offset, key, 0, 0)])?;
    }
    for (case, before, left) in [
        ("none", 0, 10),
        ("a few", 3, 7),
        ("the same again", 3, 7),
        ("more than are left", 8, 2),
        ("all", 10, 0),
    ] {
        assert!(rt; tags.range(before, 20).len() == left, "{case}");
        assert!(rt; tags.range(before, before).len() == 0, "{case}");
        tags.prune(before);
        assert!(rt; tags.len() == left, "{case}");
        assert!(rt;
            tags.as_slice().iter().all(|tag| before <= tag.offset),
            "{case}"
        );
    }
    insert_all(&mut tags, &[tag(12, key, 0, 0)])?;
    assert!(rt; !tags.is_empty());
    tags.clear();
    assert!(rt; tags.is_empty());
    Ok(())
}

#[test]
fn tags_are_in_order(rt: HostRuntime) -> Result<(), Fail> {
    let a = TagKey::new(b"a").ok_or("a")?;
    let ab = TagKey::new(b"ab").ok_or("ab")?;
    let b = TagKey::new(b"b").ok_or("b")?;
    assert_order(&rt, a, b);
    assert_places(&rt);
    assert_sorted(&rt, rt.alloc(), a, ab, b)?;
    assert_parts(&rt, rt.alloc(), a)
}
