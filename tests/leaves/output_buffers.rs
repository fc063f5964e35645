//! Buffers of outputs: items of each type with their tags.

use buffers::{Buffer, Reader};
use items::{ItemType, Items, Tag, TagKey};
use std::alloc::Global;
use std::process::Abort;
use std::test::Fail;

fn tag(offset: u64, key: TagKey, value: i64) -> Tag {
    Tag {
        offset,
        key,
        value,
        source: 0,
    }
}

// The reader's window with its next `count` items.
fn assert_window(
    rt: &impl Abort,
    alloc: Global,
    case: &str,
    buffer: &Buffer,
    reader: Reader,
    count: usize,
    expected: &[i64],
) -> Result<(), Fail> {
    let mut out = Items::empty(alloc, buffer.item_type());
    let past = buffer.history(reader) as usize - 1;
    assert!(rt; count <= buffer.unread(reader), "{case}");
    out.reserve(past + count)?;
    buffer.window(reader, count, &mut out);
    let expected = Items::from_numbers(alloc, buffer.item_type(), expected)?;
    assert!(rt; out == expected, "{case}");
    Ok(())
}

// The tags on the reader's next `count` items, which it takes then.
fn take(
    rt: &impl Abort,
    case: &str,
    buffer: &mut Buffer,
    reader: Reader,
    count: usize,
    tags: &[Tag],
) {
    assert!(rt; count <= buffer.unread(reader), "{case}");
    assert!(rt; buffer.tags(reader, count) == tags, "{case}");
    buffer.advance(reader, count);
}

// A buffer of the three items with two tags, and a reader of one item and of three items at a time.
fn filled(
    rt: &impl Abort,
    alloc: Global,
    case: &str,
    items: &Items,
    tags: &[Tag; 2],
) -> Result<(Buffer, Reader, Reader), Fail> {
    let mut buffer = Buffer::new(alloc, items.item_type(), 4, 3)?;
    let first = buffer.add_reader(1)?;
    let second = buffer.add_reader(3)?;
    buffer.reserve(2)?;
    assert!(rt; items.len() <= buffer.room() && items.len() < 9, "{case}");
    buffer.push(items, tags);
    assert!(rt; buffer.written() == 3, "{case}");
    Ok((buffer, first, second))
}

// Which reader takes how many items, with which of the two tags, and what room there is then.
fn assert_waits(rt: &impl Abort, buffer: &mut Buffer, first: Reader, second: Reader, tags: &[Tag]) {
    for (case, is_first, count, from, to, room) in [
        ("first takes all", true, 3, 0, 2, 1),
        ("second takes one", false, 1, 0, 1, 2),
        ("second takes the others", false, 2, 1, 2, 4),
    ] {
        let reader = if is_first { first } else { second };
        take(rt, case, buffer, reader, count, &tags[from..to]);
        assert!(rt; buffer.room() == room, "{case}");
    }
}

fn assert_type(
    rt: &impl Abort,
    alloc: Global,
    case: &str,
    t: ItemType,
    numbers: [i64; 3],
) -> Result<(), Fail> {
    let k = TagKey::new(b"k").ok_or("k")?;
    let items = Items::from_numbers(alloc, t, &numbers)?;
    let tags = [tag(0, k, 6), tag(2, k, 5)];
    let (mut buffer, first, second) = filled(rt, alloc, case, &items, &tags)?;
    let seen = [0, 0, numbers[0], numbers[1]];
    assert_window(rt, alloc, case, &buffer, second, 2, &seen)?;
    assert_waits(rt, &mut buffer, first, second, &tags);
    assert!(rt; buffer.items() == 3, "{case}");
    buffer.drop_reader(second);
    Ok(())
}

#[test]
fn items_and_tags_wait_for_the_slowest_reader(rt: HostRuntime) -> Result<(), Fail> {
    for (case, t, numbers) in [
        ("byte", ItemType::Byte, [1, 254, 3]),
        ("short", ItemType::Short, [1, -2, 3]),
        ("int", ItemType::Int, [1, -70_000, 3]),
    ] {
        assert_type(&rt, rt.alloc(), case, t, numbers)?;
    }
    Ok(())
}
