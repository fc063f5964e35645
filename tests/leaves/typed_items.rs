//! Items in memory, of each type.

use items::{ItemFault, ItemType, Items};
use std::alloc::Global;
use std::process::Abort;
use std::test::Fail;

fn assert_items(
    rt: &impl Abort,
    alloc: Global,
    case: &str,
    items: &Items,
    t: ItemType,
    numbers: &[i64],
) -> Result<(), Fail> {
    let expected = Items::from_numbers(alloc, t, numbers)?;
    assert!(rt; *items == expected, "{case}");
    Ok(())
}

// Items of both ends of a type, and one number past each of them.
fn assert_range(
    rt: &impl Abort,
    alloc: Global,
    case: &str,
    t: ItemType,
    ends: [i64; 2],
    past: [i64; 2],
) -> Result<(), Fail> {
    let items = Items::from_numbers(alloc, t, &ends)?;
    items.in_range();
    assert!(rt;
        items.item_type() == t && items.len() == 2 && !items.is_empty(),
        "{case}"
    );
    assert!(rt;
        items.number(0) == ends[0] && items.number(1) == ends[1],
        "{case}"
    );
    for number in past {
        let refused = Items::from_numbers(alloc, t, &[0, number]);
        assert!(rt; refused == Err(ItemFault::ItemRange), "{case}");
    }
    Ok(())
}

// All that can be pushed, in room that was made once.
fn push_each(rt: &impl Abort, items: &mut Items, more: &Items) {
    assert!(rt; more.len() == 3 && items.spare() >= 7, "room");
    items.push_slice(more);
    items.push_zeros(2);
    items.push_range(more, 1, 3);
}

fn assert_pushes(rt: &impl Abort, alloc: Global) -> Result<(), Fail> {
    let more = Items::from_numbers(alloc, ItemType::Short, &[4, -5, 6])?;
    let mut items = Items::empty(alloc, ItemType::Short);
    items.reserve(7)?;
    push_each(rt, &mut items, &more);
    assert_items(
        rt,
        alloc,
        "pushed",
        &items,
        ItemType::Short,
        &[4, -5, 6, 0, 0, -5, 6],
    )?;
    items.clear();
    assert!(rt; items.is_empty() && items.spare() >= 7, "cleared");
    Ok(())
}

fn assert_slices(rt: &impl Abort, alloc: Global) -> Result<(), Fail> {
    let items = Items::from_numbers(alloc, ItemType::Int, &[10, 20, 30, 40])?;
    for (case, from, to, numbers) in [
        ("inside", 1, 3, [20, 30].as_slice()),
        ("all", 0, 4, [10, 20, 30, 40].as_slice()),
        ("nothing", 4, 4, [].as_slice()),
    ] {
        let part = items.slice(alloc, from, to)?;
        assert_items(rt, alloc, case, &part, ItemType::Int, numbers)?;
    }
    for (case, from, to) in [("turned", 3, 1), ("past the end", 0, 5)] {
        assert!(rt;
            items.slice(alloc, from, to) == Err(ItemFault::ItemRange),
            "{case}"
        );
    }
    Ok(())
}

fn assert_differ(rt: &impl Abort, alloc: Global) -> Result<(), Fail> {
    let bytes = Items::from_numbers(alloc, ItemType::Byte, &[1, 2])?;
    for (case, t, numbers) in [
        ("other number", ItemType::Byte, [1, 3].as_slice()),
        ("longer", ItemType::Byte, [1, 2, 0].as_slice()),
        ("other type", ItemType::Short, [1, 2].as_slice()),
    ] {
        let other = Items::from_numbers(alloc, t, numbers)?;
        assert!(rt; bytes != other, "{case}");
    }
    Ok(())
}

#[test]
fn items_are_numbers_of_their_type(rt: HostRuntime) -> Result<(), Fail> {
    let alloc = rt.alloc();
    for (case, t, ends, past) in [
        ("byte", ItemType::Byte, [0, 255], [-1, 256]),
        (
            "short",
            ItemType::Short,
            [-32_768, 32_767],
            [-32_769, 32_768],
        ),
        (
            "int",
            ItemType::Int,
            [-2_147_483_648, 2_147_483_647],
            [-2_147_483_649, 2_147_483_648],
        ),
    ] {
        assert_range(&rt, alloc, case, t, ends, past)?;
    }
    assert_pushes(&rt, alloc)?;
    assert_slices(&rt, alloc)?;
    assert_differ(&rt, alloc)
}
