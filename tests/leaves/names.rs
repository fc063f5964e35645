//! Names: keys of tags and names of blocks.
use items::{BlockName, TagKey};
use std::cmp::Ordering;
use std::process::Abort;
use std::test::Fail;

fn assert_key(rt: &impl Abort, case: &str, text: &[u8], expected: bool) {
    match TagKey::new(text) {
        Some(key) => assert!(rt; expected && key.bytes() == text, "{case}"),
        None => assert!(rt; !expected, "{case}"),
    }
}

fn assert_name(rt: &impl Abort, case: &str, text: &[u8], expected: bool) {
    match BlockName::new(text) {
        Some(name) => assert!(rt; expected && name.bytes() == text, "{case}"),
        None => assert!(rt; !expected, "{case}"),
    }
}

fn assert_order(rt: &impl Abort, case: &str, one: &[u8], other: &[u8], order: Ordering) {
    match (TagKey::new(one), TagKey::new(other)) {
        (Some(one), Some(other)) => {
            assert!(rt; one.cmp(&other) == order, "{case}");
            assert!(rt; (one == other) == (order == Ordering::Equal), "{case}");
        }
        _ => panic!(rt; "{case}"),
    }
}

// A text, and whether it is a key and a name.
const TEXTS: [(&str, &[u8], bool, bool); 8] = [
    ("each sort of byte", b"ABCxyz_0189.-abc", true, true),
    ("one byte", b"a", true, true),
    ("17 bytes", b"abcdefghijklmnopq", false, true),
    ("32 bytes", b"abcdefghijklmnopqrstuvwxyz012345", false, true),
    (
        "33 bytes",
        b"abcdefghijklmnopqrstuvwxyz0123456",
        false,
        false,
    ),
    ("nothing", b"", false, false),
    ("a space", b"a b", false, false),
    ("a slash", b"a/b", false, false),
];

// Two keys, and how the first stands to the second.
const ORDERS: [(&str, &[u8], &[u8], Ordering); 4] = [
    ("a beginning", b"a", b"ab", Ordering::Less),
    ("another byte", b"ab", b"b", Ordering::Less),
    ("turned", b"b", b"a", Ordering::Greater),
    ("the same", b"a", b"a", Ordering::Equal),
];

#[test]
fn names_are_short_and_ordered(rt: HostRuntime) -> Result<(), Fail> {
    for (case, text, is_key, is_name) in TEXTS {
        assert_key(&rt, case, text, is_key);
        assert_name(&rt, case, text, is_name);
    }
    for (case, one, other, order) in ORDERS {
        assert_order(&rt, case, one, other, order);
    }
    Ok(())
}
