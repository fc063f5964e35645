//! Items of one type as items of another.
use super::in_turn::{MOST, in_turn};
use lane_kernels::{NarrowsTo, SimdLane, WidensTo, narrow, widen};
use std::process::Abort;

// Two items in turn, and the two of the output.
type Case<T, U> = (&'static str, [T; 2], [U; 2]);

// So many of the items, for each number up to the most, become those of the output.
fn assert_converted<T: SimdLane, U: SimdLane + PartialEq>(
    rt: &impl Abort,
    convert: impl Fn(&[T], &mut [U]),
    (name, items, out): Case<T, U>,
) {
    for n in 0..MOST + 1 {
        let mut found = in_turn([out[1], out[0]]);
        convert(&in_turn(items)[..n], &mut found[..n]);
        let holds = found[..n] == in_turn(out)[..n];
        assert!(rt; holds, "{name}, {n} items");
    }
}

fn assert_widened<T: WidensTo<U>, U: SimdLane + PartialEq>(rt: &impl Abort, case: Case<T, U>) {
    assert_converted(rt, |items, out| widen(items, out), case);
}

fn assert_narrowed<T: NarrowsTo<U>, U: SimdLane + PartialEq>(rt: &impl Abort, case: Case<T, U>) {
    assert_converted(rt, |items, out| narrow(items, out), case);
}

#[test]
fn items_of_another_type(rt: HostRuntime) {
    assert_widened::<u8, i16>(&rt, ("bytes to shorts", [255, 0], [255, 0]));
    assert_widened::<u8, i32>(&rt, ("bytes to ints", [255, 0], [255, 0]));
    assert_widened::<i16, i32>(&rt, ("shorts to ints", [-32768, 32767], [-32768, 32767]));
    assert_narrowed::<i16, u8>(&rt, ("shorts to bytes", [-1, 256], [255, 0]));
    assert_narrowed::<i16, u8>(&rt, ("great shorts to bytes", [300, 32767], [44, 255]));
    assert_narrowed::<i32, u8>(&rt, ("ints to bytes", [-2147483648, 2147483647], [0, 255]));
    assert_narrowed::<i32, i16>(&rt, ("ints to shorts", [40000, -40000], [-25536, 25536]));
}
