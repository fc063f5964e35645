//! What a plain loop has to know of a type of items.
use items::Items;
use num_traits::AsPrimitive;
use numbers::Number;

/// A number type of items.
pub trait Item: Number {
    /// The number of the low bits.
    fn wrapped(n: i64) -> Self;

    /// The nearest number that the type has.
    fn saturated(n: i64) -> Self;

    /// The values as items of a stream.
    fn items(values: Vec<Self>) -> Items;

    /// The values of items, none where they are of another type.
    fn slice(items: &Items) -> &[Self];
}

impl Item for u8 {
    #[inline(always)]
    fn wrapped(n: i64) -> u8 {
        n.as_()
    }

    #[inline(always)]
    fn saturated(n: i64) -> u8 {
        n.clamp(0, 255) as u8
    }

    fn items(values: Vec<u8>) -> Items {
        Items::Byte(values)
    }

    fn slice(items: &Items) -> &[u8] {
        match items {
            Items::Byte(values) => values,
            _ => &[],
        }
    }
}

impl Item for i16 {
    #[inline(always)]
    fn wrapped(n: i64) -> i16 {
        n.as_()
    }

    #[inline(always)]
    fn saturated(n: i64) -> i16 {
        n.clamp(-32768, 32767) as i16
    }

    fn items(values: Vec<i16>) -> Items {
        Items::Short(values)
    }

    fn slice(items: &Items) -> &[i16] {
        match items {
            Items::Short(values) => values,
            _ => &[],
        }
    }
}

impl Item for i32 {
    #[inline(always)]
    fn wrapped(n: i64) -> i32 {
        n.as_()
    }

    #[inline(always)]
    fn saturated(n: i64) -> i32 {
        n.clamp(-2147483648, 2147483647) as i32
    }

    fn items(values: Vec<i32>) -> Items {
        Items::Int(values)
    }

    fn slice(items: &Items) -> &[i32] {
        match items {
            Items::Int(values) => values,
            _ => &[],
        }
    }
}
