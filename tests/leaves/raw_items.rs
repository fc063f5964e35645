//! Raw items: bytes that were worked out by hand, in both orders, and pieces that end within an item.

use items::{ItemType, Items};
use raw_items::{ByteOrder, Decoder, item_size, push_item_bytes};
use std::alloc::Global;
use std::process::Abort;
use std::test::Fail;

// Bytes, and the items that they are.
#[derive(Clone, Copy)]
struct Layout {
    item_type: ItemType,
    order: ByteOrder,
    bytes: &'static [u8],
    numbers: &'static [i64],
}

fn laid_out(
    item_type: ItemType,
    order: ByteOrder,
    bytes: &'static [u8],
    numbers: &'static [i64],
) -> Layout {
    Layout {
        item_type,
        order,
        bytes,
        numbers,
    }
}

fn push(
    rt: &impl Abort,
    case: &str,
    decoder: &mut Decoder,
    piece: &[u8],
    out: &mut Items,
    t: ItemType,
) -> Result<(), Fail> {
    assert!(rt; out.item_type() == t, "{case}");
    decoder.push(piece, out)?;
    Ok(())
}

fn assert_bytes(rt: &impl Abort, alloc: Global, case: &str, layout: Layout) -> Result<(), Fail> {
    let items = Items::from_numbers(alloc, layout.item_type, layout.numbers)?;
    let mut bytes = vec![in alloc; 7, 8]?;
    push_item_bytes(&mut bytes, &items, 0, items.len(), layout.order)?;
    assert!(rt;
        &bytes[..2] == [7, 8].as_slice() && &bytes[2..] == layout.bytes,
        "{case}"
    );
    assert!(rt; items.len() >= 3, "{case}");
    bytes.clear();
    push_item_bytes(&mut bytes, &items, 1, 2, layout.order)?;
    let size = item_size(layout.item_type);
    assert!(rt; bytes.as_slice() == &layout.bytes[size..2 * size], "{case}");
    Ok(())
}

// The bytes come in pieces of one length, behind one item that is there before.
fn assert_pieces(
    rt: &impl Abort,
    alloc: Global,
    case: &str,
    layout: Layout,
    length: usize,
) -> Result<(), Fail> {
    let mut decoder = Decoder::new(layout.item_type, layout.order);
    let mut out = Items::from_numbers(alloc, layout.item_type, &[99])?;
    let size = item_size(layout.item_type);
    let mut count = 0;
    for piece in layout.bytes.chunks(length) {
        push(rt, case, &mut decoder, piece, &mut out, layout.item_type)?;
        count += piece.len();
        assert!(rt; out.len() == 1 + count / size, "{case}, {length}");
        assert!(rt; decoder.is_cut() == (count % size > 0), "{case}, {length}");
    }
    let mut numbers = vec![in alloc; 99]?;
    numbers.extend_from_slice(layout.numbers)?;
    let expected = Items::from_numbers(alloc, layout.item_type, &numbers)?;
    assert!(rt; out == expected, "{case}, {length}");
    Ok(())
}

fn assert_layout(rt: &impl Abort, alloc: Global, case: &str, layout: Layout) -> Result<(), Fail> {
    assert_bytes(rt, alloc, case, layout)?;
    for length in 1..=layout.bytes.len() {
        assert_pieces(rt, alloc, case, layout, length)?;
    }
    Ok(())
}

const BYTES: [i64; 3] = [0, 200, 255];

const SHORTS: [i64; 4] = [513, -2, -32_768, 32_767];

const INTS: [i64; 4] = [67_305_985, -2, -2_147_483_648, 2_147_483_647];

#[test]
fn bytes_are_items(rt: HostRuntime) -> Result<(), Fail> {
    let alloc = rt.alloc();
    for (case, layout) in [
        (
            "bytes",
            laid_out(ItemType::Byte, ByteOrder::Little, &[0, 200, 255], &BYTES),
        ),
        (
            "bytes, big",
            laid_out(ItemType::Byte, ByteOrder::Big, &[0, 200, 255], &BYTES),
        ),
        (
            "shorts",
            laid_out(
                ItemType::Short,
                ByteOrder::Little,
                &[1, 2, 254, 255, 0, 128, 255, 127],
                &SHORTS,
            ),
        ),
        (
            "shorts, big",
            laid_out(
                ItemType::Short,
                ByteOrder::Big,
                &[2, 1, 255, 254, 128, 0, 127, 255],
                &SHORTS,
            ),
        ),
        (
            "ints",
            laid_out(
                ItemType::Int,
                ByteOrder::Little,
                &[
                    1, 2, 3, 4, 254, 255, 255, 255, 0, 0, 0, 128, 255, 255, 255, 127,
                ],
                &INTS,
            ),
        ),
        (
            "ints, big",
            laid_out(
                ItemType::Int,
                ByteOrder::Big,
                &[
                    4, 3, 2, 1, 255, 255, 255, 254, 128, 0, 0, 0, 127, 255, 255, 255,
                ],
                &INTS,
            ),
        ),
    ] {
        assert_layout(&rt, alloc, case, layout)?;
    }
    Ok(())
}

#[test]
fn bytes_of_no_whole_item_are_cut(rt: HostRuntime) -> Result<(), Fail> {
    let alloc = rt.alloc();
    let mut decoder = Decoder::new(ItemType::Int, ByteOrder::Little);
    let mut out = Items::empty(alloc, ItemType::Int);
    push(&rt, "nothing", &mut decoder, &[], &mut out, ItemType::Int)?;
    assert!(&rt; !decoder.is_cut(), "nothing");
    push(
        &rt,
        "cut",
        &mut decoder,
        &[1, 0, 0],
        &mut out,
        ItemType::Int,
    )?;
    push(&rt, "cut", &mut decoder, &[], &mut out, ItemType::Int)?;
    assert!(&rt; decoder.is_cut() && out.is_empty(), "cut");
    Ok(())
}
