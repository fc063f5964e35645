//! A run between raw input and raw outputs in memory, of which one allocation may fail.
use super::streams::{Page, Text};
use flow_core::fault::Fault;
use flow_core::opening::open_plant;
use flow_core::raw_fault::EndPlace::{Output, Tags};
use flow_core::raw_fault::RawFault;
use flow_core::raw_input::feed_from;
use flow_core::raw_output::{write_items, write_tags};
use flow_core::run::settle_plant;
use plant::{BlockId, Unwatched};
use raw_items::ByteOrder;
use refusal_codes::Refusal;
use std::alloc::Global;

// A source of shorts, a block that adds one, and a sink. An item with a tag stands on the tape.
const FILE: &str = r#"
connect = [{ from = "s", to = "a" }, { from = "a", to = "o" }]
feed = [{ source = "s", items = [250], tags = [{ at = 0, key = "k", value = -5 }] }]
[[block]]
name = "s"
kind = "vector_source"
type = "short"
[[block]]
name = "a"
kind = "add_const"
type = "short"
value = 1
[[block]]
name = "o"
kind = "vector_sink"
type = "short"
"#;

const SOURCE: BlockId = BlockId(0);

const SINK: BlockId = BlockId(2);

// The items 12593 and 32639, lowest byte first.
const INPUT: &str = "\u{31}\u{31}\u{7f}\u{7f}";

// 251, 12594 and 32640, lowest byte first.
const ITEM_BYTES: [u8; 6] = [0xfb, 0, 0x32, 0x31, 0x80, 0x7f];

const TAG_LINES: &[u8] = b"@0:k=-5/0\n";

/// What a run leaves.
#[derive(Drop)]
pub struct Left {
    items: Page,
    tags: Page,
    /// The number of the fault that ended it.
    pub fault: Option<u32>,
}

/// Runs it.
pub fn answer(alloc: Global) -> Left {
    let mut left = Left {
        items: Page::new(),
        tags: Page::new(),
        fault: None,
    };
    if let Err(fault) = answer_to(alloc, &mut left) {
        left.fault = Some(fault.number());
    }
    left
}

fn answer_to(alloc: Global, left: &mut Left) -> Result<(), RawFault> {
    let mut plant = match open_plant(alloc, FILE.as_bytes()) {
        Ok(plant) => plant,
        Err(fault) => return Err(RawFault::Whole(Fault::File(fault))),
    };
    let mut input = Text::new(INPUT);
    feed_from(alloc, &mut plant, 0, SOURCE, ByteOrder::Little, &mut input)?;
    let (plant, _) = settle_plant(alloc, plant, &mut Unwatched)?;
    write_items(alloc, &plant, Output(0), SINK, ByteOrder::Little, &mut left.items)?;
    write_tags(alloc, &plant, Tags(0), SINK, &mut left.tags)
}

/// Whether all was written; or memory was refused, and a beginning was written.
pub fn is_right(left: &Left) -> bool {
    let (items, tags) = (left.items.bytes(), left.tags.bytes());
    match left.fault {
        None => items == ITEM_BYTES.as_slice() && tags == TAG_LINES,
        Some(fault) => {
            let is_beginning = tags.is_empty()
                || tags == TAG_LINES && items == ITEM_BYTES.as_slice();
            fault == 32 && ITEM_BYTES.starts_with(items) && is_beginning
        }
    }
}
