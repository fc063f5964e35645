//! Runs a block of any kind over whole streams, in cuts, and looks whether it gives what it should.

use block_trait::{Block, Held, Role, Value, Wanted};
use items::Items;
use settings::Timeline;
use std::alloc::Global;
use std::test::Fail;

// Items `from - past` to below `to`, with zeros before item 0.
fn window_of(
    alloc: Global,
    items: &Items,
    past: usize,
    from: usize,
    to: usize,
) -> Result<Items, Fail> {
    let mut padded = Items::empty(alloc, items.item_type());
    padded.reserve(past + items.len())?;
    padded.push_zeros(past);
    padded.push_slice(items);
    Ok(padded.slice(alloc, from, past + to)?)
}

// The items that the firings take, behind the past that they read, of each input.
pub fn windows_of<B: Block>(
    alloc: Global,
    block: &B,
    inputs: &[Items],
    first: u64,
    count: u64,
) -> Result<Vec<Items>, Fail> {
    let mut windows = Vec::new(alloc);
    let past = block.history().saturating_sub(1) as usize;
    for (input, items) in inputs.iter().enumerate() {
        if items.item_type() != block.inputs().item {
            return Err(Fail::new("an input of another type"));
        }
        let from = block.taken(input, first) as usize;
        let to = block.taken(input, first + count) as usize;
        windows.push(window_of(alloc, items, past, from, to)?)?;
    }
    Ok(windows)
}

// The settings in force over the items that the firings take, where these settings are made in this order.
pub fn held_over<B: Block>(
    alloc: Global,
    block: &B,
    settings: &[Held],
    first: u64,
    count: u64,
) -> Result<Vec<Held>, Fail> {
    let Some(own) = block.own(alloc)? else {
        return Ok(Vec::new(alloc));
    };
    let timeline = timeline_of(alloc, own, settings)?;
    let from = block.taken(0, first);
    let to = block.taken(0, first + count);
    Ok(timeline.between(alloc, from, to)?)
}

fn timeline_of(alloc: Global, own: Value, settings: &[Held]) -> Result<Timeline, Fail> {
    let mut timeline = Timeline::new(alloc, own);
    for setting in settings {
        timeline.set(setting.at, setting.value.copy(alloc)?, 0)?;
    }
    Ok(timeline)
}

// An empty place for what the firings give, for each output.
pub fn places_for<B: Block>(
    alloc: Global,
    block: &B,
    outputs: usize,
    first: u64,
    count: u64,
) -> Result<Vec<Items>, Fail> {
    let mut out = Vec::new(alloc);
    let room = block
        .given(first + count)
        .saturating_sub(block.given(first));
    for _ in 0..outputs {
        let mut place = Items::empty(alloc, block.outputs().item);
        place.reserve(room as usize)?;
        out.push(place)?;
    }
    Ok(out)
}

// Whether the block takes this value for its setting.
fn is_wanted(wanted: &Wanted, value: &Value) -> bool {
    match (wanted, value) {
        (Wanted::Number(least, greatest), Value::Number(number)) => {
            least <= number && number <= greatest
        }
        (Wanted::Taps(count), Value::Taps(taps)) => taps.as_slice().len() == *count as usize,
        _ => false,
    }
}

/// Whether the block takes each of these values for its setting.
pub fn are_wanted<B: Block>(block: &B, settings: &[Held]) -> bool {
    match block.setting() {
        Some(wanted) => settings
            .iter()
            .all(|setting| is_wanted(&wanted, &setting.value)),
        None => true,
    }
}

// Whether the block may have so many windows and outputs.
pub fn has_ports<B: Block>(block: &B, windows: usize, outputs: usize) -> bool {
    let (least, most) = match block.role() {
        Role::Source => (1, 1),
        _ => (block.inputs().least as usize, block.inputs().most as usize),
    };
    let given = block.outputs();
    least <= windows
        && windows <= most
        && given.least as usize <= outputs
        && outputs <= given.most as usize
}
