//! A graph that words name and that runs once to its end, so that its instructions can be counted.

use crate::feeds::Fault;
use crate::graphs::{Shape, fed_plant};
use items::ItemType;
use plant::Settled;
use std::io;

/// The shape that six words say: the type of its items, how many blocks add 1, whether its sink keeps what it takes, the
/// capacity of its buffers, how often a block fires in a step at most, and how many items are fed.
pub fn shape_of(
    item: &str,
    adders: &str,
    sink: &str,
    capacity: &str,
    most: &str,
    items: &str,
) -> Option<Shape> {
    Some(Shape {
        item: item_of(item)?,
        adders: adders.parse::<u32>().ok()?,
        chains: 1,
        kept: is_kept(sink)?,
        capacity: capacity.parse::<u32>().ok()?,
        most: most.parse::<u32>().ok()?,
        items: items.parse::<u32>().ok()? as usize,
        tag_every: None,
        turned: false,
    })
}

fn item_of(word: &str) -> Option<ItemType> {
    match word {
        "byte" => Some(ItemType::Byte),
        "short" => Some(ItemType::Short),
        "int" => Some(ItemType::Int),
        _ => None,
    }
}

fn is_kept(word: &str) -> Option<bool> {
    match word {
        "kept" => Some(true),
        "null" => Some(false),
        _ => None,
    }
}

/// Runs a graph of this shape once to its end.
pub fn run_once(rt: &HostRuntime, shape: Shape) -> io::Result<()> {
    let mut plant = match fed_plant(rt.alloc(), shape) {
        Ok(plant) => plant,
        Err(fault) => return Err(io::Error::from(fault)),
    };
    if !plant.idle() {
        return Err(io::Error::from(Fault::Run));
    }
    match plant.settle(rt.alloc(), shape.most.max(1))? {
        Settled::Done => Ok(()),
        Settled::Quiet => Err(io::Error::from(Fault::Run)),
    }
}
