//! Small graphs, whose sinks are worked out by hand.

use crate::feeds::Fault;
use crate::graphs::{Shape, fed_plant, first_sink};
use items::ItemType;
use plant::Settled;
use std::io;

const SMALL: Shape = Shape {
    item: ItemType::Byte,
    adders: 2,
    chains: 1,
    kept: true,
    capacity: 3,
    most: 2,
    items: 5,
    tag_every: Some(2),
    turned: false,
};

const SHAPES: [Shape; 4] = [
    SMALL,
    Shape {
        item: ItemType::Int,
        adders: 0,
        chains: 2,
        tag_every: None,
        ..SMALL
    },
    Shape {
        item: ItemType::Short,
        adders: 4,
        capacity: 1,
        items: 4,
        ..SMALL
    },
    Shape {
        adders: 3,
        turned: true,
        ..SMALL
    },
];

/// Runs each small graph and prints what its first sink holds.
pub fn print_small(rt: &(impl Print + AllocGlobal)) -> io::Result<()> {
    for shape in SHAPES {
        let mut plant = fed_plant(rt.alloc(), shape)?;
        if !plant.idle() {
            return Err(io::Error::from(Fault::Run));
        }
        let settled = plant.settle(rt.alloc(), shape.most.max(1))?;
        let word = match settled {
            Settled::Done => "done",
            Settled::Quiet => "quiet",
        };
        let piece = match plant.read(rt.alloc(), first_sink(shape), 0, 100) {
            Ok(piece) => piece,
            Err(fault) => return Err(io::Error::from(Fault::Plant(fault))),
        };
        print!(rt; "{word} {}", piece.held)?;
        for n in 0..piece.items.len() {
            print!(rt; " {}", piece.items.number(n))?;
        }
        println!(rt; " tags {}", piece.tags.len())?;
    }
    Ok(())
}
