//! Small graphs, whose sinks are worked out by hand.

use crate::feeds::Fault;
use crate::graphs::{Fed, Shape, Work, fed_plant};
use items::ItemType;
use plant::{Piece, Unwatched};
use std::alloc::Global;
use std::io;
use std::sync::Wait;
use std::thread::Threads;
use std::time::Clock;
use threads::{Outcome, RunOptions, Threading, Turns, run_with};

const SMALL: Shape = Shape {
    item: ItemType::Byte,
    work: Work::Add,
    blocks: 2,
    chains: 1,
    is_fan: false,
    kept: true,
    capacity: 3,
    multiple: 1,
    items: 5,
    tag_every: Some(2),
    turns: 2,
};

const SHAPES: [Shape; 5] = [
    SMALL,
    Shape {
        item: ItemType::Int,
        blocks: 0,
        chains: 2,
        is_fan: true,
        tag_every: None,
        ..SMALL
    },
    Shape {
        item: ItemType::Short,
        blocks: 4,
        capacity: 1,
        items: 4,
        turns: 1_024,
        ..SMALL
    },
    Shape {
        item: ItemType::Short,
        work: Work::Filter,
        chains: 3,
        tag_every: None,
        ..SMALL
    },
    // Of nine items a firing of two leaves one.
    Shape {
        blocks: 3,
        multiple: 2,
        capacity: 4,
        items: 9,
        ..SMALL
    },
];

/// What prints, and starts threads.
pub trait Host: Threads + Wait + Clock + Print + Copy + Send {}

impl<R: Threads + Wait + Clock + Print + Copy + Send> Host for R {}

/// Runs each small graph in threads and prints what its first sink holds.
pub fn print_small<R: Host + 'static>(rt: R, alloc: Global) -> io::Result<()> {
    for shape in SHAPES {
        let piece = shown(rt, alloc, shape)?;
        print!(rt; "done {}", piece.held)?;
        for n in 0..piece.items.len() {
            print!(rt; " {}", piece.items.number(n))?;
        }
        println!(rt; " tags {}", piece.tags.len())?;
    }
    Ok(())
}

// What the first sink shows after the run.
fn shown<R: Threads + Wait + Clock + Copy + Send + 'static>(
    rt: R,
    alloc: Global,
    shape: Shape,
) -> Result<Piece, Fault> {
    let Fed { plant, sink } = fed_plant(alloc, shape)?;
    let Some(turns) = Turns::new(shape.turns) else {
        return Err(Fault::Run);
    };
    if !plant.idle() {
        return Err(Fault::Run);
    }
    let options = RunOptions::new(Threading::PerBlock, turns);
    match run_with(rt, alloc, plant, options, &mut Unwatched) {
        Ok(Outcome::Done(plant)) => Ok(plant.read(alloc, sink, 0, 100)?),
        _ => Err(Fault::Run),
    }
}
