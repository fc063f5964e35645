//! The graphs that run: a source, one or more chains of blocks behind it that add 1, and a sink behind each.
//!
//! Blocks are counted in the order of the stream: the source, then the adders and the sink of each chain.

use crate::feeds::{Fault, marks_of, tape_of};
use flowgraph::{BlockId, Graph, Options, Policy};
use items::ItemType;
use kinds::{Kind, NullSink, VectorSink, VectorSource};
use math_blocks::AddConst;
use plant::Plant;
use std::alloc::Global;

/// What a graph is made of, and what it is fed.
#[derive(Clone, Copy)]
pub struct Shape {
    pub item: ItemType,
    /// How many blocks of a chain add 1.
    pub adders: u32,
    /// How many chains take the source's stream.
    pub chains: u32,
    /// Whether the sinks keep what they take.
    pub kept: bool,
    /// How many items each buffer holds.
    pub capacity: u32,
    /// How often a block fires in a step at most; once if that is 0.
    pub most: u32,
    /// How many items are fed.
    pub items: usize,
    /// On each item whose number is a multiple of this lies a tag.
    pub tag_every: Option<usize>,
    /// Whether the blocks are added against the stream, the last sink first.
    pub turned: bool,
}

impl Shape {
    // How many blocks a chain has: its adders and its sink.
    fn length(self) -> u32 {
        self.adders.saturating_add(1)
    }

    // How many blocks there are.
    fn blocks(self) -> u32 {
        self.chains.saturating_mul(self.length()).saturating_add(1)
    }

    // At which place a block is added, and which block at a place.
    fn turned_to(self, number: u32) -> u32 {
        if self.turned {
            self.blocks().saturating_sub(1).saturating_sub(number)
        } else {
            number
        }
    }

    fn source(self) -> BlockId {
        BlockId(self.turned_to(0))
    }
}

/// A plant of this shape, fed and closed.
pub fn fed_plant(alloc: Global, shape: Shape) -> Result<Plant<Kind>, Fault> {
    let mut plant = plant_of(alloc, shape)?;
    let marks = marks_of(alloc, shape.tag_every, shape.items)?;
    let source = shape.source();
    plant.feed(source, tape_of(alloc, shape.item, shape.items)?, &marks)?;
    plant.close(source)?;
    Ok(plant)
}

/// The number of the first sink of a shape.
pub fn first_sink(shape: Shape) -> BlockId {
    BlockId(shape.turned_to(shape.length()))
}

fn plant_of(alloc: Global, shape: Shape) -> Result<Plant<Kind>, Fault> {
    let mut graph = Graph::new(alloc);
    for place in 0..shape.blocks() {
        add(alloc, &mut graph, shape.turned_to(place), shape)?;
    }
    for chain in 0..shape.chains {
        connect_chain(&mut graph, chain.saturating_mul(shape.length()), shape)?;
    }
    let valid = match graph.validate(alloc) {
        Ok(valid) => valid,
        Err((_, fault)) => return Err(Fault::Graph(fault)),
    };
    match Plant::open(alloc, valid) {
        Ok(plant) => Ok(plant),
        Err(_) => Err(Fault::Memory),
    }
}

// Connects the source, the adders and the sink of a chain, behind so many blocks of other chains.
fn connect_chain(graph: &mut Graph<Kind>, before: u32, shape: Shape) -> Result<(), Fault> {
    let mut last = shape.source();
    for number in 1..=shape.length() {
        let next = BlockId(shape.turned_to(before.saturating_add(number)));
        graph.connect(last, 0, next, 0)?;
        last = next;
    }
    Ok(())
}

// Adds a block, named by its number.
fn add(alloc: Global, graph: &mut Graph<Kind>, number: u32, shape: Shape) -> Result<(), Fault> {
    let name = format!(in alloc; "b{number}")?;
    let options = Options {
        policy: Policy::All,
        multiple: 1,
        capacity: shape.capacity,
    };
    graph.add_block(alloc, name.as_bytes(), block_of(number, shape)?, options)?;
    Ok(())
}

// The source, or an adder, or the sink at the end of a chain.
fn block_of(number: u32, shape: Shape) -> Result<Kind, Fault> {
    if number == 0 {
        return Ok(Kind::VectorSource(VectorSource::new(shape.item)));
    }
    if number % shape.length().max(1) != 0 {
        return match AddConst::new(shape.item, 1) {
            Ok(adder) => Ok(Kind::AddConst(adder)),
            Err(_) => Err(Fault::Run),
        };
    }
    Ok(if shape.kept {
        Kind::VectorSink(VectorSink::new(shape.item))
    } else {
        Kind::NullSink(NullSink::new(shape.item))
    })
}
