//! The graphs that run: one or more chains of blocks that add 1 or filter, behind one source or behind one each, and a
//! sink behind each chain.

use crate::feeds::{Fault, marks_of, tape_of};
use crate::filters::TAPS;
use fir_blocks::Fir;
use flowgraph::{BlockId, Graph, Options, Policy, Valid};
use items::ItemType;
use kinds::{Kind, NullSink, VectorSink, VectorSource};
use math_blocks::AddConst;
use plant::Plant;
use std::alloc::Global;
use streaming::StreamingPlant;

/// What the blocks of a chain do.
#[derive(Clone, Copy)]
pub enum Work {
    /// They add 1 to each item.
    Add,
    /// They give the sum of the last items, by taps that are 1. The items are shorts.
    Filter,
}

/// What a graph is made of, what it is fed, and how it runs.
#[derive(Clone, Copy)]
pub struct Shape {
    pub item: ItemType,
    pub work: Work,
    /// How many blocks of a chain work.
    pub blocks: u32,
    pub chains: u32,
    /// Whether all chains read one source, and not each its own.
    pub is_fan: bool,
    /// Whether the sinks keep what they take.
    pub kept: bool,
    /// How many items each buffer holds.
    pub capacity: u32,
    /// How many base firings a firing of a block that works is of.
    pub multiple: u32,
    /// How many items each source is fed.
    pub items: usize,
    /// On each item whose number is a multiple of this lies a tag.
    pub tag_every: Option<usize>,
    /// How many firings a turn of a worker has at most.
    pub turns: u32,
}

/// A plant that is fed and closed, and the sink of its first chain.
#[derive(Drop)]
pub struct Fed {
    pub plant: Plant<Kind>,
    pub sink: BlockId,
}

/// The plant of this shape.
pub fn fed_plant(alloc: Global, shape: Shape) -> Result<Fed, Fault> {
    let (valid, sources, sink) = graph_of(alloc, shape)?;
    let Ok(mut plant) = Plant::open(alloc, valid) else {
        return Err(Fault::Memory);
    };
    let marks = marks_of(alloc, shape.tag_every, shape.items)?;
    for source in &sources {
        plant.feed(*source, tape_of(alloc, shape.item, shape.items)?, &marks)?;
        plant.close(*source)?;
    }
    Ok(Fed { plant, sink })
}

/// The same as one that streams.
pub fn fed_stream(alloc: Global, shape: Shape) -> Result<StreamingPlant<Kind>, Fault> {
    let (valid, sources, _) = graph_of(alloc, shape)?;
    let Ok(mut plant) = StreamingPlant::open(alloc, valid) else {
        return Err(Fault::Memory);
    };
    let marks = marks_of(alloc, shape.tag_every, shape.items)?;
    for source in &sources {
        plant.feed(*source, &tape_of(alloc, shape.item, shape.items)?, &marks)?;
        plant.close(*source)?;
    }
    Ok(plant)
}

// The graph of this shape, with its sources and the sink of its first chain.
fn graph_of(alloc: Global, shape: Shape) -> Result<(Valid<Kind>, Vec<BlockId>, BlockId), Fault> {
    let mut drawn = Drawn::new(alloc, shape);
    drawn.add_source(alloc)?;
    for chain in 0..shape.chains {
        if 0 < chain && !shape.is_fan {
            drawn.add_source(alloc)?;
        }
        drawn.add_chain(alloc)?;
    }
    let Drawn {
        graph,
        sources,
        first_sink,
        ..
    } = drawn;
    match graph.validate(alloc) {
        Ok(valid) => Ok((valid, sources, first_sink)),
        Err((_, fault)) => Err(Fault::Graph(fault)),
    }
}

// A graph while it is built.
#[derive(Drop)]
struct Drawn {
    graph: Graph<Kind>,
    shape: Shape,
    count: u32,
    sources: Vec<BlockId>,
    // The source that the next chain reads.
    source: BlockId,
    first_sink: BlockId,
}

impl Drawn {
    fn new(alloc: Global, shape: Shape) -> Drawn {
        Drawn {
            graph: Graph::new(alloc),
            shape,
            count: 0,
            sources: Vec::new(alloc),
            source: BlockId(0),
            first_sink: BlockId(0),
        }
    }

    fn add_source(&mut self, alloc: Global) -> Result<(), Fault> {
        let source = Kind::VectorSource(VectorSource::new(self.shape.item));
        let number = self.add(alloc, source, 1)?;
        self.source = number;
        if self.sources.push(number).is_err() {
            return Err(Fault::Memory);
        }
        Ok(())
    }

    fn add_chain(&mut self, alloc: Global) -> Result<(), Fault> {
        let item = self.shape.item;
        let mut last = self.source;
        for _ in 0..self.shape.blocks {
            let worker = worker_of(alloc, self.shape)?;
            last = self.add_behind(alloc, last, worker, self.shape.multiple)?;
        }
        let sink = if self.shape.kept {
            Kind::VectorSink(VectorSink::new(item))
        } else {
            Kind::NullSink(NullSink::new(item))
        };
        let sink = self.add_behind(alloc, last, sink, 1)?;
        if self.first_sink.0 == 0 {
            self.first_sink = sink;
        }
        Ok(())
    }

    fn add_behind(
        &mut self,
        alloc: Global,
        last: BlockId,
        block: Kind,
        multiple: u32,
    ) -> Result<BlockId, Fault> {
        let next = self.add(alloc, block, multiple)?;
        self.graph.connect(last, 0, next, 0)?;
        Ok(next)
    }

    // A block more, named by its number.
    fn add(&mut self, alloc: Global, block: Kind, multiple: u32) -> Result<BlockId, Fault> {
        let number = self.count;
        let name = format!(in alloc; "b{number}")?;
        self.count = number.saturating_add(1);
        let options = Options {
            policy: Policy::All,
            multiple,
            capacity: self.shape.capacity,
        };
        Ok(
            self.graph
                .add_block(alloc, name.as_bytes(), block, options)?,
        )
    }
}

// A block of a chain.
fn worker_of(alloc: Global, shape: Shape) -> Result<Kind, Fault> {
    match shape.work {
        Work::Add => match AddConst::new(shape.item, 1) {
            Ok(adder) => Ok(Kind::AddConst(adder)),
            Err(_) => Err(Fault::Run),
        },
        Work::Filter => match Fir::new(alloc, shape.item, &[1; TAPS], 1, 0) {
            Ok(filter) => Ok(Kind::Fir(filter)),
            Err(_) => Err(Fault::Run),
        },
    }
}
