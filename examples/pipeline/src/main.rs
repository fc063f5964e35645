//! Bytes go through a graph as the shorts that they are, and come out as bytes: each short is doubled.
#![tactic(auto)]

use magbelu::prelude::*;
use magbelu::streams::ByteOrder;
use std::alloc::Global;

fn chain(alloc: Global) -> Result<(StreamingPlant<Kind>, [BlockId; 2]), Error> {
    let options = Options::default();
    let mut graph = Graph::new(alloc);
    let source = Kind::VectorSource(VectorSource::new(ItemType::Short));
    let double = Kind::MultiplyConst(MultiplyConst::new(ItemType::Short, 2)?);
    let sink = Kind::VectorSink(VectorSink::new(ItemType::Short));
    let source = graph.add_block(alloc, b"src", source, options)?;
    let double = graph.add_block(alloc, b"double", double, options)?;
    let sink = graph.add_block(alloc, b"out", sink, options)?;
    graph.connect(source, 0, double, 0)?;
    graph.connect(double, 0, sink, 0)?;
    let plant = StreamingPlant::open(alloc, graph.validate(alloc)?)?;
    Ok((plant, [source, sink]))
}

fn main(rt: HostRuntime) -> Result<(), Error> {
    let alloc = rt.alloc();
    let (plant, [source, sink]) = chain(alloc)?;
    let from: &[u8] = &[1, 0, 255, 255, 0, 64];
    let mut to = Vec::new(alloc);
    let mut pipeline = Pipeline::new(alloc, plant)?;
    pipeline.read_from(alloc, source, ByteOrder::Little, from)?;
    pipeline.write_to(alloc, sink, ByteOrder::Little, Some(&mut to), None)?;
    pipeline.run(alloc)?;
    drop(pipeline);
    let _ = println!(rt; "{to:?}");
    Ok(())
}
