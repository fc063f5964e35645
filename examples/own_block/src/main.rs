//! Six bytes go through a squelch, which is this repository's own, and a block that adds ten, which is not.
#![tactic(auto)]

mod squelch;

use magbelu::prelude::*;
use squelch::Squelch;
use std::alloc::Global;

/// A block of this repository's own, or one of any kind.
type Node = Either<Squelch, Kind>;

fn chain(alloc: Global) -> Result<(Graph<Node>, [BlockId; 2]), Error> {
    let options = Options::default();
    let mut graph = Graph::new(alloc);
    let source = Kind::VectorSource(VectorSource::new(ItemType::Byte));
    let adder = Kind::AddConst(AddConst::new(ItemType::Byte, 10)?);
    let sink = Kind::VectorSink(VectorSink::new(ItemType::Byte));
    let source = graph.add_block(alloc, b"src", Either::Right(source), options)?;
    let squelch = graph.add_block(alloc, b"own", Either::Left(Squelch::new(100)), options)?;
    let adder = graph.add_block(alloc, b"add", Either::Right(adder), options)?;
    let sink = graph.add_block(alloc, b"out", Either::Right(sink), options)?;
    graph.connect(source, 0, squelch, 0)?;
    graph.connect(squelch, 0, adder, 0)?;
    graph.connect(adder, 0, sink, 0)?;
    Ok((graph, [source, sink]))
}

fn main(rt: HostRuntime) -> Result<(), Error> {
    let alloc = rt.alloc();
    let (graph, [source, sink]) = chain(alloc)?;
    let mut plant = Plant::open(alloc, graph.validate(alloc)?)?;
    let items = Items::from_numbers(alloc, ItemType::Byte, &[99, 100, 0, 255, 7, 101])?;
    plant.feed(source, items, &[])?;
    plant.close(source)?;
    plant.settle(alloc, 1024)?;
    let piece = plant.read(alloc, sink, 0, 100)?;
    let _ = println!(rt; "{:?}", piece.items);
    Ok(())
}
