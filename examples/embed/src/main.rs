//! Four bytes with a tag go through a block that adds ten, and from item 2 on a hundred, in threads.
#![tactic(auto)]

use magbelu::prelude::*;
use std::alloc::Global;

fn chain(alloc: Global) -> Result<(Graph<Kind>, [BlockId; 3]), Error> {
    let options = Options::default();
    let mut graph = Graph::new(alloc);
    let source = Kind::VectorSource(VectorSource::new(ItemType::Byte));
    let adder = Kind::AddConst(AddConst::new(ItemType::Byte, 10)?);
    let sink = Kind::VectorSink(VectorSink::new(ItemType::Byte));
    let source = graph.add_block(alloc, b"src", source, options)?;
    let adder = graph.add_block(alloc, b"add", adder, options)?;
    let sink = graph.add_block(alloc, b"out", sink, options)?;
    graph.connect(source, 0, adder, 0)?;
    graph.connect(adder, 0, sink, 0)?;
    Ok((graph, [source, adder, sink]))
}

fn main(rt: HostRuntime) -> Result<(), Error> {
    let alloc = rt.alloc();
    let (graph, [source, adder, sink]) = chain(alloc)?;
    let mut top = TopBlock::from_graph(alloc, graph.validate(alloc)?)?;
    let items = Items::from_numbers(alloc, ItemType::Byte, &[250, 1, 2, 3])?;
    let key = TagKey::new(b"burst").ok_or(Error::BadKey)?;
    let mark = Mark {
        offset: 1,
        key,
        value: 7,
    };
    top.feed(source, items, &[mark])?;
    top.set(adder, Some(2), Value::Number(100))?;
    let plant = top.run(rt, alloc)?.into_plant();
    let piece = plant.read(alloc, sink, 0, 100)?;
    let _ = println!(rt; "{:?}", piece.items);
    for tag in &piece.tags {
        let _ = println!(rt; "tag {} on item {}", tag.value, tag.offset);
    }
    Ok(())
}
