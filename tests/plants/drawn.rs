//! Plants as the tests write them down.
ghost use Rattle.std.specs.Prelude.{◌≤◌};

use block_parameters::ParamFault;
use flowgraph::{BlockId, Graph, Options, Policy, Valid};
use items::{ItemType, Items, Mark, TagKey};
use kinds::{Kind, VectorSink, VectorSource};
use math_blocks::{Add, AddConst, MovingSum, MultiplyConst, Not};
use plant::Plant;
use rate_blocks::{Delay, Head, KeepOneInN, Repeat, SkipHead};
use std::alloc::Global;
use std::process::Abort;
use streaming::StreamingPlant;

/// The kinds of blocks that the tests use, of bytes.
#[derive(Clone, Copy)]
pub enum Make {
    Source,
    ShortSource,
    Sink,
    ShortSink,
    AddConst(i64),
    MultiplyConst(i64),
    Not,
    MovingSum(u32),
    Add,
    Keep(u64),
    Repeat(u64),
    Head(u64),
    Skip(u64),
    Delay(u64),
}

/// A connection: a block and its output, a block and its input.
pub type Wire = (u32, usize, u32, usize);

fn made(make: Make) -> Result<Kind, ParamFault> {
    let byte = ItemType::Byte;
    Ok(match make {
        Make::Source => Kind::VectorSource(VectorSource::new(byte)),
        Make::ShortSource => Kind::VectorSource(VectorSource::new(ItemType::Short)),
        Make::Sink => Kind::VectorSink(VectorSink::new(byte)),
        Make::ShortSink => Kind::VectorSink(VectorSink::new(ItemType::Short)),
        Make::AddConst(value) => Kind::AddConst(AddConst::new(byte, value)?),
        Make::MultiplyConst(value) => Kind::MultiplyConst(MultiplyConst::new(byte, value)?),
        Make::Not => Kind::Not(Not::new(byte)),
        Make::MovingSum(length) => Kind::MovingSum(MovingSum::new(byte, length)?),
        Make::Add => Kind::Add(Add::new(byte)),
        Make::Keep(n) => Kind::KeepOneInN(KeepOneInN::new(byte, n)?),
        Make::Repeat(n) => Kind::Repeat(Repeat::new(byte, n)?),
        Make::Head(n) => Kind::Head(Head::new(byte, n)?),
        Make::Skip(n) => Kind::SkipHead(SkipHead::new(byte, n)?),
        Make::Delay(n) => Kind::Delay(Delay::new(byte, n)?),
    })
}

// The graph of these blocks and connections, whose buffers hold so many items where that is enough. What is refused
// ends the test.
fn graph(
    rt: &impl Abort,
    alloc: Global,
    blocks: &[Make],
    wires: &[Wire],
    capacity: u32,
) -> Valid<Kind> {
    let mut graph = Graph::new(alloc);
    for (number, make) in blocks.iter().enumerate() {
        let Ok(block) = made(*make) else {
            panic!(rt; "block {number} is not made");
        };
        let options = Options {
            policy: Policy::All,
            multiple: 1,
            capacity,
        };
        let name = [b'a' + number as u8 % 26];
        assert!(rt;
            graph.add_block(alloc, &name, block, options).is_ok(),
            "block {number}"
        );
    }
    for (from, out_port, to, in_port) in wires {
        let connected = graph.connect(BlockId(*from), *out_port, BlockId(*to), *in_port);
        assert!(rt; connected.is_ok(), "from {from} to {to}");
    }
    match graph.validate(alloc) {
        Ok(valid) => valid,
        Err(_) => panic!(rt; "the graph is refused"),
    }
}

/// The plant of these blocks and connections, whose buffers hold so many items where that is enough. What is refused
/// ends the test.
pub fn plant(
    rt: &impl Abort,
    alloc: Global,
    blocks: &[Make],
    wires: &[Wire],
    capacity: u32,
) -> Plant<Kind> {
    match Plant::open(alloc, graph(rt, alloc, blocks, wires, capacity)) {
        Ok(plant) => plant,
        Err(_) => panic!(rt; "no memory"),
    }
}

/// The same as a plant that streams.
pub fn streaming(
    rt: &impl Abort,
    alloc: Global,
    blocks: &[Make],
    wires: &[Wire],
    capacity: u32,
) -> StreamingPlant<Kind> {
    match StreamingPlant::open(alloc, graph(rt, alloc, blocks, wires, capacity)) {
        Ok(plant) => plant,
        Err(_) => panic!(rt; "no memory"),
    }
}

/// The blocks of a chain.
pub const SOURCE: BlockId = BlockId(0);

pub const MIDDLE: BlockId = BlockId(1);

pub const SINK: BlockId = BlockId(2);

/// The plant of a chain: a source, this block, and a sink.
pub fn chain(rt: &impl Abort, alloc: Global, middle: Make, capacity: u32) -> Plant<Kind> {
    let blocks = [Make::Source, middle, Make::Sink];
    plant(rt, alloc, &blocks, &[(0, 0, 1, 0), (1, 0, 2, 0)], capacity)
}

/// Items of bytes.
pub fn bytes(rt: &impl Abort, alloc: Global, numbers: &[i64]) -> Items {
    match Items::from_numbers(alloc, ItemType::Byte, numbers) {
        Ok(items) => items,
        Err(_) => panic!(rt; "no bytes"),
    }
}

/// A mark with a key of one letter.
pub fn mark(rt: &impl Abort, offset: u64, key: u8, value: i64) -> Mark {
    match TagKey::new(&[key]) {
        Some(key) => Mark { offset, key, value },
        None => panic!(rt; "no key"),
    }
}

/// Steps all blocks in turn until they are done.
pub fn run(rt: &impl Abort, alloc: Global, plant: &mut Plant<Kind>, max: u32)
    requires { 1 ≤ max }
{
    let blocks = plant.graph().len();
    for _ in 0..1_000_000 {
        if plant.all_done() {
            return;
        }
        for block in 0..blocks {
            assert!(rt;
                plant.step(alloc, BlockId(block as u32), max).is_ok(),
                "step {block}"
            );
        }
    }
    panic!(rt; "not done");
}
