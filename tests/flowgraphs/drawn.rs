//! Graphs as the tests write them down.
use bit_blocks::register::Register;
use bit_blocks::{AdditiveScrambler, DiffEncoder};
use block_parameters::ParamFault;
use flowgraph::{BlockId, Graph, GraphFault, Options, Policy, Valid};
use items::ItemType;
use kinds::{Kind, VectorSink, VectorSource};
use math_blocks::{Add, MovingSum, Not};
use rate_blocks::{Delay, Head, KeepOneInN, Repeat, SkipHead, StreamMux};
use std::alloc::Global;

/// The kinds of blocks that the tests use, of bytes but where a type is given.
#[derive(Clone, Copy)]
pub enum Make {
    Source(ItemType),
    Sink(ItemType),
    Add,
    Not,
    Keep(u64),
    Repeat(u64),
    Head(u64),
    /// An additive scrambler of 3 bits, of which the first and the third are summed, that begins with these.
    Scramble(u64),
    /// Sums modulo 4.
    Encode,
    Skip(u64),
    Delay(u64),
    /// The sum of so many items.
    Sum(u32),
    /// Two items of the first input, then one of the second.
    Mux,
}

pub const SOURCE: Make = Make::Source(ItemType::Byte);

pub const SINK: Make = Make::Sink(ItemType::Byte);

/// A block: its name, its kind, its multiple and the capacity of its outputs.
pub type Drawn<'a> = (&'a [u8], Make, u32, u32);

/// A block that fires once at a time, with outputs of capacity 1.
pub fn plain(name: &[u8], make: Make) -> Drawn<'_> {
    (name, make, 1, 1)
}

/// A connection: a block and its output, a block and its input.
pub type Wire = (u32, usize, u32, usize);

/// A block of this kind.
pub fn made(make: Make) -> Result<Kind, ParamFault> {
    let byte = ItemType::Byte;
    Ok(match make {
        Make::Source(item) => Kind::VectorSource(VectorSource::new(item)),
        Make::Sink(item) => Kind::VectorSink(VectorSink::new(item)),
        Make::Add => Kind::Add(Add::new(byte)),
        Make::Not => Kind::Not(Not::new(byte)),
        Make::Keep(n) => Kind::KeepOneInN(KeepOneInN::new(byte, n)?),
        Make::Repeat(n) => Kind::Repeat(Repeat::new(byte, n)?),
        Make::Head(n) => Kind::Head(Head::new(byte, n)?),
        Make::Scramble(init) => {
            Kind::AdditiveScrambler(AdditiveScrambler::new(Register::new(3, 5, init)?))
        }
        Make::Encode => Kind::DiffEncoder(DiffEncoder::new(4)?),
        Make::Skip(n) => Kind::SkipHead(SkipHead::new(byte, n)?),
        Make::Delay(n) => Kind::Delay(Delay::new(byte, n)?),
        Make::Sum(length) => Kind::MovingSum(MovingSum::new(byte, length)?),
        Make::Mux => Kind::StreamMux(StreamMux::new(byte, &[2, 1])?),
    })
}

/// Adds a block, of which a kind that may not be made counts as out of memory.
pub fn add(
    alloc: Global,
    graph: &mut Graph<Kind>,
    (name, make, multiple, capacity): Drawn<'_>,
    policy: Policy,
) -> Result<BlockId, GraphFault> {
    let Ok(block) = made(make) else {
        return Err(GraphFault::Memory);
    };
    let options = Options {
        policy,
        multiple,
        capacity,
    };
    graph.add_block(alloc, name, block, options)
}

/// Builds and tests a graph. The block of this number sends tags one to one, all others send all.
pub fn build(
    alloc: Global,
    blocks: &[Drawn<'_>],
    wires: &[Wire],
    one_to_one: usize,
) -> Result<Valid<Kind>, GraphFault> {
    let mut graph = Graph::new(alloc);
    for (number, block) in blocks.iter().enumerate() {
        let policy = if number == one_to_one {
            Policy::One
        } else {
            Policy::All
        };
        add(alloc, &mut graph, *block, policy)?;
    }
    for (from, out_port, to, in_port) in wires {
        graph.connect(BlockId(*from), *out_port, BlockId(*to), *in_port)?;
    }
    match graph.validate(alloc) {
        Ok(valid) => Ok(valid),
        Err((_, fault)) => Err(fault),
    }
}
