//! Plants as the tests write them down.
use block_parameters::ParamFault;
use block_trait::Block;
use flowgraph::{BlockId, Graph, Options, Policy, Valid};
use items::{ItemType, Mark, TagKey};
use kinds::{Kind, VectorSink, VectorSource};
use math_blocks::{Add, AddConst, MultiplyConst, Not, Scale};
use plant::Plant;
use rate_blocks::{
    Deinterleave, Delay, Head, Integrate, Interleave, KeepOneInN, Repeat, SkipHead, StreamMux,
};
use std::alloc::Global;
use std::process::Abort;

/// The kinds of blocks that the tests use, of bytes.
#[derive(Clone, Copy)]
pub enum Make {
    Source,
    Sink,
    Not,
    AddConst(i64),
    MultiplyConst(i64),
    /// By this factor and so many halvings.
    Scale(i64, u32),
    Add,
    Keep(u64),
    Repeat(u64),
    Integrate(u64),
    Head(u64),
    Skip(u64),
    Delay(u64),
    /// Of two inputs, an item of each in turn.
    Interleave,
    /// To two outputs, an item to each in turn.
    Deinterleave,
    /// Two items of the first input, then one of the second.
    Mux,
}

impl Make {
    /// How many inputs it has.
    pub fn inputs(self) -> usize {
        match self {
            Make::Source => 0,
            Make::Add | Make::Interleave | Make::Mux => 2,
            _ => 1,
        }
    }

    /// How many outputs it has.
    pub fn outputs(self) -> usize {
        match self {
            Make::Sink => 0,
            Make::Deinterleave => 2,
            _ => 1,
        }
    }
}

/// A connection: a block and its output, a block and its input.
pub type Wire = (u32, usize, u32, usize);

/// A graph, how many items each of its buffers is to hold, and how many each of its sources is fed.
#[derive(Clone, Copy)]
pub struct Drawing<'a> {
    pub makes: &'a [Make],
    pub wires: &'a [Wire],
    pub capacity: u32,
    pub items: u32,
}

/// The first block of a chain.
pub const SOURCE: BlockId = BlockId(0);

/// The last block of a chain of three.
pub const SINK: BlockId = BlockId(2);

/// Nothing.
pub const EMPTY: Drawing<'static> = Drawing {
    makes: &[],
    wires: &[],
    capacity: 1,
    items: 0,
};

/// A source and a sink.
pub const STRAIGHT: Drawing<'static> = Drawing {
    makes: &[Make::Source, Make::Sink],
    wires: &[(0, 0, 1, 0)],
    ..EMPTY
};

/// A source, a block that turns bits, and a sink.
pub const TURNED: Drawing<'static> = Drawing {
    makes: &[Make::Source, Make::Not, Make::Sink],
    wires: &[(0, 0, 1, 0), (1, 0, 2, 0)],
    ..EMPTY
};

/// Two sources, a block that turns bits behind each, and a sink behind each of these.
pub const TWO_TURNED: Drawing<'static> = Drawing {
    makes: &[
        Make::Source,
        Make::Source,
        Make::Not,
        Make::Not,
        Make::Sink,
        Make::Sink,
    ],
    wires: &[(0, 0, 2, 0), (2, 0, 4, 0), (1, 0, 3, 0), (3, 0, 5, 0)],
    ..EMPTY
};

fn made(make: Make) -> Result<Kind, ParamFault> {
    let byte = ItemType::Byte;
    Ok(match make {
        Make::Source => Kind::VectorSource(VectorSource::new(byte)),
        Make::Sink => Kind::VectorSink(VectorSink::new(byte)),
        Make::Not => Kind::Not(Not::new(byte)),
        Make::AddConst(value) => Kind::AddConst(AddConst::new(byte, value)?),
        Make::MultiplyConst(value) => Kind::MultiplyConst(MultiplyConst::new(byte, value)?),
        Make::Scale(factor, shift) => Kind::Scale(Scale::new(byte, factor, shift)?),
        Make::Add => Kind::Add(Add::new(byte)),
        Make::Keep(n) => Kind::KeepOneInN(KeepOneInN::new(byte, n)?),
        Make::Repeat(n) => Kind::Repeat(Repeat::new(byte, n)?),
        Make::Integrate(n) => Kind::Integrate(Integrate::new(byte, n)?),
        Make::Head(n) => Kind::Head(Head::new(byte, n)?),
        Make::Skip(n) => Kind::SkipHead(SkipHead::new(byte, n)?),
        Make::Delay(n) => Kind::Delay(Delay::new(byte, n)?),
        Make::Interleave => Kind::Interleave(Interleave::new(byte, 2)?),
        Make::Deinterleave => Kind::Deinterleave(Deinterleave::new(byte, 2)?),
        Make::Mux => Kind::StreamMux(StreamMux::new(byte, &[2, 1])?),
    })
}

/// A block of bytes. What is refused ends the test.
pub fn kind(rt: &impl Abort, make: Make) -> Kind {
    match made(make) {
        Ok(kind) => kind,
        Err(_) => panic!(rt; "no such block"),
    }
}

/// The graph of these blocks and connections, whose buffers hold so many items where that is enough. What is refused
/// ends the test.
pub fn joined<B: Block>(
    rt: &impl Abort,
    alloc: Global,
    blocks: Vec<B>,
    wires: &[Wire],
    capacity: u32,
) -> Valid<B> {
    let mut graph = Graph::new(alloc);
    for (number, block) in blocks.into_iter().enumerate() {
        let options = Options {
            policy: Policy::All,
            multiple: 1,
            capacity,
        };
        let Ok(name) = format!(in alloc; "b{number}") else {
            panic!(rt; "no memory");
        };
        let added = graph.add_block(alloc, name.as_bytes(), block, options);
        assert!(rt; added.is_ok(), "block {number}");
    }
    for (from, out_port, to, in_port) in wires {
        let connected = graph.connect(BlockId(*from), *out_port, BlockId(*to), *in_port);
        assert!(rt; connected.is_ok(), "from {from} to {to}");
    }
    match graph.validate(alloc) {
        Ok(valid) => valid,
        Err(_) => panic!(rt; "the graph is refused"),
    }
}

/// The plant of these blocks and connections.
pub fn opened<B: Block>(
    rt: &impl Abort,
    alloc: Global,
    blocks: Vec<B>,
    wires: &[Wire],
    capacity: u32,
) -> Plant<B> {
    match Plant::open(alloc, joined(rt, alloc, blocks, wires, capacity)) {
        Ok(plant) => plant,
        Err(_) => panic!(rt; "no memory"),
    }
}

fn blocks_of(rt: &impl Abort, alloc: Global, drawing: &Drawing<'_>) -> Vec<Kind> {
    let mut blocks = Vec::new(alloc);
    for make in drawing.makes {
        assert!(rt; blocks.push(kind(rt, *make)).is_ok(), "no memory");
    }
    blocks
}

/// The graph of a drawing.
pub fn graph(rt: &impl Abort, alloc: Global, drawing: &Drawing<'_>) -> Valid<Kind> {
    let blocks = blocks_of(rt, alloc, drawing);
    joined(rt, alloc, blocks, drawing.wires, drawing.capacity)
}

/// The plant of a drawing, of which nothing is fed.
pub fn plant(rt: &impl Abort, alloc: Global, drawing: &Drawing<'_>) -> Plant<Kind> {
    let blocks = blocks_of(rt, alloc, drawing);
    opened(rt, alloc, blocks, drawing.wires, drawing.capacity)
}

/// The plant of a drawing, of which each source is fed and closed, with a tag on each seventh item.
pub fn fed(rt: &impl Abort, alloc: Global, drawing: &Drawing<'_>) -> Plant<Kind> {
    let mut plant = plant(rt, alloc, drawing);
    for (block, make) in (0..u32::MAX).zip(drawing.makes) {
        if let Make::Source = *make {
            let source = BlockId(block);
            feed(rt, alloc, &mut plant, source, drawing.items);
            assert!(rt; plant.close(source).is_ok(), "closed");
        }
    }
    plant
}

/// Feeds a source with so many items: the first is 1, and each has the next number, or 0 behind 250. Each seventh has a
/// tag.
pub fn feed<B: Block>(
    rt: &impl Abort,
    alloc: Global,
    plant: &mut Plant<B>,
    source: BlockId,
    count: u32,
) {
    let (numbers, marks) = tape(rt, alloc, count);
    let fed = plant.feed_numbers(alloc, source, &numbers, &marks);
    assert!(rt; fed.is_ok(), "fed");
}

/// The numbers of so many items of a tape, and its marks.
pub fn tape(rt: &impl Abort, alloc: Global, count: u32) -> (Vec<i64>, Vec<Mark>) {
    let Some(key) = TagKey::new(b"k") else {
        panic!(rt; "a key");
    };
    let mut numbers = Vec::new(alloc);
    let mut marks = Vec::new(alloc);
    for n in 0..count {
        assert!(rt; numbers.push(tape_item(n)).is_ok(), "no memory");
        if n % 7 == 0 {
            let mark = Mark {
                offset: u64::from(n),
                key,
                value: i64::from(n),
            };
            assert!(rt; marks.push(mark).is_ok(), "no memory");
        }
    }
    (numbers, marks)
}

/// The number of item `n` of a tape.
pub fn tape_item(n: u32) -> i64 {
    (i64::from(n) + 1) % 251
}
