//! Graphs that are drawn by chance, run in threads in each way, settled on one, and stepped in any order.
use super::drawn::{Drawing, Make, Wire, fed};
use super::runs::{same_sinks, settled};
use super::ways::{WAYS, ran_by};
use flowgraph::BlockId;
use kinds::Kind;
use plant::Plant;
use std::alloc::{AllocError, Global};
use std::process::Abort;
use std::test::Fail;
use threads::Turns;

const GRAPHS: u64 = 40;

// Between its sources and its sinks a graph has no more blocks.
const MOST_BLOCKS: u64 = 12;

// A stream of a drawn graph has no more items.
const MOST_ITEMS: u64 = 300;

/// A row of numbers that look drawn by chance (Knuth's constants).
#[derive(Drop)]
pub struct Chance {
    last: u64,
}

impl Chance {
    /// The row of a seed.
    pub fn new(seed: u64) -> Chance {
        let mut chance = Chance { last: seed };
        let _ = chance.below(2);
        chance
    }

    /// A number below this one.
    pub fn below(&mut self, end: u64) -> u64 {
        self.last = self
            .last
            .wrapping_mul(6_364_136_223_846_793_005)
            .wrapping_add(1_442_695_040_888_963_407);
        (self.last >> 33) % end
    }
}

/// A graph that was drawn.
#[derive(Drop)]
pub struct Graph {
    pub makes: Vec<Make>,
    wires: Vec<Wire>,
    capacity: u32,
    items: u32,
}

impl Graph {
    /// The same as a drawing.
    pub fn drawing(&self) -> Drawing<'_> {
        Drawing {
            makes: &self.makes,
            wires: &self.wires,
            capacity: self.capacity,
            items: self.items,
        }
    }
}

// A block that is neither a source nor a sink.
fn drawn_make(chance: &mut Chance) -> Make {
    match chance.below(14) {
        0 => Make::Not,
        1 => Make::AddConst(chance.below(256) as i64),
        2 | 3 => Make::Add,
        4 => Make::Keep(1 + chance.below(4)),
        5 => Make::Repeat(1 + chance.below(4)),
        6 => Make::Integrate(1 + chance.below(4)),
        7 => Make::Head(chance.below(40)),
        8 => Make::Skip(chance.below(20)),
        9 => Make::Delay(chance.below(20)),
        10 => Make::Interleave,
        11 => Make::Mux,
        12 => Make::Deinterleave,
        _ => Make::Not,
    }
}

// An output, and how many items it gives at most.
#[derive(Clone, Copy)]
struct Output {
    block: u32,
    port: usize,
    most: u64,
}

// How many items a block gives on each output at most, of so many on each input.
fn most_given(make: Make, taken: u64) -> u64 {
    match make {
        Make::Repeat(n) => taken * n,
        Make::Interleave => taken * 2,
        Make::Mux => taken * 3,
        Make::Delay(n) => taken + n,
        Make::Head(n) => taken.min(n),
        _ => taken,
    }
}

// An output that a block drawn later may read: one near the last.
fn drawn_output(chance: &mut Chance, outputs: &[Output]) -> Output {
    let near = (outputs.len() as u64).min(5);
    outputs[outputs.len() - 1 - chance.below(near) as usize]
}

// A block more that reads outputs there are. A block that would give too much only turns bits.
fn add_block(
    alloc: Global,
    chance: &mut Chance,
    graph: &mut Graph,
    outputs: &mut Vec<Output>,
) -> Result<(), AllocError> {
    let mut make = drawn_make(chance);
    let mut read = Vec::new(alloc);
    let mut most = 0;
    for _ in 0..make.inputs() {
        let output = drawn_output(chance, outputs);
        most = output.most.max(most);
        read.push(output)?;
    }
    if MOST_ITEMS < most_given(make, most) {
        make = Make::Not;
    }
    let block = graph.makes.len() as u32;
    graph.makes.push(make)?;
    for (input, output) in read.iter().take(make.inputs()).enumerate() {
        graph.wires.push((output.block, output.port, block, input))?;
    }
    for port in 0..make.outputs() {
        outputs.push(Output {
            block,
            port,
            most: most_given(make, most),
        })?;
    }
    Ok(())
}

/// One to three sources, one to so many blocks behind them, and a sink at each output that nobody else reads, and now
/// and then at others.
pub fn drawn_graph(alloc: Global, seed: u64, most: u64) -> Result<Graph, AllocError> {
    let mut chance = Chance::new(seed);
    let mut graph = Graph {
        makes: Vec::new(alloc),
        wires: Vec::new(alloc),
        capacity: 1 + chance.below(6) as u32,
        items: 10 + chance.below(30) as u32,
    };
    let mut outputs = Vec::new(alloc);
    for source in 0..1 + chance.below(3) as u32 {
        graph.makes.push(Make::Source)?;
        outputs.push(Output {
            block: source,
            port: 0,
            most: u64::from(graph.items),
        })?;
    }
    for _ in 0..1 + chance.below(most) {
        add_block(alloc, &mut chance, &mut graph, &mut outputs)?;
    }
    add_sinks(&mut chance, &mut graph, &outputs)?;
    Ok(graph)
}

fn add_sinks(chance: &mut Chance, graph: &mut Graph, outputs: &[Output]) -> Result<(), AllocError> {
    for output in outputs {
        let is_read = graph
            .wires
            .iter()
            .any(|wire| wire.0 == output.block && wire.1 == output.port);
        if !is_read || chance.below(4) == 0 {
            let number = graph.makes.len() as u32;
            graph.makes.push(Make::Sink)?;
            graph.wires.push((output.block, output.port, number, 0))?;
        }
    }
    Ok(())
}

// Steps blocks in an order by chance until none can act.
fn stepped(
    rt: &impl Abort,
    alloc: Global,
    drawing: &Drawing<'_>,
    chance: &mut Chance,
) -> Plant<Kind> {
    let mut plant = fed(rt, alloc, drawing);
    let blocks = drawing.makes.len() as u64;
    for _ in 0..100_000 {
        if plant.quiet() {
            return plant;
        }
        for _ in 0..blocks {
            let block = BlockId(chance.below(blocks) as u32);
            let max = 1 + chance.below(5) as u32;
            assert!(rt; plant.step(alloc, block, max).is_ok(), "step {}", block.0);
        }
    }
    panic!(rt; "not quiet");
}

#[test]
fn drawn_graphs_show_the_same_in_threads_settled_and_stepped(rt: HostRuntime) -> Result<(), Fail> {
    let alloc = rt.alloc();
    for seed in 0..GRAPHS {
        let graph = drawn_graph(alloc, seed, MOST_BLOCKS)?;
        let drawing = graph.drawing();
        let settled = settled(&rt, alloc, &drawing);
        let mut chance = Chance::new(seed + 1_000);
        let stepped = stepped(&rt, alloc, &drawing, &mut chance);
        let what = format!(in alloc; "graph {seed}")?;
        same_sinks(&rt, alloc, &drawing, &stepped, &settled, &what);
        let Some(turns) = Turns::new(1 + chance.below(8) as u32) else {
            panic!(rt; "no turns");
        };
        for way in WAYS {
            let (_, plant) = ran_by(rt, alloc, way, fed(&rt, alloc, &drawing), turns);
            same_sinks(&rt, alloc, &drawing, &plant, &settled, &what);
        }
    }
    Ok(())
}
