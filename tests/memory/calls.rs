//! Calls that build a graph, open a plant of it, and run it.
use block_parameters::ParamFault;
use fir_blocks::Fir;
use flowgraph::{BlockId, Graph, GraphFault, Options, Policy, Valid};
use items::{ItemType, Items, Mark, TagKey};
use kinds::{Kind, VectorSink, VectorSource};
use math_blocks::Add;
use plant::{Claim, Job, Plant, PlantFault, Step, Taken};
use rates::{Rates, balance};
use settings::{Taps, Value};
use std::alloc::Global;
use std::process::Abort;

// The answer of a call, which is made again where memory was refused.
macro_rules! again {
    ($memory:pat, $call:expr) => {
        match $call {
            Err($memory) => $call,
            answer => answer,
        }
    };
}

const SHORT: ItemType = ItemType::Short;

const SOURCE: BlockId = BlockId(0);

const FILTER: BlockId = BlockId(1);

const ADDER: BlockId = BlockId(2);

const SINK: BlockId = BlockId(3);

// A source goes to an adder, directly and through a filter.
const WIRES: [(BlockId, BlockId, usize); 4] = [
    (SOURCE, FILTER, 0),
    (FILTER, ADDER, 0),
    (SOURCE, ADDER, 1),
    (ADDER, SINK, 0),
];

fn made(alloc: Global, block: BlockId) -> Result<Kind, ParamFault> {
    Ok(match block.0 {
        0 => Kind::VectorSource(VectorSource::new(SHORT)),
        1 => Kind::Fir(Fir::new(alloc, SHORT, &[1, 1], 1, 0)?),
        2 => Kind::Add(Add::new(SHORT)),
        _ => Kind::VectorSink(VectorSink::new(SHORT)),
    })
}

// Adds a block that is given up where memory is refused.
fn add(
    alloc: Global,
    graph: &mut Graph<Kind>,
    name: &[u8],
    block: BlockId,
) -> Result<BlockId, GraphFault> {
    let Ok(made) = made(alloc, block) else {
        return Err(GraphFault::Memory);
    };
    let options = Options {
        policy: Policy::All,
        multiple: 1,
        capacity: 8,
    };
    graph.add_block(alloc, name, made, options)
}

fn graph(rt: &impl Abort, alloc: Global) -> Valid<Kind> {
    let mut graph = Graph::new(alloc);
    for (name, block) in [("src", SOURCE), ("f", FILTER), ("j", ADDER), ("out", SINK)] {
        let added = again!(
            GraphFault::Memory,
            add(alloc, &mut graph, name.as_bytes(), block)
        );
        assert!(rt; added == Ok(block), "{name}");
    }
    for (from, to, port) in WIRES {
        let joined = again!(GraphFault::Memory, graph.connect(from, 0, to, port));
        assert!(rt; joined.is_ok(), "connected");
    }
    match graph.validate(alloc) {
        Ok(valid) => valid,
        Err((graph, GraphFault::Memory)) => match graph.validate(alloc) {
            Ok(valid) => valid,
            Err(_) => panic!(rt; "valid the second time"),
        },
        Err(_) => panic!(rt; "valid"),
    }
}

fn open(rt: &impl Abort, alloc: Global, graph: Valid<Kind>) -> Plant<Kind> {
    match Plant::open(alloc, graph) {
        Ok(plant) => plant,
        Err((graph, _)) => match Plant::open(alloc, graph) {
            Ok(plant) => plant,
            Err(_) => panic!(rt; "open the second time"),
        },
    }
}

fn feed(rt: &impl Abort, alloc: Global, plant: &mut Plant<Kind>) {
    let Some(key) = TagKey::new(b"m") else {
        panic!(rt; "a key");
    };
    let first = Mark {
        offset: 1,
        key,
        value: -1,
    };
    let marks = [first, Mark { offset: 4, ..first }];
    let fed = again!(
        PlantFault::Memory,
        plant.feed_numbers(alloc, SOURCE, &[1, 2, 3, 4, 5], &marks)
    );
    assert!(rt; matches!(fed, Ok(total) if total.0 == 5), "fed");
}

fn set_taps(alloc: Global, plant: &mut Plant<Kind>) -> Result<Taken, PlantFault> {
    let taps = Vec::from_slice(alloc, &[2_i16, 0])?;
    plant.set(FILTER, Some(3), Value::Taps(Taps::new(taps)))
}

fn claimed(rt: &impl Abort, alloc: Global, plant: &mut Plant<Kind>, block: BlockId) -> Job<Kind> {
    match again!(PlantFault::Memory, plant.claim(alloc, block, 8)) {
        Ok(Claim::Claimed(job)) => job,
        _ => panic!(rt; "claimed"),
    }
}

fn copied(rt: &impl Abort, alloc: Global, job: &Job<Kind>) -> Job<Kind> {
    match job.copy(alloc) {
        Ok(copy) => copy,
        Err(_) => match job.copy(alloc) {
            Ok(copy) => copy,
            Err(_) => panic!(rt; "copied the second time"),
        },
    }
}

fn step(rt: &impl Abort, alloc: Global, plant: &mut Plant<Kind>, block: BlockId) {
    let did = again!(PlantFault::Memory, plant.step(alloc, block, 8));
    assert!(rt; did == Ok(Step::Did(5)), "stepped");
}

fn five(alloc: Global) -> Result<Items, PlantFault> {
    Items::from_numbers(alloc, SHORT, &[2, 5, 8, 12, 15]).map_err(|_| PlantFault::Memory)
}

/// Lets the blocks of a plant fire five times. What commits a job or gives it up needs no memory.
pub fn run(rt: &impl Abort, alloc: Global) {
    let graph = graph(rt, alloc);
    let rates = match balance(alloc, &graph) {
        Err(_) => balance(alloc, &graph),
        rates => rates,
    };
    assert!(rt; matches!(rates, Ok(Rates::Balanced(_))), "balanced");
    let mut plant = open(rt, alloc, graph);
    feed(rt, alloc, &mut plant);
    let taken = again!(PlantFault::Memory, set_taps(alloc, &mut plant));
    assert!(rt; matches!(taken, Ok(at) if at.0 == 3), "set");
    let job = claimed(rt, alloc, &mut plant, SOURCE);
    let copy = copied(rt, alloc, &job);
    assert!(rt; plant.commit(copy.work()).is_ok(), "committed");
    assert!(rt; plant.commit(job.work()).is_err(), "committed before");
    let job = claimed(rt, alloc, &mut plant, FILTER);
    assert!(rt; plant.abandon(job).is_ok(), "given up");
    for block in [FILTER, ADDER, SINK] {
        step(rt, alloc, &mut plant, block);
    }
    let Ok(piece) = again!(PlantFault::Memory, plant.read(alloc, SINK, 0, 9)) else {
        panic!(rt; "read");
    };
    let wanted = again!(PlantFault::Memory, five(alloc));
    assert!(rt; piece.held == 5 && wanted == Ok(piece.items), "the items");
    assert!(rt; piece.tags.len() == 4, "each tag came on both ways");
}
