//! Runs in threads without callers, of which one allocation may fail. A plant that comes back is run again, to the same
//! sinks.
use flowgraph::{BlockId, Graph, Options, Policy};
use items::ItemType;
use kinds::{Kind, VectorSink, VectorSource};
use math_blocks::AddConst;
use plant::{Plant, PlantFault, Settled, Unwatched};
use std::alloc::Global;
use std::sync::{Arc, Wait};
use std::thread::Threads;
use std::time::Clock;
use threads::{
    Open, Outcome, RunError, RunFault, RunOptions, Threading, Turns, launch, launch_with, run,
    run_with,
};
use top_block::TopBlock;

const BYTE: ItemType = ItemType::Byte;

const SOURCE: BlockId = BlockId(0);

// So many ways lead from the source, each over a block that adds its number. Each takes two threads.
const WAYS: u32 = 8;

/// How a plant is run.
#[derive(Clone, Copy)]
pub enum Way {
    /// By `launch` and `wait`.
    Launch,
    /// By `run`.
    Run,
    /// By `TopBlock::start` and `wait`.
    Start,
    /// By `launch` and `wait`, of a plant without blocks, for which no thread is started.
    LaunchNothing,
    /// By `run_with`, in as many threads as the work is worth.
    Adaptive,
    /// By `launch_with` and `wait`, in as many threads as the work is worth.
    Pool,
}

/// A plant and what its run needs.
#[derive(Drop)]
pub struct Ready {
    plant: Plant<Kind>,
    gate: Arc<Open, Global>,
}

/// Makes what a run needs. Nothing of it is refused memory yet.
pub fn make_ready(alloc: Global, way: Way) -> Option<Ready> {
    let plant = match way {
        Way::LaunchNothing => Plant::open(alloc, Graph::new(alloc).validate(alloc).ok()?).ok()?,
        _ => fed(alloc)?,
    };
    let gate = Arc::new(alloc, Open).ok()?;
    Some(Ready { plant, gate })
}

// A source that was fed with 1, 250 and 3, and closed, and its ways to a sink each.
fn fed(alloc: Global) -> Option<Plant<Kind>> {
    let options = Options {
        policy: Policy::All,
        multiple: 1,
        capacity: 2,
    };
    let mut graph = Graph::new(alloc);
    let source = Kind::VectorSource(VectorSource::new(BYTE));
    graph.add_block(alloc, b"s", source, options).ok()?;
    for way in 0..WAYS {
        let letter = b'a' + way as u8;
        let adder = Kind::AddConst(AddConst::new(BYTE, i64::from(way)).ok()?);
        let adder = graph.add_block(alloc, &[letter], adder, options).ok()?;
        let sink = Kind::VectorSink(VectorSink::new(BYTE));
        let sink = graph.add_block(alloc, &[letter, b'o'], sink, options).ok()?;
        graph.connect(SOURCE, 0, adder, 0).ok()?;
        graph.connect(adder, 0, sink, 0).ok()?;
    }
    let mut plant = Plant::open(alloc, graph.validate(alloc).ok()?).ok()?;
    feed(alloc, &mut plant).ok()?;
    Some(plant)
}

fn feed(alloc: Global, plant: &mut Plant<Kind>) -> Result<(), PlantFault> {
    plant.feed_numbers(alloc, SOURCE, &[1, 250, 3], &[])?;
    plant.close(SOURCE)?;
    Ok(())
}

/// How a run ended.
#[derive(Drop)]
pub struct Ended {
    plant: Option<Plant<Kind>>,
    /// The fault by which the plant came back.
    pub fault: Option<RunError>,
    // Whether the run had begun.
    has_begun: bool,
}

fn end_of(outcome: Result<Outcome<Kind>, RunFault<Kind>>, has_begun: bool) -> Ended {
    let (plant, fault) = match outcome {
        Ok(Outcome::Done(plant)) => (Some(plant), None),
        Ok(Outcome::Stalled(_) | Outcome::Stopped(_)) | Err(RunFault::Foreign) => (None, None),
        Err(RunFault::Memory(plant)) => (Some(plant), Some(RunError::Memory)),
        Err(RunFault::Thread(plant)) => (Some(plant), Some(RunError::Thread)),
    };
    Ended {
        plant,
        fault,
        has_begun,
    }
}

/// Runs a plant.
pub fn run_ready<R: Threads + Wait + Clock + Copy + Send + 'static>(
    rt: R,
    alloc: Global,
    way: Way,
    ready: Ready,
) -> Ended {
    let Ready { plant, gate } = ready;
    match way {
        Way::Run => end_of(run(rt, alloc, plant, gate), false),
        Way::Adaptive => {
            let options = adaptive(gate);
            end_of(run_with(rt, alloc, plant, options, &mut Unwatched), false)
        }
        Way::Pool => match launch_with(rt, alloc, plant, adaptive(gate)) {
            Ok(running) => end_of(running.wait(&rt), true),
            Err(fault) => end_of(Err(fault), false),
        },
        Way::Launch | Way::LaunchNothing => match launch(rt, alloc, plant, gate) {
            Ok(running) => end_of(running.wait(&rt), true),
            Err(fault) => end_of(Err(fault), false),
        },
        Way::Start => match TopBlock::from_plant(plant).start_with(rt, alloc, per_block()) {
            Ok(running) => end_of(running.wait(&rt), true),
            Err(fault) => end_of(Err(fault), false),
        },
    }
}

// A thread for each block, and no gate.
fn per_block() -> RunOptions<Open> {
    RunOptions::per_block(None)
}

// As many threads as the work is worth.
fn adaptive(gate: Arc<Open, Global>) -> RunOptions<Open> {
    RunOptions {
        threading: Threading::Adaptive,
        turns: Turns::default(),
        gate: Some(gate),
    }
}

// Whether each sink holds the items with the number of its way added.
fn is_whole(alloc: Global, plant: &Plant<Kind>) -> bool {
    let ways = (plant.graph().len() as u32) / 2;
    (0..ways).all(|way| {
        let sink = BlockId(2 * way + 2);
        match plant.read(alloc, sink, 0, 9) {
            Ok(piece) => {
                let number = i64::from(way);
                let wanted = [1 + number, (250 + number) % 256, 3 + number];
                piece.done
                    && piece.items.len() == 3
                    && (0..3).all(|n| piece.items.number(n) == wanted[n])
            }
            Err(_) => false,
        }
    })
}

/// Whether the run ended well; or it was refused memory, or before it had begun a thread, and its plant, run again,
/// ends well. Where no thread is to be started none is refused. Nothing is refused memory any more.
pub fn is_right<R: Threads + Wait + Clock + Copy + Send + 'static>(
    rt: R,
    alloc: Global,
    way: Way,
    ended: Ended,
) -> bool {
    let Ended {
        plant,
        fault,
        has_begun,
    } = ended;
    let Some(plant) = plant else {
        return false;
    };
    let starts_none = matches!(way, Way::LaunchNothing | Way::Adaptive);
    match fault {
        None => return plant.all_done() && is_whole(alloc, &plant),
        Some(RunError::Thread) if has_begun || starts_none => return false,
        Some(RunError::Foreign) => return false,
        Some(RunError::Memory | RunError::Thread) => {}
    }
    let Ok(gate) = Arc::new(alloc, Open) else {
        return false;
    };
    plant.idle()
        && matches!(run(rt, alloc, plant, gate), Ok(Outcome::Done(plant)) if is_whole(alloc, &plant))
}

/// Whether a plant for which no thread could be started came back for that, and settles to the same sinks on this one.
pub fn is_refused(alloc: Global, ended: Ended) -> bool {
    let Ended {
        plant,
        fault,
        has_begun,
    } = ended;
    let Some(mut plant) = plant else {
        return false;
    };
    fault == Some(RunError::Thread)
        && !has_begun
        && plant.idle()
        && plant.settle(alloc, 64) == Ok(Settled::Done)
        && is_whole(alloc, &plant)
}
