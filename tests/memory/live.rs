//! A run in threads of which a caller makes calls. A plant that comes back since memory ran out is run again.
use block_parameters::ParamFault;
use fir_blocks::Fir;
use flowgraph::{BlockId, Graph, Options, Policy};
use items::{ItemType, Items, Mark, TagKey};
use kinds::{Kind, VectorSink, VectorSource};
use plant::{Plant, PlantFault, Unwatched};
use settings::{Taps, Value};
use std::alloc::Global;
use std::sync::atomic::{AtomicBool, Ordering};
use std::sync::{Arc, Wait};
use std::thread::Threads;
use std::time::Clock;
use threads::{
    Caller, Desk, Gate, Open, Outcome, RunFault, RunOptions, Threading, Turns, live, live_with, run,
};

const SHORT: ItemType = ItemType::Short;

const SOURCE: BlockId = BlockId(0);

const FILTER: BlockId = BlockId(1);

const SINK: BlockId = BlockId(2);

// What the filter gives of 1 to 6 where its taps are 2 and 1 for the first four items, and then 1 and 0.
const WHOLE: [i64; 6] = [2, 5, 8, 11, 5, 6];

/// What came of the calls.
#[derive(Drop)]
struct Notes {
    // A call was answered otherwise than it should be, or its log was.
    is_wrong: AtomicBool,
    // The caller came to its end.
    has_run: AtomicBool,
}

// Makes each call until it is not refused memory, at most three times.
#[derive(Drop)]
struct Careful {
    notes: Arc<Notes, Global>,
}

impl Careful {
    // A call that was refused memory has left the log as it was, and one that was answered stands in it.
    fn answered<G: Gate + Drop>(
        &self,
        desk: &Desk<Kind, G>,
        before: usize,
        answer: Result<bool, PlantFault>,
    ) -> bool {
        let (is_right, is_over) = match answer {
            Ok(is_right) => (is_right && desk.log().len() == before + 1, true),
            Err(PlantFault::Memory) => (desk.log().len() == before, false),
            Err(_) => (false, true),
        };
        if !is_right {
            self.notes.is_wrong.store(true, Ordering::SeqCst);
        }
        is_over
    }

    fn set<G: Gate + Drop, R: Wait>(
        &self,
        rt: &R,
        alloc: Global,
        desk: &mut Desk<Kind, G>,
        at: u64,
        taps: &[i16],
    ) {
        let before = desk.log().len();
        for _ in 0..3 {
            let answer = match Vec::from_slice(alloc, taps) {
                Ok(taps) => desk.set(rt, alloc, FILTER, Some(at), Value::Taps(Taps::new(taps))),
                Err(_) => Err(PlantFault::Memory),
            };
            if self.answered(desk, before, answer.map(|taken| taken.0 == at)) {
                return;
            }
        }
    }

    fn feed<G: Gate + Drop, R: Wait>(
        &self,
        rt: &R,
        alloc: Global,
        desk: &mut Desk<Kind, G>,
        numbers: &[i64],
        mark: Mark,
        total: u64,
    ) {
        let before = desk.log().len();
        for _ in 0..3 {
            let answer = match Items::from_numbers(alloc, SHORT, numbers) {
                Ok(items) => desk.feed(rt, alloc, SOURCE, items, &[mark]),
                Err(_) => Err(PlantFault::Memory),
            };
            if self.answered(desk, before, answer.map(|fed| fed.0 == total)) {
                return;
            }
        }
    }

    fn close<G: Gate + Drop, R: Wait>(&self, rt: &R, desk: &mut Desk<Kind, G>) {
        let before = desk.log().len();
        for _ in 0..3 {
            let answer = desk.close(rt, SOURCE);
            if self.answered(desk, before, answer.map(|closed| closed.0 == 6)) {
                return;
            }
        }
    }

    fn read<G: Gate + Drop, R: Wait>(&self, rt: &R, alloc: Global, desk: &mut Desk<Kind, G>) {
        let before = desk.log().len();
        for _ in 0..3 {
            let answer = desk.read(rt, alloc, SINK, 0, 99);
            if self.answered(desk, before, answer.map(|piece| piece.held <= 6)) {
                return;
            }
        }
    }
}

impl Caller<Kind> for Careful {
    fn run<G: Gate + Drop, R: Wait>(&mut self, rt: &R, alloc: Global, desk: &mut Desk<Kind, G>) {
        let Some(marks) = marks() else {
            return;
        };
        self.set(rt, alloc, desk, 0, &[2, 1]);
        self.set(rt, alloc, desk, 4, &[1, 0]);
        self.feed(rt, alloc, desk, &[1, 2, 3], marks[0], 3);
        self.feed(rt, alloc, desk, &[4, 5, 6], marks[1], 6);
        self.close(rt, desk);
        self.read(rt, alloc, desk);
        self.notes.has_run.store(true, Ordering::SeqCst);
    }
}

fn marks() -> Option<[Mark; 2]> {
    let key = TagKey::new(b"m")?;
    let mark = Mark {
        offset: 1,
        key,
        value: 7,
    };
    Some([mark, Mark { offset: 5, ..mark }])
}

fn filter(alloc: Global) -> Result<Kind, ParamFault> {
    Ok(Kind::Fir(Fir::new(alloc, SHORT, &[1, 1], 1, 0)?))
}

// A source, a filter and a sink.
fn opened(alloc: Global) -> Option<Plant<Kind>> {
    let options = Options {
        policy: Policy::All,
        multiple: 1,
        capacity: 4,
    };
    let mut graph = Graph::new(alloc);
    for (name, block) in [
        (b"s", Kind::VectorSource(VectorSource::new(SHORT))),
        (b"f", filter(alloc).ok()?),
        (b"o", Kind::VectorSink(VectorSink::new(SHORT))),
    ] {
        graph.add_block(alloc, name, block, options).ok()?;
    }
    graph.connect(SOURCE, 0, FILTER, 0).ok()?;
    graph.connect(FILTER, 0, SINK, 0).ok()?;
    Plant::open(alloc, graph.validate(alloc).ok()?).ok()
}

// Feeds a plant to which the caller never came.
fn hand_in(alloc: Global, plant: &mut Plant<Kind>) -> Result<(), PlantFault> {
    let Some(marks) = marks() else {
        return Ok(());
    };
    for (at, taps) in [(0, [2, 1]), (4, [1, 0])] {
        let taps = Vec::from_slice(alloc, &taps)?;
        plant.set(FILTER, Some(at), Value::Taps(Taps::new(taps)))?;
    }
    plant.feed_numbers(alloc, SOURCE, &[1, 2, 3, 4, 5, 6], &marks)?;
    plant.close(SOURCE)?;
    Ok(())
}

// Whether the sink holds all that it should.
fn is_whole(alloc: Global, plant: &Plant<Kind>) -> bool {
    match plant.read(alloc, SINK, 0, 99) {
        Ok(piece) => {
            let is_same = (0..WHOLE.len()).all(|n| n < piece.items.len()
                && piece.items.number(n) == WHOLE[n]);
            let at = |n: usize| piece.tags.get(n).map(|tag| tag.offset);
            is_same && piece.done && piece.held == 6 && at(0) == Some(1) && at(1) == Some(5)
        }
        Err(_) => false,
    }
}

/// A plant and what its run needs.
#[derive(Drop)]
pub struct Ready {
    plant: Plant<Kind>,
    gate: Arc<Open, Global>,
    notes: Arc<Notes, Global>,
    callers: Vec<Careful>,
}

/// Makes what a run needs. Nothing of it is refused memory yet.
pub fn make_ready(alloc: Global) -> Option<Ready> {
    let notes = Notes {
        is_wrong: AtomicBool::new(false),
        has_run: AtomicBool::new(false),
    };
    let notes = Arc::new(alloc, notes).ok()?;
    let mut callers = Vec::with_capacity(alloc, 1).ok()?;
    callers.push_reserved(Careful {
        notes: Arc::try_clone(&notes).ok()?,
    });
    Some(Ready {
        plant: opened(alloc)?,
        gate: Arc::new(alloc, Open).ok()?,
        notes,
        callers,
    })
}

/// How a run ended: the sink's plant where it was answered, or the one that came back.
#[derive(Drop)]
pub struct Ended {
    plant: Option<Plant<Kind>>,
    notes: Arc<Notes, Global>,
    is_done: bool,
}

/// A way of a run with a caller.
#[derive(Clone, Copy)]
pub enum Way {
    /// By `live`.
    EachBlock,
    /// By `live_with`, in as many threads as the work is worth.
    Adaptive,
}

/// Runs it with its caller.
pub fn run_live<R: Threads + Wait + Clock + Sync>(
    rt: &R,
    alloc: Global,
    way: Way,
    ready: Ready,
) -> Ended {
    let Ready {
        plant,
        gate,
        notes,
        callers,
    } = ready;
    let turns = Turns::default();
    let ended = match way {
        Way::EachBlock => live(rt, alloc, plant, gate, callers, turns),
        Way::Adaptive => {
            let options = RunOptions {
                threading: Threading::Adaptive,
                turns,
                gate: Some(gate),
            };
            live_with(rt, alloc, plant, callers, options, &mut Unwatched)
        }
    };
    let (plant, is_done) = match ended {
        Ok(finished) => match finished.outcome {
            Outcome::Done(plant) => (Some(plant), finished.logs.len() == 1),
            Outcome::Stalled(_) | Outcome::Stopped(_) => (None, false),
        },
        Err(RunFault::Memory(plant)) => (Some(plant), false),
        // (no thread is refused here)
        Err(RunFault::Thread(_) | RunFault::Foreign) => (None, false),
    };
    Ended {
        plant,
        notes,
        is_done,
    }
}

/// Whether the run ended well, and else whether its plant, run again, does. Nothing is refused memory any more.
pub fn is_right<R: Threads + Wait + Clock + Copy + Send + 'static>(
    rt: R,
    alloc: Global,
    ended: Ended,
) -> bool {
    let Ended {
        plant,
        notes,
        is_done,
    } = ended;
    let Some(mut plant) = plant else {
        return false;
    };
    if notes.is_wrong.load(Ordering::SeqCst) {
        return false;
    }
    if is_done {
        return is_whole(alloc, &plant);
    }
    if !notes.has_run.load(Ordering::SeqCst) && hand_in(alloc, &mut plant).is_err() {
        return false;
    }
    let Ok(gate) = Arc::new(alloc, Open) else {
        return false;
    };
    plant.idle()
        && matches!(run(rt, alloc, plant, gate), Ok(Outcome::Done(plant)) if is_whole(alloc, &plant))
}
