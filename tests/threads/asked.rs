//! Pipelines of graphs that are drawn by chance, which three callers on threads of their own ask by chance while their readers give pieces of chance. Each answer is that of
//! its own request, and what is written is that of a plant that was handed the same at the same items.
use super::drawn::{Drawing, Make, graph, plant};
use super::random::Chance;
use super::runs::{ALL, Host, piece, share, shared};
use super::setters::graph_of;
use flowgraph::BlockId;
use items::Items;
use kinds::Kind;
use pipeline::{AllReady, Answer, ByteOrder, End, Ended, Pipeline, PlantFault, Told};
use request_box::{Bell, Caller, request_box};
use settings::Value;
use std::alloc::{AllocError, Global};
use std::io;
use std::io::Read;
use std::ops::Range;
use std::process::Abort;
use std::sync::Arc;
use std::sync::atomic::{AtomicU32, Ordering};
use std::test::Fail;
use std::thread;
use streaming::{NoHelpers, StreamingPlant, Unwatched};

// How many runs a test is of.
const RUNS: u64 = 50;

const CALLERS: u32 = 3;

// Each caller makes so many requests, or less than twice as many.
const CALLS: u64 = 8;

// A source gives no more items, also to callers that are slow.
const MOST_ITEMS: usize = 3_000;

type Run = Pipeline<Kind, Pieces, Vec<u8>>;

// Item `at` of the tape of a source.
fn tape_item(source: u32, at: usize) -> u8 {
    ((at * 7 + at / 50 + source as usize) % 256) as u8
}

// Gives the items of a source in pieces of chance, until all callers have made their requests.
#[derive(Drop)]
struct Pieces {
    source: u32,
    given: usize,
    is_over: bool,
    chance: Chance,
    done: Arc<AtomicU32, Global>,
}

impl Read for Pieces {
    fn read(&mut self, buf: &mut [u8]) -> io::Result<usize> {
        self.is_over = self.done.load(Ordering::SeqCst) == CALLERS || self.given == MOST_ITEMS;
        if self.is_over {
            return Ok(0);
        }
        // (so that callers come between)
        thread::yield_now();
        let most = buf.len().min(MOST_ITEMS - self.given);
        let count = most.min(1 + self.chance.below(40) as usize);
        for byte in &mut buf[..count] {
            *byte = tape_item(self.source, self.given);
            self.given += 1;
        }
        Ok(count)
    }
}

// What came of a caller's requests: settings in their order, and sources that it closed, with how many items they had.
#[derive(Drop)]
struct Came {
    settings: Vec<(BlockId, u64, i64)>,
    closed: Vec<(BlockId, u64)>,
    answered: u64,
}

// A caller, which sets every third block alone, so that nobody else sets these.
#[derive(Drop)]
struct Asking<R: Drop> {
    caller: Caller<R>,
    number: u32,
    makes: Vec<Make>,
    chance: Chance,
    stops: bool,
}

impl<R: Host + Drop> Asking<R> {
    // A block by chance, of those that this caller sets.
    fn block(&mut self) -> BlockId {
        let places = (self.makes.len() as u64 + 2) / u64::from(CALLERS) + 1;
        BlockId(self.chance.below(places) as u32 * CALLERS + self.number)
    }

    // Makes its requests, until they are made or the run has ended.
    fn ask(&mut self, rt: &R, alloc: Global) -> Result<Came, AllocError> {
        let mut came = Came { settings: Vec::new(alloc), closed: Vec::new(alloc), answered: 0 };
        for _ in 0..CALLS + self.chance.below(CALLS) {
            let block = self.block();
            let make = self.makes.get(block.0 as usize);
            let is_answered = match self.chance.below(8) {
                0 => self.levels(rt, block),
                1 => self.close(rt, block, make.copied(), &mut came)?,
                _ => self.set(rt, block, make.copied(), &mut came)?,
            };
            if !is_answered {
                return Ok(came);
            }
            came.answered += 1;
        }
        if self.stops {
            let stopped = self.caller.stop();
            assert!(rt; stopped.is_err() || stopped.is_ok_and(|answer| answer.told == Told::Stopped), "a stop");
        }
        Ok(came)
    }

    // Asks how far a block is, and returns whether there was an answer.
    fn levels(&mut self, rt: &R, block: BlockId) -> bool {
        let Ok(answer) = self.caller.levels(block) else {
            return false;
        };
        match answer.told {
            Told::Levels(Ok(levels)) => assert!(rt; levels.taken == answer.come, "of another block"),
            told => assert_eq!(rt; told, Told::Levels(Err(PlantFault::NoSuchBlock))),
        }
        true
    }

    // Closes a block, if it may be a source now and then.
    fn close(&mut self, rt: &R, block: BlockId, make: Option<Make>, came: &mut Came) -> Result<bool, AllocError> {
        let Ok(answer) = self.caller.close(block) else {
            return Ok(false);
        };
        match (make, answer.told) {
            (Some(Make::Source), Told::Closed(Ok(closed))) => came.closed.push((block, closed.0))?,
            (Some(Make::Source), told) => assert_eq!(rt; told, Told::Closed(Err(PlantFault::Closed))),
            (Some(_), told) => assert_eq!(rt; told, Told::Closed(Err(PlantFault::NotSource))),
            (None, told) => assert_eq!(rt; told, Told::Closed(Err(PlantFault::NoSuchBlock))),
        }
        Ok(true)
    }

    // Sets a block from now on, or from an item that has come or comes.
    fn set(&mut self, rt: &R, block: BlockId, make: Option<Make>, came: &mut Came) -> Result<bool, AllocError> {
        let at = if self.chance.below(2) == 0 { None } else { Some(self.chance.below(400)) };
        let value = self.chance.below(100) as i64;
        let Ok(answer) = self.caller.set(block, at, Value::Number(value)) else {
            return Ok(false);
        };
        let Told::Set(told) = answer.told else {
            panic!(rt; "another's answer");
        };
        let has_setting = matches!(make, Some(Make::AddConst(_) | Make::MultiplyConst(_) | Make::Scale(..)));
        match told {
            Ok(taken) => {
                assert!(rt; has_setting && is_place(at, &answer, taken.0), "set at another item");
                came.settings.push((block, taken.0, value))?;
            }
            Err(PlantFault::Late { floor }) => {
                assert!(rt; has_setting && at.is_some_and(|at| at < floor) && floor == answer.come, "too late");
            }
            Err(fault) => assert!(rt; !has_setting && matches!(fault, PlantFault::NoSetting | PlantFault::NoSuchBlock), "refused"),
        }
        Ok(true)
    }
}

// Whether a setting of this place is in force from here on: from the item asked for, or from where the block is.
fn is_place(asked: Option<u64>, answer: &Answer, taken: u64) -> bool {
    taken == asked.unwrap_or(answer.come) && answer.come <= taken
}

// A pipeline of a drawing, whose sources give pieces until so many callers are done.
fn pipeline(
    rt: &impl Abort,
    alloc: Global,
    drawing: &Drawing<'_>,
    seed: u64,
    done: &Arc<AtomicU32, Global>,
) -> Run {
    let Ok(opened) = StreamingPlant::open(alloc, graph(rt, alloc, drawing)) else {
        panic!(rt; "no memory");
    };
    let Ok(mut run) = Pipeline::new(alloc, opened) else {
        panic!(rt; "no memory");
    };
    for (block, make) in (0..u32::MAX).zip(drawing.makes) {
        let chance = Chance::new(seed * 5 + u64::from(block));
        let joined = match *make {
            Make::Source => {
                let reader = Pieces { source: block, given: 0, is_over: false, chance, done: share(rt, done) };
                run.read_from(alloc, BlockId(block), ByteOrder::Little, reader).is_ok()
            }
            Make::Sink => {
                let writer = Some(Vec::new(alloc));
                run.write_to(alloc, BlockId(block), ByteOrder::Little, writer, None).is_ok()
            }
            _ => true,
        };
        assert!(rt; joined, "block {block} is joined");
    }
    run
}

// Asserts that each sink was written what it takes where a plant is handed what the readers gave and the callers set, or a beginning of it where the run was stopped.
fn same_as_whole(
    rt: &impl Abort,
    alloc: Global,
    drawing: &Drawing<'_>,
    run: &Run,
    came: &[Came],
    ended: Ended,
    what: &str,
) -> Result<(), AllocError> {
    let mut whole = plant(rt, alloc, drawing);
    for one in came {
        for (block, at, value) in &one.settings {
            assert!(rt; whole.set(*block, Some(*at), Value::Number(*value)).is_ok(), "{what}: set");
        }
    }
    for (block, end) in (0..u32::MAX).zip(&run.ends) {
        let source = BlockId(block);
        if let End::Input(input) = end {
            let mut tape = Vec::new(alloc);
            for at in 0..input.reader().given {
                tape.push(tape_item(block, at))?;
            }
            let mut is_closed = input.reader().is_over;
            for one in came {
                for (closed, count) in &one.closed {
                    if *closed == source {
                        assert!(rt; *count == tape.len() as u64, "{what}: what a closed source was fed");
                        is_closed = true;
                    }
                }
            }
            assert!(rt; whole.feed(source, Items::Byte(tape), &[]).is_ok(), "{what}: fed");
            assert!(rt; !is_closed || whole.close(source).is_ok(), "{what}: closed");
        }
    }
    assert!(rt; whole.settle(alloc, 4_096).is_ok(), "{what}: no memory");
    for (block, end) in (0..u32::MAX).zip(&run.ends) {
        if let End::Output(output) = end {
            let Some(written) = &output.items_to else {
                panic!(rt; "a writer");
            };
            let wanted = piece(rt, alloc, &whole, BlockId(block));
            let Items::Byte(items) = &wanted.items else {
                panic!(rt; "bytes");
            };
            let is_right = match ended {
                Ended::Stopped => items.starts_with(written),
                Ended::Settled(_) => items.as_slice() == written.as_slice(),
            };
            assert!(rt; is_right && wanted.held < ALL, "{what}: sink {block}, {} of {} items", written.len(), items.len());
        }
    }
    Ok(())
}

// A run of a seed; returns how many requests were answered, how many settings were taken, and whether it was stopped.
fn is_asked<R: Host + Sync + 'static>(rt: R, alloc: Global, seed: u64) -> Result<(u64, usize, bool), AllocError> {
    let drawn = graph_of(alloc, seed)?;
    let drawing = drawn.drawing();
    let done = shared(&rt, alloc, AtomicU32::new(0));
    let mut run = pipeline(&rt, alloc, &drawing, seed, &done);
    let bell = shared(&rt, alloc, Bell::new());
    let (mut requests, first) = request_box(rt, alloc, bell)?;
    let mut handles = Vec::new(alloc);
    for number in 0..CALLERS {
        let mut asking = Asking {
            caller: first.try_clone()?,
            number,
            makes: Vec::from_slice(alloc, drawing.makes)?,
            chance: Chance::new(seed * 3 + u64::from(number) + 7_000),
            stops: number == 0 && seed % 4 == 0,
        };
        let done = share(&rt, &done);
        let handle = thread::spawn(&rt, move || {
            let came = asking.ask(&rt, alloc);
            done.fetch_add(1, Ordering::SeqCst);
            came
        });
        let Ok(handle) = handle else {
            panic!(&rt; "no thread");
        };
        handles.push(handle)?;
    }
    let Ok(ended) = run.run_asked(alloc, &mut NoHelpers, &mut AllReady, &mut requests, &mut Unwatched) else {
        panic!(&rt; "a fault");
    };
    // (who asks later is told that nobody answers)
    drop(requests);
    let mut came = Vec::new(alloc);
    for handle in handles {
        came.push(handle.join(&rt)?)?;
    }
    let what = format!(in alloc; "run {seed}")?;
    same_as_whole(&rt, alloc, &drawing, &run, &came, ended, &what)?;
    let (mut answered, mut set) = (0, 0);
    for one in &came {
        answered += one.answered;
        set += one.settings.len();
    }
    Ok((answered, set, ended == Ended::Stopped))
}

// The runs of these seeds, in which most requests come while items stream.
fn are_asked<R: Host + Sync + 'static>(rt: R, alloc: Global, seeds: Range<u64>) -> Result<(), Fail> {
    let (mut answered, mut set, mut stopped) = (0, 0, 0);
    for seed in seeds {
        let counts = is_asked(rt, alloc, seed)?;
        answered += counts.0;
        set += counts.1;
        stopped += u64::from(counts.2);
    }
    assert!(&rt; RUNS * CALLS < answered && RUNS < set as u64 && 0 < stopped, "{answered} were answered, {set} set, {stopped} stopped");
    Ok(())
}

#[test]
fn three_callers_ask_by_chance(rt: HostRuntime) -> Result<(), Fail> {
    are_asked(rt, rt.alloc(), 0..RUNS)
}

#[test]
fn three_more_callers_ask_by_chance(rt: HostRuntime) -> Result<(), Fail> {
    are_asked(rt, rt.alloc(), RUNS..2 * RUNS)
}

#[test]
fn three_callers_ask_other_graphs_by_chance(rt: HostRuntime) -> Result<(), Fail> {
    are_asked(rt, rt.alloc(), 2 * RUNS..3 * RUNS)
}

#[test]
fn three_more_callers_ask_other_graphs_by_chance(rt: HostRuntime) -> Result<(), Fail> {
    are_asked(rt, rt.alloc(), 3 * RUNS..4 * RUNS)
}
