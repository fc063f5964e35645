//! Slices on threads, over pieces of any lengths, with marks and tags, beside the whole run; and what is left where an
//! outlet, a reader or a line of marks fails.
use super::drawn::streaming;
use super::streamed::{BLOCKS, SINKS, WIRES};
use crate::Host;
use flowgraph::BlockId;
use kinds::Kind;
use pipeline::{ByteOrder, End, Pipeline, PipelineFault, StreamPart, TapePart};
use rates::{Rates, balance};
use slice_threads::{
    Cutting, Feed, Feeds, Given, Job, Left, Marks, Opens, Outlet, Readers, Share, Stride, Tapes,
    run_slices,
};
use slices::{Asks, Plan, Planned, plan_slices};
use std::alloc::{AllocError, Global};
use std::collections::VecDeque;
use std::io;
use std::io::{ErrorKind, Read};
use std::mem;
use std::process::Abort;
use std::test::Fail;
use std::time::Duration;
use streaming::{Headway, StreamingPlant, Watch};

const SOURCE: BlockId = BlockId(0);

// Opens the plant of the graph under test.
#[derive(Drop)]
struct Opener<R>(R);

impl<R: Abort + Copy> Opens for Opener<R> {
    type Block = Kind;

    fn open(&self, alloc: Global, _iterations: u64) -> Result<StreamingPlant<Kind>, AllocError> {
        Ok(streaming(&self.0, alloc, &BLOCKS, &WIRES, 7))
    }
}

// What the sinks were given: items, and lines of tags.
#[derive(Drop)]
struct Streams {
    items: [Vec<u8>; 2],
    tags: [Vec<u8>; 2],
}

impl Streams {
    fn new(alloc: Global) -> Streams {
        Streams {
            items: [Vec::new(alloc), Vec::new(alloc)],
            tags: [Vec::new(alloc), Vec::new(alloc)],
        }
    }

    fn begin(&self, whole: &Streams) -> bool {
        (0..2).all(|at| {
            whole.items[at].starts_with(&self.items[at])
                && whole.tags[at].starts_with(&self.tags[at])
        })
    }

    fn are(&self, whole: &Streams) -> bool {
        self.items == whole.items && self.tags == whole.tags
    }
}

// Why an outlet fails.
#[derive(Drop)]
enum Failure {
    Memory,
    // With what it took before.
    Full(Streams),
}

impl From<AllocError> for Failure {
    fn from(_refusal: AllocError) -> Failure {
        Failure::Memory
    }
}

// An outlet that takes so many writes.
#[derive(Drop)]
struct Taken {
    alloc: Global,
    streams: Streams,
    writes_left: u64,
}

impl Taken {
    fn new(alloc: Global, writes_left: u64) -> Taken {
        Taken {
            alloc,
            streams: Streams::new(alloc),
            writes_left,
        }
    }
}

impl Outlet for Taken {
    type Fault = Failure;

    fn write(&mut self, sink: BlockId, given: &Given) -> Result<(), Failure> {
        if self.writes_left == 0 {
            let streams = mem::replace(&mut self.streams, Streams::new(self.alloc));
            return Err(Failure::Full(streams));
        }
        self.writes_left -= 1;
        let at = if sink == SINKS[0] { 0 } else { 1 };
        self.streams.items[at].extend_from_slice(&given.items)?;
        Ok(self.streams.tags[at].extend_from_slice(&given.tags)?)
    }
}

// What was shown last.
#[derive(Drop)]
struct Shown(Headway);

impl Watch for Shown {
    fn pause(&self) -> Option<Duration> {
        None
    }

    fn end(&mut self) {}

    fn show(&mut self, headway: Headway) {
        self.0 = headway;
    }
}

// A reader that gives a few bytes at a time, and fails once behind them where it is to.
#[derive(Drop)]
struct Crumbs {
    bytes: VecDeque<u8>,
    most: usize,
    fails: bool,
}

impl Read for Crumbs {
    fn read(&mut self, buf: &mut [u8]) -> io::Result<usize> {
        if self.bytes.is_empty() && self.fails {
            self.fails = false;
            return Err(io::Error::from(ErrorKind::ConnectionReset));
        }
        let most = self.most.min(buf.len());
        self.bytes.read(&mut buf[..most])
    }
}

fn crumbs(alloc: Global, text: &[u8], most: usize, fails: bool) -> Result<Crumbs, AllocError> {
    let mut bytes = Vec::with_capacity(alloc, text.len())?;
    bytes.extend_from_slice(text)?;
    Ok(Crumbs {
        bytes: VecDeque::from(bytes),
        most,
        fails,
    })
}

// What a source is fed.
#[derive(Drop)]
struct Fed {
    tape: Vec<u8>,
    marks: Vec<u8>,
    fails: bool,
}

// So many items, with a mark on each third and one more on each twelfth. Below each seventh a line says that no more
// marks come. Behind the mark on item `wrong` stands a line that is none.
fn fed(alloc: Global, length: usize, wrong: Option<usize>) -> Result<Fed, Fail> {
    let mut tape = Vec::with_capacity(alloc, length)?;
    let mut marks = Vec::new(alloc);
    for n in 0..length {
        tape.push((n * 7 % 251) as u8)?;
        if n % 7 == 0 {
            let line = format!(in alloc; "until {n}\n")?;
            marks.extend_from_slice(line.as_bytes())?;
        }
        for every in [3, 12] {
            if n % every == 0 {
                let line = format!(in alloc; "@{n}:k{every}={n}\n")?;
                marks.extend_from_slice(line.as_bytes())?;
            }
        }
        if wrong == Some(n) {
            marks.extend_from_slice(b"@wrong\n")?;
        }
    }
    Ok(Fed {
        tape,
        marks,
        fails: false,
    })
}

fn plan(rt: &impl Abort, alloc: Global) -> Plan {
    let plant = streaming(rt, alloc, &BLOCKS, &WIRES, 7);
    let Ok(Rates::Balanced(rates)) = balance(alloc, plant.graph()) else {
        panic!(rt; "balanced rates");
    };
    match plan_slices(alloc, plant.graph(), &rates, Asks::ItemsAndTags) {
        Ok(Planned::Plan(plan)) => plan,
        _ => panic!(rt; "a plan"),
    }
}

// What a run in one piece on a part of the tape gives the sinks, and why it failed, if it did.
fn run_rest(
    rt: &impl Abort,
    alloc: Global,
    readers: Readers<Crumbs>,
    origin: u64,
    parts: &[StreamPart],
    taken: &mut Streams,
) -> Result<Option<PipelineFault>, Fail> {
    let Ok(mut run) = Pipeline::new(alloc, streaming(rt, alloc, &BLOCKS, &WIRES, 7)) else {
        panic!(rt; "no memory");
    };
    let part = TapePart {
        origin,
        goes_on: false,
    };
    let Readers { tape, marks } = readers;
    assert!(rt; run.read_from(alloc, SOURCE, ByteOrder::Little, tape).is_ok(), "a reader");
    if let Some(marks) = marks {
        assert!(rt; run.mark_part(alloc, SOURCE, part, marks).is_ok(), "marks");
    }
    for at in 0..2 {
        let (items, tags) = (Some(Vec::new(alloc)), Some(Vec::new(alloc)));
        let joined = run.write_part(alloc, SINKS[at], parts[at], ByteOrder::Little, items, tags);
        assert!(rt; joined.is_ok(), "writers");
    }
    let fault = run.run(alloc).err();
    for at in 0..2 {
        if let Some(End::Output(output)) = run.ends.get_mut(SINKS[at].0 as usize) {
            if let (Some(items), Some(tags)) = (output.items_to.take(), output.tags_to.take()) {
                taken.items[at].extend_from_slice(&items)?;
                taken.tags[at].extend_from_slice(&tags)?;
            }
        }
    }
    Ok(fault)
}

fn readers(alloc: Global, fed: &Fed, most: usize) -> Result<Readers<Crumbs>, AllocError> {
    Ok(Readers {
        tape: crumbs(alloc, &fed.tape, most, fed.fails)?,
        marks: Some(crumbs(alloc, &fed.marks, most, false)?),
    })
}

// The whole run.
fn whole(
    rt: &impl Abort,
    alloc: Global,
    fed: &Fed,
) -> Result<(Streams, Option<PipelineFault>), Fail> {
    let mut taken = Streams::new(alloc);
    let parts = [StreamPart::whole(), StreamPart::whole()];
    let fault = run_rest(rt, alloc, readers(alloc, fed, 64)?, 0, &parts, &mut taken)?;
    Ok((taken, fault))
}

fn job(alloc: Global, plan: &Plan) -> Result<Job, AllocError> {
    let mut shares = Vec::new(alloc);
    for sink in &plan.sinks {
        shares.push(Share {
            sink: sink.block,
            item_size: 1,
            period: sink.period,
            drop: sink.drop,
            from: 0,
            has_tags: true,
        })?;
    }
    Ok(Job {
        order: ByteOrder::Little,
        shares,
    })
}

// On how many threads slices are run, over pieces of how many iterations at most, where so many bytes come at once, and
// whether a read may wait.
#[derive(Clone, Copy, Debug)]
struct Way {
    threads: usize,
    iterations: u64,
    crumb: usize,
    may_wait: bool,
}

// What is read, and how it is cut.
fn tapes(alloc: Global, fed: &Fed, way: Way, plan: &Plan) -> Result<Tapes<Crumbs>, Fail> {
    let stride = Stride {
        source: SOURCE,
        item_size: 1,
        period: plan.sources[0].period,
    };
    let feed = Feed::new(alloc, stride, Some(Marks::new(alloc)));
    let cutting = Cutting {
        begins: 0,
        overlap: plan.overlap,
        most: way.iterations,
    };
    Ok(Tapes {
        feeds: Feeds::new(vec![in alloc; feed]?, cutting),
        readers: vec![in alloc; readers(alloc, fed, way.crumb)?]?,
        may_wait: way.may_wait,
    })
}

// Runs slices, and the rest behind them. It returns what was taken, and why the rest failed, if it did; or why the
// outlet did.
fn in_slices<R: Host>(
    rt: R,
    fed: &Fed,
    way: Way,
    taken: Taken,
) -> Result<Result<(Streams, Option<PipelineFault>), Failure>, Fail> {
    let alloc = rt.alloc();
    let plan = plan(&rt, alloc);
    let mut openers = Vec::new(alloc);
    for _ in 0..way.threads {
        openers.push(Opener(rt))?;
    }
    let (job, tapes) = (job(alloc, &plan)?, tapes(alloc, fed, way, &plan)?);
    let mut shown = Shown(Headway { given: 0, fed: 0 });
    match run_slices(rt, alloc, openers, job, tapes, taken, &mut shown) {
        Ok(left) => {
            assert!(&rt; shown.0.given == shown.0.fed, "{way:?}: all is shown");
            Ok(Ok(behind(&rt, alloc, left, plan.sources[0].period)?))
        }
        Err(failure) => Ok(Err(failure)),
    }
}

// Runs the rest. A fault of marks is told by the number of its line among all.
fn behind(
    rt: &impl Abort,
    alloc: Global,
    left: Left<Crumbs, Taken>,
    period: u64,
) -> Result<(Streams, Option<PipelineFault>), Fail> {
    let origin = left.feeds.first() * period;
    let (mut taken, mut lines, mut fault) = (left.outlet.streams, 0, None);
    for (feed, readers) in left.feeds.feeds.into_iter().zip(left.readers) {
        let (unread, marks) = feed.into_rest(alloc)?;
        let mut again = readers;
        again.tape.fails |= unread.failure.is_some();
        push_in_front(&mut again.tape, &unread.bytes)?;
        if let (Some(marks), Some(reader)) = (marks, &mut again.marks) {
            let (unread, passed) = marks.into_rest();
            push_in_front(reader, &unread.bytes)?;
            lines = passed;
        }
        fault = run_rest(rt, alloc, again, origin, &left.parts, &mut taken)?;
    }
    let fault = match fault {
        Some(PipelineFault::BadMark(block, line)) => {
            Some(PipelineFault::BadMark(block, line + lines))
        }
        fault => fault,
    };
    Ok((taken, fault))
}

fn push_in_front(reader: &mut Crumbs, bytes: &[u8]) -> Result<(), Fail> {
    for byte in bytes.iter().rev() {
        reader.bytes.push_front(*byte)?;
    }
    Ok(())
}

const WAYS: [Way; 9] = [
    Way { threads: 0, iterations: 20, crumb: 64, may_wait: true },
    Way { threads: 1, iterations: 20, crumb: 7, may_wait: true },
    Way { threads: 1, iterations: 20, crumb: 7, may_wait: false },
    Way { threads: 2, iterations: 20, crumb: 4_096, may_wait: true },
    Way { threads: 3, iterations: 1, crumb: 1, may_wait: true },
    Way { threads: 3, iterations: 21, crumb: 2, may_wait: true },
    Way { threads: 3, iterations: 21, crumb: 200, may_wait: false },
    Way { threads: 3, iterations: 100, crumb: 33, may_wait: true },
    Way { threads: 2, iterations: 700, crumb: 100_000, may_wait: false },
];

#[test]
fn slices_give_what_the_whole_run_gives(rt: HostRuntime) -> Result<(), Fail> {
    let alloc = rt.alloc();
    for length in [0_usize, 1, 39, 40, 41, 500, 4_001] {
        let fed = fed(alloc, length, None)?;
        let (whole, fault) = whole(&rt, alloc, &fed)?;
        assert!(rt; fault.is_none(), "{length}: the whole run fails");
        for way in WAYS {
            // (a plant is opened for each piece, so that many short ones take long)
            if 1_000 < length && way.crumb < 30 {
                continue;
            }
            match in_slices(rt, &fed, way, Taken::new(alloc, u64::MAX))? {
                Ok((taken, None)) => {
                    assert!(rt; taken.are(&whole), "{length}, {way:?}: other streams");
                }
                _ => panic!(rt; "{length}, {way:?}: a fault"),
            }
        }
    }
    Ok(())
}

#[test]
fn what_stands_where_an_outlet_fails_is_a_beginning(rt: HostRuntime) -> Result<(), Fail> {
    let alloc = rt.alloc();
    let fed = fed(alloc, 2_000, None)?;
    let (whole, _) = whole(&rt, alloc, &fed)?;
    for may_wait in [false, true] {
        for writes in [0, 1, 2, 7] {
            let way = Way { threads: 3, iterations: 30, crumb: 50, may_wait };
            match in_slices(rt, &fed, way, Taken::new(alloc, writes))? {
                Err(Failure::Full(taken)) => {
                    assert!(rt; taken.begin(&whole), "{writes} writes: a beginning");
                }
                _ => panic!(rt; "{writes} writes: it does not fail"),
            }
        }
    }
    Ok(())
}

#[test]
fn a_wrong_line_is_told_by_its_number(rt: HostRuntime) -> Result<(), Fail> {
    let alloc = rt.alloc();
    for wrong in [0_usize, 3, 300, 1_998] {
        let fed = fed(alloc, 2_000, Some(wrong))?;
        // (the marks on the items up to this one, the lines between them, and then the line itself)
        let line = (wrong / 3 + 1 + wrong / 12 + 1 + wrong / 7 + 1 + 1) as u64;
        for way in WAYS {
            match in_slices(rt, &fed, way, Taken::new(alloc, u64::MAX))? {
                Ok((_, Some(PipelineFault::BadMark(_, told)))) => {
                    assert!(rt; told == line, "{wrong}, {way:?}: line {told}, and not {line}");
                }
                _ => panic!(rt; "{wrong}, {way:?}: no line is refused"),
            }
        }
    }
    Ok(())
}

#[test]
fn a_read_that_failed_fails(rt: HostRuntime) -> Result<(), Fail> {
    let alloc = rt.alloc();
    let mut failing = fed(alloc, 1_001, None)?;
    let (whole, _) = whole(&rt, alloc, &failing)?;
    failing.fails = true;
    for way in WAYS {
        match in_slices(rt, &failing, way, Taken::new(alloc, u64::MAX))? {
            Ok((taken, Some(PipelineFault::Read(..)))) => {
                assert!(rt; taken.begin(&whole), "{way:?}: a beginning");
            }
            _ => panic!(rt; "{way:?}: no read fails"),
        }
    }
    Ok(())
}
