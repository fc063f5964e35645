//! Balanced graphs of ten blocks, drawn by chance, with no more capacity than their rates ask for. In whatever order
//! their blocks act, they come to their end, and each sink holds the whole stream that lists of numbers give.
use super::drawn::{Make, Wire, bytes, plant};
use super::orders::drawn;
use flowgraph::BlockId;
use kinds::Kind;
use plant::{Claim, Job, Plant, Step};
use rates::Rates;
use std::alloc::{AllocError, Global};
use std::process::Abort;
use std::test::Fail;

const BLOCKS: usize = 10;

// How many items the two sources are fed.
const TAPES: [usize; 2] = [24, 17];

// After so many calls it is looked whether a block can still act.
const CALLS_AT_ONCE: u32 = 50;

// The stream that a block gives: its items, and how many of them come with each item of a source, as a fraction.
#[derive(Drop)]
struct Stream {
    writer: u32,
    items: Vec<i64>,
    pace: (u64, u64),
    is_read: bool,
}

// A graph that is being drawn.
#[derive(Drop)]
struct Draft {
    chance: u64,
    makes: Vec<Make>,
    wires: Vec<Wire>,
    streams: Vec<Stream>,
}

fn is_as_fast(one: &Stream, other: &Stream) -> bool {
    one.pace.0 * other.pace.1 == other.pace.0 * one.pace.1
}

impl Draft {
    fn new(alloc: Global, seed: u64) -> Draft {
        Draft {
            chance: drawn(seed),
            makes: Vec::new(alloc),
            wires: Vec::new(alloc),
            streams: Vec::new(alloc),
        }
    }

    // A number below `end`.
    fn draw(&mut self, end: usize) -> usize {
        self.chance = drawn(self.chance);
        (self.chance >> 33) as usize % end
    }

    // How many blocks there are with a sink for each stream that nobody reads.
    fn count(&self) -> usize {
        let unread = self
            .streams
            .iter()
            .filter(|&stream| !stream.is_read)
            .count();
        self.makes.len() + unread
    }

    // A block that reads these streams, and the stream that it gives.
    fn add(
        &mut self,
        make: Make,
        from: &[usize],
        items: Vec<i64>,
        pace: (u64, u64),
    ) -> Result<(), AllocError> {
        let writer = self.makes.len() as u32;
        for (port, from) in from.iter().enumerate() {
            self.wires
                .push((self.streams[*from].writer, 0, writer, port))?;
            self.streams[*from].is_read = true;
        }
        self.makes.push(make)?;
        self.streams.push(Stream {
            writer,
            items,
            pace,
            is_read: false,
        })?;
        Ok(())
    }

    // A block with one input, by which the graph comes to have so many blocks at most.
    fn add_one(&mut self, alloc: Global) -> Result<(), AllocError> {
        let from = self.draw(self.streams.len());
        if BLOCKS < self.count() + 2 && self.streams[from].is_read {
            return Ok(());
        }
        let n = self.draw(2) as u64 + 2;
        let make = match self.draw(8) {
            0 | 1 => Make::Keep(n),
            2 | 3 => Make::Repeat(n),
            4 => Make::Skip(n),
            5 => Make::Delay(n),
            6 => Make::Head(n * 5),
            _ => Make::MovingSum(3),
        };
        let (items, pace) = {
            let stream = &self.streams[from];
            (given(alloc, make, &stream.items)?, paced(make, stream.pace))
        };
        self.add(make, &[from], items, pace)
    }

    // A sum of two streams that are as fast as one another.
    fn add_sum(&mut self, alloc: Global) -> Result<(), AllocError> {
        let one = self.draw(self.streams.len());
        let two = self.draw(self.streams.len());
        let is_read = self.streams[one].is_read && self.streams[two].is_read;
        if !is_as_fast(&self.streams[one], &self.streams[two]) || is_read {
            return Ok(());
        }
        let mut items = Vec::new(alloc);
        let (first, second) = (&self.streams[one].items, &self.streams[two].items);
        for (first, second) in first.iter().zip(second) {
            items.push((first + second) % 256)?;
        }
        let pace = self.streams[one].pace;
        self.add(Make::Add, &[one, two], items, pace)
    }
}

// What a block with one input gives of a stream.
fn given(alloc: Global, make: Make, items: &[i64]) -> Result<Vec<i64>, AllocError> {
    let mut out = Vec::new(alloc);
    match make {
        Make::Keep(n) => {
            for round in items.chunks_exact(n as usize) {
                out.push(round[n as usize - 1])?;
            }
        }
        Make::Repeat(n) => {
            for item in items {
                for _ in 0..n {
                    out.push(*item)?;
                }
            }
        }
        Make::Skip(n) => out.extend_from_slice(&items[items.len().min(n as usize)..])?,
        Make::Delay(n) => {
            for _ in 0..n {
                out.push(0)?;
            }
            out.extend_from_slice(items)?;
        }
        Make::Head(n) => out.extend_from_slice(&items[..items.len().min(n as usize)])?,
        _ => {
            for n in 0..items.len() {
                let sum: i64 = items[n.saturating_sub(2)..=n].iter().sum();
                out.push(sum % 256)?;
            }
        }
    }
    Ok(out)
}

fn paced(make: Make, (over, under): (u64, u64)) -> (u64, u64) {
    match make {
        Make::Keep(n) => (over, under * n),
        Make::Repeat(n) => (over * n, under),
        _ => (over, under),
    }
}

// A graph of two sources, blocks between, and a sink for each stream that nobody else reads.
fn drawn_by(alloc: Global, seed: u64) -> Result<Draft, AllocError> {
    let mut draft = Draft::new(alloc, seed);
    for length in TAPES {
        let mut items = Vec::new(alloc);
        for _ in 0..length {
            let item = draft.draw(256) as i64;
            items.push(item)?;
        }
        draft.add(Make::Source, &[], items, (1, 1))?;
    }
    while draft.count() < BLOCKS {
        if draft.draw(3) == 0 {
            draft.add_sum(alloc)?;
        } else {
            draft.add_one(alloc)?;
        }
    }
    let mut sink = draft.makes.len() as u32;
    for stream in &draft.streams {
        if !stream.is_read {
            draft.makes.push(Make::Sink)?;
            draft.wires.push((stream.writer, 0, sink, 0))?;
            sink += 1;
        }
    }
    Ok(draft)
}

// Feeds the next items of a source, or closes it behind the last.
fn feed(
    rt: &impl Abort,
    alloc: Global,
    plant: &mut Plant<Kind>,
    draft: &Draft,
    source: usize,
    fed: &mut usize,
    count: usize,
) {
    let tape = draft.streams[source].items.as_slice();
    let block = BlockId(source as u32);
    if tape.len() < *fed {
        return;
    }
    if tape.len() == *fed {
        assert!(rt; plant.close(block).is_ok(), "closed");
        *fed += 1;
        return;
    }
    let end = tape.len().min(*fed + count);
    let items = bytes(rt, alloc, &tape[*fed..end]);
    assert!(rt; plant.feed(block, items, &[]).is_ok(), "fed");
    *fed = end;
}

// A block claims, or brings back what it claimed: it commits it or gives it up.
fn act(
    rt: &impl Abort,
    alloc: Global,
    plant: &mut Plant<Kind>,
    job: &mut Option<Job<Kind>>,
    block: BlockId,
    chance: u64,
) {
    if let Some(claimed) = job.take() {
        let is_over = if chance >> 61 == 0 {
            plant.abandon(claimed).is_ok()
        } else {
            plant.commit(claimed.work()).is_ok()
        };
        assert!(rt; is_over, "block {} brings back another job", block.0);
        return;
    }
    let max = ((chance >> 20) % 4) as u32 + 1;
    if chance >> 63 == 0 {
        let did = plant.step(alloc, block, max);
        assert!(rt; did.is_ok() && did != Ok(Step::Busy), "block {}", block.0);
        return;
    }
    match plant.claim(alloc, block, max) {
        Ok(Claim::Claimed(claimed)) => *job = Some(claimed),
        Ok(Claim::Done | Claim::Waiting(_)) => {}
        Ok(Claim::Busy) | Err(_) => panic!(rt; "block {} is refused", block.0),
    }
}

// Lets blocks act in an order drawn by chance, while the sources are fed piece by piece, until no block can.
fn run_in_any_order(
    rt: &impl Abort,
    alloc: Global,
    plant: &mut Plant<Kind>,
    draft: &Draft,
    seed: u64,
) {
    let mut jobs = Vec::new(alloc);
    for _ in 0..BLOCKS {
        assert!(rt; jobs.push(None).is_ok(), "no memory");
    }
    let mut fed = [0, 0];
    let mut chance = drawn(seed);
    for call in 0..100_000 {
        let is_fed = TAPES[0] < fed[0] && TAPES[1] < fed[1];
        if call % CALLS_AT_ONCE == 0 && is_fed && plant.quiet() {
            return;
        }
        let at = (chance >> 33) as usize % (BLOCKS + 1);
        if at == BLOCKS {
            let source = (chance >> 20) as usize % 2;
            let count = (chance >> 50) as usize % 9 + 1;
            feed(rt, alloc, plant, draft, source, &mut fed[source], count);
        } else {
            act(rt, alloc, plant, &mut jobs[at], BlockId(at as u32), chance);
        }
        chance = drawn(chance);
    }
    panic!(rt; "it does not come to rest");
}

fn sinks_are_whole(rt: &impl Abort, alloc: Global, plant: &Plant<Kind>, draft: &Draft, what: u64) {
    let unread = draft.streams.iter().filter(|&stream| !stream.is_read);
    let mut sinks = 0;
    for (sink, stream) in (draft.streams.len() as u32..).zip(unread) {
        let Ok(piece) = plant.read(alloc, BlockId(sink), 0, 100_000) else {
            panic!(rt; "graph {what}: sink {sink} is not read");
        };
        assert!(rt; piece.done, "graph {what}: sink {sink} is not done");
        assert!(rt;
            piece.items == bytes(rt, alloc, &stream.items),
            "graph {what}: the items of sink {sink}"
        );
        sinks += 1;
    }
    assert!(rt; 1 <= sinks, "graph {what} has no sink");
}

#[test]
fn balanced_graphs_of_ten_blocks_never_stall(rt: HostRuntime) -> Result<(), Fail> {
    let alloc = rt.alloc();
    for seed in 0..20 {
        let draft = drawn_by(alloc, seed)?;
        assert!(rt; draft.makes.len() == BLOCKS, "ten blocks");
        for order in 0..2 {
            let mut plant = plant(&rt, alloc, &draft.makes, &draft.wires, 1);
            assert!(rt;
                matches!(plant.rates(), Rates::Balanced(_)),
                "graph {seed} is balanced"
            );
            run_in_any_order(&rt, alloc, &mut plant, &draft, seed * 2 + order);
            assert!(rt; plant.all_done(), "graph {seed} stalls in order {order}");
            sinks_are_whole(&rt, alloc, &plant, &draft, seed);
        }
    }
    Ok(())
}
