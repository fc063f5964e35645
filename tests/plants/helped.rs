//! Plants that stream, with helpers of any kind: those that bring work late and in another order, lose some, and bring
//! what nobody asked for. Whatever they do, what is written is what the whole run of a plant gives.
use super::drawn::{Make, Wire, bytes, plant, streaming};
use super::orders::drawn;
use super::pipelines::{given, joined, texts, whole};
use super::streamed::SINKS;
use flowgraph::BlockId;
use kinds::Kind;
use pipeline::{AllReady, Settled};
use plant::Claim;
use std::alloc::Global;
use std::process::Abort;
use std::test::Fail;
use std::time::Duration;
use streaming::{Headway, Helpers, Job, NoHelpers, Step, Unwatched, Watch, Worked};

// Helpers that have up to `most` jobs at once, of at most `share` firings each, and give back one of them by chance.
#[derive(Drop)]
struct Chancy {
    jobs: Vec<Job<Kind>>,
    most: usize,
    share: u32,
    chance: u64,
    // Of so many jobs one never comes back; of none at 0.
    loses: u64,
    given: u64,
    steps: u64,
}

impl Chancy {
    fn new(alloc: Global, seed: u64, loses: u64) -> Chancy {
        Chancy {
            jobs: Vec::new(alloc),
            most: 1 + (seed % 4) as usize,
            share: 1 + (seed % 7) as u32,
            chance: drawn(seed),
            loses,
            given: 0,
            steps: 0,
        }
    }

    // One of the jobs, done.
    fn one(&mut self) -> Option<Worked<Kind>> {
        if self.jobs.is_empty() {
            return None;
        }
        self.chance = drawn(self.chance);
        let at = (self.chance >> 33) as usize % self.jobs.len();
        Some(self.jobs.swap_remove(at).work())
    }
}

impl Watch for Chancy {
    fn pause(&self) -> Option<Duration> {
        None
    }

    fn show(&mut self, _headway: Headway) {}

    fn stepped(&mut self, _block: BlockId, _step: Step) {
        self.steps += 1;
    }

    fn end(&mut self) {}
}

impl Helpers<Job<Kind>, Worked<Kind>> for Chancy {
    fn begins_round(&mut self) -> u32 {
        self.share
    }

    fn are_called(&self) -> bool {
        true
    }

    fn share(&mut self, _block: BlockId) -> Option<u32> {
        self.chance = drawn(self.chance);
        if self.chance >> 62 == 0 { None } else { Some(self.share) }
    }

    fn give(&mut self, job: Job<Kind>) -> Result<(), Job<Kind>> {
        self.given += 1;
        if self.loses != 0 && self.given % self.loses == 0 {
            return Ok(());
        }
        if self.most <= self.jobs.len() || self.jobs.reserve(1).is_err() {
            return Err(job);
        }
        self.jobs.push_reserved(job);
        Ok(())
    }

    fn done(&mut self) -> Option<Worked<Kind>> {
        self.chance = drawn(self.chance);
        if self.chance >> 63 == 0 { None } else { self.one() }
    }

    fn wait(&mut self) -> Option<Worked<Kind>> {
        self.one()
    }
}

#[test]
fn whatever_helpers_do_all_is_written(rt: HostRuntime) -> Result<(), Fail> {
    let alloc = rt.alloc();
    let whole = whole(&rt, alloc)?;
    for (seed, loses) in (0..24).zip([0, 0, 3, 0, 2, 5].iter().cycle()) {
        let mut run = joined(&rt, alloc, &whole, seed, u64::MAX, u64::MAX)?;
        let mut helpers = Chancy::new(alloc, seed, *loses);
        let ended = run.run_with(alloc, &mut helpers, &mut AllReady, &mut Unwatched);
        assert!(rt; matches!(ended, Ok(Settled::Done)), "done, seed {seed}");
        assert!(rt; 100 < helpers.given && 100 < helpers.steps, "they had work, and were told of steps");
        assert!(rt; helpers.jobs.is_empty(), "all of it was fetched");
        for sink in SINKS {
            let [items, lines] = texts(&rt, alloc, &whole.plant, sink)?;
            let (bytes, tags) = given(&rt, &run, sink);
            assert!(rt; bytes == &items[..], "items, seed {seed}");
            assert!(rt; tags == &lines[..], "tags, seed {seed}");
        }
    }
    Ok(())
}

// Helpers that keep each job and bring work of another plant in its stead.
#[derive(Drop)]
struct Strangers {
    others: Vec<Worked<Kind>>,
    kept: Vec<Job<Kind>>,
}

impl Watch for Strangers {
    fn pause(&self) -> Option<Duration> {
        None
    }

    fn show(&mut self, _headway: Headway) {}

    fn end(&mut self) {}
}

impl Helpers<Job<Kind>, Worked<Kind>> for Strangers {
    fn begins_round(&mut self) -> u32 {
        1
    }

    fn are_called(&self) -> bool {
        true
    }

    fn share(&mut self, _block: BlockId) -> Option<u32> {
        Some(1)
    }

    fn give(&mut self, job: Job<Kind>) -> Result<(), Job<Kind>> {
        if self.kept.reserve(1).is_err() {
            return Err(job);
        }
        self.kept.push_reserved(job);
        Ok(())
    }

    fn done(&mut self) -> Option<Worked<Kind>> {
        self.others.pop()
    }

    fn wait(&mut self) -> Option<Worked<Kind>> {
        self.others.pop()
    }
}

const SOURCE: BlockId = BlockId(0);

const SINK: BlockId = BlockId(2);

// A source, a block that adds, and a sink.
const fn adder(number: i64) -> [Make; 3] {
    [Make::Source, Make::AddConst(number), Make::Sink]
}

const LINE: [Wire; 2] = [(0, 0, 1, 0), (1, 0, 2, 0)];

// The work of the source and of the adder of another plant, which was fed other items.
fn other_work(rt: &impl Abort, alloc: Global) -> Result<Vec<Worked<Kind>>, Fail> {
    let mut other = plant(rt, alloc, &adder(10), &LINE, 4);
    assert!(rt; other.feed(SOURCE, bytes(rt, alloc, &[9, 8, 7]), &[]).is_ok(), "fed");
    let mut works = Vec::new(alloc);
    for block in [SOURCE, BlockId(1)] {
        let Ok(Claim::Claimed(job)) = other.claim(alloc, block, 1) else {
            panic!(rt; "claimed");
        };
        let copy = job.copy(alloc)?;
        assert!(rt; other.commit(copy.work()).is_ok(), "its own");
        works.push(job.work())?;
    }
    Ok(works)
}

#[test]
fn work_of_another_plant_is_not_taken(rt: HostRuntime) -> Result<(), Fail> {
    let alloc = rt.alloc();
    let mut own = streaming(&rt, alloc, &adder(20), &LINE, 4);
    assert!(rt; own.feed(SOURCE, &bytes(&rt, alloc, &[1, 2, 3]), &[]).is_ok(), "fed");
    assert!(rt; own.close(SOURCE).is_ok(), "closed");
    let mut strangers = Strangers {
        others: other_work(&rt, alloc)?,
        kept: Vec::new(alloc),
    };
    let mut rounds = 0;
    while matches!(own.round_with(alloc, 8, &mut strangers), Ok(true)) {
        rounds += 1;
        assert!(rt; rounds < 99, "they come to an end");
    }
    assert!(rt; own.all_done() && strangers.others.is_empty() && !strangers.kept.is_empty(), "done without them");
    let Ok(piece) = own.drain(alloc, SINK, 9) else {
        panic!(rt; "drained");
    };
    assert!(rt; piece.done && piece.items == bytes(&rt, alloc, &[21, 22, 23]), "twenty more");
    Ok(())
}

#[test]
fn with_no_helpers_a_round_steps_each_block_once(rt: HostRuntime) -> Result<(), Fail> {
    let alloc = rt.alloc();
    let mut plant = streaming(&rt, alloc, &adder(1), &LINE, 4);
    assert!(rt; plant.feed(SOURCE, &bytes(&rt, alloc, &[1, 2, 3]), &[]).is_ok(), "fed");
    for held in [2, 3, 3] {
        assert!(rt; plant.round_with(alloc, 2, &mut NoHelpers).is_ok(), "a round");
        assert!(rt; matches!(plant.drain(alloc, SINK, 0), Ok(piece) if piece.held == held), "two firings each");
    }
    assert!(rt; matches!(plant.round_with(alloc, 2, &mut NoHelpers), Ok(false)), "quiet");
    Ok(())
}
