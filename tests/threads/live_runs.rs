//! Runs with callers, and what the tests' callers have in common.
use super::gates::Counts;
use super::runs::{Host, share, shared};
use super::ways::{ByChance, WithClock, chosen};
use flowgraph::BlockId;
use items::{ItemType, Items, Mark};
use kinds::Kind;
use plant::{Piece, Plant, PlantFault, Unwatched};
use settings::Value;
use std::alloc::Global;
use std::process::Abort;
use std::sync::{Arc, Wait};
use threads::{Caller, Desk, Finished, Gate, Threading, Turns, live, live_with};

/// Where a caller makes its calls: a desk, and what each call there takes.
#[derive(Drop)]
pub struct Seat<'s, 'd, G: Gate + Drop, R> {
    rt: &'s R,
    pub alloc: Global,
    pub desk: &'s mut Desk<'d, Kind, G>,
}

impl<'s, 'd, G: Gate + Drop, R: Wait> Seat<'s, 'd, G, R> {
    /// The seat at a desk.
    pub fn new(rt: &'s R, alloc: Global, desk: &'s mut Desk<'d, Kind, G>) -> Seat<'s, 'd, G, R> {
        Seat { rt, alloc, desk }
    }

    /// Feeds a source, and returns how many items its tape has then.
    pub fn feed(
        &mut self,
        source: BlockId,
        items: Items,
        marks: &[Mark],
    ) -> Result<u64, PlantFault> {
        let fed = self.desk.feed(self.rt, self.alloc, source, items, marks)?;
        Ok(fed.0)
    }

    /// Feeds a source with bytes that have no marks.
    pub fn feed_bytes(&mut self, source: BlockId, numbers: &[i64]) -> Result<u64, PlantFault> {
        let items = bytes(self.alloc, numbers)?;
        self.feed(source, items, &[])
    }

    /// Closes a source, and returns how many items its tape has.
    pub fn close(&mut self, source: BlockId) -> Result<u64, PlantFault> {
        Ok(self.desk.close(self.rt, source)?.0)
    }

    /// Sets the value of a block's setting, and returns from which item on.
    pub fn set(
        &mut self,
        block: BlockId,
        at: Option<u64>,
        value: Value,
    ) -> Result<u64, PlantFault> {
        Ok(self.desk.set(self.rt, self.alloc, block, at, value)?.0)
    }

    /// Reads so many items of a sink at most.
    pub fn read(
        &mut self,
        sink: BlockId,
        from: u64,
        max: u64,
    ) -> Result<Arc<Piece, Global>, PlantFault> {
        self.desk.read(self.rt, self.alloc, sink, from, max)
    }

    /// Asks for the end of the run.
    pub fn stop(&mut self) {
        self.desk.stop(self.rt);
    }
}

/// Whether calls were answered as they should be, or the fault of one that was not to have any.
pub type Answered = Result<bool, PlantFault>;

/// What a caller has to do.
pub trait Part {
    /// Makes its calls.
    fn make_calls<G: Gate + Drop, R: Wait>(&mut self, seat: &mut Seat<G, R>) -> Answered;
}

/// A caller that does its part.
#[derive(Drop)]
pub struct Does<P> {
    pub part: P,
    /// Whether it was answered as it should be.
    pub is_right: bool,
}

impl<P: Part> Caller<Kind> for Does<P> {
    fn run<G: Gate + Drop, R: Wait>(&mut self, rt: &R, alloc: Global, desk: &mut Desk<Kind, G>) {
        let mut seat = Seat::new(rt, alloc, desk);
        self.is_right = matches!(self.part.make_calls(&mut seat), Ok(true));
    }
}

/// Items of bytes.
pub fn bytes(alloc: Global, numbers: &[i64]) -> Result<Items, PlantFault> {
    match Items::from_numbers(alloc, ItemType::Byte, numbers) {
        Ok(items) => Ok(items),
        Err(_) => Err(PlantFault::ItemRange),
    }
}

/// A way of a run with callers.
#[derive(Clone, Copy, Debug, PartialEq, Eq)]
pub enum LiveWay {
    /// A thread for each block.
    EachBlock,
    /// As many threads as the work is worth.
    Adaptive,
    /// The same by a clock that makes a block seem dear now and then.
    Erratic,
}

/// All of them.
pub const LIVE_WAYS: [LiveWay; 3] = [LiveWay::EachBlock, LiveWay::Adaptive, LiveWay::Erratic];

/// A run in a way, with turns of this length, which ends.
pub fn finished_with<C: Caller<Kind> + Drop + Send, G: Gate + Drop + Send + Sync, R: Host + Sync>(
    rt: &R,
    alloc: Global,
    way: LiveWay,
    plant: Plant<Kind>,
    gate: &Arc<G, Global>,
    callers: Vec<C>,
    turns: Turns,
) -> Finished<Kind, C> {
    assert!(rt; plant.idle() && callers.len() <= 16, "it may begin");
    let own = share(rt, gate);
    let erratic = WithClock {
        rt: *rt,
        clock: ByChance,
    };
    let ended = match way {
        LiveWay::EachBlock => live(rt, alloc, plant, own, callers, turns),
        LiveWay::Adaptive => {
            let options = chosen(Threading::Adaptive, turns, own);
            live_with(rt, alloc, plant, callers, options, &mut Unwatched)
        }
        LiveWay::Erratic => {
            let options = chosen(Threading::Adaptive, turns, own);
            live_with(&erratic, alloc, plant, callers, options, &mut Unwatched)
        }
    };
    match ended {
        Ok(finished) => finished,
        Err(fault) => panic!(rt; "{way:?}: not finished: {fault}"),
    }
}

/// A run, which ends.
pub fn finished<C: Caller<Kind> + Drop + Send, G: Gate + Drop + Send + Sync, R: Host + Sync>(
    rt: &R,
    alloc: Global,
    way: LiveWay,
    plant: Plant<Kind>,
    gate: &Arc<G, Global>,
    callers: Vec<C>,
) -> Finished<Kind, C> {
    finished_with(rt, alloc, way, plant, gate, callers, Turns::default())
}

/// A run that ends, with a log for each of its callers, and in which no sleeper is missed.
pub fn counted<C: Caller<Kind> + Drop + Send, R: Host + Sync>(
    rt: &R,
    alloc: Global,
    way: LiveWay,
    plant: Plant<Kind>,
    callers: Vec<C>,
) -> Finished<Kind, C> {
    let gate = shared(rt, alloc, Counts::new());
    let many = callers.len();
    let ran = finished(rt, alloc, way, plant, &gate, callers);
    assert!(rt; gate.missed() == 0, "a sleeper was missed");
    assert!(rt; ran.callers.len() == many, "{many} callers");
    assert!(rt; ran.logs.len() == many, "{many} logs");
    ran
}

/// The same of callers that do their parts, of which each is answered as it should be.
pub fn answered<P: Part + Drop + Send, R: Host + Sync>(
    rt: &R,
    alloc: Global,
    way: LiveWay,
    plant: Plant<Kind>,
    callers: Vec<Does<P>>,
) -> Finished<Kind, Does<P>> {
    let ran = counted(rt, alloc, way, plant, callers);
    for (number, caller) in ran.callers.iter().enumerate() {
        assert!(rt; caller.is_right, "caller {number} was answered otherwise");
    }
    ran
}

/// Callers that do these parts.
pub fn doing<P: Drop>(rt: &impl Abort, alloc: Global, parts: Vec<P>) -> Vec<Does<P>> {
    let mut callers = Vec::new(alloc);
    for part in parts {
        let caller = Does {
            part,
            is_right: false,
        };
        assert!(rt; callers.push(caller).is_ok(), "no memory");
    }
    callers
}
