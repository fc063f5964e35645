//! Callers that make calls by chance, and check that their logs have each call as it was made and answered.
use super::drawn::Make;
use super::gates::Counts;
use super::live_runs::Seat;
use super::random::Chance;
use super::replays::same_entry;
use super::runs::ALL;
use flowgraph::BlockId;
use items::{ItemType, Items, Mark, TagKey};
use kinds::Kind;
use settings::{Taps, Value};
use std::alloc::{AllocError, Global};
use std::sync::{Arc, Wait};
use std::thread;
use threads::{Answer, Call, Caller, CallerId, Desk, Entry, Feed, Gate, Setting};

// Calls of a caller, but for those that close, are so many at least, and less than so many more.
const CALLS: u64 = 9;

// Between two calls it lets others go first up to so often, or until workers have claimed so often.
const PAUSE: u32 = 20;

const CLAIMS: u64 = 8;

// Whether the log of a desk has the call, as it was made and answered.
type Logged = Result<bool, AllocError>;

/// A caller that makes calls by chance.
#[derive(Drop)]
pub struct RandomCaller {
    number: u32,
    chance: Chance,
    makes: Vec<Make>,
    gate: Arc<Counts, Global>,
    // How many items the tape of each block has, by the last feed of this caller.
    lengths: Vec<u64>,
    made: usize,
    wrong: u32,
}

// What sort of block a call is for.
#[derive(Clone, Copy)]
enum Target {
    Source,
    Setting,
    Sink,
}

impl Target {
    fn is_at(self, make: Make) -> bool {
        match self {
            Target::Source => matches!(make, Make::Source),
            Target::Setting => matches!(
                make,
                Make::AddConst(_) | Make::MultiplyConst(_) | Make::Scale(..)
            ),
            Target::Sink => matches!(make, Make::Sink),
        }
    }
}

fn numbers_as(alloc: Global, item: ItemType, numbers: &[i64]) -> Result<Items, AllocError> {
    match Items::from_numbers(alloc, item, numbers) {
        Ok(items) => Ok(items),
        Err(_) => Err(AllocError),
    }
}

fn held<T: Drop>(alloc: Global, value: T) -> Result<Arc<T, Global>, AllocError> {
    match Arc::new(alloc, value) {
        Ok(held) => Ok(held),
        Err(_) => Err(AllocError),
    }
}

impl RandomCaller {
    /// The caller of this number, of a plant of such blocks whose workers pass this gate.
    pub fn new(
        alloc: Global,
        number: u32,
        chance: Chance,
        makes: &[Make],
        gate: Arc<Counts, Global>,
    ) -> Result<RandomCaller, AllocError> {
        Ok(RandomCaller {
            number,
            chance,
            makes: Vec::from_slice(alloc, makes)?,
            gate,
            lengths: Vec::from_elem(alloc, 0, makes.len())?,
            made: 0,
            wrong: 0,
        })
    }

    /// Whether it is the caller of this number.
    pub fn is_number(&self, number: u32) -> bool {
        self.number == number
    }

    /// How many calls were not in its log as they were made and answered.
    pub fn wrong(&self) -> u32 {
        self.wrong
    }

    // A block for a call: now and then any, or none of the graph.
    fn block(&mut self, target: Target) -> BlockId {
        let blocks = self.makes.len() as u64;
        let first = self.chance.below(blocks + 1);
        if 0 < self.chance.below(12) {
            for step in 0..blocks {
                let block = (first + step) % blocks;
                if target.is_at(self.makes[block as usize]) {
                    return BlockId(block as u32);
                }
            }
        }
        BlockId(first as u32)
    }

    // Up to two marks, mostly on the items that are fed, where nobody else has fed since.
    fn marks(
        &mut self,
        alloc: Global,
        source: BlockId,
        count: u64,
    ) -> Result<Vec<Mark>, AllocError> {
        let mut marks = Vec::new(alloc);
        let first = match self.lengths.get(source.0 as usize) {
            Some(length) => *length,
            None => 0,
        };
        for _ in 0..self.chance.below(3) {
            let behind = self.chance.below(10) / 9;
            let offset = first + self.chance.below(count.max(1)) + behind;
            if let Some(key) = TagKey::new(&[b'a' + self.chance.below(3) as u8]) {
                let value = self.chance.below(7) as i64 - 3;
                marks.push(Mark { offset, key, value })?;
            }
        }
        Ok(marks)
    }

    fn feed<G: Gate + Drop, R: Wait>(&mut self, seat: &mut Seat<G, R>) -> Logged {
        let (alloc, source) = (seat.alloc, self.block(Target::Source));
        let mut numbers = Vec::new(alloc);
        for _ in 0..self.chance.below(8) {
            numbers.push(self.chance.below(256) as i64)?;
        }
        let item = match self.chance.below(16) {
            0 => ItemType::Short,
            _ => ItemType::Byte,
        };
        let marks = self.marks(alloc, source, numbers.len() as u64)?;
        let items = numbers_as(alloc, item, &numbers)?;
        let reply = match seat.feed(source, items, &marks) {
            Ok(total) => {
                self.lengths[source.0 as usize] = total;
                Answer::Fed(total)
            }
            Err(fault) => Answer::Refused(fault),
        };
        let items = numbers_as(alloc, item, &numbers)?;
        let feed = Feed {
            source,
            items,
            marks,
        };
        Ok(self.is_logged(seat.desk, Call::Feed(held(alloc, feed)?), reply))
    }

    fn close<G: Gate + Drop, R: Wait>(&mut self, seat: &mut Seat<G, R>, source: BlockId) -> bool {
        let reply = match seat.close(source) {
            Ok(total) => Answer::Closed(total),
            Err(fault) => Answer::Refused(fault),
        };
        self.is_logged(seat.desk, Call::Close(source), reply)
    }

    // A value: mostly a number that each setting takes.
    fn value(&mut self, alloc: Global) -> Result<Value, AllocError> {
        Ok(match self.chance.below(12) {
            0 => Value::Taps(Taps::new(Vec::from_slice(alloc, &[1, 2])?)),
            1 => Value::Number(-1 - self.chance.below(3) as i64 * 20_000),
            _ => Value::Number(self.chance.below(256) as i64),
        })
    }

    fn set<G: Gate + Drop, R: Wait>(&mut self, seat: &mut Seat<G, R>) -> Logged {
        let (alloc, block) = (seat.alloc, self.block(Target::Setting));
        let at = match self.chance.below(2) {
            0 => None,
            _ => Some(self.chance.below(4) * self.chance.below(16)),
        };
        let value = self.value(alloc)?;
        let reply = match seat.set(block, at, value.copy(alloc)?) {
            Ok(taken) => Answer::Taken(taken),
            Err(fault) => Answer::Refused(fault),
        };
        let setting = Setting { block, at, value };
        Ok(self.is_logged(seat.desk, Call::Set(held(alloc, setting)?), reply))
    }

    fn read<G: Gate + Drop, R: Wait>(&mut self, seat: &mut Seat<G, R>) -> bool {
        let sink = self.block(Target::Sink);
        let from = self.chance.below(3) * self.chance.below(8);
        let max = match self.chance.below(2) {
            0 => ALL,
            _ => self.chance.below(20),
        };
        let reply = match seat.read(sink, from, max) {
            Ok(piece) => Answer::Piece(piece),
            Err(fault) => Answer::Refused(fault),
        };
        self.is_logged(seat.desk, Call::Read(sink, from, max), reply)
    }

    // Whether the last of the log is this call, and the log has no other more.
    fn is_logged<G: Gate + Drop>(
        &mut self,
        desk: &Desk<Kind, G>,
        call: Call,
        reply: Answer,
    ) -> bool {
        self.made += 1;
        let entry = Entry {
            caller: CallerId::Desk(self.number),
            call,
            reply,
        };
        match desk.log().last() {
            Some(last) => desk.log().len() == self.made && same_entry(last, &entry),
            None => false,
        }
    }

    // Lets the workers go on for some claims.
    fn pause(&mut self) {
        let claims = self.gate.passed() + self.chance.below(CLAIMS);
        for _ in 0..PAUSE {
            if claims <= self.gate.passed() {
                return;
            }
            thread::yield_now();
        }
    }

    fn call<G: Gate + Drop, R: Wait>(&mut self, seat: &mut Seat<G, R>) -> Logged {
        match self.chance.below(40) {
            0..=17 => self.feed(seat),
            18..=28 => self.set(seat),
            29..=38 => Ok(self.read(seat)),
            _ => {
                let source = self.block(Target::Source);
                Ok(self.close(seat, source))
            }
        }
    }
}

impl Caller<Kind> for RandomCaller {
    fn run<G: Gate + Drop, R: Wait>(&mut self, rt: &R, alloc: Global, desk: &mut Desk<Kind, G>) {
        let mut seat = Seat::new(rt, alloc, desk);
        for _ in 0..CALLS + self.chance.below(CALLS) {
            if !matches!(self.call(&mut seat), Ok(true)) {
                self.wrong += 1;
            }
            self.pause();
        }
        // (the third caller stops the run, and two of three others leave no source open)
        if self.number == 2 {
            seat.stop();
        }
        if self.chance.below(3) == 0 {
            return;
        }
        for block in 0..self.makes.len() {
            let source = BlockId(block as u32);
            if Target::Source.is_at(self.makes[block]) && !self.close(&mut seat, source) {
                self.wrong += 1;
            }
        }
    }
}
