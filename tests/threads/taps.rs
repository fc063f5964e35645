//! The taps of a filter that are set while it works.
use super::drawn::{SINK, SOURCE, opened};
use super::gates::Level;
use super::live_runs::{answered, Answered, doing, LIVE_WAYS, Part, Seat};
use super::replays::{replay_on, same_logs};
use super::runs::{End, ended_as, piece, share, shared};
use fir_blocks::Fir;
use flowgraph::BlockId;
use items::{ItemType, Items};
use kinds::{Kind, VectorSink, VectorSource};
use plant::{Plant, PlantFault};
use settings::{Taps, Value};
use std::alloc::Global;
use std::process::Abort;
use std::sync::{Arc, Wait};
use std::test::Fail;
use threads::{Answer, Call, Entry, Gate};

const FILTER: BlockId = BlockId(1);

// How many pieces are fed, and of how many items each is.
const PIECES: u64 = 24;

const PIECE: u64 = 10;

// No more pieces than these are fed before new taps are set.
const AHEAD: u64 = 3;

// The sink is read no more often before new taps are set.
const MOST_READS: u32 = 100_000;

// A source, a filter of two taps that adds two items in a row, and a sink, of shorts.
fn filtered(rt: &impl Abort, alloc: Global) -> Plant<Kind> {
    let short = ItemType::Short;
    let mut blocks = Vec::new(alloc);
    let Ok(filter) = Fir::new(alloc, short, &[1, 1], 1, 0) else {
        panic!(rt; "no such filter");
    };
    for kind in [
        Kind::VectorSource(VectorSource::new(short)),
        Kind::Fir(filter),
        Kind::VectorSink(VectorSink::new(short)),
    ] {
        assert!(rt; blocks.push(kind).is_ok(), "no memory");
    }
    opened(rt, alloc, blocks, &[(0, 0, 1, 0), (1, 0, 2, 0)], 16)
}

fn tape(n: u64) -> i64 {
    (n % 17) as i64 - 5
}

// The taps of the setting of this number.
fn taps(number: u64) -> [i16; 2] {
    [number as i16 + 2, 3 - number as i16]
}

fn taps_value(alloc: Global, taps: &[i16]) -> Result<Value, PlantFault> {
    Ok(Value::Taps(Taps::new(Vec::from_slice(alloc, taps)?)))
}

// A caller that feeds and closes, or one that sets.
#[derive(Drop)]
struct Filters {
    sets: bool,
    // How many taps were set.
    set: Arc<Level, Global>,
}

impl Filters {
    fn feed<G: Gate + Drop, R: Wait>(&self, seat: &mut Seat<G, R>) -> Answered {
        for piece in 0..PIECES {
            if !self.set.wait(piece.saturating_sub(AHEAD)) {
                return Ok(false);
            }
            let mut numbers = [0; PIECE as usize];
            for (n, number) in (piece * PIECE..).zip(&mut numbers) {
                *number = tape(n);
            }
            let Ok(items) = Items::from_numbers(seat.alloc, ItemType::Short, &numbers) else {
                return Ok(false);
            };
            if seat.feed(SOURCE, items, &[])? != (piece + 1) * PIECE {
                return Ok(false);
            }
        }
        Ok(seat.close(SOURCE)? == PIECES * PIECE)
    }

    // Sets new taps each time that a piece more has come to the sink.
    fn set<G: Gate + Drop, R: Wait>(&self, seat: &mut Seat<G, R>) -> Answered {
        for number in 0..PIECES {
            let floor = number * PIECE;
            if !comes_to(seat, floor)? {
                return Ok(false);
            }
            let new = taps_value(seat.alloc, &taps(number))?;
            let at = seat.set(FILTER, None, new)?;
            if at < floor || floor + (AHEAD + 1) * PIECE < at {
                return Ok(false);
            }
            self.set.rise(number + 1);
            if !is_refused(seat, floor)? {
                return Ok(false);
            }
        }
        Ok(true)
    }
}

// Reads the end of the sink until it has as many items as that.
fn comes_to<G: Gate + Drop, R: Wait>(seat: &mut Seat<G, R>, items: u64) -> Answered {
    for _ in 0..MOST_READS {
        if items <= seat.read(SINK, 0, 0)?.held {
            return Ok(true);
        }
        std::thread::yield_now();
    }
    Ok(false)
}

// Whether what is no two taps is refused, and what comes too late where so many items were taken.
fn is_refused<G: Gate + Drop, R: Wait>(seat: &mut Seat<G, R>, taken: u64) -> Answered {
    let three = taps_value(seat.alloc, &[1, 2, 3])?;
    let is_wrong = |set| matches!(set, Err(PlantFault::WrongSetting));
    let mut is_right = is_wrong(seat.set(FILTER, None, three))
        && is_wrong(seat.set(FILTER, None, Value::Number(1)));
    if 0 < taken {
        let late = taps_value(seat.alloc, &[0, 0])?;
        let late = seat.set(FILTER, Some(taken - 1), late);
        is_right = is_right && matches!(late, Err(PlantFault::Late { floor }) if taken <= floor);
    }
    Ok(is_right)
}

impl Part for Filters {
    fn make_calls<G: Gate + Drop, R: Wait>(&mut self, seat: &mut Seat<G, R>) -> Answered {
        if self.sets {
            self.set(seat)
        } else {
            self.feed(seat)
        }
    }
}

// What the sink is to have: the two items that end at each, by the taps that were taken last from there or before.
fn has_what_taps_give(rt: &impl Abort, alloc: Global, plant: &Plant<Kind>, history: &[Entry]) {
    let piece = piece(rt, alloc, plant, SINK);
    assert!(rt; piece.done && piece.held == PIECES * PIECE, "the sink");
    for n in 0..PIECES * PIECE {
        let mut own = [1, 1];
        for entry in history {
            if let (Call::Set(setting), Answer::Taken(at)) = (&entry.call, &entry.reply) {
                if let (Value::Taps(taps), true) = (&setting.value, *at <= n) {
                    own = [taps.as_slice()[0], taps.as_slice()[1]];
                }
            }
        }
        let before = if n == 0 { 0 } else { tape(n - 1) };
        let wanted = i64::from(own[0]) * tape(n) + i64::from(own[1]) * before;
        let number = piece.items.number(n as usize);
        assert!(rt; number == wanted, "item {n} is {number}, not {wanted}");
    }
}

#[test]
fn taps_are_set_in_the_middle_of_a_run(rt: HostRuntime) -> Result<(), Fail> {
    let alloc = rt.alloc();
    for way in LIVE_WAYS {
    let set = shared(&rt, alloc, Level::new());
    let mut parts = Vec::new(alloc);
    for sets in [true, false] {
        parts.push(Filters {
            sets,
            set: share(&rt, &set),
        })?;
    }
    let callers = doing(&rt, alloc, parts);
    let ran = answered(&rt, alloc, way, filtered(&rt, alloc), callers);
    let plant = ended_as(&rt, ran.outcome, End::Done);
    has_what_taps_give(&rt, alloc, &plant, &ran.history);
    same_logs(&rt, &ran.history, &ran.logs);
    replay_on(&rt, alloc, &mut filtered(&rt, alloc), &ran.history, &plant);
    }
    Ok(())
}
