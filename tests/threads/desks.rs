//! Callers at their desks while threads run.
use super::drawn::Make::{AddConst, Not, Sink, Source};
use super::drawn::{Drawing, EMPTY, SINK, SOURCE, plant};
use super::gates::Flag;
use super::live_runs::{answered, Answered, bytes, counted, doing, finished, LIVE_WAYS, Part, Seat};
use super::replays::{replay, same_logs};
use super::runs::{ALL, End, ended_as, piece, share, shared};
use flowgraph::BlockId;
use items::{Mark, TagKey};
use kinds::Kind;
use plant::{Piece, Plant, PlantFault};
use settings::Value;
use std::alloc::Global;
use std::process::Abort;
use std::sync::{Arc, Wait};
use std::test::Fail;
use threads::Gate;

/// A source, a block that adds ten, and a sink.
pub const ADDER: Drawing<'static> = Drawing {
    makes: &[Source, AddConst(10), Sink],
    wires: &[(0, 0, 1, 0), (1, 0, 2, 0)],
    capacity: 64,
    ..EMPTY
};

// Four chains.
const FOUR: Drawing<'static> = Drawing {
    makes: &[
        Source, Source, Source, Source, Not, Not, Not, Not, Sink, Sink, Sink, Sink,
    ],
    wires: &[
        (0, 0, 4, 0),
        (1, 0, 5, 0),
        (2, 0, 6, 0),
        (3, 0, 7, 0),
        (4, 0, 8, 0),
        (5, 0, 9, 0),
        (6, 0, 10, 0),
        (7, 0, 11, 0),
    ],
    capacity: 3,
    ..EMPTY
};

const ADDS: BlockId = BlockId(1);

// How many pieces each of four callers feeds.
const PIECES: i64 = 200;

/// Feeds, sets, feeds, reads too far, and closes. What came otherwise than it should is noted.
#[derive(Drop)]
pub struct Sets {
    pub wrong: u32,
}

impl Part for Sets {
    fn make_calls<G: Gate + Drop, R: Wait>(&mut self, seat: &mut Seat<G, R>) -> Answered {
        if seat.feed_bytes(SOURCE, &[250]) != Ok(1) {
            self.wrong += 1;
        }
        if seat.set(ADDS, Some(1), Value::Number(20)) != Ok(1) {
            self.wrong += 2;
        }
        if seat.feed_bytes(SOURCE, &[1]) != Ok(2) {
            self.wrong += 4;
        }
        if !matches!(seat.read(SINK, 9, 1), Err(PlantFault::BeyondEnd)) {
            self.wrong += 8;
        }
        if seat.close(SOURCE) != Ok(2) {
            self.wrong += 16;
        }
        if seat.close(SOURCE) != Err(PlantFault::Closed) || seat.desk.log().len() != 6 {
            self.wrong += 32;
        }
        Ok(self.wrong == 0)
    }
}

#[test]
fn a_caller_is_answered_as_by_a_plant(rt: HostRuntime) -> Result<(), Fail> {
    let alloc = rt.alloc();
    for way in LIVE_WAYS {
    let callers = doing(&rt, alloc, vec![in alloc; Sets { wrong: 0 }]?);
    let ran = counted(&rt, alloc, way, plant(&rt, alloc, &ADDER), callers);
    let wrong = ran.callers[0].part.wrong;
    assert!(&rt; ran.callers[0].is_right && wrong == 0, "wrong: {wrong}");
    assert!(&rt; ran.logs[0].len() == 6, "six calls");
    let plant = ended_as(&rt, ran.outcome, End::Done);
    holds_what_was_set(&rt, alloc, &plant);
    same_logs(&rt, &ran.history, &ran.logs);
    replay(&rt, alloc, &ADDER, &ran.history, &plant);
    }
    Ok(())
}

/// Asserts that the sink holds what came of 250 and of 1: ten was added to the first, and twenty to the second.
pub fn holds_what_was_set(rt: &impl Abort, alloc: Global, plant: &Plant<Kind>) {
    let piece = piece(rt, alloc, plant, SINK);
    assert!(rt; piece.done && piece.held == 2, "both items");
    assert!(rt;
        piece.items.number(0) == 4 && piece.items.number(1) == 21,
        "the sink"
    );
}

// Feeds one item, waits until the sink has it, and so again; then reads.
#[derive(Drop)]
struct Overlaps {
    gate: Arc<Sees, Global>,
}

// Sees the first and the second firing of the sink.
#[derive(Drop)]
struct Sees {
    first: Flag,
    second: Flag,
}

impl Gate for Sees {
    fn pass(&self, _block: BlockId, _firing: u64) {}

    // (one item is there at a time)
    fn worked(&self, block: BlockId, _firings: u32) {
        if block.0 != SINK.0 {
            return;
        }
        if self.first.is_up() {
            self.second.raise();
        }
        self.first.raise();
    }
}

impl Part for Overlaps {
    fn make_calls<G: Gate + Drop, R: Wait>(&mut self, seat: &mut Seat<G, R>) -> Answered {
        let _ = seat.feed_bytes(SOURCE, &[1]);
        let first = self.gate.first.wait();
        let _ = seat.feed_bytes(SOURCE, &[2]);
        let second = first && self.gate.second.wait();
        let read = seat.read(SINK, 0, ALL);
        let _ = seat.close(SOURCE);
        let piece = read?;
        Ok(second && 1 <= piece.items.len() && piece.items.number(0) == 11)
    }
}

#[test]
fn callers_and_workers_go_on_together(rt: HostRuntime) -> Result<(), Fail> {
    let alloc = rt.alloc();
    for way in LIVE_WAYS {
    let sees = Sees {
        first: Flag::new(),
        second: Flag::new(),
    };
    let gate = shared(&rt, alloc, sees);
    let caller = Overlaps {
        gate: share(&rt, &gate),
    };
    let callers = doing(&rt, alloc, vec![in alloc; caller]?);
    let ran = finished(&rt, alloc, way, plant(&rt, alloc, &ADDER), &gate, callers);
    assert!(&rt;
        ran.callers.len() == 1 && ran.callers[0].is_right,
        "what was read begins with 11"
    );
    let _ = ended_as(&rt, ran.outcome, End::Done);
    }
    Ok(())
}

// Feeds its source in pieces of three, reads its sink meanwhile, and closes.
#[derive(Drop)]
struct Feeds {
    chain: u32,
}

fn item_of(chain: u32, n: i64) -> i64 {
    (n * 7 + i64::from(chain)) % 256
}

impl Feeds {
    fn feed<G: Gate + Drop, R: Wait>(&self, seat: &mut Seat<G, R>, piece: i64) -> Answered {
        let first = piece * 3;
        let items = [
            item_of(self.chain, first),
            item_of(self.chain, first + 1),
            item_of(self.chain, first + 2),
        ];
        let Some(key) = TagKey::new(b"p") else {
            return Ok(false);
        };
        let mark = Mark {
            offset: first as u64,
            key,
            value: piece,
        };
        let items = bytes(seat.alloc, &items)?;
        let fed = seat.feed(BlockId(self.chain), items, &[mark])?;
        Ok(fed == (first + 3) as u64)
    }
}

impl Part for Feeds {
    fn make_calls<G: Gate + Drop, R: Wait>(&mut self, seat: &mut Seat<G, R>) -> Answered {
        let mut held = 0;
        let mut is_right = true;
        for piece in 0..PIECES {
            let is_fed = self.feed(seat, piece)?;
            is_right = is_right && is_fed;
            let more = seat.read(BlockId(8 + self.chain), held, ALL)?;
            for at in 0..more.items.len() {
                let wanted = 255 - item_of(self.chain, held as i64 + at as i64);
                is_right = is_right && more.items.number(at) == wanted;
            }
            held = more.held;
        }
        let closed = seat.close(BlockId(self.chain))?;
        Ok(is_right && closed == PIECES as u64 * 3)
    }
}

// A sink has the items of its chain with their bits turned, and a tag for each piece.
fn holds_what_was_fed(rt: &impl Abort, chain: u32, piece: &Piece) {
    assert!(rt;
        piece.done && piece.held == PIECES as u64 * 3,
        "sink {chain}"
    );
    assert!(rt; piece.tags.len() == PIECES as usize, "tags {chain}");
    for n in 0..PIECES * 3 {
        assert!(rt;
            piece.items.number(n as usize) == 255 - item_of(chain, n),
            "item {n} of {chain}"
        );
    }
}

#[test]
fn four_callers_feed_a_source_each(rt: HostRuntime) -> Result<(), Fail> {
    let alloc = rt.alloc();
    for way in LIVE_WAYS {
    let mut parts = Vec::new(alloc);
    for chain in 0..4 {
        parts.push(Feeds { chain })?;
    }
    let callers = doing(&rt, alloc, parts);
    let ran = answered(&rt, alloc, way, plant(&rt, alloc, &FOUR), callers);
    for (chain, log) in ran.logs.iter().enumerate() {
        assert!(&rt; log.len() == PIECES as usize * 2 + 1, "log {chain}");
    }
    let plant = ended_as(&rt, ran.outcome, End::Done);
    for chain in 0..4 {
        holds_what_was_fed(&rt, chain, &piece(&rt, alloc, &plant, BlockId(8 + chain)));
    }
    same_logs(&rt, &ran.history, &ran.logs);
    replay(&rt, alloc, &FOUR, &ran.history, &plant);
    }
    Ok(())
}

// Does nothing, or asks for a stop.
#[derive(Drop)]
struct Leaves {
    stops: bool,
}

impl Part for Leaves {
    fn make_calls<G: Gate + Drop, R: Wait>(&mut self, seat: &mut Seat<G, R>) -> Answered {
        if self.stops {
            seat.stop();
        }
        Ok(true)
    }
}

#[test]
fn a_source_left_open_stalls_or_is_stopped(rt: HostRuntime) -> Result<(), Fail> {
    let alloc = rt.alloc();
    for way in LIVE_WAYS {
    for (parts, wanted) in [
        (vec![in alloc; Leaves { stops: false }]?, End::Stalled),
        (vec![in alloc; Leaves { stops: true }]?, End::Stopped),
        (Vec::new(alloc), End::Stalled),
    ] {
        let callers = doing(&rt, alloc, parts);
        let ran = answered(&rt, alloc, way, plant(&rt, alloc, &ADDER), callers);
        for log in &ran.logs {
            assert!(&rt; log.is_empty(), "no call");
        }
        let _ = ended_as(&rt, ran.outcome, wanted);
    }
    }
    Ok(())
}
