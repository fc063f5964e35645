//! Callers that leave one after another, that stop the run, that do nothing, or that are not there.
use super::drawn::{Drawing, SINK, SOURCE, TURNED, fed, feed, plant, tape_item};
use super::gates::Level;
use super::live_runs::{answered, Answered, counted, Does, doing, LIVE_WAYS, LiveWay, Part, Seat};
use super::replays::{replay_on, same_logs};
use super::runs::{ALL, End, Host, ended_as, holds_turned, piece, share, shared};
use kinds::Kind;
use plant::Plant;
use std::alloc::{AllocError, Global};
use std::process::Abort;
use std::sync::{Arc, Wait};
use std::test::Fail;
use threads::{Answer, Call, CallerId, Entry, Finished, Gate};

const ITEMS: u32 = 30;

const CHAIN: Drawing<'static> = Drawing {
    capacity: 8,
    items: ITEMS,
    ..TURNED
};

// As many callers as a run may have.
const CALLERS: u32 = 16;

// Orders in which they leave, by numbers: from the last to the first, and a mixed one.
const ORDERS: [[u32; 16]; 2] = [
    [15, 14, 13, 12, 11, 10, 9, 8, 7, 6, 5, 4, 3, 2, 1, 0],
    [7, 0, 14, 3, 9, 15, 1, 12, 5, 10, 2, 8, 13, 4, 11, 6],
];

// A caller that waits until so many others have made their calls as its place says, and then reads once more often than
// its number says, each time at most so many items as its number.
#[derive(Drop)]
struct Numbered {
    number: u32,
    place: u64,
    made: Arc<Level, Global>,
}

impl Part for Numbered {
    fn make_calls<G: Gate + Drop, R: Wait>(&mut self, seat: &mut Seat<G, R>) -> Answered {
        let mut is_right = self.made.wait(self.place);
        for _ in 0..self.number + 1 {
            let read = seat.read(SINK, 0, u64::from(self.number));
            is_right = is_right && read.is_ok();
        }
        self.made.rise(self.place + 1);
        Ok(is_right)
    }
}

fn callers_in(
    rt: &impl Abort,
    alloc: Global,
    order: &[u32],
) -> Result<Vec<Does<Numbered>>, AllocError> {
    let made = shared(rt, alloc, Level::new());
    let mut parts = Vec::new(alloc);
    for number in 0..CALLERS {
        let Some(place) = order.iter().position(|other| *other == number) else {
            panic!(rt; "caller {number} has no place");
        };
        parts.push(Numbered {
            number,
            place: place as u64,
            made: share(rt, &made),
        })?;
    }
    Ok(doing(rt, alloc, parts))
}

// Whether an entry is a read by the caller of this number.
fn is_read_by(entry: &Entry, number: u32) -> bool {
    let Call::Read(sink, from, max) = &entry.call else {
        return false;
    };
    let is_its = *sink == SINK && *from == 0 && *max == u64::from(number);
    is_its && entry.caller == CallerId::Desk(number)
}

// Callers and logs stand by their numbers.
fn stand_by_number(rt: &impl Abort, ran: &Finished<Kind, Does<Numbered>>) {
    assert!(rt; ran.callers.len() == 16, "sixteen callers");
    for ((number, caller), log) in (0..CALLERS).zip(&ran.callers).zip(&ran.logs) {
        let own = caller.part.number;
        assert!(rt; own == number, "caller {own} in place {number}");
        assert!(rt; log.len() as u32 == number + 1, "the calls of log {number}");
        for entry in log {
            assert!(rt; is_read_by(entry, number), "log {number}");
        }
    }
}

// The calls at desks stand in the history in the order in which they were made.
fn stand_in_order(rt: &impl Abort, history: &[Entry], order: &[u32]) {
    let mut entries = history
        .iter()
        .filter(|&entry| matches!(entry.caller, CallerId::Desk(_)));
    for number in order {
        for read in 0..*number + 1 {
            let is_right = match entries.next() {
                Some(entry) => is_read_by(entry, *number),
                None => false,
            };
            assert!(rt; is_right, "read {read} of caller {number}");
        }
    }
    assert!(rt; entries.next().is_none(), "no other call");
}

#[test]
fn callers_keep_their_order_however_they_leave(rt: HostRuntime) -> Result<(), Fail> {
    let alloc = rt.alloc();
    for way in LIVE_WAYS {
    for order in ORDERS {
        let callers = callers_in(&rt, alloc, &order)?;
        let ran = answered(&rt, alloc, way, fed(&rt, alloc, &CHAIN), callers);
        stand_by_number(&rt, &ran);
        stand_in_order(&rt, &ran.history, &order);
        same_logs(&rt, &ran.history, &ran.logs);
        let plant = ended_as(&rt, ran.outcome, End::Done);
        holds_turned(&rt, alloc, &plant, SINK, ITEMS);
        replay_on(
            &rt,
            alloc,
            &mut fed(&rt, alloc, &CHAIN),
            &ran.history,
            &plant,
        );
    }
    }
    Ok(())
}

// A caller that feeds the first items, and stops the run; or one that goes on behind it: it feeds the others and
// closes.
#[derive(Drop)]
struct Stops {
    goes_on: bool,
    stopped: Arc<Level, Global>,
}

// How many items come before the stop.
const BEFORE: u32 = 20;

impl Part for Stops {
    fn make_calls<G: Gate + Drop, R: Wait>(&mut self, seat: &mut Seat<G, R>) -> Answered {
        let items = if self.goes_on {
            BEFORE..ITEMS
        } else {
            0..BEFORE
        };
        if self.goes_on && !self.stopped.wait(1) {
            return Ok(false);
        }
        for n in items {
            if seat.feed_bytes(SOURCE, &[tape_item(n)])? != u64::from(n) + 1 {
                return Ok(false);
            }
        }
        if self.goes_on {
            let closed = seat.close(SOURCE)?;
            let piece = seat.read(SINK, 0, ALL)?;
            return Ok(closed == u64::from(ITEMS) && piece.held <= u64::from(BEFORE) && !piece.done);
        }
        seat.stop();
        self.stopped.rise(1);
        Ok(true)
    }
}

// A run that is stopped: nothing is claimed behind the stop, and callers go on.
fn stopped<R: Host + Sync>(rt: &R, alloc: Global, way: LiveWay) -> Result<(Plant<Kind>, Vec<Entry>), AllocError> {
    let stopped = shared(rt, alloc, Level::new());
    let mut parts = Vec::new(alloc);
    for goes_on in [true, false] {
        parts.push(Stops {
            goes_on,
            stopped: share(rt, &stopped),
        })?;
    }
    let callers = doing(rt, alloc, parts);
    let ran = answered(rt, alloc, way, plant(rt, alloc, &CHAIN), callers);
    let mut is_stopped = false;
    for entry in &ran.history {
        is_stopped = is_stopped || entry.caller == CallerId::Desk(0);
        assert!(rt;
            !is_stopped || !matches!(entry.reply, Answer::Claimed(..)),
            "claimed behind the stop"
        );
    }
    assert!(rt; is_stopped, "the other caller did not go on");
    same_logs(rt, &ran.history, &ran.logs);
    let plant = ended_as(rt, ran.outcome, End::Stopped);
    Ok((plant, ran.history))
}

fn nobody(alloc: Global) -> Vec<Does<Idles>> {
    Vec::new(alloc)
}

#[test]
fn a_run_that_a_caller_stopped_goes_on_later(rt: HostRuntime) -> Result<(), Fail> {
    let alloc = rt.alloc();
    for way in LIVE_WAYS {
    for _ in 0..20 {
        let (plant_one, history) = stopped(&rt, alloc, way)?;
        let given = plant_one.headway().given;
        assert!(&rt; given <= u64::from(BEFORE), "{given} given");
        let mut own = plant(&rt, alloc, &CHAIN);
        replay_on(&rt, alloc, &mut own, &history, &plant_one);
        let ran = counted(&rt, alloc, way, plant_one, nobody(alloc));
        let plant_two = ended_as(&rt, ran.outcome, End::Done);
        holds_turned(&rt, alloc, &plant_two, SINK, ITEMS);
        replay_on(&rt, alloc, &mut own, &ran.history, &plant_two);
    }
    }
    Ok(())
}

// A caller that does nothing.
#[derive(Drop)]
struct Idles;

impl Part for Idles {
    fn make_calls<G: Gate + Drop, R: Wait>(&mut self, _seat: &mut Seat<G, R>) -> Answered {
        Ok(true)
    }
}

// A run whose callers make no call: it ends so, and the sink has all that was fed.
fn ends_so<R: Host + Sync>(rt: &R, alloc: Global, way: LiveWay, closes: bool, callers: Vec<Does<Idles>>) {
    let many = callers.len();
    let mut opened = plant(rt, alloc, &CHAIN);
    let mut own = plant(rt, alloc, &CHAIN);
    for plant in [&mut opened, &mut own] {
        feed(rt, alloc, plant, SOURCE, ITEMS);
        if closes {
            assert!(rt; plant.close(SOURCE).is_ok(), "closed");
        }
    }
    let ran = answered(rt, alloc, way, opened, callers);
    same_logs(rt, &ran.history, &ran.logs);
    let wanted = if closes { End::Done } else { End::Stalled };
    let plant = ended_as(rt, ran.outcome, wanted);
    let piece = piece(rt, alloc, &plant, SINK);
    assert!(rt;
        piece.held == u64::from(ITEMS) && piece.done == closes,
        "{many} callers: {} items",
        piece.held
    );
    for n in 0..ITEMS {
        let wanted = 255 - tape_item(n);
        assert!(rt;
            piece.items.number(n as usize) == wanted,
            "{many} callers: item {n}"
        );
    }
    replay_on(rt, alloc, &mut own, &ran.history, &plant);
}

#[test]
fn a_run_without_calls_stalls_or_is_done(rt: HostRuntime) -> Result<(), Fail> {
    let alloc = rt.alloc();
    for way in LIVE_WAYS {
    for closes in [false, true] {
        ends_so(&rt, alloc, way, closes, nobody(alloc));
        let one = doing(&rt, alloc, vec![in alloc; Idles]?);
        ends_so(&rt, alloc, way, closes, one);
    }
    }
    Ok(())
}
