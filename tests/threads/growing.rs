//! Sinks that grow while callers feed and read.
use super::drawn::{Drawing, Make, SOURCE, STRAIGHT, plant};
use super::gates::Level;
use super::live_runs::{answered, Answered, bytes, Does, doing, LIVE_WAYS, Part, Seat};
use super::replays::{is_beginning, replay, same_logs};
use super::runs::{ALL, End, ended_as, piece, share, shared};
use flowgraph::BlockId;
use items::{Mark, TagKey};
use plant::Piece;
use std::alloc::{AllocError, Global};
use std::process::Abort;
use std::sync::{Arc, Wait};
use std::test::Fail;
use std::thread;
use threads::{Answer, Call, CallerId, Entry, Gate};

// How many single bytes one caller feeds.
const BYTES: u64 = 10_000;

// A source and a sink.
const WIDE: Drawing<'static> = Drawing {
    capacity: 4_096,
    ..STRAIGHT
};

// A source, a block that adds ten, one that gives each item twice, and a sink.
const TWICE: Drawing<'static> = Drawing {
    makes: &[
        Make::Source,
        Make::AddConst(10),
        Make::Repeat(2),
        Make::Sink,
    ],
    wires: &[(0, 0, 1, 0), (1, 0, 2, 0), (2, 0, 3, 0)],
    capacity: 16,
    ..STRAIGHT
};

// The sink of the drawing with a repeater.
const SINK: BlockId = BlockId(3);

// How many pieces are fed while another caller reads, and of how many items each is.
const PIECES: u64 = 150;

const PIECE: u64 = 3;

// No more pieces than these are fed before what came of them was read.
const AHEAD: u64 = 4;

// A caller reads no more often.
const MOST_READS: u32 = 20_000;

// So often it lets others go first between two reads.
const PAUSE: u32 = 20;

fn tape(n: u64) -> i64 {
    ((n * 7 + n / 256 * 3 + 3) % 256) as i64
}

// Feeds single bytes, and closes.
#[derive(Drop)]
struct FeedsBytes;

impl Part for FeedsBytes {
    fn make_calls<G: Gate + Drop, R: Wait>(&mut self, seat: &mut Seat<G, R>) -> Answered {
        for n in 0..BYTES {
            if seat.feed_bytes(SOURCE, &[tape(n)])? != n + 1 {
                return Ok(false);
            }
        }
        Ok(seat.close(SOURCE)? == BYTES)
    }
}

// Whether an entry is the call of this number: the feed of an item, and at last the close.
fn is_call(entry: &Entry, number: u64) -> bool {
    let is_its = match (&entry.call, &entry.reply) {
        (Call::Feed(feed), Answer::Fed(total)) => {
            feed.source == SOURCE
                && feed.items.len() == 1
                && feed.items.number(0) == tape(number)
                && feed.marks.is_empty()
                && *total == number + 1
        }
        (Call::Close(source), Answer::Closed(total)) => {
            *source == SOURCE && number == BYTES && *total == BYTES
        }
        _ => false,
    };
    is_its && entry.caller == CallerId::Desk(0)
}

#[test]
fn a_caller_feeds_10_000_single_bytes(rt: HostRuntime) -> Result<(), Fail> {
    let alloc = rt.alloc();
    for way in LIVE_WAYS {
    let callers = doing(&rt, alloc, vec![in alloc; FeedsBytes]?);
    let ran = answered(&rt, alloc, way, plant(&rt, alloc, &WIDE), callers);
    assert!(&rt; ran.logs[0].len() as u64 == BYTES + 1, "the log");
    for (number, entry) in (0..).zip(&ran.logs[0]) {
        assert!(&rt; is_call(entry, number), "call {number} in the log");
    }
    let mut calls = 0;
    for entry in &ran.history {
        if let CallerId::Desk(_) = entry.caller {
            assert!(&rt; is_call(entry, calls), "call {calls} in the history");
            calls += 1;
        }
    }
    assert!(&rt; calls == BYTES + 1, "{calls} calls in the history");
    let plant = ended_as(&rt, ran.outcome, End::Done);
    let piece = piece(&rt, alloc, &plant, BlockId(1));
    assert!(&rt; piece.done && piece.held == BYTES, "{} items", piece.held);
    for n in 0..BYTES {
        assert!(&rt; piece.items.number(n as usize) == tape(n), "item {n}");
    }
    }
    Ok(())
}

// Feeds pieces, of each the middle item with a mark, and closes.
#[derive(Drop)]
struct FeedsPieces {
    // How many items of the sink were read.
    read: Arc<Level, Global>,
}

impl FeedsPieces {
    fn make_calls<G: Gate + Drop, R: Wait>(&self, seat: &mut Seat<G, R>) -> Answered {
        let Some(key) = TagKey::new(b"p") else {
            return Ok(false);
        };
        for piece in 0..PIECES {
            if !self.read.wait(piece.saturating_sub(AHEAD) * PIECE * 2) {
                return Ok(false);
            }
            let first = piece * PIECE;
            let numbers = [tape(first), tape(first + 1), tape(first + 2)];
            let items = bytes(seat.alloc, &numbers)?;
            let mark = Mark {
                offset: first + 1,
                key,
                value: piece as i64,
            };
            if seat.feed(SOURCE, items, &[mark])? != first + PIECE {
                return Ok(false);
            }
        }
        Ok(seat.close(SOURCE)? == PIECES * PIECE)
    }
}

// Reads the sink from its first item on, again and again, until it is done.
#[derive(Drop)]
struct Reads {
    read: Arc<Level, Global>,
    // How often more was read than before.
    growths: u64,
}

impl Reads {
    fn make_calls<G: Gate + Drop, R: Wait>(&mut self, seat: &mut Seat<G, R>) -> Answered {
        let mut last = seat.read(SINK, 0, ALL)?;
        for _ in 0..MOST_READS {
            if last.done {
                return Ok(true);
            }
            for _ in 0..PAUSE {
                thread::yield_now();
            }
            let piece = seat.read(SINK, 0, ALL)?;
            if piece.held != piece.items.len() as u64 || !is_beginning(&last, &piece) {
                return Ok(false);
            }
            if last.held < piece.held {
                self.growths += 1;
            }
            self.read.rise(piece.held);
            last = piece;
        }
        Ok(false)
    }
}

// What a caller does.
#[derive(Drop)]
enum Role {
    Feeds(FeedsPieces),
    Reads(Reads),
}

impl Part for Role {
    fn make_calls<G: Gate + Drop, R: Wait>(&mut self, seat: &mut Seat<G, R>) -> Answered {
        match self {
            Role::Feeds(feeds) => feeds.make_calls(seat),
            Role::Reads(reads) => reads.make_calls(seat),
        }
    }
}

fn one_of_each(rt: &impl Abort, alloc: Global) -> Result<Vec<Does<Role>>, AllocError> {
    let read = shared(rt, alloc, Level::new());
    let feeds = FeedsPieces {
        read: share(rt, &read),
    };
    let reads = Reads { read, growths: 0 };
    let parts = vec![in alloc; Role::Feeds(feeds), Role::Reads(reads)]?;
    Ok(doing(rt, alloc, parts))
}

// The sink has each item of the tape twice, with ten added, and the mark of each piece on the first of the two.
fn has_it_twice(rt: &impl Abort, piece: &Piece) {
    assert!(rt; piece.done && piece.held == PIECES * PIECE * 2, "the sink");
    for n in 0..PIECES * PIECE * 2 {
        let wanted = (tape(n / 2) + 10) % 256;
        assert!(rt; piece.items.number(n as usize) == wanted, "item {n}");
    }
    assert!(rt; piece.tags.len() as u64 == PIECES, "the tags");
    for (n, tag) in (0..PIECES).zip(&piece.tags) {
        let is_right = tag.offset == (n * PIECE + 1) * 2
            && Some(tag.key) == TagKey::new(b"p")
            && tag.value == n as i64
            && tag.source == SOURCE.0;
        assert!(rt; is_right, "tag {n}");
    }
}

#[test]
fn what_is_read_of_a_sink_that_grows_is_its_beginning(rt: HostRuntime) -> Result<(), Fail> {
    let alloc = rt.alloc();
    for way in LIVE_WAYS {
    let callers = one_of_each(&rt, alloc)?;
    let ran = answered(&rt, alloc, way, plant(&rt, alloc, &TWICE), callers);
    for caller in &ran.callers {
        if let Role::Reads(reads) = &caller.part {
            // (no more than some pieces come in one read, the first included)
            assert!(&rt;
                PIECES / (AHEAD + 1) <= reads.growths + 1,
                "it grew {} times",
                reads.growths
            );
        }
    }
    let plant = ended_as(&rt, ran.outcome, End::Done);
    let whole = piece(&rt, alloc, &plant, SINK);
    has_it_twice(&rt, &whole);
    for (number, entry) in ran.logs[1].iter().enumerate() {
        let is_right = match &entry.reply {
            Answer::Piece(piece) => is_beginning(piece, &whole),
            _ => false,
        };
        assert!(&rt; is_right, "read {number}");
    }
    same_logs(&rt, &ran.history, &ran.logs);
    replay(&rt, alloc, &TWICE, &ran.history, &plant);
    }
    Ok(())
}
