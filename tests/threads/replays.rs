//! Histories that are played again, and whether what is noted is the same.
use super::drawn::{Drawing, plant};
use claimed_work::Job;
use flowgraph::BlockId;
use kinds::Kind;
use plant::{Claim, Piece, Plant};
use std::alloc::Global;
use std::process::Abort;
use std::sync::Arc;
use threads::{Answer, Call, CallerId, Entry};

/// Makes the calls of a history of a plant of its own, call by call: each is answered as it was, and the plant ends as
/// the other did.
pub fn replay(
    rt: &impl Abort,
    alloc: Global,
    drawing: &Drawing<'_>,
    history: &[Entry],
    end: &Plant<Kind>,
) {
    let mut own = plant(rt, alloc, drawing);
    replay_on(rt, alloc, &mut own, history, end);
}

/// The same of a plant that is where the history began.
pub fn replay_on(
    rt: &impl Abort,
    alloc: Global,
    own: &mut Plant<Kind>,
    history: &[Entry],
    end: &Plant<Kind>,
) {
    let mut jobs: Vec<Option<Job<Kind>>> = Vec::new(alloc);
    for _ in 0..own.graph().len() {
        assert!(rt; jobs.push(None).is_ok(), "no memory");
    }
    for (number, entry) in history.iter().enumerate() {
        assert!(rt; is_of_its_caller(entry), "who made call {number}");
        let is_same = match answer_of(alloc, own, &mut jobs, &entry.call) {
            Some(answer) => same_answer(&answer, &entry.reply),
            None => false,
        };
        assert!(rt; is_same, "call {number}");
    }
    same_state(rt, alloc, own, end);
}

// Claims and commits are made by the worker of their block, and all others at desks.
fn is_of_its_caller(entry: &Entry) -> bool {
    match (&entry.call, entry.caller) {
        (Call::Claim(block, _) | Call::Commit(block), CallerId::Worker(other)) => *block == other,
        (Call::Claim(..) | Call::Commit(_), CallerId::Desk(_)) => false,
        (_, CallerId::Desk(_)) => true,
        (_, CallerId::Worker(_)) => false,
    }
}

// What a plant answers to a call. It is none for what is never noted: that a block waits, or is busy, or that work
// comes back.
fn answer_of(
    alloc: Global,
    own: &mut Plant<Kind>,
    jobs: &mut [Option<Job<Kind>>],
    call: &Call,
) -> Option<Answer> {
    Some(match call {
        Call::Feed(feed) => match own.feed_from(feed.source, &feed.items, &feed.marks) {
            Ok(fed) => Answer::Fed(fed.0),
            Err(fault) => Answer::Refused(fault),
        },
        Call::Close(source) => match own.close(*source) {
            Ok(closed) => Answer::Closed(closed.0),
            Err(fault) => Answer::Refused(fault),
        },
        Call::Set(setting) => {
            let value = setting.value.copy(alloc).ok()?;
            match own.set(setting.block, setting.at, value) {
                Ok(taken) => Answer::Taken(taken.0),
                Err(fault) => Answer::Refused(fault),
            }
        }
        Call::Read(sink, from, max) => match own.read(alloc, *sink, *from, *max) {
            Ok(piece) => Answer::Piece(Arc::new(alloc, piece).ok()?),
            Err(fault) => Answer::Refused(fault),
        },
        Call::Claim(block, max) => return claimed(alloc, own, jobs, *block, *max),
        Call::Commit(block) => {
            let job = jobs.get_mut(block.0 as usize)?.take()?;
            Answer::Did(own.commit(job.work()).ok()?.0)
        }
    })
}

// The same of a claim, whose job waits for its commit.
fn claimed(
    alloc: Global,
    own: &mut Plant<Kind>,
    jobs: &mut [Option<Job<Kind>>],
    block: BlockId,
    max: u32,
) -> Option<Answer> {
    match own.claim(alloc, block, max.max(1)) {
        Ok(Claim::Claimed(job)) => {
            let answer = Answer::Claimed(job.first(), job.count());
            *jobs.get_mut(block.0 as usize)? = Some(job);
            Some(answer)
        }
        Ok(Claim::Done) => Some(Answer::Done),
        Ok(Claim::Busy | Claim::Waiting(_)) => None,
        Err(fault) => Some(Answer::Refused(fault)),
    }
}

/// Asserts that two plants were handed the same, are as far in each block, and show and store the same.
pub fn same_state(rt: &impl Abort, alloc: Global, one: &Plant<Kind>, other: &Plant<Kind>) {
    match (one.opening(alloc), other.opening(alloc)) {
        (Ok(one), Ok(other)) => assert!(rt; one.agrees(&other), "how far they are"),
        _ => panic!(rt; "no memory"),
    }
    for block in 0..one.graph().len() as u32 {
        let block = BlockId(block);
        let is_same = match (
            one.read(alloc, block, 0, u64::MAX),
            other.read(alloc, block, 0, u64::MAX),
        ) {
            (Ok(one), Ok(other)) => same_piece(&one, &other),
            (Err(one), Err(other)) => one == other,
            _ => false,
        };
        assert!(rt; is_same, "what block {} shows", block.0);
        for port in 0..one.graph().outputs(block) {
            assert!(rt;
                one.stored(block, port) == other.stored(block, port),
                "what block {} stores",
                block.0
            );
        }
    }
}

/// Whether two entries note the same.
pub fn same_entry(one: &Entry, other: &Entry) -> bool {
    one.caller == other.caller
        && same_call(&one.call, &other.call)
        && same_answer(&one.reply, &other.reply)
}

fn same_call(one: &Call, other: &Call) -> bool {
    match (one, other) {
        (Call::Feed(one), Call::Feed(other)) => {
            one.source == other.source
                && one.items == other.items
                && one.marks.as_slice() == other.marks.as_slice()
        }
        (Call::Close(one), Call::Close(other)) => one == other,
        (Call::Set(one), Call::Set(other)) => {
            one.block == other.block && one.at == other.at && one.value.is_same(&other.value)
        }
        (Call::Read(one, from, max), Call::Read(other, start, most)) => {
            one == other && from == start && max == most
        }
        (Call::Claim(one, max), Call::Claim(other, most)) => one == other && max == most,
        (Call::Commit(one), Call::Commit(other)) => one == other,
        _ => false,
    }
}

fn same_answer(one: &Answer, other: &Answer) -> bool {
    match (one, other) {
        (Answer::Fed(one), Answer::Fed(other)) => one == other,
        (Answer::Closed(one), Answer::Closed(other)) => one == other,
        (Answer::Taken(one), Answer::Taken(other)) => one == other,
        (Answer::Piece(one), Answer::Piece(other)) => same_piece(one, other),
        (Answer::Claimed(first, count), Answer::Claimed(other, many)) => {
            first == other && count == many
        }
        (Answer::Done, Answer::Done) => true,
        (Answer::Did(one), Answer::Did(other)) => one == other,
        (Answer::Refused(one), Answer::Refused(other)) => one == other,
        _ => false,
    }
}

fn same_piece(one: &Piece, other: &Piece) -> bool {
    one.from == other.from
        && one.held == other.held
        && one.items == other.items
        && one.tags.as_slice() == other.tags.as_slice()
        && one.done == other.done
}

/// Whether a piece from the first item on is a beginning of another: its items, and the tags on them and no others.
pub fn is_beginning(one: &Piece, other: &Piece) -> bool {
    let (items, tags) = (one.items.len(), one.tags.len());
    if one.from != 0 || other.from != 0 || other.items.len() < items || other.tags.len() < tags {
        return false;
    }
    (0..items).all(|n| one.items.number(n) == other.items.number(n))
        && one.tags.as_slice() == &other.tags[..tags]
        && other.tags[tags..]
            .iter()
            .all(|tag| items as u64 <= tag.offset)
}

/// Asserts that each log has what the history has of its desk, in order, and that there is no other desk.
pub fn same_logs(rt: &impl Abort, history: &[Entry], logs: &[Vec<Entry>]) {
    let mut calls = 0;
    for (desk, log) in (0..u32::MAX).zip(logs) {
        calls += log.len();
        let mut left = log.iter();
        for entry in history {
            if entry.caller != CallerId::Desk(desk) {
                continue;
            }
            let is_same = match left.next() {
                Some(own) => same_entry(own, entry),
                None => false,
            };
            assert!(rt; is_same, "log {desk}");
        }
        assert!(rt; left.next().is_none(), "log {desk} is longer");
    }
    let noted = history
        .iter()
        .filter(|&entry| matches!(entry.caller, CallerId::Desk(_)))
        .count();
    assert!(rt; noted == calls, "{noted} calls at desks, {calls} in logs");
}
