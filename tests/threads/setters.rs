//! Callers that feed, close, set and read by chance, of graphs that are drawn by chance. Each history is played again,
//! and settled on one thread.
use super::drawn::{Drawing, Make, plant};
use super::gates::Counts;
use super::live_runs::{finished_with, LIVE_WAYS, LiveWay};
use super::random::{Chance, Graph, drawn_graph};
use super::random_callers::RandomCaller;
use super::replays::{is_beginning, replay, same_logs};
use super::runs::{End, Host, piece, same_sinks, settle, share, shared, split};
use flowgraph::BlockId;
use kinds::Kind;
use plant::{Plant, PlantFault};
use std::alloc::{AllocError, Global};
use std::ops::Range;
use std::process::Abort;
use std::sync::Arc;
use std::test::Fail;
use threads::{Answer, Call, CallerId, Entry, Finished, Turns};

// How many runs a test is of.
const RUNS: u64 = 60;

// Between its sources and its sinks a graph has no more blocks.
const MOST_BLOCKS: u64 = 3;

/// The graph of a seed, in which blocks that would turn bits have a setting, and so has each other with one input and
/// one output by chance.
pub fn graph_of(alloc: Global, seed: u64) -> Result<Graph, AllocError> {
    let mut graph = drawn_graph(alloc, seed, MOST_BLOCKS)?;
    let mut chance = Chance::new(seed + 2_000);
    for make in &mut graph.makes {
        let takes_its_place = match *make {
            Make::Not => true,
            other => other.inputs() == 1 && other.outputs() == 1 && chance.below(2) == 0,
        };
        if takes_its_place {
            *make = match chance.below(3) {
                0 => Make::AddConst(chance.below(256) as i64),
                1 => Make::MultiplyConst(chance.below(256) as i64),
                _ => Make::Scale(chance.below(400) as i64 - 200, chance.below(8) as u32),
            };
        }
    }
    Ok(graph)
}

// How many callers make calls in the run of a seed: two, and now and then a third that also stops the run.
fn count_of(seed: u64) -> usize {
    if seed % 8 == 0 { 3 } else { 2 }
}

fn callers_of(
    rt: &impl Abort,
    alloc: Global,
    drawing: &Drawing<'_>,
    gate: &Arc<Counts, Global>,
    seed: u64,
) -> Result<Vec<RandomCaller>, AllocError> {
    let mut callers = Vec::new(alloc);
    for number in 0..count_of(seed) as u32 {
        let chance = Chance::new(seed * 3 + u64::from(number) + 3_000);
        let gate = share(rt, gate);
        callers.push(RandomCaller::new(alloc, number, chance, drawing.makes, gate)?)?;
    }
    Ok(callers)
}

// A plant that is handed what a history hands over, each setting where it was taken, and settles on one thread.
fn settled_of(
    rt: &impl Abort,
    alloc: Global,
    drawing: &Drawing<'_>,
    history: &[Entry],
) -> Plant<Kind> {
    let mut own = plant(rt, alloc, drawing);
    for entry in history {
        let is_same = match (&entry.call, &entry.reply) {
            (Call::Feed(feed), Answer::Fed(_)) => own
                .feed_from(feed.source, &feed.items, &feed.marks)
                .is_ok(),
            (Call::Close(source), Answer::Closed(_)) => own.close(*source).is_ok(),
            (Call::Set(setting), Answer::Taken(at)) => match setting.value.copy(alloc) {
                Ok(value) => own.set(setting.block, Some(*at), value).is_ok(),
                Err(_) => false,
            },
            _ => true,
        };
        assert!(rt; is_same, "handed over");
    }
    settle(rt, alloc, &mut own);
    own
}

// What a run came to is what comes of it on one thread: where it was stopped, a beginning.
fn is_as_on_one_thread(
    rt: &impl Abort,
    alloc: Global,
    drawing: &Drawing<'_>,
    history: &[Entry],
    end: End,
    plant: &Plant<Kind>,
    what: &str,
) {
    let settled = settled_of(rt, alloc, drawing, history);
    if end != End::Stopped {
        same_sinks(rt, alloc, drawing, plant, &settled, what);
        return;
    }
    for (block, make) in (0..u32::MAX).zip(drawing.makes) {
        if let Make::Sink = *make {
            let one = piece(rt, alloc, plant, BlockId(block));
            let whole = piece(rt, alloc, &settled, BlockId(block));
            assert!(rt; is_beginning(&one, &whole), "{what}: sink {block}");
        }
    }
}

// Kinds of answers, each of which is to come.
const ANSWER_KINDS: [&str; 15] = [
    "fed without a mark",
    "fed with marks",
    "a feed refused for its mark",
    "a feed refused for its type",
    "a feed refused for its block",
    "a feed refused since the source is closed",
    "closed",
    "a close refused",
    "set in the middle",
    "set at the beginning or behind",
    "set too late",
    "a set refused otherwise",
    "read",
    "read with tags",
    "a read refused",
];

// Of which kind the answer to a call at a desk is.
fn answer_kind(entry: &Entry) -> Option<usize> {
    Some(match (&entry.call, &entry.reply) {
        (Call::Feed(feed), Answer::Fed(_)) => usize::from(!feed.marks.is_empty()),
        (Call::Feed(_), Answer::Refused(PlantFault::TagPlace)) => 2,
        (Call::Feed(_), Answer::Refused(PlantFault::ItemRange)) => 3,
        (Call::Feed(_), Answer::Refused(PlantFault::Closed)) => 5,
        (Call::Feed(_), _) => 4,
        (Call::Close(_), Answer::Closed(_)) => 6,
        (Call::Close(_), _) => 7,
        (Call::Set(setting), Answer::Taken(at)) if setting.at.is_none() && 0 < *at => 8,
        (Call::Set(_), Answer::Taken(_)) => 9,
        (Call::Set(_), Answer::Refused(PlantFault::Late { .. })) => 10,
        (Call::Set(_), _) => 11,
        (Call::Read(..), Answer::Piece(piece)) => 12 + usize::from(!piece.tags.is_empty()),
        (Call::Read(..), _) => 14,
        (Call::Claim(..) | Call::Commit(_), _) => return None,
    })
}

// A run, of which all is compared.
fn is_played_again(
    rt: &impl Abort,
    alloc: Global,
    drawing: &Drawing<'_>,
    ran: Finished<Kind, RandomCaller>,
    what: &str,
) {
    for (number, caller) in (0..u32::MAX).zip(&ran.callers) {
        assert!(rt; caller.is_number(number), "{what}: caller {number}");
        assert!(rt;
            caller.wrong() == 0,
            "{what}: {} calls of caller {number} are not in its log as they were answered",
            caller.wrong()
        );
    }
    same_logs(rt, &ran.history, &ran.logs);
    let (end, plant) = split(rt, ran.outcome);
    replay(rt, alloc, drawing, &ran.history, &plant);
    is_as_on_one_thread(rt, alloc, drawing, &ran.history, end, &plant, what);
}

// The runs of these seeds, of which each kind of answer comes in some.
fn are_played_again<R: Host + Sync>(
    rt: &R,
    alloc: Global, way: LiveWay,
    seeds: Range<u64>,
) -> Result<(), AllocError> {
    let mut counts = [0; ANSWER_KINDS.len()];
    for seed in seeds {
        let graph = graph_of(alloc, seed)?;
        let drawing = graph.drawing();
        let what = format!(in alloc; "run {seed}")?;
        let gate = shared(rt, alloc, Counts::new());
        let callers = callers_of(rt, alloc, &drawing, &gate, seed)?;
        let Some(turns) = Turns::new(1 + (seed % 9) as u32) else {
            panic!(rt; "no turns");
        };
        let opened = plant(rt, alloc, &drawing);
        let ran = finished_with(rt, alloc, way, opened, &gate, callers, turns);
        assert!(rt; gate.missed() == 0, "{what}: no sleeper was missed");
        assert!(rt;
            ran.callers.len() == count_of(seed) && ran.logs.len() == count_of(seed),
            "{what}: callers and logs"
        );
        for entry in &ran.history {
            if let (CallerId::Desk(_), Some(kind)) = (entry.caller, answer_kind(entry)) {
                counts[kind] += 1;
            }
        }
        is_played_again(rt, alloc, &drawing, ran, &what);
    }
    for (count, kind) in counts.iter().zip(ANSWER_KINDS) {
        assert!(rt; 0 < *count, "in no run: {kind}");
    }
    Ok(())
}

#[test]
fn calls_by_chance_are_answered_as_by_a_plant(rt: HostRuntime) -> Result<(), Fail> {
    for way in LIVE_WAYS {
    are_played_again(&rt, rt.alloc(), way, 0..RUNS)?;
    }
    Ok(())
}

#[test]
fn more_calls_by_chance_are_answered_as_by_a_plant(rt: HostRuntime) -> Result<(), Fail> {
    for way in LIVE_WAYS {
    are_played_again(&rt, rt.alloc(), way, RUNS..2 * RUNS)?;
    }
    Ok(())
}
