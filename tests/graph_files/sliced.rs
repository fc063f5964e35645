//! Graphs that are drawn by chance, run whole and in slices that begin anywhere, with marks and settings close
//! together: what slices give, one behind the other, is what the whole run gives, items and tags.
use super::forgetful::{Draft, Sets, Settable};
use flowgraph::{BlockId, Valid};
use file_plants::open_later;
use graph_file::read_graph;
use items::{Mark, Tag, TagKey};
use kinds::Kind;
use rates::{Rates, balance};
use settings::{Taps, Value};
use slices::{Asks, Plan, Planned, plan_slices};
use std::alloc::Global;
use std::process::Abort;
use std::test::Fail;
use streaming::{Settled, StreamingPlant};

// More items than this a source is not fed, so that a graph whose slices would overlap further is run in one.
const MOST: u64 = 1_500;

// Behind the overlap a tape has so many iterations at most.
const ITERATIONS: usize = 24;

// What a source is fed: numbers, and marks on them.
#[derive(Drop)]
struct Tape {
    source: BlockId,
    period: u64,
    numbers: Vec<i64>,
    marks: Vec<Mark>,
}

// A call that sets a block from an item on.
#[derive(Clone, Copy)]
struct Call {
    of: Settable,
    at: u64,
    number: i64,
}

// A graph with what it is fed, and how it is cut.
#[derive(Drop)]
struct Trial {
    text: String,
    graph: Valid<Kind>,
    firings: Vec<u32>,
    plan: Plan,
    tapes: Vec<Tape>,
    calls: Vec<Call>,
    // How many iterations all tapes have.
    iterations: u64,
}

// What came of a sink.
#[derive(Drop)]
struct Given {
    numbers: Vec<i64>,
    tags: Vec<Tag>,
}

// A tape of so many items, with marks on about a third of them.
fn tape(
    rt: &impl Abort,
    alloc: Global,
    draft: &mut Draft,
    source: BlockId,
    period: u64,
    length: u64,
) -> Result<Tape, Fail> {
    let Some(key) = TagKey::new(b"k") else {
        panic!(rt; "a key");
    };
    let (mut numbers, mut marks) = (Vec::new(alloc), Vec::new(alloc));
    for offset in 0..length {
        numbers.push(draft.draw(256) as i64)?;
        if draft.draw(3) == 0 {
            marks.push(Mark { offset, key, value: draft.draw(9) as i64 })?;
        }
    }
    Ok(Tape { source, period, numbers, marks })
}

// Some calls that set each block that may be set, in the order of their items.
fn calls(alloc: Global, draft: &mut Draft) -> Result<Vec<Call>, Fail> {
    let mut calls = Vec::new(alloc);
    for block in 0..draft.set.len() {
        let of = draft.set[block];
        let most = match of.sets {
            Sets::Number(most) => most,
            _ => 99,
        };
        let mut at = draft.draw(20) as u64;
        for _ in 0..draft.draw(30) {
            let number = draft.draw(most as usize + 1) as i64;
            calls.push(Call { of, at, number })?;
            at += draft.draw(12) as u64;
        }
    }
    Ok(calls)
}

// A graph of this number, if its rates and its overlap are small enough.
fn trial(rt: &impl Abort, alloc: Global, draft: &mut Draft) -> Result<Option<Trial>, Fail> {
    let text = draft.text(alloc)?;
    let Ok(file) = read_graph(alloc, text.as_bytes()) else {
        panic!(rt; "the file is refused: {}", text.as_str());
    };
    let Ok((graph, _)) = file.validate(alloc) else {
        panic!(rt; "the graph is refused: {}", text.as_str());
    };
    let Ok(Rates::Balanced(rates)) = balance(alloc, &graph) else {
        return Ok(None);
    };
    let Ok(Planned::Plan(plan)) = plan_slices(alloc, &graph, &rates, Asks::ItemsAndTags) else {
        panic!(rt; "no plan: {}", text.as_str());
    };
    let longest = plan.sources.iter().fold(1, |most, source| most.max(source.period));
    let iterations = (plan.overlap + 1 + draft.draw(ITERATIONS) as u64).min(MOST / longest);
    let mut tapes = Vec::new(alloc);
    for source in &plan.sources {
        // (its last iteration is not whole, and now and then it ends long before the others)
        let more = draft.draw(2 * source.period as usize) as u64;
        let length = (iterations * source.period + more) / [1, 1, 1, 3][draft.draw(4)];
        tapes.push(tape(rt, alloc, draft, source.block, source.period, length)?)?;
    }
    let calls = calls(alloc, draft)?;
    let firings = Vec::from_slice(alloc, rates.firings())?;
    Ok(Some(Trial { text, graph, firings, plan, tapes, calls, iterations }))
}

fn value(alloc: Global, call: &Call) -> Result<Value, Fail> {
    match call.of.sets {
        Sets::Taps(count) => {
            let mut taps = Vec::new(alloc);
            for at in 0..count {
                taps.push((call.number as i16) - 3 * at as i16)?;
            }
            Ok(Value::Taps(Taps::new(taps)))
        }
        _ => Ok(Value::Number(call.number)),
    }
}

// Sets and feeds a plant whose blocks stand so many iterations behind the first: what stands between these and others,
// or their end.
fn feed(
    rt: &impl Abort,
    alloc: Global,
    trial: &Trial,
    plant: &mut StreamingPlant<Kind>,
    from: u64,
    end: Option<u64>,
) -> Result<(), Fail> {
    for call in &trial.calls {
        let block = call.of.block;
        let firings = u64::from(trial.firings[block.0 as usize]) * u64::from(trial.graph.multiple(block));
        // (those before the first item come to stand on it, and the last one holds)
        let at = call.at.saturating_sub(from * firings * call.of.taken);
        let set = plant.set(block, Some(at), value(alloc, call)?);
        assert!(rt; set.is_ok(), "block {} is set: {}", block.0, trial.text.as_str());
    }
    for tape in &trial.tapes {
        let length = tape.numbers.len() as u64;
        let start = (from * tape.period).min(length);
        let end = end.map_or(length, |end| (end * tape.period).min(length));
        let mut marks = Vec::new(alloc);
        for mark in &tape.marks {
            if start <= mark.offset && mark.offset < end {
                marks.push(Mark { offset: mark.offset - start, key: mark.key, value: mark.value })?;
            }
        }
        let numbers = &tape.numbers[start as usize..end as usize];
        let fed = plant.feed_numbers(alloc, tape.source, numbers, &marks);
        assert!(rt; fed.is_ok(), "fed: {}", trial.text.as_str());
        assert!(rt; plant.close(tape.source).is_ok(), "closed");
    }
    Ok(())
}

// What each sink is given by a run of the tapes between these iterations.
fn run(
    rt: &impl Abort,
    alloc: Global,
    trial: &Trial,
    from: u64,
    end: Option<u64>,
) -> Result<Vec<Given>, Fail> {
    let (text, graph) = (trial.text.as_bytes(), &trial.graph);
    let Ok(mut plant) = open_later(alloc, text, graph, &trial.firings, from) else {
        panic!(rt; "no later plant: {}", trial.text.as_str());
    };
    feed(rt, alloc, trial, &mut plant, from, end)?;
    let settled = plant.settle(alloc, 64);
    assert!(rt; matches!(settled, Ok(Settled::Done)), "not done: {}", trial.text.as_str());
    let mut all = Vec::new(alloc);
    for sink in &trial.plan.sinks {
        let Ok(piece) = plant.drain(alloc, sink.block, u64::MAX) else {
            panic!(rt; "not drained");
        };
        let mut numbers = Vec::new(alloc);
        for at in 0..piece.items.len() {
            numbers.push(piece.items.number(at))?;
        }
        all.push(Given { numbers, tags: piece.tags })?;
    }
    Ok(all)
}

// Where slices begin: at the first iteration, and at one or two of those behind the overlap.
fn begins(alloc: Global, draft: &mut Draft, trial: &Trial) -> Result<Vec<u64>, Fail> {
    let mut begins = vec![in alloc; 0]?;
    let most = 2 + draft.draw(3) / 2;
    let mut at = trial.plan.overlap + draft.draw(3) as u64;
    while at <= trial.iterations && begins.len() < most {
        if at != 0 {
            begins.push(at)?;
        }
        at += 1 + draft.draw(ITERATIONS / 2) as u64;
    }
    Ok(begins)
}

// What slices give the sinks, one behind the other.
fn run_slices(
    rt: &impl Abort,
    alloc: Global,
    trial: &Trial,
    begins: &[u64],
) -> Result<Vec<Given>, Fail> {
    let mut joined = Vec::new(alloc);
    for _ in &trial.plan.sinks {
        joined.push(Given { numbers: Vec::new(alloc), tags: Vec::new(alloc) })?;
    }
    for (number, begin) in begins.iter().enumerate() {
        let slice = trial.plan.slice(alloc, *begin)?;
        let given = run(rt, alloc, trial, slice.from, begins.get(number + 1).copied())?;
        for (at, part) in slice.parts.iter().enumerate() {
            let drop = (part.drop as usize).min(given[at].numbers.len());
            joined[at].numbers.extend_from_slice(&given[at].numbers[drop..])?;
            for tag in &given[at].tags {
                if part.drop <= tag.offset {
                    let offset = tag.offset - part.drop + part.stands;
                    joined[at].tags.push(Tag { offset, key: tag.key, value: tag.value, source: tag.source })?;
                }
            }
        }
    }
    Ok(joined)
}

// Tries so many graphs, from this number on, of which most are cut.
fn try_graphs(rt: &impl Abort, alloc: Global, first: u64, count: u64) -> Result<(), Fail> {
    let mut cut = 0;
    for seed in first..first + count {
        let mut draft = Draft::new(alloc, seed)?;
        let Some(trial) = trial(rt, alloc, &mut draft)? else {
            continue;
        };
        let whole = run(rt, alloc, &trial, 0, None)?;
        let begins = begins(alloc, &mut draft, &trial)?;
        let joined = run_slices(rt, alloc, &trial, &begins)?;
        for (at, sink) in trial.plan.sinks.iter().enumerate() {
            let (name, text) = (sink.block.0, trial.text.as_str());
            assert!(rt; joined[at].numbers == whole[at].numbers, "graph {seed}: the items of b{name}: {text}");
            assert!(rt; joined[at].tags == whole[at].tags, "graph {seed}: the tags of b{name}: {text}");
        }
        if 1 < begins.len() {
            cut += 1;
        }
    }
    assert!(rt; count * 4 / 5 <= cut, "of {count} graphs {cut} are cut");
    Ok(())
}

#[test]
fn graphs_0_to_249_in_slices(rt: HostRuntime) -> Result<(), Fail> {
    try_graphs(&rt, rt.alloc(), 0, 250)
}

#[test]
fn graphs_250_to_499_in_slices(rt: HostRuntime) -> Result<(), Fail> {
    try_graphs(&rt, rt.alloc(), 250, 250)
}

#[test]
fn graphs_500_to_749_in_slices(rt: HostRuntime) -> Result<(), Fail> {
    try_graphs(&rt, rt.alloc(), 500, 250)
}

#[test]
fn graphs_750_to_999_in_slices(rt: HostRuntime) -> Result<(), Fail> {
    try_graphs(&rt, rt.alloc(), 750, 250)
}

#[test]
fn graphs_1000_to_1249_in_slices(rt: HostRuntime) -> Result<(), Fail> {
    try_graphs(&rt, rt.alloc(), 1_000, 250)
}

#[test]
fn graphs_1250_to_1499_in_slices(rt: HostRuntime) -> Result<(), Fail> {
    try_graphs(&rt, rt.alloc(), 1_250, 250)
}

#[test]
fn graphs_1500_to_1749_in_slices(rt: HostRuntime) -> Result<(), Fail> {
    try_graphs(&rt, rt.alloc(), 1_500, 250)
}

#[test]
fn graphs_1750_to_1999_in_slices(rt: HostRuntime) -> Result<(), Fail> {
    try_graphs(&rt, rt.alloc(), 1_750, 250)
}
