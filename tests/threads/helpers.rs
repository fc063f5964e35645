//! Plants that stream, with threads that help: graphs drawn by chance beside the whole run of a plant, work that takes
//! no time, which stays with the caller, and dear work, which does not.
use super::drawn::{Drawing, Make, TURNED, graph, tape};
use super::random::drawn_graph;
use super::runs::{piece, settled};
use super::ways::{ByChance, Shows, Still, WithClock};
use flowgraph::BlockId;
use helper_threads::HelperThreads;
use kinds::Kind;
use std::alloc::Global;
use std::process::Abort;
use std::sync::Wait;
use std::test::Fail;
use std::thread;
use std::thread::Threads;
use std::time::Clock;
use streaming::StreamingPlant;

const GRAPHS: u64 = 40;

// So often a run is made again until what depends on the machine comes about.
const RUNS: u32 = 100;

// Time goes by a thousand times as fast, so that all work is dear.
#[derive(Clone, Copy)]
struct Fast;

impl Shows for Fast {
    fn shows(&self, nanos: u64) -> u64 {
        nanos.wrapping_mul(1_000)
    }
}

// Rounds until nothing moves on.
fn rounds<R: Threads + Wait + Clock + Copy + Send + 'static>(
    rt: &impl Abort,
    alloc: Global,
    plant: &mut StreamingPlant<Kind>,
    helpers: &mut HelperThreads<Kind, R>,
) {
    for _ in 0..100_000 {
        match plant.round_with(alloc, 64, helpers) {
            Ok(true) => {}
            Ok(false) => return,
            Err(_) => panic!(rt; "no memory"),
        }
    }
    panic!(rt; "no end");
}

// Feeds each source a part of its tape, and the rest once nothing moves on, with rounds behind each.
fn fed_in_parts<R: Threads + Wait + Clock + Copy + Send + 'static>(
    rt: &impl Abort,
    alloc: Global,
    drawing: &Drawing<'_>,
    plant: &mut StreamingPlant<Kind>,
    helpers: &mut HelperThreads<Kind, R>,
) {
    let (numbers, marks) = tape(rt, alloc, drawing.items);
    let cut = (drawing.items / 3) as usize;
    let marked = marks.iter().filter(|mark| mark.offset < cut as u64).count();
    for part in [(&numbers[..cut], &marks[..marked]), (&numbers[cut..], &marks[marked..])] {
        for (block, make) in (0..u32::MAX).zip(drawing.makes) {
            if let Make::Source = *make {
                let fed = plant.feed_numbers(alloc, BlockId(block), part.0, part.1);
                assert!(rt; fed.is_ok(), "fed");
            }
        }
        rounds(rt, alloc, plant, helpers);
    }
    for (block, make) in (0..u32::MAX).zip(drawing.makes) {
        if let Make::Source = *make {
            assert!(rt; plant.close(BlockId(block)).is_ok(), "closed");
        }
    }
    rounds(rt, alloc, plant, helpers);
}

// Asserts that each sink gives what it holds in a plant that ran whole.
fn same_as_whole(
    rt: &impl Abort,
    alloc: Global,
    drawing: &Drawing<'_>,
    plant: &mut StreamingPlant<Kind>,
    what: &str,
) {
    let whole = settled(rt, alloc, drawing);
    for (block, make) in (0..u32::MAX).zip(drawing.makes) {
        if let Make::Sink = *make {
            let wanted = piece(rt, alloc, &whole, BlockId(block));
            let Ok(came) = plant.drain(alloc, BlockId(block), u64::MAX) else {
                panic!(rt; "drained");
            };
            assert!(rt; came.items == wanted.items, "{what}: the items of sink {block}");
            assert!(rt; came.tags.as_slice() == wanted.tags.as_slice(), "{what}: the tags of sink {block}");
            assert!(rt; came.done == wanted.done && came.held == wanted.held, "{what}: the end of sink {block}");
        }
    }
}

// The plant of a drawing, fed and run with helpers of this runtime; it returns how many jobs were given away.
fn helped<R: Threads + Wait + Clock + Copy + Send + 'static>(
    rt: &impl Abort,
    clocked: R,
    alloc: Global,
    drawing: &Drawing<'_>,
    what: &str,
) -> u64 {
    let Ok(mut plant) = StreamingPlant::open(alloc, graph(rt, alloc, drawing)) else {
        panic!(rt; "no memory");
    };
    let Ok(mut helpers) = HelperThreads::start(clocked, alloc, plant.graph()) else {
        panic!(rt; "no memory");
    };
    fed_in_parts(rt, alloc, drawing, &mut plant, &mut helpers);
    let given = helpers.given();
    helpers.finish();
    same_as_whole(rt, alloc, drawing, &mut plant, what);
    given
}

#[test]
fn drawn_graphs_give_the_same_with_helpers(rt: HostRuntime) -> Result<(), Fail> {
    let alloc = rt.alloc();
    let mut given = 0;
    for seed in 0..GRAPHS {
        let graph = drawn_graph(alloc, seed, 12)?;
        let what = format!(in alloc; "graph {seed}")?;
        given += helped(&rt, WithClock { rt, clock: ByChance }, alloc, &graph.drawing(), &what);
        given += helped(&rt, WithClock { rt, clock: Fast }, alloc, &graph.drawing(), &what);
    }
    assert!(rt; 0 < given || alone(&rt), "jobs were given away");
    Ok(())
}

/// Whether there is no processor but the caller's.
pub fn alone(rt: &impl Threads) -> bool {
    match thread::available_parallelism(rt) {
        Ok(count) => count.get() < 2,
        Err(_) => true,
    }
}

#[test]
fn dear_work_is_given_away_and_cheap_work_stays(rt: HostRuntime) -> Result<(), Fail> {
    let alloc = rt.alloc();
    let drawing = Drawing {
        capacity: 64,
        items: 3_000,
        ..TURNED
    };
    let given = helped(&rt, WithClock { rt, clock: Still }, alloc, &drawing, "cheap");
    assert!(rt; given == 0, "no time is measured, and nothing is given away");
    for _ in 0..RUNS {
        if 0 < helped(&rt, WithClock { rt, clock: Fast }, alloc, &drawing, "dear") || alone(&rt) {
            return Ok(());
        }
    }
    panic!(&rt; "each block is dear");
}
