//! What a pipeline shows while it runs, and what it keeps meanwhile.
use super::drawn::{Make, streaming};
use super::pipelines::{Pieces, Run, joined, whole, written};
use flowgraph::BlockId;
use pipeline::{AllReady, ByteOrder, Pipeline, Settled};
use plant::{Headway, Watch};
use std::alloc::Global;
use std::process::Abort;
use std::test::Fail;
use std::time::Duration;
use streaming::NoHelpers;

const SOURCE: BlockId = BlockId(0);
const SINK: BlockId = BlockId(2);

// What was shown last, how often something was, and whether no number fell.
#[derive(Drop)]
struct Shown {
    last: Headway,
    times: u32,
    rises: bool,
}

impl Watch for Shown {
    fn pause(&self) -> Option<Duration> {
        None
    }

    fn show(&mut self, headway: Headway) {
        let fell = headway.given < self.last.given || headway.fed < self.last.fed;
        self.rises = self.rises && !fell && headway.given <= headway.fed;
        self.times += 1;
        self.last = headway;
    }

    fn end(&mut self) {}
}

#[test]
fn how_far_it_is_is_shown_as_it_goes_on(rt: HostRuntime) -> Result<(), Fail> {
    let alloc = rt.alloc();
    let whole = whole(&rt, alloc)?;
    let mut run = joined(&rt, alloc, &whole, 3, u64::MAX, u64::MAX)?;
    let mut shown = Shown {
        last: Headway { given: 0, fed: 0 },
        times: 0,
        rises: true,
    };
    let ended = run.run_with(alloc, &mut NoHelpers, &mut AllReady, &mut shown);
    assert!(rt; matches!(ended, Ok(Settled::Done)), "done");
    assert!(rt; shown.rises && 1 < shown.times, "shown {} times", shown.times);
    // 200 items were on the tape, and 500 came from the reader.
    assert_eq!(rt; (shown.last.given, shown.last.fed), (700, 700));
    Ok(())
}

// A source, each of its bytes sixteen times, and a sink, between a reader of 65,536 bytes and a writer.
fn repeating(rt: &impl Abort, alloc: Global) -> Result<Run, Fail> {
    let blocks = [Make::Source, Make::Repeat(16), Make::Sink];
    let plant = streaming(rt, alloc, &blocks, &[(0, 0, 1, 0), (1, 0, 2, 0)], 4_096);
    let Ok(mut run) = Pipeline::new(alloc, plant) else {
        panic!(rt; "no memory");
    };
    let reader = Pieces {
        bytes: Vec::from_elem(alloc, 7_u8, 65_536)?,
        most: 1_000_000,
        chance: 1,
        reads_left: u64::MAX,
    };
    assert!(rt; run.read_from(alloc, SOURCE, ByteOrder::Little, reader).is_ok(), "a reader");
    let (items, tags) = (written(alloc, u64::MAX), None);
    assert!(rt; run.write_to(alloc, SINK, ByteOrder::Little, items, tags).is_ok(), "a writer");
    Ok(run)
}

#[test]
fn a_piece_that_grows_is_written_as_it_grows(rt: HostRuntime) -> Result<(), Fail> {
    let alloc = rt.alloc();
    let mut run = repeating(&rt, alloc)?;
    let mut most = 0;
    // A turn gives the sink a buffer of items at most, so 256 of them come before the last, and a few read.
    for _ in 0..1_000 {
        let ended = run.turn(alloc, &mut NoHelpers, &mut AllReady);
        most = run.plant.items_in_memory(SINK).max(most);
        match ended {
            Ok(None) => {}
            Ok(Some(settled)) => {
                assert!(rt; matches!(settled, Settled::Done), "done");
                assert!(rt; 4_096 <= most && most < 150_000, "{most} of 1,048,576 items were kept at once");
                return Ok(());
            }
            Err(_) => return Err(Fail::from("a fault")),
        }
    }
    Err(Fail::from("it goes on"))
}
