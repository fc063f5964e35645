//! A graph file as a plant that streams.
use file_plants::OpensPlants;
use graph_file::{FileFault, read_graph};
use items::{ItemType, Items};
use kinds::Kind;
use std::alloc::Global;
use std::process::Abort;
use std::test::Fail;
use streaming::{BlockId, Piece, Settled, StreamingPlant};

const SOURCE: BlockId = BlockId(0);

const SINK: BlockId = BlockId(2);

// A byte source that is fed three items and a mark, a block that adds 10, and a sink.
const FED: &str = "block = [{ name = \"src\", kind = \"vector_source\", type = \"byte\" },
    { name = \"add\", kind = \"add_const\", type = \"byte\", value = 10 }, { name = \"out\", kind = \"vector_sink\", type = \"byte\" }]
connect = [{ from = \"src\", to = \"add\" }, { from = \"add\", to = \"out\" }]
feed = [{ source = \"src\", items = [250, 1] }, { source = \"src\", items = [2], tags = [{ at = 2, key = \"k\", value = 7 }] }]\n";

// A byte source that is fed an item that is none, behind one that is.
const MISFED: &str = "block = [{ name = \"src\", kind = \"vector_source\", type = \"byte\" }, { name = \"out\", kind = \"vector_sink\", type = \"byte\" }]
connect = [{ from = \"src\", to = \"out\" }]
feed = [{ source = \"src\", items = [1] }, { source = \"src\", items = [256] }]\n";

fn streamed(rt: &impl Abort, alloc: Global, text: &str) -> Result<StreamingPlant<Kind>, FileFault> {
    match read_graph(alloc, text.as_bytes()) {
        Ok(file) => file.stream(alloc),
        Err(_) => panic!(rt; "a file that is read"),
    }
}

// All that can be drained once nothing more can be done.
fn drained(rt: &impl Abort, alloc: Global, plant: &mut StreamingPlant<Kind>) -> (Settled, Piece) {
    match (plant.settle(alloc, 64), plant.drain(alloc, SINK, 99)) {
        (Ok(settled), Ok(piece)) => (settled, piece),
        _ => panic!(rt; "settled and drained"),
    }
}

fn has(rt: &impl Abort, alloc: Global, piece: &Piece, numbers: &[i64]) {
    match Items::from_numbers(alloc, ItemType::Byte, numbers) {
        Ok(items) => assert!(rt; piece.items == items, "the items of a piece"),
        Err(_) => panic!(rt; "items"),
    }
}

#[test]
fn a_file_streams(rt: HostRuntime) -> Result<(), Fail> {
    let alloc = rt.alloc();
    let Ok(mut plant) = streamed(&rt, alloc, FED) else {
        panic!(rt; "a file that streams");
    };
    let (settled, piece) = drained(&rt, alloc, &mut plant);
    assert!(rt; settled == Settled::Quiet, "an open source is done");
    has(&rt, alloc, &piece, &[4, 11, 12]);
    assert!(rt; piece.tags.len() == 1 && piece.tags[0].offset == 2, "the tag of the file");
    assert!(rt; plant.items_in_memory(SOURCE) == 0, "items that the source has taken");
    let fed = plant.feed_numbers(alloc, SOURCE, &[3], &[]);
    assert!(rt; matches!(fed, Ok(total) if total.0 == 4), "four items");
    assert!(rt; plant.close(SOURCE).is_ok(), "closed");
    let (settled, piece) = drained(&rt, alloc, &mut plant);
    assert!(rt; settled == Settled::Done && piece.done && piece.from == 3, "the end");
    has(&rt, alloc, &piece, &[13]);
    Ok(())
}

#[test]
fn a_feed_is_refused_by_its_number(rt: HostRuntime) -> Result<(), Fail> {
    let alloc = rt.alloc();
    match streamed(&rt, alloc, MISFED) {
        Err(FileFault::Feed { feed: 1, .. }) => Ok(()),
        _ => panic!(rt; "an item that is no byte"),
    }
}
