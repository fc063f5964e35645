//! As many blocks as a graph may have.
use super::drawn::{Drawing, Make, fed, plant, tape_item};
use super::live_runs::{LIVE_WAYS, Answered, Part, Seat, answered, doing};
use super::replays::{replay, same_logs};
use super::runs::{End, Host, ended_as, piece};
use super::ways::{WAYS, ran_by, ran_by_to};
use flowgraph::BlockId;
use kinds::Kind;
use plant::Plant;
use std::alloc::{AllocError, Global};
use std::process::Abort;
use std::sync::Wait;
use std::test::Fail;
use threads::{Gate, Turns};

const ITEMS: u32 = 24;

// A graph of at most 256 blocks.
#[derive(Drop)]
struct Wide {
    makes: Vec<Make>,
    wires: Vec<(u32, usize, u32, usize)>,
}

impl Wide {
    fn new(alloc: Global) -> Wide {
        Wide {
            makes: Vec::new(alloc),
            wires: Vec::new(alloc),
        }
    }

    // A block more, and its number.
    fn block(&mut self, make: Make) -> Result<u32, AllocError> {
        let number = self.makes.len() as u32;
        self.makes.push(make)?;
        Ok(number)
    }

    // A block more behind another, and its number.
    fn behind(&mut self, from: u32, make: Make) -> Result<u32, AllocError> {
        let number = self.block(make)?;
        self.wires.push((from, 0, number, 0))?;
        Ok(number)
    }

    fn drawing(&self, capacity: u32) -> Drawing<'_> {
        Drawing {
            makes: &self.makes,
            wires: &self.wires,
            capacity,
            items: ITEMS,
        }
    }
}

// A source, so many blocks that each add one, and a sink.
fn chain_of(alloc: Global, adders: u32) -> Result<Wide, AllocError> {
    let mut chain = Wide::new(alloc);
    let mut last = chain.block(Make::Source)?;
    for _ in 0..adders {
        last = chain.behind(last, Make::AddConst(1))?;
    }
    let _ = chain.behind(last, Make::Sink)?;
    Ok(chain)
}

#[test]
fn a_chain_of_254_blocks(rt: HostRuntime) -> Result<(), Fail> {
    let alloc = rt.alloc();
    let chain = chain_of(alloc, 254)?;
    let sink = chain.makes.len() as u32 - 1;
    for capacity in [1, 8] {
        for way in WAYS {
        let plant = fed(&rt, alloc, &chain.drawing(capacity));
        let (end, plant) = ran_by(rt, alloc, way, plant, Turns::default());
        assert!(rt; end == End::Done, "{way:?}, capacity {capacity}: {end:?}");
        let piece = piece(&rt, alloc, &plant, BlockId(sink));
        assert!(rt;
            piece.done && piece.held == u64::from(ITEMS),
            "capacity {capacity}: whole"
        );
        for n in 0..ITEMS {
            let wanted = (tape_item(n) + 254) % 256;
            assert!(rt;
                piece.items.number(n as usize) == wanted,
                "capacity {capacity}: item {n}"
            );
        }
        }
    }
    Ok(())
}

// Each of these sinks shows the tape with so much added.
fn show_the_tape<R: Host + 'static>(rt: R, alloc: Global, drawing: &Drawing<'_>, added: i64) {
    for way in WAYS {
        let plant = ran_by_to(rt, alloc, way, fed(&rt, alloc, drawing), End::Done, "wide");
        each_shows_the_tape(&rt, alloc, &plant, drawing, added);
    }
}

fn each_shows_the_tape(
    rt: &impl Abort,
    alloc: Global,
    plant: &Plant<Kind>,
    drawing: &Drawing<'_>,
    added: i64,
) {
    for (block, make) in (0..u32::MAX).zip(drawing.makes) {
        if let Make::Sink = *make {
            let piece = piece(rt, alloc, plant, BlockId(block));
            assert!(rt;
                piece.done && piece.held == u64::from(ITEMS),
                "sink {block}: whole"
            );
            for n in 0..ITEMS {
                let wanted = (tape_item(n) + added) % 256;
                assert!(rt;
                    piece.items.number(n as usize) == wanted,
                    "sink {block}: item {n}"
                );
            }
        }
    }
}

#[test]
fn a_source_with_127_readers(rt: HostRuntime) -> Result<(), Fail> {
    let alloc = rt.alloc();
    let mut fan = Wide::new(alloc);
    let source = fan.block(Make::Source)?;
    for _ in 0..127 {
        let adder = fan.behind(source, Make::AddConst(2))?;
        let _ = fan.behind(adder, Make::Sink)?;
    }
    show_the_tape(rt, alloc, &fan.drawing(4), 2);
    Ok(())
}

#[test]
fn chains_that_have_nothing_to_do_with_one_another(rt: HostRuntime) -> Result<(), Fail> {
    let alloc = rt.alloc();
    show_the_tape(rt, alloc, &pairs_of(alloc, 127)?.drawing(4), 0);
    Ok(())
}

// So many sources, and a sink behind each.
fn pairs_of(alloc: Global, pairs: u32) -> Result<Wide, AllocError> {
    let mut apart = Wide::new(alloc);
    for _ in 0..pairs {
        let source = apart.block(Make::Source)?;
        let _ = apart.behind(source, Make::Sink)?;
    }
    Ok(apart)
}

// A caller that feeds each source of a graph, some items of each in turn, and closes them.
#[derive(Drop)]
struct FeedsAll {
    sources: Vec<BlockId>,
}

// How many items it feeds at once.
const PIECE: u32 = 8;

impl Part for FeedsAll {
    fn make_calls<G: Gate + Drop, R: Wait>(&mut self, seat: &mut Seat<G, R>) -> Answered {
        for piece in 0..ITEMS / PIECE {
            let mut numbers = [0; PIECE as usize];
            for (n, number) in (piece * PIECE..).zip(&mut numbers) {
                *number = tape_item(n);
            }
            for source in &self.sources {
                let fed = seat.feed_bytes(*source, &numbers)?;
                if fed != u64::from(piece * PIECE + PIECE) {
                    return Ok(false);
                }
            }
        }
        for source in &self.sources {
            if seat.close(*source)? != u64::from(ITEMS) {
                return Ok(false);
            }
        }
        Ok(true)
    }
}

#[test]
fn a_caller_feeds_254_blocks(rt: HostRuntime) -> Result<(), Fail> {
    let alloc = rt.alloc();
    for way in LIVE_WAYS {
    for (wide, added) in [(chain_of(alloc, 252)?, 252), (pairs_of(alloc, 127)?, 0)] {
        assert!(rt; wide.makes.len() == 254, "254 blocks");
        let drawing = wide.drawing(16);
        let mut sources = Vec::new(alloc);
        for (block, make) in (0..).zip(&wide.makes) {
            if let Make::Source = *make {
                sources.push(BlockId(block))?;
            }
        }
        let callers = doing(&rt, alloc, vec![in alloc; FeedsAll { sources }]?);
        let ran = answered(&rt, alloc, way, plant(&rt, alloc, &drawing), callers);
        let plant = ended_as(&rt, ran.outcome, End::Done);
        each_shows_the_tape(&rt, alloc, &plant, &drawing, added);
        same_logs(&rt, &ran.history, &ran.logs);
        replay(&rt, alloc, &drawing, &ran.history, &plant);
    }
    }
    Ok(())
}
