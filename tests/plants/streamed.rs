//! Plants that stream: each call, pieces beside the whole run of a plant, and how much is in memory.
use super::drawn::{Make, Wire, bytes, mark, plant, streaming};
use super::orders::drawn;
use flowgraph::BlockId;
use items::{ItemType, Items, Mark};
use kinds::Kind;
use settings::Value;
use std::alloc::Global;
use std::process::Abort;
use std::test::Fail;
use streaming::{BlockNeed, NoHelpers, Piece, PlantFault, Settled, Step, StreamingPlant};

const SOURCE: BlockId = BlockId(0);

const MIDDLE: BlockId = BlockId(1);

const SINK: BlockId = BlockId(2);

const NOBODY: BlockId = BlockId(3);

// A source, a block that adds ten, and a sink.
fn adder(rt: &impl Abort, alloc: Global) -> StreamingPlant<Kind> {
    let blocks = [Make::Source, Make::AddConst(10), Make::Sink];
    streaming(rt, alloc, &blocks, &[(0, 0, 1, 0), (1, 0, 2, 0)], 4)
}

fn settled(rt: &impl Abort, alloc: Global, plant: &mut StreamingPlant<Kind>) -> Settled {
    match plant.settle(alloc, 3) {
        Ok(settled) => settled,
        Err(_) => panic!(rt; "no memory"),
    }
}

fn drained(
    rt: &impl Abort,
    alloc: Global,
    plant: &mut StreamingPlant<Kind>,
    sink: BlockId,
    max: u64,
) -> Piece {
    match plant.drain(alloc, sink, max) {
        Ok(piece) => piece,
        Err(_) => panic!(rt; "drained"),
    }
}

#[test]
fn each_call_answers(rt: HostRuntime) -> Result<(), Fail> {
    let alloc = rt.alloc();
    let mut plant = adder(&rt, alloc);
    assert!(rt; plant.graph().len() == 3, "three blocks");
    assert!(rt; matches!(plant.need(SOURCE), Ok(BlockNeed::Feed)), "to be fed");
    assert!(rt; plant.need(NOBODY) == Err(PlantFault::NoSuchBlock), "no block");
    let marks = [mark(&rt, 1, b'k', 7), mark(&rt, 2, b'k', -7)];
    let fed = plant.feed(SOURCE, &bytes(&rt, alloc, &[250, 1, 2]), &marks);
    assert!(rt; matches!(fed, Ok(total) if total.0 == 3), "three items");
    assert!(rt; settled(&rt, alloc, &mut plant) == Settled::Quiet, "quiet");
    // 250 and 10 are 4 in a byte.
    let first = drained(&rt, alloc, &mut plant, SINK, 2);
    assert!(rt; first.from == 0 && first.held == 3 && !first.done, "two of three");
    assert!(rt; first.items == bytes(&rt, alloc, &[4, 11]), "the first two");
    assert!(rt; first.tags.len() == 1 && first.tags[0].offset == 1, "a tag");
    assert!(rt; plant.items_in_memory(SINK) == 1 || plant.items_in_memory(SINK) == 2, "one is kept");
    let next = drained(&rt, alloc, &mut plant, SINK, 9);
    assert!(rt; next.from == 2 && next.held == 3, "the third");
    assert!(rt; next.items == bytes(&rt, alloc, &[12]), "two and ten");
    assert!(rt; next.tags.len() == 1 && next.tags[0].value == -7, "its tag");
    let none = drained(&rt, alloc, &mut plant, SINK, 9);
    assert!(rt; none.from == 3 && none.items.is_empty() && none.tags.is_empty(), "no more");
    // What is fed later goes on where it stopped.
    let set = plant.set(MIDDLE, Some(4), Value::Number(20));
    assert!(rt; matches!(set, Ok(at) if at.0 == 4), "set");
    let late = plant.set(MIDDLE, Some(2), Value::Number(20));
    assert!(rt; late.is_err(), "taken before");
    let fed = plant.feed(SOURCE, &bytes(&rt, alloc, &[3, 4]), &[]);
    assert!(rt; matches!(fed, Ok(total) if total.0 == 5), "five items");
    assert!(rt; matches!(plant.close(SOURCE), Ok(total) if total.0 == 5), "closed");
    assert!(rt; settled(&rt, alloc, &mut plant) == Settled::Done && plant.all_done(), "done");
    let last = drained(&rt, alloc, &mut plant, SINK, 9);
    assert!(rt; last.from == 3 && last.held == 5 && last.done, "the end");
    assert!(rt; last.items == bytes(&rt, alloc, &[13, 24]), "the last two");
    assert!(rt; plant.items_in_memory(SOURCE) == 0 && plant.items_in_memory(SINK) == 0, "nothing is left");
    Ok(())
}

#[test]
fn what_is_no_call_of_it_is_refused(rt: HostRuntime) -> Result<(), Fail> {
    let alloc = rt.alloc();
    let mut plant = adder(&rt, alloc);
    let two = bytes(&rt, alloc, &[1, 2]);
    let Ok(shorts) = Items::from_numbers(alloc, ItemType::Short, &[1]) else {
        panic!(rt; "no items");
    };
    let off = [mark(&rt, 2, b'k', 0)];
    assert!(rt; plant.feed(NOBODY, &two, &[]) == Err(PlantFault::NoSuchBlock), "no block");
    assert!(rt; plant.feed(SINK, &two, &[]) == Err(PlantFault::NotSource), "no source");
    assert!(rt; plant.feed(SOURCE, &shorts, &[]) == Err(PlantFault::ItemRange), "shorts");
    assert!(rt; plant.feed(SOURCE, &two, &off) == Err(PlantFault::TagPlace), "a mark behind");
    assert!(rt; plant.close(MIDDLE) == Err(PlantFault::NotSource), "no source to close");
    assert!(rt; plant.close(SOURCE).is_ok(), "closed");
    assert!(rt; plant.close(SOURCE) == Err(PlantFault::Closed), "twice");
    assert!(rt; plant.feed(SOURCE, &two, &[]) == Err(PlantFault::Closed), "fed behind the end");
    for (block, fault) in [(NOBODY, PlantFault::NoSuchBlock), (MIDDLE, PlantFault::NotSink)] {
        assert!(rt; matches!(plant.drain(alloc, block, 1), Err(was) if was == fault), "not drained");
    }
    Ok(())
}

#[test]
fn what_is_drained_is_appended(rt: HostRuntime) -> Result<(), Fail> {
    let alloc = rt.alloc();
    let mut plant = adder(&rt, alloc);
    let marks = [mark(&rt, 2, b'k', -7)];
    assert!(rt; plant.feed(SOURCE, &bytes(&rt, alloc, &[250, 1, 2]), &marks).is_ok(), "fed");
    settled(&rt, alloc, &mut plant);
    let mut items = bytes(&rt, alloc, &[99]);
    let mut shorts = Items::empty(alloc, ItemType::Short);
    let mut tags = Vec::new(alloc);
    for (block, fault) in [(NOBODY, PlantFault::NoSuchBlock), (MIDDLE, PlantFault::NotSink)] {
        let refused = plant.drain_into(block, 1, &mut shorts, &mut tags);
        assert!(rt; matches!(refused, Err(was) if was == fault), "not drained");
    }
    let refused = plant.drain_into(SINK, 1, &mut shorts, &mut tags);
    assert!(rt; matches!(refused, Err(PlantFault::ItemRange)), "bytes are no shorts");
    assert!(rt; shorts.is_empty() && plant.items_in_memory(SINK) == 3, "nothing was drained");
    let first = plant.drain_into(SINK, 2, &mut items, &mut tags);
    assert!(rt; matches!(first, Ok(got) if got.from == 0 && got.held == 3 && !got.done), "two of three");
    assert!(rt; items == bytes(&rt, alloc, &[99, 4, 11]) && tags.is_empty(), "behind what was there");
    assert!(rt; plant.close(SOURCE).is_ok(), "closed");
    settled(&rt, alloc, &mut plant);
    let last = plant.drain_into(SINK, 9, &mut items, &mut tags);
    assert!(rt; matches!(last, Ok(got) if got.from == 2 && got.held == 3 && got.done), "the end");
    assert!(rt; items == bytes(&rt, alloc, &[99, 4, 11, 12]), "all three");
    assert!(rt; tags.len() == 1 && tags[0].offset == 2 && tags[0].value == -7, "and the tag");
    Ok(())
}

#[test]
fn a_round_steps_each_block_once(rt: HostRuntime) -> Result<(), Fail> {
    let alloc = rt.alloc();
    let mut plant = adder(&rt, alloc);
    assert!(rt; plant.feed(SOURCE, &bytes(&rt, alloc, &[1, 2, 3]), &[]).is_ok(), "fed");
    assert!(rt; plant.close(SOURCE).is_ok(), "closed");
    for held in [2, 3] {
        assert!(rt; matches!(plant.round(alloc, 2), Ok(true)), "they moved on");
        assert!(rt; drained(&rt, alloc, &mut plant, SINK, 0).held == held, "two firings each");
        assert!(rt; plant.items_in_memory(SOURCE) as u64 <= 2 * (3 - held), "the rest is kept");
    }
    let mut rounds = 0;
    while matches!(plant.round(alloc, 2), Ok(true)) {
        rounds += 1;
        assert!(rt; rounds <= 3, "each block is done once");
    }
    assert!(rt; plant.all_done(), "done");
    assert!(rt; drained(&rt, alloc, &mut plant, SINK, 9).items == bytes(&rt, alloc, &[11, 12, 13]), "all three");
    Ok(())
}

#[test]
fn what_a_source_has_taken_is_released(rt: HostRuntime) -> Result<(), Fail> {
    let alloc = rt.alloc();
    let mut plant = adder(&rt, alloc);
    assert!(rt; plant.feed(SOURCE, &bytes(&rt, alloc, &[1, 2, 3]), &[]).is_ok(), "fed");
    assert!(rt; matches!(plant.step(alloc, SOURCE, 2), Ok(Step::Did(2))), "two of three");
    assert!(rt; plant.items_in_memory(SOURCE) == 3, "a step forgets nothing");
    plant.release();
    let kept = plant.items_in_memory(SOURCE);
    assert!(rt; kept == 1 || kept == 2, "one is kept, and at most as many again");
    plant.recall();
    settled(&rt, alloc, &mut plant);
    assert!(rt; drained(&rt, alloc, &mut plant, SINK, 9).items == bytes(&rt, alloc, &[11, 12, 13]), "all three");
    Ok(())
}

// A source through blocks that keep, repeat, delay and sum, into two sinks.
pub const BLOCKS: [Make; 8] = [
    Make::Source,
    Make::MovingSum(3),
    Make::Repeat(3),
    Make::Keep(2),
    Make::Sink,
    Make::Delay(5),
    Make::AddConst(200),
    Make::Sink,
];

pub const WIRES: [Wire; 7] = [
    (0, 0, 1, 0),
    (1, 0, 2, 0),
    (2, 0, 3, 0),
    (3, 0, 4, 0),
    (0, 0, 5, 0),
    (5, 0, 6, 0),
    (6, 0, 7, 0),
];

pub const SINKS: [BlockId; 2] = [BlockId(4), BlockId(7)];

// What was drained of a sink.
#[derive(Drop)]
struct Drained {
    items: Items,
    tags: Vec<streaming::Tag>,
}

fn put(rt: &impl Abort, all: &mut Drained, piece: &Piece) {
    assert!(rt; piece.from == all.items.len() as u64, "it goes on where it stopped");
    assert!(rt; all.items.reserve(piece.items.len()).is_ok(), "room");
    all.items.push_slice(&piece.items);
    for tag in &piece.tags {
        assert!(rt; all.tags.push(*tag).is_ok(), "room");
    }
}

// Feeds pieces of random lengths, lets the blocks act, and drains pieces of random lengths.
fn in_pieces(
    rt: &impl Abort,
    alloc: Global,
    numbers: &[i64],
    marks: &[Mark],
    seed: u64,
) -> Result<[Drained; 2], Fail> {
    let mut plant = streaming(rt, alloc, &BLOCKS, &WIRES, 7);
    let empty = || Drained {
        items: Items::empty(alloc, ItemType::Byte),
        tags: Vec::new(alloc),
    };
    let mut all = [empty(), empty()];
    let (mut chance, mut fed, mut marked) = (drawn(seed), 0, 0);
    for _ in 0..100_000 {
        chance = drawn(chance);
        if fed == numbers.len() && plant.all_done() {
            break;
        }
        match (chance >> 33) % 4 {
            0 => {
                let end = numbers.len().min(fed + (chance >> 40) as usize % 40);
                let mut last = marked;
                while last < marks.len() && marks[last].offset < end as u64 {
                    last += 1;
                }
                if fed < numbers.len() {
                    let items = bytes(rt, alloc, &numbers[fed..end]);
                    assert!(rt; plant.feed(SOURCE, &items, &marks[marked..last]).is_ok(), "fed");
                    (fed, marked) = (end, last);
                    if fed == numbers.len() {
                        assert!(rt; plant.close(SOURCE).is_ok(), "closed");
                    }
                }
            }
            1 => {
                let block = BlockId((chance >> 40) as u32 % 8);
                assert!(rt; plant.step(alloc, block, 5).is_ok(), "step");
            }
            2 => {
                settled(rt, alloc, &mut plant);
            }
            _ => {
                let at = (chance >> 40) as usize % 2;
                let max = (chance >> 45) % 30;
                if (chance >> 60) % 2 == 0 {
                    let piece = drained(rt, alloc, &mut plant, SINKS[at], max);
                    put(rt, &mut all[at], &piece);
                } else {
                    let Drained { items, tags } = &mut all[at];
                    assert!(rt; plant.drain_into(SINKS[at], max, items, tags).is_ok(), "appended");
                }
            }
        }
    }
    assert!(rt; plant.all_done(), "done");
    for (at, sink) in SINKS.iter().enumerate() {
        let piece = drained(rt, alloc, &mut plant, *sink, 1_000_000);
        assert!(rt; piece.done, "the whole stream");
        put(rt, &mut all[at], &piece);
    }
    Ok(all)
}

#[test]
fn pieces_of_any_lengths_are_the_whole_stream(rt: HostRuntime) -> Result<(), Fail> {
    let alloc = rt.alloc();
    let mut numbers = Vec::new(alloc);
    let mut marks = Vec::new(alloc);
    for n in 0..1_000_u64 {
        numbers.push((drawn(n) >> 56) as i64)?;
        if drawn(n + 7) >> 62 == 0 {
            marks.push(mark(&rt, n, b'a' + (n % 26) as u8, n as i64))?;
        }
    }
    let mut whole = plant(&rt, alloc, &BLOCKS, &WIRES, 7);
    assert!(rt; whole.feed(SOURCE, bytes(&rt, alloc, &numbers), &marks).is_ok(), "fed");
    assert!(rt; whole.close(SOURCE).is_ok(), "closed");
    assert!(rt; whole.settle(alloc, 64).is_ok(), "settled");
    for seed in 0..12 {
        let all = in_pieces(&rt, alloc, &numbers, &marks, seed)?;
        for (at, sink) in SINKS.iter().enumerate() {
            let Ok(piece) = whole.read(alloc, *sink, 0, 1_000_000) else {
                panic!(rt; "read");
            };
            assert!(rt; piece.done && piece.items == all[at].items, "items, seed {seed}");
            assert!(rt; piece.tags[..] == all[at].tags[..], "tags, seed {seed}");
        }
    }
    Ok(())
}

#[test]
fn a_long_stream_stays_small(rt: HostRuntime) -> Result<(), Fail> {
    let alloc = rt.alloc();
    let mut plant = adder(&rt, alloc);
    let piece = bytes(&rt, alloc, &[1; 500]);
    for round in 0..100_u64 {
        let marks = [mark(&rt, round * 500, b'k', 0)];
        assert!(rt; plant.feed(SOURCE, &piece, &marks).is_ok(), "fed");
        settled(&rt, alloc, &mut plant);
        assert!(rt; plant.items_in_memory(SOURCE) == 0, "all was taken");
        assert!(rt; plant.tags_in_memory(SOURCE) == 0, "and its tags");
        let out = drained(&rt, alloc, &mut plant, SINK, 2_000);
        assert!(rt; out.from == round * 500 && out.items.len() == 500, "five hundred");
        assert!(rt; out.tags.len() == 1 && out.tags[0].offset == round * 500, "its tag");
        assert!(rt; plant.items_in_memory(SINK) == 0 && plant.tags_in_memory(SINK) == 0, "all was drained");
    }
    // What is not drained stays, and at most as much again of what was.
    assert!(rt; plant.feed(SOURCE, &piece, &[]).is_ok(), "fed");
    settled(&rt, alloc, &mut plant);
    for left in (0..500).rev() {
        let out = drained(&rt, alloc, &mut plant, SINK, 1);
        assert!(rt; out.items.len() == 1, "one more");
        assert!(rt; plant.items_in_memory(SINK) <= 2 * left, "{left} are left");
    }
    Ok(())
}

#[test]
fn settings_that_are_past_are_forgotten(rt: HostRuntime) -> Result<(), Fail> {
    let alloc = rt.alloc();
    let mut plant = adder(&rt, alloc);
    assert!(rt; plant.settings_in_memory(MIDDLE) == 0, "the block's own parameter is none");
    // One that stays, since its item is not there yet.
    let far = plant.set(MIDDLE, Some(2_000), Value::Number(7));
    assert!(rt; matches!(far, Ok(at) if at.0 == 2_000), "set for later");
    let mut before = 10_i64;
    for round in 0..100_u64 {
        let value = (round % 50) as i64;
        let set = plant.set(MIDDLE, Some(round * 10 + 5), Value::Number(value));
        assert!(rt; matches!(set, Ok(at) if at.0 == round * 10 + 5), "set");
        assert!(rt; plant.feed(SOURCE, &bytes(&rt, alloc, &[1; 10]), &[]).is_ok(), "fed");
        settled(&rt, alloc, &mut plant);
        assert!(rt; plant.settings_in_memory(MIDDLE) == 2, "that in force, and the one for later");
        let out = drained(&rt, alloc, &mut plant, SINK, 10);
        let (old, new) = (before + 1, value + 1);
        assert!(rt; out.items == bytes(&rt, alloc, &[old, old, old, old, old, new, new, new, new, new]), "round {round}");
        before = value;
    }
    // What is in force stays so where nothing is set, and below the items that were taken nothing can be.
    assert!(rt; plant.feed(SOURCE, &bytes(&rt, alloc, &[1; 1_001]), &[]).is_ok(), "fed");
    settled(&rt, alloc, &mut plant);
    let rest = drained(&rt, alloc, &mut plant, SINK, 1_000);
    assert!(rt; rest.items == bytes(&rt, alloc, &[50; 1_000]), "one and forty-nine");
    assert!(rt; drained(&rt, alloc, &mut plant, SINK, 9).items == bytes(&rt, alloc, &[8]), "one and seven");
    assert!(rt; plant.settings_in_memory(MIDDLE) == 1, "that in force");
    let late = plant.set(MIDDLE, Some(2_000), Value::Number(1));
    assert!(rt; matches!(late, Err(PlantFault::Late { floor: 2_001 })), "taken");
    let now = plant.set(MIDDLE, None, Value::Number(1));
    assert!(rt; matches!(now, Ok(at) if at.0 == 2_001), "the next item");
    assert!(rt; plant.settings_in_memory(MIDDLE) == 2 && plant.settings_in_memory(NOBODY) == 0, "both");
    Ok(())
}

// One round in which the second of two sinks is held back, if it is; and whether a block moved on.
fn round(rt: &impl Abort, alloc: Global, plant: &mut StreamingPlant<Kind>, is_held: bool) -> bool {
    match plant.round_beside(alloc, 3, &[false, false, is_held], &mut NoHelpers) {
        Ok(moved) => moved,
        Err(_) => panic!(rt; "no memory"),
    }
}

#[test]
fn blocks_that_are_held_back_rest(rt: HostRuntime) -> Result<(), Fail> {
    let alloc = rt.alloc();
    let blocks = [Make::Source, Make::Sink, Make::Sink];
    let mut plant = streaming(&rt, alloc, &blocks, &[(0, 0, 1, 0), (0, 0, 2, 0)], 4);
    let fed = plant.feed(SOURCE, &bytes(&rt, alloc, &[5, 6, 7]), &[]);
    assert!(rt; matches!(fed, Ok(total) if total.0 == 3), "three items");
    assert!(rt; round(&rt, alloc, &mut plant, true), "the source and a sink move on");
    assert!(rt; !round(&rt, alloc, &mut plant, true), "only the other sink could");
    let first = drained(&rt, alloc, &mut plant, MIDDLE, 9);
    assert!(rt; first.held == 3 && first.items == bytes(&rt, alloc, &[5, 6, 7]), "all");
    let none = drained(&rt, alloc, &mut plant, SINK, 9);
    assert!(rt; none.held == 0 && none.items.is_empty(), "nothing was taken");
    assert!(rt; round(&rt, alloc, &mut plant, false), "it moves on");
    let other = drained(&rt, alloc, &mut plant, SINK, 9);
    assert!(rt; other.held == 3 && other.items == bytes(&rt, alloc, &[5, 6, 7]), "all");
    assert!(rt; !round(&rt, alloc, &mut plant, false), "no block can act");
    Ok(())
}
