//! What buffers store: unread items, the past that their readers need, and the tags on unread items.
use super::drawn::{MIDDLE, Make, SINK, SOURCE, bytes, chain, mark, plant, run};
use super::orders::drawn;
use flowgraph::BlockId;
use kinds::Kind;
use plant::{Need, Plant, PlantFault, Step};
use std::alloc::Global;
use std::process::Abort;
use std::test::Fail;

// What a step of a block answers, of so many firings at most.
fn steps(
    rt: &impl Abort,
    alloc: Global,
    plant: &mut Plant<Kind>,
    block: u32,
    max: u32,
    wanted: Step,
) {
    let did = plant.step(alloc, BlockId(block), max);
    assert!(rt; did == Ok(wanted), "a step of block {block}");
}

fn stores(rt: &impl Abort, plant: &Plant<Kind>, items: usize, tags: usize, what: &str) {
    match plant.stored(SOURCE, 0) {
        Ok(kept) => assert!(rt;
            kept.items == items && kept.tags == tags,
            "{what}: {} items, {} tags",
            kept.items,
            kept.tags
        ),
        Err(_) => panic!(rt; "{what}: refused"),
    }
}

#[test]
fn what_the_slower_reader_has_not_read_is_stored(rt: HostRuntime) -> Result<(), Fail> {
    let alloc = rt.alloc();
    let blocks = [Make::Source, Make::Not, Make::Not, Make::Sink, Make::Sink];
    let wires = [(0, 0, 1, 0), (0, 0, 2, 0), (1, 0, 3, 0), (2, 0, 4, 0)];
    let mut plant = plant(&rt, alloc, &blocks, &wires, 4);
    let marks = [0, 2, 4].map(|offset| mark(&rt, offset, b'k', 7));
    let items = bytes(&rt, alloc, &[1, 2, 3, 4, 5, 6, 7, 8, 9, 10]);
    assert!(rt; plant.feed(SOURCE, items, &marks).is_ok(), "fed");
    stores(&rt, &plant, 0, 0, "nothing yet");
    let full = Step::Waiting(Need::Room(0));
    steps(&rt, alloc, &mut plant, 0, 100, Step::Did(4));
    stores(&rt, &plant, 4, 2, "no reader has read");
    steps(&rt, alloc, &mut plant, 0, 1, full);
    steps(&rt, alloc, &mut plant, 1, 4, Step::Did(4));
    steps(&rt, alloc, &mut plant, 0, 1, full);
    stores(&rt, &plant, 4, 2, "one reader has not read");
    steps(&rt, alloc, &mut plant, 2, 1, Step::Did(1));
    steps(&rt, alloc, &mut plant, 0, 100, Step::Did(1));
    stores(
        &rt,
        &plant,
        4,
        2,
        "one item and its tag went, and others came",
    );
    assert!(rt;
        plant.stored(SOURCE, 1) == Err(PlantFault::NoSuchPort),
        "no second output"
    );
    Ok(())
}

// The sum of an item and the two before it.
fn sum_at(tape: &[i64], n: usize) -> i64 {
    let first = n.saturating_sub(2);
    tape[first..=n].iter().sum::<i64>() % 256
}

#[test]
fn no_more_of_the_past_is_stored_than_the_reader_needs(rt: HostRuntime) -> Result<(), Fail> {
    let alloc = rt.alloc();
    let mut tape = Vec::new(alloc);
    for n in 0..200 {
        tape.push(n * 7 % 256)?;
    }
    for seed in 0..10 {
        let mut plant = chain(&rt, alloc, Make::MovingSum(3), 4);
        let items = bytes(&rt, alloc, &tape);
        assert!(rt; plant.feed(SOURCE, items, &[]).is_ok(), "fed");
        let mut chance = drawn(seed);
        let mut fired = [0_usize; 3];
        for _ in 0..1_000 {
            let block = (chance >> 33) % 3;
            let max = ((chance >> 20) % 5) as u32 + 1;
            if let Ok(Step::Did(count)) = plant.step(alloc, BlockId(block as u32), max) {
                fired[block as usize] += count as usize;
            }
            let unread = fired[0] - fired[1];
            match plant.stored(SOURCE, 0) {
                // Four items wait at most, and two lie before them.
                Ok(kept) => assert!(rt;
                    unread <= kept.items && kept.items <= 6,
                    "{} stored, {unread} unread",
                    kept.items
                ),
                Err(_) => panic!(rt; "refused"),
            }
            chance = drawn(chance);
        }
        assert!(rt; plant.close(SOURCE).is_ok(), "closed");
        run(&rt, alloc, &mut plant, 4);
        let piece = plant.read(alloc, SINK, 0, 1_000)?;
        assert!(rt; piece.items.len() == tape.len(), "each sum");
        for n in 0..tape.len() {
            assert!(rt; piece.items.number(n) == sum_at(&tape, n), "sum {n}");
        }
        assert!(rt; plant.stored(MIDDLE, 0).is_ok(), "an output of its own");
    }
    Ok(())
}
