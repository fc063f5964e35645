//! How runs end: whole, or stalled.
use super::drawn::{Drawing, EMPTY, Make, SOURCE, STRAIGHT, fed, feed, plant, tape_item};
use super::runs::{End, Host, piece, same_sinks, settled};
use super::ways::{WAYS, Way, ran_by, ran_by_to};
use flowgraph::BlockId;
use std::alloc::Global;
use std::process::Abort;
use std::test::Fail;
use threads::Turns;

// A source goes to a join, directly and by every second item.
const THINNED: Drawing<'static> = Drawing {
    makes: &[Make::Source, Make::Add, Make::Keep(2), Make::Sink],
    wires: &[(0, 0, 1, 0), (0, 0, 2, 0), (2, 0, 1, 1), (1, 0, 3, 0)],
    capacity: 4,
    items: 20,
};

// A source and a sink, with room for a few items between them.
const SMALL: Drawing<'static> = Drawing {
    capacity: 4,
    ..STRAIGHT
};

#[test]
fn a_join_of_unequal_rates_stalls(rt: HostRuntime) -> Result<(), Fail> {
    let alloc = rt.alloc();
    for number in 0..200 {
        let way = WAYS[number % WAYS.len()];
        let (end, plant) = ran_by(rt, alloc, way, fed(&rt, alloc, &THINNED), Turns::default());
        assert!(rt; end == End::Stalled, "{way:?}, run {number}: {end:?}");
        let piece = piece(&rt, alloc, &plant, BlockId(3));
        // 1 + 2, 2 + 4, 3 + 6. The fourth sum wants item 8, and 7 of the buffer's items are the most that are given: 3
        // are taken, and 4 fit.
        assert!(rt; piece.held == 3 && !piece.done, "run {number}: three sums");
        for (n, sum) in [3, 6, 9].iter().enumerate() {
            assert!(rt; piece.items.number(n) == *sum, "run {number}: sum {n}");
        }
    }
    Ok(())
}

#[test]
fn workers_that_wait_for_one_another_come_to_rest(rt: HostRuntime) -> Result<(), Fail> {
    let alloc = rt.alloc();
    // The source waits for room, since the way over the decimator lacks items; and the join waits for the source's.
    for capacity in 1..=4 {
        let thinned = Drawing {
            capacity,
            ..THINNED
        };
        let settled = settled(&rt, alloc, &thinned);
        for number in 0..20 {
            let way = WAYS[number % WAYS.len()];
            let plant = fed(&rt, alloc, &thinned);
            let (end, plant) = ran_by(rt, alloc, way, plant, Turns::default());
            assert!(rt;
                end == End::Stalled,
                "{way:?}, capacity {capacity}, run {number}: {end:?}"
            );
            same_sinks(&rt, alloc, &thinned, &plant, &settled, "stalled");
        }
    }
    Ok(())
}

#[test]
fn a_source_that_is_open_stalls_and_goes_on_later(rt: HostRuntime) -> Result<(), Fail> {
    for way in WAYS {
        stalls_and_goes_on(rt, rt.alloc(), way);
    }
    Ok(())
}

fn stalls_and_goes_on<R: Host + 'static>(rt: R, alloc: Global, way: Way) {
    let small = plant(&rt, alloc, &SMALL);
    let mut plant = ran_by_to(rt, alloc, way, small, End::Stalled, "nothing yet");
    feed(&rt, alloc, &mut plant, SOURCE, 10);
    let mut plant = ran_by_to(rt, alloc, way, plant, End::Stalled, "open");
    assert!(&rt;
        piece(&rt, alloc, &plant, BlockId(1)).held == 10,
        "ten items"
    );
    assert!(&rt; plant.close(SOURCE).is_ok(), "closed");
    let plant = ran_by_to(rt, alloc, way, plant, End::Done, "closed");
    assert!(&rt; piece(&rt, alloc, &plant, BlockId(1)).done, "all of them");
    // What is done stays so.
    let _ = ran_by_to(rt, alloc, way, plant, End::Done, "again");
}

#[test]
fn the_smallest_graphs_are_done(rt: HostRuntime) -> Result<(), Fail> {
    for way in WAYS {
        smallest_are_done(rt, rt.alloc(), way);
    }
    Ok(())
}

fn smallest_are_done<R: Host + 'static>(rt: R, alloc: Global, way: Way) {
    let empty = fed(&rt, alloc, &EMPTY);
    let _ = ran_by_to(rt, alloc, way, empty, End::Done, "no block");
    for items in [0, 1, 100] {
        let straight = Drawing { items, ..SMALL };
        let plant = ran_by_to(rt, alloc, way, fed(&rt, alloc, &straight), End::Done, "small");
        let piece = piece(&rt, alloc, &plant, BlockId(1));
        assert!(&rt;
            piece.done && piece.held == u64::from(items),
            "{items} items"
        );
        for n in 0..items {
            assert!(&rt; piece.items.number(n as usize) == tape_item(n), "item {n}");
        }
        assert!(&rt;
            piece.tags.len() as u32 == items.div_ceil(7),
            "the tags of {items}"
        );
    }
}
