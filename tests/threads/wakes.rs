//! Graphs whose workers sleep often: small buffers, unequal rates, readers that end first. No wake-up is lost.
use super::drawn::Make::{
    Add, AddConst, Deinterleave, Delay, Head, Integrate, Interleave, Keep, Mux, Not, Repeat, Sink,
    Skip, Source,
};
use super::drawn::{Drawing, Wire, fed};
use super::runs::{Host, same_sinks, settled};
use super::ways::{WAYS, ran_by};
use std::alloc::Global;
use std::test::Fail;
use threads::Turns;

// Runs of each graph with each capacity in each way.
const RUNS: u32 = 8;

const CHAIN: Drawing<'static> = Drawing {
    makes: &[Source, Not, AddConst(3), Not, Sink],
    wires: &[(0, 0, 1, 0), (1, 0, 2, 0), (2, 0, 3, 0), (3, 0, 4, 0)],
    capacity: 1,
    items: 24,
};

const FAN: Drawing<'static> = Drawing {
    makes: &[Source, Not, Sink, Sink, AddConst(1), Sink],
    wires: &[
        (0, 0, 1, 0),
        (1, 0, 2, 0),
        (0, 0, 3, 0),
        (0, 0, 4, 0),
        (4, 0, 5, 0),
    ],
    ..CHAIN
};

// Each graph runs many times in each way with buffers of 1 to 4 items. The sinks show what they show after it has
// settled on one thread.
fn same_as_settled<R: Host + 'static>(rt: R, alloc: Global, drawing: Drawing<'_>) {
    for capacity in 1..=4 {
        let drawing = Drawing {
            capacity,
            ..drawing
        };
        let settled = settled(&rt, alloc, &drawing);
        for way in WAYS {
            for _ in 0..RUNS {
                let plant = fed(&rt, alloc, &drawing);
                let (_, plant) = ran_by(rt, alloc, way, plant, Turns::default());
                same_sinks(&rt, alloc, &drawing, &plant, &settled, "in threads");
            }
        }
    }
}

#[test]
fn chains_and_fans_with_the_smallest_buffers(rt: HostRuntime) -> Result<(), Fail> {
    same_as_settled(rt, rt.alloc(), CHAIN);
    same_as_settled(rt, rt.alloc(), FAN);
    Ok(())
}

#[test]
fn a_head_ends_behind_a_source_that_goes_on(rt: HostRuntime) -> Result<(), Fail> {
    // The source goes through a decimator, so that the head waits often; it ends after 5 items, and all before it ends
    // then too.
    let slow = Drawing {
        makes: &[Source, Keep(7), Head(5), Repeat(3), Sink],
        ..CHAIN
    };
    same_as_settled(rt, rt.alloc(), slow);
    // The head is done before it has begun.
    let empty = Drawing {
        makes: &[Source, Delay(5), Head(0), Skip(1), Sink],
        ..CHAIN
    };
    same_as_settled(rt, rt.alloc(), empty);
    Ok(())
}

#[test]
fn one_of_several_readers_ends_first(rt: HostRuntime) -> Result<(), Fail> {
    // Of the readers of the source one is a head that ends after 3 items, one takes all, and one ends after 20.
    let wires: [Wire; 7] = [
        (0, 0, 1, 0),
        (1, 0, 2, 0),
        (0, 0, 3, 0),
        (3, 0, 4, 0),
        (0, 0, 5, 0),
        (5, 0, 6, 0),
        (0, 0, 7, 0),
    ];
    let heads = Drawing {
        makes: &[Source, Head(3), Sink, Not, Sink, Head(20), Sink, Sink],
        wires: &wires,
        ..CHAIN
    };
    same_as_settled(rt, rt.alloc(), heads);
    // All readers end, and the source, which has items left, ends with them.
    let all_end = Drawing {
        makes: &[Source, Head(3), Sink, Head(7), Sink],
        wires: &[(0, 0, 1, 0), (1, 0, 2, 0), (0, 0, 3, 0), (3, 0, 4, 0)],
        ..CHAIN
    };
    same_as_settled(rt, rt.alloc(), all_end);
    Ok(())
}

#[test]
fn joins_of_unequal_rates(rt: HostRuntime) -> Result<(), Fail> {
    // Two sources are joined: three items of the one, halved and doubled, and each item of the other.
    let sums = Drawing {
        makes: &[Source, Source, Keep(2), Repeat(3), Add, Integrate(2), Sink],
        wires: &[
            (0, 0, 2, 0),
            (2, 0, 3, 0),
            (3, 0, 4, 0),
            (1, 0, 4, 1),
            (4, 0, 5, 0),
            (5, 0, 6, 0),
        ],
        ..CHAIN
    };
    same_as_settled(rt, rt.alloc(), sums);
    // Items are dealt to two, and taken in turns of two and one, so that the longer way has to wait.
    let dealt = Drawing {
        makes: &[
            Source,
            Deinterleave,
            Repeat(2),
            Mux,
            Interleave,
            Sink,
            Source,
        ],
        wires: &[
            (0, 0, 1, 0),
            (1, 0, 2, 0),
            (2, 0, 3, 0),
            (1, 1, 3, 1),
            (3, 0, 4, 0),
            (6, 0, 4, 1),
            (4, 0, 5, 0),
        ],
        ..CHAIN
    };
    same_as_settled(rt, rt.alloc(), dealt);
    Ok(())
}
