//! What claims decide, played over counts alone.

use super::drawn::{Drawn, Make, SINK, SOURCE, Wire, build, plain};
use block_trait::Block;
use firing_rules::{Decision, Firings, Need, Tape, Tapes};
use flowgraph::{BlockId, Valid};
use kinds::Kind;
use rates::{balance, capacities};
use std::alloc::{AllocError, Global};
use std::process::Abort;
use std::test::Fail;
use stream_model::Role;

/// A claim: the block's number, how many firings at most, and what is decided.
type Claim = (u32, u32, Decision);

const ITEMS: Decision = Decision::Waiting(Need::Items(0));

const ROOM: Decision = Decision::Waiting(Need::Room(0));

const fn fires(first: u64, count: u32) -> Decision {
    Decision::Claimed { first, count }
}

/// What counts of the tapes, block by block.
#[derive(Drop)]
struct Counted {
    tapes: Vec<Tape>,
}

impl Tapes for Counted {
    ghost tapes = { λ counted. counted.tapes.items };

    fn tape(&self, block: BlockId) -> Tape {
        self.tapes[block.0 as usize]
    }
}

// What counts of the tape of a block: that of a source, and none of any other.
fn tape_of(role: Role, tape: Tape) -> Tape {
    match role {
        Role::Source => tape,
        Role::Work | Role::Keep | Role::Discard => Tape {
            length: 0,
            closed: false,
        },
    }
}

// The tapes of a graph, where each source has this one.
fn tapes_of<B: Block>(alloc: Global, graph: &Valid<B>, tape: Tape) -> Result<Counted, AllocError> {
    let mut tapes = Vec::with_capacity(alloc, graph.len())?;
    for block in 0..graph.len() {
        tapes.push(tape_of(graph.block(BlockId(block as u32)).role(), tape))?;
    }
    Ok(Counted { tapes })
}

// A graph whose claims are decided, and what has fired of it.
#[derive(Drop)]
struct Game<'a, R> {
    rt: &'a R,
    case: &'a str,
    graph: &'a Valid<Kind>,
    capacities: &'a [Vec<u32>],
    tapes: Counted,
    firings: Firings,
}

impl<'a, R: Abort> Game<'a, R> {
    fn is_quiet(&self) -> bool {
        self.firings.quiet(self.graph, self.capacities, &self.tapes)
    }

    // Decides a claim, and returns whether it is in flight.
    fn claim(&mut self, block: BlockId, max: u32, expected: Decision) -> bool {
        let (rt, case) = (self.rt, self.case);
        let decision = self
            .firings
            .claim(self.graph, self.capacities, &self.tapes, block, max);
        assert!(rt; decision == expected, "{case}");
        0 < self.firings.progress(block).claimed
    }

    // A claim that is in flight is not claimed again; it is given up, made again and committed.
    fn commit(&mut self, block: BlockId, max: u32, expected: Decision) {
        let (rt, case) = (self.rt, self.case);
        assert!(rt; !self.firings.idle(), "{case}: idle");
        assert!(rt; !self.is_quiet(), "{case}: quiet");
        self.firings.abandon(block);
        assert!(rt; self.firings.idle(), "{case}: abandoned");
        if self.claim(block, max, expected) && self.claim(block, max, Decision::Busy) {
            self.firings.commit(block);
        }
        assert!(rt; self.firings.idle(), "{case}: committed");
    }

    // A claim, which is committed where it is made.
    fn step(&mut self, (block, max, expected): Claim) {
        let (rt, case) = (self.rt, self.case);
        assert!(rt; !self.firings.all_done(), "{case}: done too early");
        assert!(rt; (block as usize) < self.graph.len(), "{case}: a block");
        let block = BlockId(block);
        if self.claim(block, max, expected) {
            self.commit(block, max, expected);
        }
    }
}

// The claims in their order, and whether the graph is quiet and all blocks are done after them.
fn assert_claims(
    rt: &impl Abort,
    alloc: Global,
    case: &str,
    blocks: &[Drawn<'_>],
    wires: &[Wire],
    tape: Tape,
    claims: &[Claim],
    (quiet, all_done): (bool, bool),
) -> Result<(), Fail> {
    let Ok(graph) = build(alloc, blocks, wires, blocks.len()) else {
        panic!(rt; "{case}: the graph is refused");
    };
    let rates = balance(alloc, &graph)?;
    let sizes = capacities(alloc, &graph, &rates)?;
    let mut game = Game {
        rt,
        case,
        graph: &graph,
        capacities: sizes.rows(),
        tapes: tapes_of(alloc, &graph, tape)?,
        firings: Firings::new(alloc, graph.len())?,
    };
    for next in claims {
        game.step(*next);
    }
    assert!(rt; game.is_quiet() == quiet, "{case}: quiet");
    assert!(rt; game.firings.all_done() == all_done, "{case}: done");
    Ok(())
}

#[test]
fn claims_are_decided_from_counts(rt: HostRuntime) -> Result<(), Fail> {
    let four = |name, make| (name, make, 1, 4);
    let open = |length| Tape {
        length,
        closed: false,
    };
    let chain = [(0, 0, 1, 0), (1, 0, 2, 0)];
    let not = four(b"a".as_slice(), Make::Not);
    let source = four(b"src".as_slice(), SOURCE);
    let sink = plain(b"out", SINK);
    let long = (b"src".as_slice(), SOURCE, 1, 16);
    let head = (b"h".as_slice(), Make::Head(3), 1, 16);
    for (case, blocks, wires, tape, claims, end) in [
        (
            "the slower of two readers",
            [
                source,
                not,
                four(b"b".as_slice(), Make::Not),
                sink,
                plain(b"more", SINK),
            ]
            .as_slice(),
            [(0, 0, 1, 0), (0, 0, 2, 0), (1, 0, 3, 0), (2, 0, 4, 0)].as_slice(),
            open(10),
            [
                (0, 100, fires(0, 4)),
                (0, 1, ROOM),
                (1, 4, fires(0, 4)),
                (0, 1, ROOM),
                (2, 1, fires(0, 1)),
                (0, 100, fires(4, 1)),
            ]
            .as_slice(),
            (false, false),
        ),
        (
            "nobody reads what is left",
            &[long, head, sink],
            &chain,
            open(100),
            &[
                (0, 10, fires(0, 10)),
                (1, 10, fires(0, 3)),
                (1, 1, Decision::Ended),
                (0, 1, Decision::Ended),
                (0, 1, Decision::Done),
                (2, 5, fires(0, 3)),
                (2, 1, Decision::Ended),
            ],
            (true, true),
        ),
        (
            "an open tape",
            &[source, not, sink],
            &chain,
            open(3),
            &[
                (0, 9, fires(0, 3)),
                (0, 1, ITEMS),
                (1, 9, fires(0, 3)),
                (2, 2, fires(0, 2)),
                (2, 2, fires(2, 1)),
                (2, 1, ITEMS),
            ],
            (true, false),
        ),
        (
            "a closed tape",
            &[source, not, sink],
            &chain,
            Tape {
                length: 10,
                closed: true,
            },
            &[
                (0, 100, fires(0, 4)),
                (0, 1, ROOM),
                (1, 3, fires(0, 3)),
                (0, 100, fires(4, 3)),
                (1, 9, fires(3, 1)),
                (1, 1, ROOM),
                (2, 100, fires(0, 4)),
                (1, 9, fires(4, 3)),
                (1, 1, ITEMS),
                (0, 100, fires(7, 3)),
                (0, 1, Decision::Ended),
                (1, 100, fires(7, 1)),
                (2, 2, fires(4, 2)),
                (1, 100, fires(8, 2)),
                (1, 1, Decision::Ended),
                (2, 100, fires(6, 4)),
                (2, 1, Decision::Ended),
            ],
            (true, true),
        ),
    ] {
        assert_claims(&rt, rt.alloc(), case, blocks, wires, tape, claims, end)?;
    }
    Ok(())
}
