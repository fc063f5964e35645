//! How runs are cut into slices: how far slices overlap, and what they drop.
use super::drawn::Make::{Add, Delay, Encode, Head, Keep, Repeat, Scramble, Skip, Sum};
use super::drawn::{Drawn, Make, SINK, SOURCE, Wire, add, build, made, plain};
use flowgraph::{BlockId, Graph, Policy, Valid};
use kinds::Kind;
use rates::{Rates, balance};
use slices::{Asks, Part, Plan, Planned, first_to_count, later_graph, plan_slices};
use std::alloc::Global;
use std::process::Abort;
use std::test::Fail;

// The answer on a graph.
fn answer(rt: &impl Abort, alloc: Global, case: &str, graph: &Valid<Kind>, asks: Asks) -> Planned {
    let Ok(Rates::Balanced(rates)) = balance(alloc, graph) else {
        panic!(rt; "{case}: no balance");
    };
    let Ok(planned) = plan_slices(alloc, graph, &rates, asks) else {
        panic!(rt; "{case}: no memory");
    };
    planned
}

// That on a graph of these blocks, all of which send all tags.
fn planned(
    rt: &impl Abort,
    alloc: Global,
    case: &str,
    blocks: &[Drawn<'_>],
    wires: &[Wire],
    asks: Asks,
) -> Planned {
    let Ok(graph): Result<Valid<Kind>, _> = build(alloc, blocks, wires, blocks.len()) else {
        panic!(rt; "{case}: the graph is refused");
    };
    answer(rt, alloc, case, &graph, asks)
}

// The plan of a graph that has one.
fn plan(
    rt: &impl Abort,
    alloc: Global,
    case: &str,
    blocks: &[Drawn<'_>],
    wires: &[Wire],
    asks: Asks,
) -> Plan {
    let Planned::Plan(plan) = planned(rt, alloc, case, blocks, wires, asks) else {
        panic!(rt; "{case}: no plan");
    };
    plan
}

// Blocks between a source and a sink, in a row; the iterations and the items that slices overlap, from which item on
// the sink's are right, and how many a slice drops.
type Chain = (&'static str, &'static [Make], u64, u64, u64, u64);

const CHAINS: [Chain; 13] = [
    ("nothing between", &[], 0, 0, 0, 0),
    ("a head", &[Head(7)], 0, 0, 0, 0),
    ("a scrambler between sums", &[Sum(3), Scramble(1), Sum(2)], 3, 3, 3, 3),
    ("a sum of three", &[Sum(3)], 2, 2, 2, 2),
    ("one in three", &[Keep(3)], 0, 0, 0, 0),
    ("one in two, then a sum", &[Keep(2), Sum(3)], 2, 4, 2, 2),
    ("a sum, then one in two", &[Sum(4), Keep(2)], 2, 4, 2, 2),
    ("three for one", &[Sum(2), Repeat(3)], 1, 1, 3, 3),
    ("five zeros first", &[Delay(5)], 0, 0, 5, 5),
    ("five zeros and a sum", &[Delay(5), Sum(4)], 3, 3, 8, 8),
    ("four items left out", &[Skip(4)], 4, 4, 0, 0),
    ("a sum and an item left out", &[Sum(3), Skip(1)], 2, 2, 1, 1),
    ("left out behind one in two", &[Keep(2), Skip(3)], 3, 6, 0, 0),
];

// The same where tags are asked for.
const TAGGED: [Chain; 13] = [
    ("nothing between", &[], 0, 0, 0, 0),
    ("a head", &[Head(7)], 0, 0, 0, 0),
    ("a head and a scrambler behind one in three", &[Keep(3), Head(7), Scramble(1)], 1, 3, 1, 1),
    // A tag on item 2 goes to item 2 / 3 to the nearest, which is 1.
    ("one in three", &[Keep(3)], 1, 3, 1, 1),
    // From there, one on item 0 to item 0.
    ("one in three, twice", &[Keep(3), Keep(3)], 1, 9, 1, 1),
    // Ties go up: a tag on item 1 goes to item 1.
    ("one in two", &[Keep(2)], 1, 2, 1, 1),
    ("a sum, then one in two", &[Sum(4), Keep(2)], 2, 4, 2, 2),
    ("one in two, then a sum", &[Keep(2), Sum(3)], 2, 4, 2, 2),
    ("three for one", &[Repeat(3)], 0, 0, 0, 0),
    ("five zeros first", &[Delay(5)], 0, 0, 5, 5),
    ("one in three, then zeros", &[Keep(3), Delay(5)], 1, 3, 6, 6),
    // The tags on them go to the first item behind.
    ("four items left out", &[Skip(4)], 5, 5, 1, 1),
    ("left out behind one in two", &[Keep(2), Skip(3)], 4, 8, 1, 1),
];

#[test]
fn chains(rt: HostRuntime) -> Result<(), Fail> {
    test_chains(&rt, rt.alloc(), &CHAINS, Asks::Items)
}

#[test]
fn tagged_chains(rt: HostRuntime) -> Result<(), Fail> {
    test_chains(&rt, rt.alloc(), &TAGGED, Asks::ItemsAndTags)
}

fn test_chains(rt: &impl Abort, alloc: Global, chains: &[Chain], asks: Asks) -> Result<(), Fail> {
    for (case, made, overlap, read, settled, drop) in chains {
        let mut blocks: Vec<Drawn<'_>> = Vec::new(alloc);
        let mut wires: Vec<Wire> = Vec::new(alloc);
        blocks.push(plain(b"src", SOURCE))?;
        for (number, make) in made.iter().enumerate() {
            blocks.push(plain(&NAMES[number..=number], *make))?;
        }
        blocks.push(plain(b"out", SINK))?;
        for number in 1..blocks.len() as u32 {
            wires.push((number - 1, 0, number, 0))?;
        }
        let plan = plan(rt, alloc, case, &blocks, &wires, asks);
        assert!(rt; plan.asks == asks, "{case}: asks");
        assert!(rt; plan.overlap == *overlap, "{case}: overlap");
        assert!(rt; plan.sources.len() == 1 && plan.sources[0].overlap == *read, "{case}: source");
        assert!(rt; plan.sinks.len() == 1, "{case}: sinks");
        assert!(rt; plan.sinks[0].settled == *settled, "{case}: settled");
        assert!(rt; plan.sinks[0].drop == *drop, "{case}: drop");
    }
    Ok(())
}

const NAMES: &[u8] = b"abcdef";

// A block that lets no tag through: what comes to it need not be right, but what comes to a sink.
#[test]
fn policies(rt: HostRuntime) -> Result<(), Fail> {
    let alloc = rt.alloc();
    let cases = [
        ("all", Policy::All, Policy::All, 1),
        ("none at the block", Policy::None, Policy::All, 0),
        ("none at the sink", Policy::All, Policy::None, 1),
    ];
    for (case, keep, sink, overlap) in cases {
        let mut graph: Graph<Kind> = Graph::new(alloc);
        add(alloc, &mut graph, plain(b"src", SOURCE), Policy::All)?;
        add(alloc, &mut graph, plain(b"keep", Keep(3)), keep)?;
        add(alloc, &mut graph, plain(b"out", SINK), sink)?;
        graph.connect(BlockId(0), 0, BlockId(1), 0)?;
        graph.connect(BlockId(1), 0, BlockId(2), 0)?;
        let Ok(graph) = graph.validate(alloc) else {
            panic!(rt; "{case}: the graph is refused");
        };
        let Planned::Plan(plan) = answer(&rt, alloc, case, &graph, Asks::ItemsAndTags) else {
            panic!(rt; "{case}: no plan");
        };
        assert!(rt; plan.overlap == overlap, "{case}: overlap");
        assert!(rt; plan.sinks[0].drop == overlap, "{case}: drop");
    }
    Ok(())
}

// Both ways of one stream, where the longer one counts whichever input it enters.
#[test]
fn joined(rt: HostRuntime) -> Result<(), Fail> {
    let alloc = rt.alloc();
    for (a, b) in [(2, 5), (5, 2)] {
        let blocks = [
            plain(b"src", SOURCE),
            plain(b"a", Sum(a)),
            plain(b"b", Sum(b)),
            plain(b"add", Add),
            plain(b"out", SINK),
        ];
        let wires = [(0, 0, 1, 0), (0, 0, 2, 0), (1, 0, 3, 0), (2, 0, 3, 1), (3, 0, 4, 0)];
        let plan = plan(&rt, alloc, "joined", &blocks, &wires, Asks::Items);
        assert!(rt; plan.overlap == 4, "overlap");
        assert!(rt; plan.sinks[0].drop == 4, "drop");
    }
    Ok(())
}

// Connections and blocks against the order of the stream.
#[test]
fn backwards(rt: HostRuntime) -> Result<(), Fail> {
    let alloc = rt.alloc();
    let blocks = [
        plain(b"out", SINK),
        plain(b"keep", Keep(2)),
        plain(b"sum", Sum(4)),
        plain(b"late", Delay(3)),
        plain(b"src", SOURCE),
    ];
    let wires = [(1, 0, 0, 0), (2, 0, 1, 0), (3, 0, 2, 0), (4, 0, 3, 0)];
    let plan = plan(&rt, alloc, "backwards", &blocks, &wires, Asks::Items);
    // The sum is right from item 6 on, so the sink from item 3; it has one item at first, and one more each iteration.
    assert!(rt; plan.overlap == 2, "overlap");
    assert!(rt; plan.sources[0].overlap == 4, "source");
    assert!(rt; plan.sinks[0].settled == 3, "settled");
    assert!(rt; plan.sinks[0].drop == 3, "drop");
    Ok(())
}

// The first block that does not forget is named, and not one that counts.
#[test]
fn remembering(rt: HostRuntime) -> Result<(), Fail> {
    let alloc = rt.alloc();
    let blocks = [
        plain(b"src", SOURCE),
        plain(b"some", Head(9)),
        plain(b"sums", Encode),
        plain(b"more", Encode),
        plain(b"out", SINK),
    ];
    let wires = [(0, 0, 1, 0), (1, 0, 2, 0), (2, 0, 3, 0), (3, 0, 4, 0)];
    let found = planned(&rt, alloc, "sums", &blocks, &wires, Asks::Items);
    assert!(rt; matches!(found, Planned::Remembers(BlockId(2))), "the first that remembers");
    Ok(())
}

// Heads of 100 and of 10 items, and a scrambler between them.
fn counting(heads: [u64; 2], held: u64) -> [Drawn<'static>; 6] {
    [
        plain(b"src", SOURCE),
        plain(b"some", Head(heads[0])),
        (b"keep", Keep(2), 3, 1),
        (b"noise", Scramble(held), 2, 1),
        plain(b"few", Head(heads[1])),
        plain(b"out", SINK),
    ]
}

const COUNTING_WIRES: [Wire; 5] =
    [(0, 0, 1, 0), (1, 0, 2, 0), (2, 0, 3, 0), (3, 0, 4, 0), (4, 0, 5, 0)];

// In an iteration the source gives 12 items, and `keep` takes them in 2 firings, each of which is 3. So 6 come to the
// scrambler, whose firing is 2, and to the second head. Behind 2 iterations that is 24 of the first 100, and 12 of the
// next 10. The register goes round in 7 steps, and stands 5 further.
#[test]
fn later_graphs(rt: HostRuntime) -> Result<(), Fail> {
    let alloc = rt.alloc();
    for (iterations, heads, held) in [
        (0, [100, 10], 1),
        (1, [88, 4], 4),
        (2, [76, 0], 2),
        (9, [0, 0], 2),
        (1 << 46, [0, 0], 2),
    ] {
        let graph: Valid<Kind> = build(alloc, &counting([100, 10], 1), &COUNTING_WIRES, 6)?;
        let wanted: Valid<Kind> = build(alloc, &counting(heads, held), &COUNTING_WIRES, 6)?;
        let firings = [12, 12, 2, 3, 6, 6];
        let likes = kinds(alloc, &counting([100, 10], 1))?;
        let Ok(Some(later)) = later_graph(alloc, &graph, &firings, iterations, likes) else {
            panic!(rt; "{iterations}: no later graph");
        };
        assert!(rt; later.agrees(&wanted), "{iterations}");
        assert!(rt; first_to_count(&graph) == Some(BlockId(1)), "the first that counts");
    }
    Ok(())
}

// Blocks that are not those of the graph, one too few, firings that are no number, and a block that remembers.
#[test]
fn no_later_graph(rt: HostRuntime) -> Result<(), Fail> {
    let alloc = rt.alloc();
    let own = counting([100, 10], 1);
    let mut remembers = own;
    remembers[3].1 = Encode;
    let firings = [12, 12, 2, 3, 6, 6];
    for (case, of, like, count, iterations) in [
        ("another head", own, counting([100, 9], 1), 6, 1),
        ("five blocks", own, own, 5, 1),
        ("too many firings", own, own, 6, u64::MAX),
        ("sums", remembers, remembers, 6, 1),
    ] {
        let graph: Valid<Kind> = build(alloc, &of, &COUNTING_WIRES, 6)?;
        let likes = kinds(alloc, &like[..count])?;
        let found = later_graph(alloc, &graph, &firings, iterations, likes);
        assert!(rt; matches!(found, Ok(None)), "{case}");
    }
    Ok(())
}

fn kinds(alloc: Global, blocks: &[Drawn<'_>]) -> Result<Vec<Kind>, Fail> {
    let mut kinds = Vec::new(alloc);
    for (_, make, _, _) in blocks {
        kinds.push(made(*make)?)?;
    }
    Ok(kinds)
}

// A slice behind five zeros and a sum of four, and the first one.
#[test]
fn slices(rt: HostRuntime) -> Result<(), Fail> {
    let alloc = rt.alloc();
    let blocks = [
        plain(b"src", SOURCE),
        plain(b"late", Delay(5)),
        plain(b"sum", Sum(4)),
        plain(b"out", SINK),
    ];
    let wires = [(0, 0, 1, 0), (1, 0, 2, 0), (2, 0, 3, 0)];
    let plan = plan(&rt, alloc, "slices", &blocks, &wires, Asks::Items);
    for (begins, from, drop, stands) in [(0, 0, 0, 0), (3, 0, 8, 8), (10, 7, 8, 15)] {
        let slice = plan.slice(alloc, begins)?;
        let part = Part {
            block: BlockId(3),
            drop,
            stands,
        };
        assert!(rt; slice.from == from, "{begins}: from");
        assert!(rt; slice.parts.as_slice() == [part].as_slice(), "{begins}: parts");
    }
    Ok(())
}
