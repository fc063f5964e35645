//! The order of blocks for steps.
use super::drawn::{Drawn, Make, SINK, SOURCE, Wire, build, plain};
use std::process::Abort;
use std::test::Fail;

const NOBODY: usize = 256;

// The places of the blocks in the order of a graph of five.
fn order(rt: &(impl Abort + AllocGlobal), blocks: &[Drawn<'_>; 5], wires: &[Wire]) -> [u32; 5] {
    let Ok(graph) = build(rt.alloc(), blocks, wires, NOBODY) else {
        panic!(rt; "refused");
    };
    let mut order = [0; 5];
    assert!(rt; graph.writers_first().len() == 5, "as many as there are");
    for (place, block) in graph.writers_first().iter().enumerate() {
        order[place] = block.0;
    }
    order
}

// A chain has one order alone.
#[test]
fn chains_go_from_the_source_on(rt: HostRuntime) -> Result<(), Fail> {
    let not = Make::Not;
    for (makes, chain) in [
        ([SOURCE, not, not, not, SINK], [0, 1, 2, 3, 4]),
        ([SINK, not, not, not, SOURCE], [4, 3, 2, 1, 0]),
        ([not, SINK, not, SOURCE, not], [3, 4, 0, 2, 1]),
    ] {
        let [a, b, c, d, e] = makes;
        let blocks = [plain(b"a", a), plain(b"b", b), plain(b"c", c), plain(b"d", d), plain(b"e", e)];
        let [source, first, second, third, sink] = chain;
        let wires = [(second, 0, third, 0), (third, 0, sink, 0), (source, 0, first, 0), (first, 0, second, 0)];
        assert!(&rt; order(&rt, &blocks, &wires) == chain, "{chain:?}");
    }
    Ok(())
}

// Two sources that are added, and a copy of the first: in any order in which writers come first when they were added
// so, and in such a one when they were not.
#[test]
fn the_order_of_adding_is_kept_where_it_will_do(rt: HostRuntime) -> Result<(), Fail> {
    let blocks = [plain(b"x", SOURCE), plain(b"copy", SINK), plain(b"y", SOURCE), plain(b"sum", Make::Add), plain(b"out", SINK)];
    let wires = [(3, 0, 4, 0), (0, 0, 3, 0), (2, 0, 3, 1), (0, 0, 1, 0)];
    assert!(&rt; order(&rt, &blocks, &wires) == [0, 1, 2, 3, 4], "as added");
    let blocks = [plain(b"out", SINK), plain(b"sum", Make::Add), plain(b"copy", SINK), plain(b"y", SOURCE), plain(b"x", SOURCE)];
    let wires = [(1, 0, 0, 0), (4, 0, 1, 0), (3, 0, 1, 1), (4, 0, 2, 0)];
    let order = order(&rt, &blocks, &wires);
    let place = |block: u32| order.iter().position(|b| *b == block);
    for block in 0..5 {
        assert!(&rt; place(block).is_some(), "{block} is there");
    }
    for (from, _, to, _) in wires {
        assert!(&rt; place(from) < place(to), "{from} before {to}");
    }
    Ok(())
}
