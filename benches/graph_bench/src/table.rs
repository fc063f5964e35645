//! The table of all shapes.

use crate::graphs::Shape;
use crate::races::{Rates, race};
use items::ItemType;
use std::io;

// What rows have that do not say otherwise.
const PLAIN: Shape = Shape {
    item: ItemType::Byte,
    adders: 4,
    chains: 1,
    kept: false,
    capacity: 4096,
    most: u32::MAX,
    items: 1_000_000,
    tag_every: None,
    turned: false,
};

/// Times each shape and prints its row.
pub fn print_table(rt: &HostRuntime) -> io::Result<()> {
    println!(rt;
        "item  adders chains sink capacity   most    items tags first      graph     plain      copy  of plain"
    )?;
    for item in [ItemType::Byte, ItemType::Int] {
        let plain = Shape { item, ..PLAIN };
        for kept in [false, true] {
            for adders in [1, 4, 16, 64] {
                print_row(
                    rt,
                    Shape {
                        adders,
                        kept,
                        ..plain
                    },
                )?;
            }
        }
        print_row(
            rt,
            Shape {
                adders: 1,
                chains: 8,
                ..plain
            },
        )?;
        print_row(
            rt,
            Shape {
                tag_every: Some(16),
                ..plain
            },
        )?;
        print_row(
            rt,
            Shape {
                tag_every: Some(16),
                kept: true,
                ..plain
            },
        )?;
        for capacity in [64, 65_536] {
            print_row(rt, Shape { capacity, ..plain })?;
        }
        print_row(
            rt,
            Shape {
                capacity: 65_536,
                most: 4_096,
                ..plain
            },
        )?;
        for items in [10_000, 100_000, 10_000_000] {
            print_row(rt, Shape { items, ..plain })?;
        }
    }
    // The graph of a run between raw items.
    print_row(
        rt,
        Shape {
            item: ItemType::Short,
            adders: 1,
            kept: true,
            items: 10_000_000,
            ..PLAIN
        },
    )?;
    // A small piece through the longest chain, in either order of its blocks.
    for turned in [false, true] {
        print_row(
            rt,
            Shape {
                adders: 252,
                items: 1_000,
                turned,
                ..PLAIN
            },
        )?;
    }
    Ok(())
}

// Rates are in millions of items a second, for each block.
fn print_row(rt: &HostRuntime, shape: Shape) -> io::Result<()> {
    let Rates { graph, plain, copy } = race(rt, shape)?;
    let item = match shape.item {
        ItemType::Byte => "byte",
        ItemType::Short => "short",
        ItemType::Int => "int",
    };
    let sink = if shape.kept { "kept" } else { "null" };
    let tags = if shape.tag_every.is_some() {
        "1:16"
    } else {
        "none"
    };
    let first = if shape.turned { "sink" } else { "source" };
    let percent = graph.saturating_mul(100) / plain.max(1);
    let (whole, part) = (percent / 100, percent % 100);
    let Shape {
        adders,
        chains,
        capacity,
        items,
        ..
    } = shape;
    let most = shape.most.min(capacity);
    let (graph, plain, copy) = (graph / 1000, plain / 1000, copy / 1000);
    println!(rt;
        "{item:<5} {adders:>6} {chains:>6} {sink:<4} {capacity:>8} {most:>6} {items:>8} {tags:<4} {first:<6} {graph:>9} {plain:>9} {copy:>9} {whole:>6}.{part:02}"
    )
}
