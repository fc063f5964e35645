//! The table of all shapes.

use crate::gates::{GateTimes, gate_times};
use crate::graphs::{Shape, Work};
use crate::races::{Host, Times, race};
use items::ItemType;
use std::alloc::Global;
use std::io;
use std::mem::size_of;
use threads::Entry;

// Of so many runs the least time counts.
const RUNS: u32 = 5;

// And of so many where a difference of one in a hundred counts.
const MANY_RUNS: u32 = 100;

// What rows have that do not say otherwise.
const PLAIN: Shape = Shape {
    item: ItemType::Byte,
    work: Work::Add,
    blocks: 4,
    chains: 1,
    is_fan: false,
    kept: false,
    capacity: 4_096,
    multiple: 1,
    items: 1_000_000,
    tag_every: None,
    turns: 1_024,
};

const FILTERS: Shape = Shape {
    item: ItemType::Short,
    work: Work::Filter,
    ..PLAIN
};

// The parts of the table.
const PARTS: [&str; 4] = ["lengths", "chains", "filters", "tuning"];

// A table of its own.
const GATES: &str = "gates";

/// Whether a part of the table has this name, or another table.
pub fn is_part(name: &str) -> bool {
    name == GATES || PARTS.contains(&name)
}

/// Times each shape and prints its row.
pub fn print_table<R: Host + Print + 'static>(rt: R, alloc: Global) -> io::Result<()> {
    print_head(rt)?;
    for part in PARTS {
        print_rows(rt, alloc, part)?;
    }
    Ok(())
}

/// Times the shapes of one part of the table, or those of the other table, and prints their rows.
pub fn print_part<R: Host + Print + Drop + 'static>(
    rt: R,
    alloc: Global,
    name: &str,
) -> io::Result<()> {
    if name == GATES {
        return print_gates(rt, alloc);
    }
    print_head(rt)?;
    print_rows(rt, alloc, name)
}

fn print_head<R: Host + Print + 'static>(rt: R) -> io::Result<()> {
    println!(rt; "an entry of a history has {} bytes", size_of::<Entry>())?;
    println!(rt;
        "item  work   blocks chains source sink capacity multiple turns    items tags    plain us  settle us threads us processor  settle/threads adaptive us processor helped us processor lock ns    live us entries"
    )
}

fn print_rows<R: Host + Print + 'static>(rt: R, alloc: Global, part: &str) -> io::Result<()> {
    match part {
        "lengths" => print_lengths(rt, alloc),
        "chains" => print_chains(rt, alloc),
        "filters" => print_filters(rt, alloc),
        _ => print_tuning(rt, alloc),
    }
}

// Runs that have little to do, and runs that have much.
fn print_lengths<R: Host + Print + 'static>(rt: R, alloc: Global) -> io::Result<()> {
    for blocks in [0, 1, 4, 16, 64] {
        print_row(
            rt,
            alloc,
            Shape {
                blocks,
                items: 1_000,
                ..PLAIN
            },
        )?;
    }
    for item in [ItemType::Byte, ItemType::Int] {
        print_row(
            rt,
            alloc,
            Shape {
                item,
                items: 10_000_000,
                ..PLAIN
            },
        )?;
    }
    print_row(
        rt,
        alloc,
        Shape {
            items: 10_000_000,
            ..FILTERS
        },
    )
}

// Adders: of each type, in a row, side by side, and with tags.
fn print_chains<R: Host + Print + 'static>(rt: R, alloc: Global) -> io::Result<()> {
    for item in [ItemType::Byte, ItemType::Short, ItemType::Int] {
        let plain = Shape { item, ..PLAIN };
        for kept in [false, true] {
            for blocks in [1, 4, 16, 64] {
                print_row(
                    rt,
                    alloc,
                    Shape {
                        blocks,
                        kept,
                        ..plain
                    },
                )?;
            }
        }
        print_row(
            rt,
            alloc,
            Shape {
                blocks: 1,
                chains: 8,
                is_fan: true,
                ..plain
            },
        )?;
        for kept in [false, true] {
            print_row(
                rt,
                alloc,
                Shape {
                    kept,
                    tag_every: Some(16),
                    ..plain
                },
            )?;
        }
    }
    Ok(())
}

// Filters in a row and side by side.
fn print_filters<R: Host + Print + 'static>(rt: R, alloc: Global) -> io::Result<()> {
    for blocks in [1, 4, 16] {
        print_row(rt, alloc, Shape { blocks, ..FILTERS })?;
    }
    print_row(
        rt,
        alloc,
        Shape {
            blocks: 1,
            chains: 4,
            ..FILTERS
        },
    )?;
    print_row(
        rt,
        alloc,
        Shape {
            blocks: 1,
            chains: 8,
            is_fan: true,
            ..FILTERS
        },
    )
}

// Buffers, turns and multiples.
fn print_tuning<R: Host + Print + 'static>(rt: R, alloc: Global) -> io::Result<()> {
    for shape in [PLAIN, FILTERS] {
        for capacity in [64, 4_096, 65_536] {
            for turns in [1_024, 4_096, 16_384, 65_536] {
                print_row(
                    rt,
                    alloc,
                    Shape {
                        capacity,
                        turns,
                        ..shape
                    },
                )?;
            }
        }
        for multiple in [16, 64] {
            print_row(rt, alloc, Shape { multiple, ..shape })?;
        }
    }
    Ok(())
}

// Adders, with buffers that make a run of many short steps, of few long ones, and of some.
fn print_gates<R: Host + Print + Drop + 'static>(rt: R, alloc: Global) -> io::Result<()> {
    println!(rt; "capacity blocks   ungated ns unmetered ns   metered ns")?;
    for capacity in [64, 4_096, 65_536] {
        for blocks in [1, 4, 16] {
            let shape = Shape {
                blocks,
                capacity,
                ..PLAIN
            };
            let GateTimes {
                ungated,
                unmetered,
                metered,
            } = gate_times(rt, alloc, shape, MANY_RUNS)?;
            println!(rt; "{capacity:>8} {blocks:>6} {ungated:>12} {unmetered:>12} {metered:>12}")?;
        }
    }
    Ok(())
}

// Times are in microseconds.
fn print_row<R: Host + Print + 'static>(rt: R, alloc: Global, shape: Shape) -> io::Result<()> {
    let Times {
        plain,
        settled,
        threads,
        adaptive,
        helped,
        hold,
        live,
        entries,
    } = race(rt, alloc, shape, RUNS)?;
    let item = match shape.item {
        ItemType::Byte => "byte",
        ItemType::Short => "short",
        ItemType::Int => "int",
    };
    let work = match shape.work {
        Work::Add => "add",
        Work::Filter => "filter",
    };
    let source = if shape.is_fan { "one" } else { "each" };
    let sink = if shape.kept { "kept" } else { "null" };
    let tags = if shape.tag_every.is_some() {
        "1:16"
    } else {
        "none"
    };
    let percent = settled.saturating_mul(100) / threads.elapsed.max(1);
    let (whole, part) = (percent / 100, percent % 100);
    let (plain, settled) = (plain / 1000, settled / 1000);
    let (elapsed, processor) = (threads.elapsed / 1000, threads.processor / 1000);
    let (chosen, its_processor) = (adaptive.elapsed / 1000, adaptive.processor / 1000);
    let (helped, helpers) = (helped.elapsed / 1000, helped.processor / 1000);
    let live = live / 1000;
    let Shape {
        blocks,
        chains,
        capacity,
        multiple,
        turns,
        items,
        ..
    } = shape;
    println!(rt;
        "{item:<5} {work:<6} {blocks:>6} {chains:>6} {source:<6} {sink:<4} {capacity:>8} {multiple:>8} {turns:>5} {items:>8} {tags:<4} {plain:>11} {settled:>10} {elapsed:>10} {processor:>9} {whole:>12}.{part:02} {chosen:>11} {its_processor:>9} {helped:>9} {helpers:>9} {hold:>7} {live:>10} {entries:>7}"
    )
}
