//! What the graphs of programs that time them are fed, and why one does not run.

use crate::plain::counted;
use flowgraph::GraphFault;
use items::{ItemType, Items, Mark, TagKey};
use plant::PlantFault;
use std::alloc::{AllocError, Global};
use std::io;

/// Why a graph does not run.
#[derive(Drop)]
pub enum Fault {
    Graph(GraphFault),
    Plant(PlantFault),
    Memory,
    /// It did not come to its end, or what it was to be is not allowed.
    Run,
}

impl From<AllocError> for Fault {
    fn from(_refusal: AllocError) -> Fault {
        Fault::Memory
    }
}

impl From<GraphFault> for Fault {
    fn from(fault: GraphFault) -> Fault {
        Fault::Graph(fault)
    }
}

impl From<PlantFault> for Fault {
    fn from(fault: PlantFault) -> Fault {
        Fault::Plant(fault)
    }
}

impl From<Fault> for io::Error {
    fn from(_fault: Fault) -> io::Error {
        io::Error::from(io::ErrorKind::InvalidData)
    }
}

/// So many items that count from 0 on, as far as the type goes, and then from its least again.
pub fn tape_of(alloc: Global, item: ItemType, count: usize) -> Result<Items, AllocError> {
    Ok(match item {
        ItemType::Byte => Items::Byte(counted(alloc, count)?),
        ItemType::Short => Items::Short(counted(alloc, count)?),
        ItemType::Int => Items::Int(counted(alloc, count)?),
    })
}

/// A mark on each of so many items whose number is a multiple of `every`.
pub fn marks_of(
    alloc: Global,
    every: Option<usize>,
    count: usize,
) -> Result<Vec<Mark>, AllocError> {
    let mut marks = Vec::new(alloc);
    let (Some(every), Some(key)) = (every, TagKey::new(b"k")) else {
        return Ok(marks);
    };
    for n in 0..count {
        if every != 0 && n % every == 0 {
            marks.push(Mark {
                offset: n as u64,
                key,
                value: 1,
            })?;
        }
    }
    Ok(marks)
}
