//! What a gate that measures costs a run in as many threads as the work is worth, where it is there and where it is
//! not.

use crate::graphs::{Shape, fed_plant};
use crate::races::{Host, run_span};
use run_stats::Meter;
use std::alloc::Global;
use std::io;
use std::sync::Arc;
use threads::{Open, Threading};

/// How long a run takes, in nanoseconds.
#[derive(Clone, Copy)]
pub struct GateTimes {
    /// That has no gate, and knows of none.
    pub ungated: u128,
    /// That may have a meter, and has none.
    pub unmetered: u128,
    /// That has a meter.
    pub metered: u128,
}

/// The least times of so many runs of each, in turn.
pub fn gate_times<R: Host + Drop + 'static>(
    rt: R,
    alloc: Global,
    shape: Shape,
    runs: u32,
) -> io::Result<GateTimes> {
    let mut times = GateTimes {
        ungated: u128::MAX,
        unmetered: u128::MAX,
        metered: u128::MAX,
    };
    for _ in 0..runs {
        times = GateTimes {
            ungated: times.ungated.min(ungated_time(rt, alloc, shape)?),
            unmetered: times.unmetered.min(time(rt, alloc, shape, false)?),
            metered: times.metered.min(time(rt, alloc, shape, true)?),
        };
    }
    Ok(times)
}

fn ungated_time<R: Host + 'static>(rt: R, alloc: Global, shape: Shape) -> io::Result<u128> {
    let plant = fed_plant(alloc, shape)?.plant;
    Ok(run_span::<Open, R>(rt, alloc, shape, plant, Threading::Adaptive, None)?.elapsed)
}

fn time<R: Host + Drop + 'static>(
    rt: R,
    alloc: Global,
    shape: Shape,
    is_metered: bool,
) -> io::Result<u128> {
    let plant = fed_plant(alloc, shape)?.plant;
    let gate = if is_metered {
        Some(Arc::new(alloc, Meter::new(alloc, rt, plant.graph())?)?)
    } else {
        None
    };
    Ok(run_span::<Meter<R>, R>(rt, alloc, shape, plant, Threading::Adaptive, gate)?.elapsed)
}
