//! Turns of all lengths.
use super::desks::Sets;
use super::drawn::{Drawing, SINK, SOURCE, TURNED, fed};
use super::gates::Counts;
use super::live_runs::{Does, LiveWay, finished_with};
use super::runs::{
    End, ended, ended_as, holds_turned, launched, same_sinks, settled, share, shared,
};
use super::ways::{WAYS, per_block, ran_by};
use flowgraph::BlockId;
use std::process::Abort;
use std::sync::atomic::{AtomicU64, Ordering};
use std::test::Fail;
use threads::{Gate, Turns, launch_with};

const LENGTHS: [u32; 4] = [1, 7, 1_024, 65_536];

// Its buffers hold more than the longest turn, and less than the tape.
const CHAIN: Drawing<'static> = Drawing {
    capacity: 1_000,
    items: 3_000,
    ..TURNED
};

fn turns(rt: &impl Abort, most: u32) -> Turns {
    match Turns::new(most) {
        Some(turns) => turns,
        None => panic!(rt; "turns of {most}"),
    }
}

#[test]
fn turns_are_of_1_to_65_536_firings(rt: HostRuntime) -> Result<(), Fail> {
    for most in LENGTHS {
        assert!(rt; turns(&rt, most).most() == most, "turns of {most}");
    }
    assert!(rt; Turns::default().most() == 1_024, "the usual turns");
    for most in [0, 65_537, u32::MAX] {
        assert!(rt; Turns::new(most).is_none(), "no turns of {most}");
    }
    Ok(())
}

#[test]
fn sinks_do_not_tell_how_long_the_turns_are(rt: HostRuntime) -> Result<(), Fail> {
    let alloc = rt.alloc();
    let settled = settled(&rt, alloc, &CHAIN);
    for most in LENGTHS {
        for way in WAYS {
            let plant = fed(&rt, alloc, &CHAIN);
            let (end, plant) = ran_by(rt, alloc, way, plant, turns(&rt, most));
            assert!(rt; end == End::Done, "{way:?}, turns of {most}: {end:?}");
            holds_turned(&rt, alloc, &plant, SINK, CHAIN.items);
            same_sinks(&rt, alloc, &CHAIN, &plant, &settled, "turns");
        }
    }
    Ok(())
}

#[test]
fn a_turn_is_of_so_many_firings_at_most(rt: HostRuntime) -> Result<(), Fail> {
    let alloc = rt.alloc();
    for (most, least_passes) in [(1, 9_000), (7, 3 * 429), (65_536, 3 * 3)] {
        let gate = shared(&rt, alloc, Counts::new());
        let plant = fed(&rt, alloc, &CHAIN);
        let options = per_block(turns(&rt, most), share(&rt, &gate));
        let running = match launch_with(rt, alloc, plant, options) {
            Ok(running) => running,
            Err(fault) => panic!(rt; "not launched: {fault}"),
        };
        let (end, plant) = ended(&rt, running);
        assert!(rt; end == End::Done, "turns of {most}: {end:?}");
        holds_turned(&rt, alloc, &plant, SINK, CHAIN.items);
        // 3,000 firings of each of three blocks, at most so many in a turn, and at most 1,000 as there is room for.
        assert!(rt;
            least_passes <= gate.passed(),
            "turns of {most}: {} passes",
            gate.passed()
        );
        assert!(rt;
            most != 1 || gate.passed() == 9_000,
            "one firing in each turn"
        );
        assert!(rt; gate.missed() == 0, "turns of {most}: a sleeper was missed");
    }
    Ok(())
}

// Half of a buffer is more than a usual turn, and less than the longest.
const ROOMY: Drawing<'static> = Drawing {
    capacity: 4_096,
    items: 5_000,
    ..TURNED
};

// The gate that notes at which firing the source passes it a second time.
#[derive(Drop)]
struct SecondTurn {
    firing: AtomicU64,
}

impl SecondTurn {
    fn new() -> SecondTurn {
        SecondTurn {
            firing: AtomicU64::new(u64::MAX),
        }
    }

    fn begins_at(&self) -> u64 {
        self.firing.load(Ordering::SeqCst)
    }
}

impl Gate for SecondTurn {
    fn pass(&self, block: BlockId, firing: u64) {
        if block == SOURCE && 0 < firing {
            self.firing.fetch_min(firing, Ordering::SeqCst);
        }
    }
}

// As a run begins, the source has all its items, and nothing lies in its buffer. So its first turn is as long as the
// turns may be, but for half of the buffer.
const FIRST_TURNS: [(u32, u64); 4] = [(1, 1), (7, 7), (1_024, 1_024), (65_536, 2_048)];

#[test]
fn a_turn_is_as_long_as_it_may_be(rt: HostRuntime) -> Result<(), Fail> {
    let alloc = rt.alloc();
    for (most, second) in FIRST_TURNS {
        let gate = shared(&rt, alloc, SecondTurn::new());
        let plant = fed(&rt, alloc, &ROOMY);
        let options = per_block(turns(&rt, most), share(&rt, &gate));
        let running = match launch_with(rt, alloc, plant, options) {
            Ok(running) => running,
            Err(fault) => panic!(rt; "not launched: {fault}"),
        };
        let (end, _) = ended(&rt, running);
        assert!(rt; end == End::Done, "turns of {most}: {end:?}");
        assert_eq!(rt; gate.begins_at(), second, "turns of {most}");
    }
    let gate = shared(&rt, alloc, SecondTurn::new());
    let running = launched(rt, alloc, fed(&rt, alloc, &ROOMY), &gate);
    let (end, _) = ended(&rt, running);
    assert!(rt; end == End::Done, "the usual turns: {end:?}");
    assert_eq!(rt; gate.begins_at(), 1_024, "the usual turns");
    Ok(())
}

#[test]
fn a_turn_of_a_run_with_callers_is_as_long_as_it_may_be(rt: HostRuntime) -> Result<(), Fail> {
    let alloc = rt.alloc();
    for (most, second) in FIRST_TURNS {
        let gate = shared(&rt, alloc, SecondTurn::new());
        let nobody: Vec<Does<Sets>> = Vec::new(alloc);
        let plant = fed(&rt, alloc, &ROOMY);
        let ran = finished_with(&rt, alloc, LiveWay::EachBlock, plant, &gate, nobody, turns(&rt, most));
        let _ = ended_as(&rt, ran.outcome, End::Done);
        assert_eq!(rt; gate.begins_at(), second, "turns of {most}");
    }
    Ok(())
}
