//! Runs that do not come to an end, by number and text.
use super::drawn::{Make, feed, kind, opened};
use super::gates::Counts;
use super::probes::{Habit, Probe};
use super::runs::{share, shared};
use flowgraph::BlockId;
use plant::Plant;
use refusal_codes::Refusal;
use std::alloc::Global;
use std::process::Abort;
use std::test::Fail;
use threads::{RunFault, run};

// A source and a sink, of which the sink has this habit.
fn probed(rt: &impl Abort, alloc: Global, habit: Habit) -> Plant<Probe> {
    let mut blocks = Vec::new(alloc);
    let source = Probe {
        kind: kind(rt, Make::Source),
        habit: Habit::Plain,
    };
    let sink = Probe {
        kind: kind(rt, Make::Sink),
        habit,
    };
    assert!(rt;
        blocks.push(source).is_ok() && blocks.push(sink).is_ok(),
        "no memory"
    );
    let mut plant = opened(rt, alloc, blocks, &[(0, 0, 1, 0)], 4);
    feed(rt, alloc, &mut plant, BlockId(0), 10);
    plant
}

#[test]
fn faults_have_their_numbers_and_texts(rt: HostRuntime) -> Result<(), Fail> {
    let alloc = rt.alloc();
    let faults = [
        (
            60,
            "out of memory",
            RunFault::Memory(probed(&rt, alloc, Habit::Plain)),
        ),
        (
            61,
            "a thread could not be started",
            RunFault::Thread(probed(&rt, alloc, Habit::Plain)),
        ),
        (
            62,
            "what came back is not what was handed in",
            RunFault::Foreign,
        ),
    ];
    for (number, text, fault) in faults {
        assert!(rt; fault.number() == number, "number {number}");
        let said = format!(in alloc; "{fault}")?;
        assert!(rt; said.as_str() == text, "{said}");
    }
    Ok(())
}

// A block that is not equal to itself is none that was handed in, however well it works.
#[test]
fn a_plant_that_does_not_hold_what_was_handed_in_is_refused(rt: HostRuntime) -> Result<(), Fail> {
    let alloc = rt.alloc();
    let gate = shared(&rt, alloc, Counts::new());
    let plant = probed(&rt, alloc, Habit::Unlike);
    match run(rt, alloc, plant, share(&rt, &gate)) {
        Ok(_) => panic!(rt; "ended"),
        Err(fault) => assert!(rt; fault.number() == 62, "{fault}"),
    }
    let plant = probed(&rt, alloc, Habit::Plain);
    assert!(rt;
        run(rt, alloc, plant, share(&rt, &gate)).is_ok(),
        "the same with equal blocks"
    );
    assert!(rt; gate.missed() == 0, "a sleeper was missed");
    Ok(())
}
