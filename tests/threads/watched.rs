//! What a watch is shown of a run in as many threads as its work is worth, on one thread and in a pool: the count never
//! falls, and the end is told once.
use super::adaptive::{CHAIN, dear_chains};
use super::drawn::fed;
use super::gates::Counts;
use super::runs::{shared, split};
use super::ways::{ByChance, Still, WithClock, adaptive};
use plant::{Headway, Watch};
use std::test::Fail;
use std::time::Duration;
use threads::run_with;

// The watch that notes what it is shown.
#[derive(Drop)]
struct Notes {
    pause: Option<Duration>,
    shown: u32,
    fell: bool,
    last: u64,
    ended: u32,
}

impl Notes {
    fn new(pause: Option<Duration>) -> Notes {
        Notes {
            pause,
            shown: 0,
            fell: false,
            last: 0,
            ended: 0,
        }
    }
}

impl Watch for Notes {
    fn pause(&self) -> Option<Duration> {
        self.pause
    }

    fn show(&mut self, headway: Headway) {
        self.shown += 1;
        self.fell |= headway.given < self.last;
        self.last = headway.given;
    }

    fn end(&mut self) {
        self.ended += 1;
    }
}

#[test]
fn a_watch_is_shown_a_run_on_one_thread_and_in_a_pool(rt: HostRuntime) -> Result<(), Fail> {
    let alloc = rt.alloc();
    let erratic = WithClock {
        rt,
        clock: ByChance,
    };
    for pause in [None, Some(Duration::ZERO)] {
        let mut alone = Notes::new(pause);
        let gate = shared(&rt, alloc, Counts::new());
        let plant = fed(&rt, alloc, &CHAIN);
        let still = WithClock { rt, clock: Still };
        match run_with(still, alloc, plant, adaptive(gate), &mut alone) {
            Ok(outcome) => {
                let _ = split(&rt, outcome);
            }
            Err(fault) => panic!(rt; "not run: {fault}"),
        }
        let mut pooled = Notes::new(pause);
        let gate = shared(&rt, alloc, Counts::new());
        let plant = dear_chains(&rt, alloc, [0, u64::MAX]);
        match run_with(erratic, alloc, plant, adaptive(gate), &mut pooled) {
            Ok(outcome) => {
                let _ = split(&rt, outcome);
            }
            Err(fault) => panic!(rt; "not run: {fault}"),
        }
        for (what, notes) in [("alone", &alone), ("in a pool", &pooled)] {
            assert!(rt; notes.ended == 1, "{what}: ended {} times", notes.ended);
            assert!(rt; !notes.fell, "{what}: it went back");
            assert!(rt;
                pause.is_some() == (0 < notes.shown),
                "{what}: shown {} times",
                notes.shown
            );
        }
    }
    Ok(())
}
