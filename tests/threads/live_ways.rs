//! What a run owes its callers while cheap blocks run flat out, in each way.
use super::drawn::{Drawing, EMPTY, Make, fed};
use super::live_runs::{Answered, LIVE_WAYS, LiveWay, Part, Seat, answered, doing};
use super::runs::{End, Host, ended_as};
use flowgraph::BlockId;
use std::alloc::Global;
use std::sync::Wait;
use std::test::Fail;
use std::time::{Clock, Duration, Instant};
use threads::Gate;

const MANY: u32 = 100_000;

// A source whose items are repeated so often that a run goes on for long.
const FLAT_OUT: Drawing<'static> = Drawing {
    makes: &[
        Make::Source,
        Make::Repeat(1_000),
        Make::Not,
        Make::Keep(1_000),
        Make::Sink,
    ],
    wires: &[(0, 0, 1, 0), (1, 0, 2, 0), (2, 0, 3, 0), (3, 0, 4, 0)],
    capacity: 4_096,
    items: MANY,
    ..EMPTY
};

const LAST: BlockId = BlockId(4);

// A machine may be busy: so often it is tried at most.
const TRIES: u32 = 100;

// Reads, asks for a stop, and looks how long it waited for both.
#[derive(Drop)]
struct Hurries<H> {
    clock: H,
    took: Option<Duration>,
}

impl<H: Clock + Drop> Part for Hurries<H> {
    fn make_calls<G: Gate + Drop, R: Wait>(&mut self, seat: &mut Seat<G, R>) -> Answered {
        let start = Instant::now(&self.clock);
        let read = seat.read(LAST, 0, 1);
        seat.stop();
        if let Ok(start) = start {
            self.took = start.elapsed(&self.clock).ok();
        }
        Ok(read.is_ok())
    }
}

// How long a caller waited in a run that was not done then.
fn hurried<R: Host + Sync + Drop>(rt: &R, alloc: Global, way: LiveWay) -> Result<Duration, Fail> {
    let caller = Hurries {
        clock: *rt,
        took: None,
    };
    let callers = doing(rt, alloc, vec![in alloc; caller]?);
    let opened = fed(rt, alloc, &FLAT_OUT);
    let ran = answered(rt, alloc, way, opened, callers);
    let Some(took) = ran.callers[0].part.took else {
        panic!(rt; "no clock");
    };
    let plant = ended_as(rt, ran.outcome, End::Stopped);
    assert!(rt; plant.headway().given < u64::from(MANY), "{way:?}: all was given");
    Ok(took)
}

#[test]
fn a_caller_is_answered_while_cheap_blocks_run_flat_out(rt: HostRuntime) -> Result<(), Fail> {
    let alloc = rt.alloc();
    for way in LIVE_WAYS {
        let mut least = Duration::MAX;
        for _ in 0..TRIES {
            if least < Duration::from_millis(50) {
                break;
            }
            least = least.min(hurried(&rt, alloc, way)?);
        }
        assert!(&rt;
            least < Duration::from_millis(50),
            "{way:?}: a read and a stop took {least:?}"
        );
    }
    Ok(())
}
