//! Callers on threads of their own, who ask a pipeline while it runs: each has its own answers, in their order, and
//! what is written is that of a plant that was handed the same at the same items.
use super::runs::Host;
use flowgraph::{BlockId, Graph, Options, Policy};
use items::{ItemType, Items};
use kinds::{Kind, VectorSink, VectorSource};
use math_blocks::AddConst;
use pipeline::{AllReady, ByteOrder, End, Ended, Pipeline, Told};
use plant::{Plant, Settled, Taken};
use request_box::{Bell, CallFault, Caller, request_box};
use settings::Value;
use std::alloc::Global;
use std::io;
use std::io::Read;
use std::process::Abort;
use std::sync::Arc;
use std::sync::atomic::{AtomicU32, Ordering};
use std::test::Fail;
use std::thread;
use streaming::{NoHelpers, StreamingPlant, Unwatched};

// So often each caller sets its block.
const CALLS: u64 = 100;
const CALLERS: u32 = 3;

// Gives 1, 2, 3 and so on, for ever.
#[derive(Drop)]
struct Counting {
    last: u8,
}

impl Read for Counting {
    fn read(&mut self, buf: &mut [u8]) -> io::Result<usize> {
        for byte in &mut buf[..] {
            self.last = self.last.wrapping_add(1);
            *byte = self.last;
        }
        Ok(buf.len())
    }
}

// A source, as many adders as there are callers, one behind the other, and a sink.
fn graph(rt: &impl Abort, alloc: Global) -> Result<flowgraph::Valid<Kind>, Fail> {
    let mut graph = Graph::new(alloc);
    for number in 0..CALLERS + 2 {
        let kind = match number {
            0 => Kind::VectorSource(VectorSource::new(ItemType::Byte)),
            _ if number <= CALLERS => Kind::AddConst(AddConst::new(ItemType::Byte, 0).unwrap()),
            _ => Kind::VectorSink(VectorSink::new(ItemType::Byte)),
        };
        let options = Options { policy: Policy::All, multiple: 1, capacity: 16 };
        assert!(rt; graph.add_block(alloc, &[b'a' + number as u8], kind, options).is_ok(), "a block");
    }
    for number in 0..CALLERS + 1 {
        assert!(rt; graph.connect(BlockId(number), 0, BlockId(number + 1), 0).is_ok(), "connected");
    }
    match graph.validate(alloc) {
        Ok(valid) => Ok(valid),
        Err(_) => panic!(rt; "refused"),
    }
}

// What a caller was answered: from which items on its block has which values.
fn set_often<R: Host>(rt: &R, alloc: Global, caller: &Caller<R>, block: BlockId) -> Vec<(u64, i64)> {
    let mut places = Vec::new(alloc);
    for n in 0..CALLS {
        let value = (n % 50) as i64 + 1;
        match caller.set(block, None, Value::Number(value)) {
            Ok(answer) => {
                assert_eq!(rt; answer.told, Told::Set(Ok(Taken(answer.come))));
                assert!(rt; places.push((answer.come, value)).is_ok(), "memory");
            }
            Err(_) => panic!(rt; "no answer"),
        }
        if n % 10 == 0 {
            // Its own answer, and no other's.
            match caller.levels(block) {
                Ok(answer) => {
                    let Told::Levels(Ok(levels)) = answer.told else {
                        panic!(rt; "levels");
                    };
                    assert!(rt; levels.taken == answer.come && levels.given == levels.taken, "of an adder");
                }
                Err(_) => panic!(rt; "no answer"),
            }
        }
    }
    places
}

#[test]
fn three_callers_set_a_block_each(rt: HostRuntime) -> Result<(), Fail> {
    let alloc = rt.alloc();
    let Ok(plant) = StreamingPlant::open(alloc, graph(&rt, alloc)?) else {
        panic!(rt; "no memory");
    };
    let Ok(mut run) = Pipeline::new(alloc, plant) else {
        panic!(rt; "no memory");
    };
    let sink = BlockId(CALLERS + 1);
    assert!(rt; run.read_from(alloc, BlockId(0), ByteOrder::Little, Counting { last: 0 }).is_ok(), "a reader");
    assert!(rt; run.write_to(alloc, sink, ByteOrder::Little, Some(Vec::new(alloc)), None).is_ok(), "a writer");
    let bell = Arc::new(alloc, Bell::new())?;
    let (mut requests, first) = request_box(rt, alloc, bell)?;
    let done = Arc::new(alloc, AtomicU32::new(0))?;
    let mut handles = Vec::new(alloc);
    for block in 1..=CALLERS {
        let caller = first.try_clone()?;
        let done = Arc::try_clone(&done)?;
        let handle = thread::spawn(&rt, move || {
            let places = set_often(&rt, alloc, &caller, BlockId(block));
            // The last of them stops the run.
            if done.fetch_add(1, Ordering::SeqCst) == CALLERS - 1 {
                assert!(rt; caller.stop().is_ok_and(|answer| answer.told == Told::Stopped), "a stop");
            }
            places
        });
        handles.push(handle.unwrap())?;
    }
    let ended = run.run_asked(alloc, &mut NoHelpers, &mut AllReady, &mut requests, &mut Unwatched);
    assert!(rt; matches!(ended, Ok(Ended::Stopped)), "stopped");
    let mut all = Vec::new(alloc);
    for handle in handles {
        all.push(handle.join(&rt))?;
    }
    // Another request is left alone as long as the box is there, and refused once it is gone.
    drop(requests);
    assert_eq!(rt; first.levels(sink), Err(CallFault::Ended));
    assert_eq!(rt; first.close(BlockId(0)), Err(CallFault::Ended));
    let End::Output(output) = &run.ends[sink.0 as usize] else {
        panic!(rt; "an output");
    };
    let Some(written) = &output.items_to else {
        panic!(rt; "a writer");
    };
    let Ok(mut whole) = Plant::open(alloc, graph(&rt, alloc)?) else {
        panic!(rt; "no memory");
    };
    assert_eq!(rt; all.len(), CALLERS as usize);
    for (block, places) in (1..=CALLERS).zip(&all) {
        let mut before = 0;
        for (at, value) in places {
            assert!(rt; before <= *at, "in order");
            before = *at;
            assert_eq!(rt; whole.set(BlockId(block), Some(*at), Value::Number(*value)), Ok(Taken(*at)));
        }
    }
    let mut counting = Counting { last: 0 };
    let mut tape = vec![in alloc; 0; written.len()]?;
    assert!(rt; counting.read(&mut tape).is_ok(), "counted");
    assert!(rt; whole.feed(BlockId(0), Items::Byte(tape), &[]).is_ok() && whole.close(BlockId(0)).is_ok(), "fed");
    assert!(rt; matches!(whole.settle(alloc, 4_096), Ok(Settled::Done)), "done");
    let Ok(piece) = whole.read(alloc, sink, 0, u64::MAX) else {
        panic!(rt; "no piece");
    };
    let Items::Byte(items) = &piece.items else {
        panic!(rt; "bytes");
    };
    assert!(rt; items.as_slice() == written.as_slice(), "{} items", written.len());
    Ok(())
}

#[test]
fn a_call_that_waits_ends_with_the_box(rt: HostRuntime) -> Result<(), Fail> {
    let alloc = rt.alloc();
    for _ in 0..20 {
        let (requests, caller) = request_box(rt, alloc, Arc::new(alloc, Bell::new())?)?;
        let other = caller.try_clone()?;
        let waiting = thread::spawn(&rt, move || other.levels(BlockId(0))).unwrap();
        drop(requests);
        assert_eq!(rt; waiting.join(&rt), Err(CallFault::Ended));
        assert_eq!(rt; caller.stop(), Err(CallFault::Ended));
    }
    Ok(())
}
