//! Threads that write: what they are given comes whole and in its order, a failure is told once, and one that is full
//! takes two pieces while others go on.
use super::runs::{Host, share};
use flowgraph::BlockId;
use pipeline::PipelineFault;
use request_box::Bell;
use std::alloc::Global;
use std::io::{ErrorKind, Write};
use std::io;
use std::sync::{Arc, Condvar, Mutex, Wait};
use std::test::Fail;
use writer_threads::{ApartWriter, Lane, WriterThreads};

// What a writer has taken, and whether it takes anything.
#[derive(Drop)]
struct Taken {
    bytes: Vec<u8>,
    flushes: usize,
    is_open: bool,
}

#[derive(Drop)]
struct Gate {
    taken: Mutex<Taken>,
    opened: Condvar,
}

impl Gate {
    fn new(alloc: Global, is_open: bool) -> Gate {
        let taken = Taken { bytes: Vec::new(alloc), flushes: 0, is_open };
        Gate { taken: Mutex::new(taken), opened: Condvar::new() }
    }

    fn open<R: Host>(&self, rt: &R) {
        self.taken.lock(rt).is_open = true;
        self.opened.notify_all();
    }
}

// Takes at most three bytes at a time once its gate is open, and fails behind so many bytes.
#[derive(Drop)]
struct Slow<R: Drop> {
    rt: R,
    gate: Arc<Gate, Global>,
    most: usize,
}

impl<R: Wait + Drop> Write for Slow<R> {
    fn write(&mut self, buf: &[u8]) -> io::Result<usize> {
        let mut taken = self.gate.taken.lock(&self.rt);
        for _ in self.rt.forever() {
            if taken.is_open {
                break;
            }
            taken = self.gate.opened.wait(&self.rt, taken);
        }
        if self.most <= taken.bytes.len() {
            return Err(io::Error::from(ErrorKind::BrokenPipe));
        }
        let count = buf.len().min(3);
        taken.bytes.extend_from_slice(&buf[..count])?;
        Ok(count)
    }

    fn flush(&mut self) -> io::Result<()> {
        self.gate.taken.lock(&self.rt).flushes += 1;
        Ok(())
    }
}

// Waits until a sink takes something.
fn wait_for<R: Host>(rt: &R, bell: &Bell, threads: &WriterThreads<Slow<R>, R>, sink: u32) {
    for _ in rt.forever() {
        let heard = bell.rings(rt);
        if threads.takes(BlockId(sink)) {
            return;
        }
        bell.wait(rt, heard);
    }
}

#[test]
fn what_is_written_apart_comes_whole_and_in_its_order(rt: HostRuntime) -> Result<(), Fail> {
    let alloc = rt.alloc();
    let bell = Arc::new(alloc, Bell::new())?;
    let mut threads = WriterThreads::new(rt, alloc, 1, bell)?;
    let gate = Arc::new(alloc, Gate::new(alloc, true))?;
    let slow = Slow { rt, gate: share(&rt, &gate), most: usize::MAX };
    let mut writer = threads.start(alloc, BlockId(0), Lane::Items, slow)?;
    let mut last = 0_u8;
    for count in 1..60 {
        let mut piece = Vec::new(alloc);
        for _ in 0..count {
            last = last.wrapping_add(1);
            piece.push(last)?;
        }
        assert_eq!(rt; writer.write(&piece)?, count);
        writer.flush()?;
    }
    assert!(rt; threads.finish().is_ok(), "all is written");
    let taken = gate.taken.lock(&rt);
    assert_eq!(rt; taken.bytes.len(), 59 * 30);
    let mut expected = 0_u8;
    for byte in &taken.bytes {
        expected = expected.wrapping_add(1);
        assert_eq!(rt; *byte, expected);
    }
    // One before anything is written, and one at the end at least.
    assert!(rt; 2 <= taken.flushes, "{} flushes", taken.flushes);
    Ok(())
}

#[test]
fn one_that_is_full_takes_two_pieces(rt: HostRuntime) -> Result<(), Fail> {
    let alloc = rt.alloc();
    let bell = Arc::new(alloc, Bell::new())?;
    for lane in [Lane::Items, Lane::Tags] {
        let mut threads = WriterThreads::new(rt, alloc, 3, share(&rt, &bell))?;
        let mut gates = Vec::new(alloc);
        let mut writers = Vec::new(alloc);
        for sink in 0..2 {
            gates.push(Arc::new(alloc, Gate::new(alloc, false))?)?;
            let slow = Slow { rt, gate: share(&rt, &gates[sink]), most: usize::MAX };
            writers.push(threads.start(alloc, BlockId(sink as u32), lane, slow)?)?;
        }
        assert_eq!(rt; writers[0].write(&[1; 100])?, 100);
        wait_for(&rt, &bell, &threads, 0);
        assert_eq!(rt; writers[0].write(&[1; 100])?, 100);
        writers[0].flush()?;
        assert!(rt; !threads.takes(BlockId(0)), "two pieces are under way");
        assert!(rt; threads.takes(BlockId(1)), "nothing was given");
        assert!(rt; threads.takes(BlockId(2)), "there is no thread");
        gates[0].open(&rt);
        wait_for(&rt, &bell, &threads, 0);
        gates[1].open(&rt);
        assert!(rt; threads.finish().is_ok(), "all is written");
        assert_eq!(rt; gates[0].taken.lock(&rt).bytes.len(), 200);
    }
    Ok(())
}

// Writes until a write fails, and returns how.
fn failure_of<R: Host>(rt: &R, writer: &mut ApartWriter<Slow<R>, R>) -> ErrorKind {
    for _ in rt.forever() {
        if let Err(error) = writer.write(&[1; 100]) {
            return error.kind();
        }
    }
    unreachable!()
}

#[test]
fn a_failure_is_told_once(rt: HostRuntime) -> Result<(), Fail> {
    let alloc = rt.alloc();
    let bell = Arc::new(alloc, Bell::new())?;
    for is_told in [false, true] {
        let mut threads = WriterThreads::new(rt, alloc, 3, share(&rt, &bell))?;
        let gate = Arc::new(alloc, Gate::new(alloc, true))?;
        let slow = Slow { rt, gate: share(&rt, &gate), most: 50 };
        let mut writer = threads.start(alloc, BlockId(2), Lane::Tags, slow)?;
        if is_told {
            assert!(rt; failure_of(&rt, &mut writer) == ErrorKind::BrokenPipe, "of this kind");
            assert!(rt; threads.takes(BlockId(2)), "a write does not wait");
            assert!(rt; writer.flush().is_err(), "nothing is written any more");
        } else {
            assert_eq!(rt; writer.write(&[1; 100])?, 100);
        }
        match threads.finish() {
            Err(PipelineFault::WriteTags(sink, error)) => {
                assert!(rt; !is_told && sink == BlockId(2), "at the end");
                assert!(rt; error.kind() == ErrorKind::BrokenPipe, "of this kind");
            }
            Err(_) => assert!(rt; false, "another fault"),
            Ok(()) => assert!(rt; is_told, "no call has told it"),
        }
        // (what is written in threes)
        assert_eq!(rt; gate.taken.lock(&rt).bytes.len(), 51);
    }
    Ok(())
}
