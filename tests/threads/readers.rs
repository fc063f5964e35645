//! Threads that read ahead: what they read comes whole and in its order, with its failures, and one that has something
//! is found while others are silent.
use super::runs::{Host, share};
use flowgraph::BlockId;
use pipeline::Readiness;
use reader_threads::{Inputs, ReaderThreads};
use std::alloc::Global;
use std::io::{ErrorKind, Read};
use std::io;
use std::sync::{Arc, Condvar, Mutex, Wait};
use std::test::Fail;

// Gives 1, 2, 3 and so on, in pieces of one byte more each time, fails at its fourth read, and ends behind so many
// reads.
#[derive(Drop)]
struct Counting {
    reads: usize,
    last: u8,
    ends: usize,
}

impl Read for Counting {
    fn read(&mut self, buf: &mut [u8]) -> io::Result<usize> {
        self.reads += 1;
        if self.reads == 4 {
            return Err(io::Error::from(ErrorKind::Interrupted));
        }
        if self.ends <= self.reads {
            return Ok(0);
        }
        for at in 0..self.reads {
            self.last = self.last.wrapping_add(1);
            buf[at] = self.last;
        }
        Ok(self.reads)
    }
}

impl Inputs for Counting {
    fn number(&self) -> usize {
        self.reads / 4
    }
}

#[test]
fn what_is_read_apart_comes_whole_and_in_its_order(rt: HostRuntime) -> Result<(), Fail> {
    let alloc = rt.alloc();
    for room in [1_usize, 2, 7] {
        let mut threads = ReaderThreads::new(rt, alloc, 1)?;
        let counting = Counting { reads: 0, last: 0, ends: 9 };
        let mut reader = threads.start(alloc, BlockId(0), counting)?;
        let mut expected = 1_u8;
        let mut failures = 0;
        let mut buf = [0_u8; 7];
        for _reads in 0..100 {
            match reader.read(&mut buf[..room]) {
                Ok(0) => break,
                Ok(count) => {
                    for byte in &buf[..count] {
                        assert_eq!(rt; *byte, expected);
                        expected += 1;
                    }
                }
                // Behind pieces of one, two and three bytes.
                Err(_) => {
                    assert_eq!(rt; (expected, reader.number()), (7, 1));
                    failures += 1;
                }
            }
        }
        // Then came five, six, seven and eight.
        assert_eq!(rt; (expected, failures, reader.number()), (33, 1, 2));
        threads.finish();
    }
    Ok(())
}

// Open, or not yet.
#[derive(Drop)]
struct Gate {
    is_open: Mutex<bool>,
    opened: Condvar,
}

// Ends once its gate is open, and is silent before.
#[derive(Drop)]
struct Gated<R: Drop> {
    rt: R,
    gate: Arc<Gate, Global>,
}

impl<R: Wait + Drop> Read for Gated<R> {
    fn read(&mut self, _buf: &mut [u8]) -> io::Result<usize> {
        let mut is_open = self.gate.is_open.lock(&self.rt);
        for _ in self.rt.forever() {
            if *is_open {
                return Ok(0);
            }
            is_open = self.gate.opened.wait(&self.rt, is_open);
        }
        Ok(0)
    }
}

impl<R: Wait + Drop> Inputs for Gated<R> {
    fn number(&self) -> usize {
        0
    }
}

impl Gate {
    fn open<R: Host>(&self, rt: &R) {
        *self.is_open.lock(rt) = true;
        self.opened.notify_all();
    }
}

// Waits until there is something for a source.
fn wait_for<R: Host>(rt: &R, threads: &mut ReaderThreads<Gated<R>, R>, source: usize) {
    for _ in rt.forever() {
        if threads.is_ready(BlockId(source as u32)) {
            return;
        }
        threads.wait();
    }
}

#[test]
fn a_wait_ends_where_somebody_rings(rt: HostRuntime) -> Result<(), Fail> {
    let alloc = rt.alloc();
    let mut threads = ReaderThreads::new(rt, alloc, 1)?;
    let gate = Arc::new(alloc, Gate { is_open: Mutex::new(false), opened: Condvar::new() })?;
    let _reader = threads.start(alloc, BlockId(0), Gated { rt, gate: share(&rt, &gate) })?;
    threads.bell()?.ring(&rt);
    threads.wait();
    assert!(rt; !threads.is_ready(BlockId(0)), "the source is silent");
    threads.finish();
    gate.open(&rt);
    Ok(())
}

#[test]
fn a_wait_ends_with_the_first_that_has_something(rt: HostRuntime) -> Result<(), Fail> {
    let alloc = rt.alloc();
    for first in [0_usize, 1, 2] {
        let mut threads = ReaderThreads::new(rt, alloc, 4)?;
        let mut gates = Vec::new(alloc);
        for source in 0..3 {
            let gate = Gate { is_open: Mutex::new(false), opened: Condvar::new() };
            gates.push(Arc::new(alloc, gate)?)?;
            let gated = Gated { rt, gate: share(&rt, &gates[source]) };
            let _reader = threads.start(alloc, BlockId(source as u32), gated)?;
        }
        for source in 0..3 {
            assert!(rt; !threads.is_ready(BlockId(source)), "source {source} is silent");
        }
        assert!(rt; threads.is_ready(BlockId(3)), "nothing reads for the last");
        gates[first].open(&rt);
        wait_for(&rt, &mut threads, first);
        for source in 0..3 {
            assert_eq!(rt; threads.is_ready(BlockId(source as u32)), source == first);
        }
        for gate in &gates {
            gate.open(&rt);
        }
        // None of the two others is waited for in vain.
        for source in 0..3 {
            wait_for(&rt, &mut threads, source);
        }
        threads.finish();
    }
    Ok(())
}
