//! Which of several readers a pipeline reads by what is told of who is ready, which writers it writes to by who takes
//! something, and when it waits.
use super::asked::Turns;
use super::drawn::{Make, Wire, streaming};
use flowgraph::BlockId;
use kinds::Kind;
use pipeline::{ByteOrder, End, Ended, Pipeline, Readiness, Request, Settled};
use std::alloc::Global;
use std::io::Read;
use std::io;
use std::process::Abort;
use std::test::Fail;
use streaming::{NoHelpers, Unwatched};

// Gives one byte at each read, so many times.
#[derive(Drop)]
struct Bytes {
    left: u32,
}

impl Read for Bytes {
    fn read(&mut self, buf: &mut [u8]) -> io::Result<usize> {
        if self.left == 0 {
            return Ok(0);
        }
        self.left -= 1;
        buf[0] = 7;
        Ok(1)
    }
}

// Which sources are silent, and which of them are woken by the next wait; which blocks are full until then; and what was
// asked: the sources that were not ready, with a wait as 99, and those that were.
#[derive(Drop)]
struct Asked {
    silent: [bool; 4],
    wakes: [bool; 4],
    full: [bool; 4],
    in_vain: Vec<u32>,
    ready: Vec<u32>,
}

fn answers(alloc: Global, silent: [bool; 4]) -> Asked {
    Asked {
        silent,
        wakes: [false; 4],
        full: [false; 4],
        in_vain: Vec::new(alloc),
        ready: Vec::new(alloc),
    }
}

impl Readiness for Asked {
    fn is_ready(&mut self, source: BlockId) -> bool {
        let is_silent = self.silent[source.0 as usize];
        let _ = if is_silent { self.in_vain.push(source.0) } else { self.ready.push(source.0) };
        !is_silent
    }

    fn takes(&mut self, sink: BlockId) -> bool {
        !self.full.get(sink.0 as usize).is_some_and(|it| *it)
    }

    fn wait(&mut self) {
        let _ = self.in_vain.push(99);
        self.full = [false; 4];
        for source in 0..4 {
            self.silent[source] = self.silent[source] && !self.wakes[source];
        }
    }
}

type Run = Pipeline<Kind, Bytes, Vec<u8>>;

// As many chains as there are readers, of a source and a sink each: sources first. Each reader has so many bytes.
fn chains(rt: &impl Abort, alloc: Global, readers: &[u32]) -> Result<Run, Fail> {
    let mut blocks = Vec::new(alloc);
    let mut wires: Vec<Wire> = Vec::new(alloc);
    for _ in readers {
        blocks.push(Make::Source)?;
    }
    for source in 0..readers.len() as u32 {
        blocks.push(Make::Sink)?;
        wires.push((source, 0, source + readers.len() as u32, 0))?;
    }
    joined(rt, alloc, &blocks, &wires, readers)
}

// The first blocks are sources with these readers.
fn joined(
    rt: &impl Abort,
    alloc: Global,
    blocks: &[Make],
    wires: &[Wire],
    readers: &[u32],
) -> Result<Run, Fail> {
    let Ok(mut run) = Pipeline::new(alloc, streaming(rt, alloc, blocks, wires, 64)) else {
        panic!(rt; "no memory");
    };
    for (source, left) in readers.iter().enumerate() {
        let joined = run.read_from(alloc, BlockId(source as u32), ByteOrder::Big, Bytes { left: *left });
        assert!(rt; joined.is_ok(), "a reader");
    }
    Ok(run)
}

// Two chains with readers of so many bytes, whose sinks, blocks 2 and 3, have writers.
fn written_chains(rt: &impl Abort, alloc: Global, left: u32) -> Result<Run, Fail> {
    let mut run = chains(rt, alloc, &[left, left])?;
    for sink in [2, 3] {
        let joined = run.write_to(alloc, BlockId(sink), ByteOrder::Big, Some(Vec::new(alloc)), None);
        assert!(rt; joined.is_ok(), "a writer");
    }
    Ok(run)
}

// What a sink's writer was given.
fn given<'a>(rt: &impl Abort, run: &'a Run, sink: usize) -> &'a [u8] {
    match &run.ends[sink] {
        End::Output(output) => match &output.items_to {
            Some(writer) => writer,
            None => panic!(rt; "no writer"),
        },
        _ => panic!(rt; "no output"),
    }
}

// Runs so many turns, of which none is the last.
fn turns(rt: &impl Abort, alloc: Global, run: &mut Run, count: u32, asked: &mut Asked) {
    for _turn in 0..count {
        assert!(rt; matches!(run.turn(alloc, &mut NoHelpers, asked), Ok(None)), "a turn");
    }
}

#[test]
fn readers_that_are_ready_are_read_in_turn_past_silent_ones(rt: HostRuntime) -> Result<(), Fail> {
    let alloc = rt.alloc();
    // A turn that reads comes before one or two that move what was read, so that 60 turns read 20 times or more.
    let mut run = chains(&rt, alloc, &[100, 100, 100, 100])?;
    let mut asked = answers(alloc, [false, true, false, false]);
    turns(&rt, alloc, &mut run, 60, &mut asked);
    let read = |source: u32| asked.ready.iter().filter(|it| **it == source).count();
    assert_eq!(rt; read(1), 0);
    assert!(rt; 6 <= read(0), "{} reads", read(0));
    for source in [2, 3] {
        assert!(rt; read(0).abs_diff(read(source)) <= 1, "{} and {}", read(0), read(source));
    }
    assert!(rt; asked.in_vain.iter().all(|it| *it == 1), "nothing was waited for");
    Ok(())
}

#[test]
fn it_waits_for_all_that_it_could_read(rt: HostRuntime) -> Result<(), Fail> {
    let alloc = rt.alloc();
    let mut run = chains(&rt, alloc, &[1, 1, 1])?;
    let mut asked = answers(alloc, [true, true, true, false]);
    asked.wakes[2] = true;
    turns(&rt, alloc, &mut run, 3, &mut asked);
    assert_eq!(rt; asked.ready.as_slice(), &[2][..]);
    let at = asked.in_vain.iter().position(|it| *it == 99);
    let Some(at) = at else {
        panic!(rt; "it waited");
    };
    for source in 0..3 {
        assert!(rt; asked.in_vain[..at].contains(&source), "source {source} was asked before");
    }
    Ok(())
}

#[test]
fn a_join_waits_for_the_input_that_it_lacks(rt: HostRuntime) -> Result<(), Fail> {
    let alloc = rt.alloc();
    // Of the sum the first input is silent; the second, which is ready, would only be kept.
    let blocks = [Make::Source, Make::Source, Make::Add, Make::Sink];
    let mut run = joined(&rt, alloc, &blocks, &[(0, 0, 2, 0), (1, 0, 2, 1), (2, 0, 3, 0)], &[1, 1])?;
    let mut asked = answers(alloc, [true, false, false, false]);
    asked.wakes[0] = true;
    turns(&rt, alloc, &mut run, 2, &mut asked);
    assert_eq!(rt; asked.ready.as_slice(), &[0][..]);
    assert!(rt; asked.in_vain.contains(&99), "it waited");
    Ok(())
}

#[test]
fn sources_for_which_no_sink_waits_hold_up_none(rt: HostRuntime) -> Result<(), Fail> {
    let alloc = rt.alloc();
    // Both sums wait for the last source, which nobody feeds; the others are read as far as buffers hold.
    let blocks = [
        Make::Source, Make::Source, Make::Source, Make::Add, Make::Add, Make::Sink, Make::Sink,
    ];
    let wires = [(2, 0, 3, 0), (0, 0, 3, 1), (2, 0, 4, 0), (1, 0, 4, 1), (3, 0, 5, 0), (4, 0, 6, 0)];
    let mut run = joined(&rt, alloc, &blocks, &wires, &[3, 3])?;
    let mut asked = answers(alloc, [true, false, false, false]);
    asked.wakes[0] = true;
    let ended = run.run_with(alloc, &mut NoHelpers, &mut asked, &mut Unwatched);
    assert!(rt; matches!(ended, Ok(Settled::Quiet)), "the last source is open");
    // Three bytes and the end of the one that is ready come before the first of the other, for which it then waits.
    assert_eq!(rt; asked.ready.as_slice(), &[1, 1, 1, 1, 0, 0, 0, 0][..]);
    assert_eq!(rt; asked.in_vain.as_slice(), &[0, 0, 0, 0, 0, 0, 0, 0, 0, 0, 99][..]);
    Ok(())
}

#[test]
fn a_full_sink_holds_up_only_what_leads_to_it(rt: HostRuntime) -> Result<(), Fail> {
    let alloc = rt.alloc();
    let mut run = written_chains(&rt, alloc, 3)?;
    let mut asked = answers(alloc, [false; 4]);
    asked.full[3] = true;
    for _turn in 0..40 {
        if asked.in_vain.is_empty() {
            turns(&rt, alloc, &mut run, 1, &mut asked);
        }
    }
    // It waits when the other source was read to its end, and then that of the full sink, as far as buffers hold.
    assert_eq!(rt; asked.in_vain.as_slice(), &[99][..]);
    assert_eq!(rt; asked.ready.as_slice(), &[0, 1, 0, 0, 0, 1, 1, 1][..]);
    assert_eq!(rt; given(&rt, &run, 2), &[7, 7, 7][..]);
    assert_eq!(rt; given(&rt, &run, 3), &[][..]);
    let ended = run.run_with(alloc, &mut NoHelpers, &mut asked, &mut Unwatched);
    assert!(rt; matches!(ended, Ok(Settled::Done)), "all is read");
    assert_eq!(rt; given(&rt, &run, 3), &[7, 7, 7][..]);
    Ok(())
}

#[test]
fn a_stop_waits_for_a_full_sink(rt: HostRuntime) -> Result<(), Fail> {
    let alloc = rt.alloc();
    let mut run = written_chains(&rt, alloc, 3)?;
    let mut asked = answers(alloc, [false; 4]);
    // A read for each sink and what came of it, of which the last is not written yet.
    turns(&rt, alloc, &mut run, 4, &mut asked);
    assert_eq!(rt; given(&rt, &run, 3), &[][..]);
    asked.full[3] = true;
    let mut due = Vec::new(alloc);
    due.push((0, Request::Stop))?;
    let mut stop = Turns { turn: 0, due, answers: Vec::new(alloc) };
    let ended = run.run_asked(alloc, &mut NoHelpers, &mut asked, &mut stop, &mut Unwatched);
    assert!(rt; matches!(ended, Ok(Ended::Stopped)), "it was asked to stop");
    assert_eq!(rt; asked.in_vain.as_slice(), &[99][..]);
    assert_eq!(rt; given(&rt, &run, 3), &[7][..]);
    Ok(())
}
