//! Pipelines whose readers and writers fail once, or give less than an item at a time, and which source is read.
use super::drawn::{Make, Wire, streaming};
use flowgraph::BlockId;
use kinds::Kind;
use pipeline::{AllReady, ByteOrder, End, Pipeline, PipelineFault, Settled};
use std::alloc::Global;
use std::io::{ErrorKind, Read, Write};
use std::io;
use std::process::Abort;
use std::test::Fail;
use streaming::NoHelpers;

const SOURCE: BlockId = BlockId(0);

// Gives a piece at each read, and fails where one has no bytes. Behind the last it is at its end.
#[derive(Drop)]
struct Turns {
    pieces: Vec<Vec<u8>>,
    reads: usize,
}

fn turns(alloc: Global, pieces: &[&[u8]]) -> Result<Turns, Fail> {
    let mut kept = Vec::new(alloc);
    for piece in pieces {
        kept.push(Vec::from_slice(alloc, piece)?)?;
    }
    Ok(Turns { pieces: kept, reads: 0 })
}

impl Read for Turns {
    fn read(&mut self, buf: &mut [u8]) -> io::Result<usize> {
        let at = self.reads;
        self.reads += 1;
        if self.pieces.len() <= at {
            return Ok(0);
        }
        let piece = &self.pieces[at];
        if piece.is_empty() {
            return Err(io::Error::from(ErrorKind::Interrupted));
        }
        let count = piece.len().min(buf.len());
        buf[..count].copy_from_slice(&piece[..count]);
        Ok(count)
    }
}

// Keeps what is written, and fails at its writes or its flushes where it is to.
#[derive(Drop)]
struct Kept {
    bytes: Vec<u8>,
    fails_to_write: bool,
    fails_to_flush: bool,
}

fn kept(alloc: Global) -> Kept {
    Kept {
        bytes: Vec::new(alloc),
        fails_to_write: false,
        fails_to_flush: false,
    }
}

impl Write for Kept {
    fn write(&mut self, buf: &[u8]) -> io::Result<usize> {
        if self.fails_to_write {
            return Err(io::Error::from(ErrorKind::Interrupted));
        }
        match self.bytes.extend_from_slice(buf) {
            Ok(()) => Ok(buf.len()),
            Err(_) => Err(io::Error::from(ErrorKind::OutOfMemory)),
        }
    }

    fn flush(&mut self) -> io::Result<()> {
        if self.fails_to_flush {
            return Err(io::Error::from(ErrorKind::Interrupted));
        }
        Ok(())
    }
}

type Run = Pipeline<Kind, Turns, Kept>;

fn opened(rt: &impl Abort, alloc: Global, blocks: &[Make], wires: &[Wire], capacity: u32) -> Run {
    match Pipeline::new(alloc, streaming(rt, alloc, blocks, wires, capacity)) {
        Ok(run) => run,
        Err(_) => panic!(rt; "no memory"),
    }
}

// A source and a sink of bytes, or of shorts, between this reader and a writer of items.
fn piped(rt: &impl Abort, alloc: Global, ends: [Make; 2], pieces: &[&[u8]]) -> Result<Run, Fail> {
    let mut run = opened(rt, alloc, &ends, &[(0, 0, 1, 0)], 64);
    let reader = turns(alloc, pieces)?;
    assert!(rt; run.read_from(alloc, SOURCE, ByteOrder::Big, reader).is_ok(), "a reader");
    let written = run.write_to(alloc, BlockId(1), ByteOrder::Big, Some(kept(alloc)), None);
    assert!(rt; written.is_ok(), "a writer");
    Ok(run)
}

// How often the reader of a source was read.
fn reads(rt: &impl Abort, run: &Run, source: BlockId) -> usize {
    match &run.ends[source.0 as usize] {
        End::Input(input) => input.reader().reads,
        End::Open | End::Output(_) => panic!(rt; "a reader"),
    }
}

// What the writer of the items of a sink was given.
fn written<'a>(rt: &impl Abort, run: &'a Run, sink: BlockId) -> &'a [u8] {
    let End::Output(output) = &run.ends[sink.0 as usize] else {
        panic!(rt; "an output");
    };
    match &output.items_to {
        Some(items) => &items.bytes,
        None => panic!(rt; "a writer of items"),
    }
}

#[test]
fn a_read_that_failed_once_is_told(rt: HostRuntime) -> Result<(), Fail> {
    let alloc = rt.alloc();
    let mut run = piped(&rt, alloc, [Make::Source, Make::Sink], &[&[1, 2], &[], &[3, 4]])?;
    let ended = run.run(alloc);
    assert!(rt; matches!(ended, Err(PipelineFault::Read(SOURCE, _))), "a failed read");
    assert!(rt; reads(&rt, &run, SOURCE) == 2, "which is not tried again");
    assert!(rt; written(&rt, &run, BlockId(1)) == &[1, 2][..], "what came before is out");
    Ok(())
}

#[test]
fn an_item_may_come_in_several_reads(rt: HostRuntime) -> Result<(), Fail> {
    let alloc = rt.alloc();
    let mut run = piped(&rt, alloc, [Make::ShortSource, Make::ShortSink], &[&[1], &[2, 3], &[4]])?;
    assert!(rt; matches!(run.run(alloc), Ok(Settled::Done)), "done");
    assert!(rt; written(&rt, &run, BlockId(1)) == &[1, 2, 3, 4][..], "two items");
    assert!(rt; reads(&rt, &run, SOURCE) == 4, "and the end");
    Ok(())
}

// A source and a sink of bytes, between a reader and writers of items and of tags, of which one has a fault.
fn with_writers(rt: &impl Abort, alloc: Global, items: Kept, tags: Kept) -> Result<Run, Fail> {
    let mut run = opened(rt, alloc, &[Make::Source, Make::Sink], &[(0, 0, 1, 0)], 64);
    let (reader, marks) = (turns(alloc, &[&[1, 2]])?, turns(alloc, &[b"@1:k=1\n"])?);
    assert!(rt; run.read_from(alloc, SOURCE, ByteOrder::Big, reader).is_ok(), "a reader");
    assert!(rt; run.mark_from(alloc, SOURCE, marks).is_ok(), "one of marks");
    let joined = run.write_to(alloc, BlockId(1), ByteOrder::Big, Some(items), Some(tags));
    assert!(rt; joined.is_ok(), "writers");
    Ok(run)
}

#[test]
fn the_writer_that_failed_is_told(rt: HostRuntime) -> Result<(), Fail> {
    let alloc = rt.alloc();
    for (fails_to_write, fails_to_flush) in [(true, false), (false, true)] {
        let faulty = || Kept { bytes: Vec::new(alloc), fails_to_write, fails_to_flush };
        let mut run = with_writers(&rt, alloc, faulty(), kept(alloc))?;
        assert!(rt; matches!(run.run(alloc), Err(PipelineFault::WriteItems(BlockId(1), _))), "that of items");
        let mut run = with_writers(&rt, alloc, kept(alloc), faulty())?;
        assert!(rt; matches!(run.run(alloc), Err(PipelineFault::WriteTags(BlockId(1), _))), "that of tags");
    }
    let mut run = with_writers(&rt, alloc, kept(alloc), kept(alloc))?;
    assert!(rt; matches!(run.run(alloc), Ok(Settled::Done)), "none");
    Ok(())
}

#[test]
fn marks_are_not_read_before_an_item_is_whole(rt: HostRuntime) -> Result<(), Fail> {
    let alloc = rt.alloc();
    // The second read fails, with one byte of an item of two; the marks cannot be read at all.
    let mut run = piped(&rt, alloc, [Make::ShortSource, Make::ShortSink], &[&[1], &[]])?;
    assert!(rt; run.mark_from(alloc, SOURCE, turns(alloc, &[&[]])?).is_ok(), "a reader of marks");
    assert!(rt; matches!(run.run(alloc), Err(PipelineFault::Read(SOURCE, _))), "no mark is asked for");
    Ok(())
}

#[test]
fn a_source_that_has_items_left_is_not_read(rt: HostRuntime) -> Result<(), Fail> {
    let alloc = rt.alloc();
    // The second source is open and has no reader, so a buffer of the first fills, and its tape keeps most of the
    // piece.
    let blocks = [Make::Source, Make::Source, Make::Add, Make::Sink];
    let mut run = opened(&rt, alloc, &blocks, &[(0, 0, 2, 0), (1, 0, 2, 1), (2, 0, 3, 0)], 64);
    let piece = [7; 1_000];
    let reader = turns(alloc, &[&piece, &piece])?;
    assert!(rt; run.read_from(alloc, SOURCE, ByteOrder::Big, reader).is_ok(), "a reader");
    assert!(rt; matches!(run.run(alloc), Ok(Settled::Quiet)), "nothing more comes");
    assert!(rt; reads(&rt, &run, SOURCE) == 1, "one piece was read");
    Ok(())
}

#[test]
fn a_source_that_a_sink_waits_for_is_read_first(rt: HostRuntime) -> Result<(), Fail> {
    let alloc = rt.alloc();
    // Each sink has a source of its own, and is asked for in turn; the last source, of which no sink takes more, is
    // read behind them.
    let blocks = [Make::Source, Make::Source, Make::Sink, Make::Sink];
    let mut run = opened(&rt, alloc, &blocks, &[(0, 0, 2, 0), (1, 0, 3, 0)], 64);
    for source in [BlockId(0), BlockId(1)] {
        let reader = turns(alloc, &[&[1], &[2], &[3]])?;
        assert!(rt; run.read_from(alloc, source, ByteOrder::Big, reader).is_ok(), "a reader");
    }
    for _turn in 0..20 {
        assert!(rt; run.turn(alloc, &mut NoHelpers, &mut AllReady).is_ok(), "a turn");
        let (first, second) = (reads(&rt, &run, BlockId(0)), reads(&rt, &run, BlockId(1)));
        assert!(rt; first.abs_diff(second) <= 1, "in turn: {first} and {second}");
    }
    Ok(())
}
