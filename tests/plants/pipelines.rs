//! Pipelines: pieces of any lengths beside the whole run of a plant, each failing read and write, and what is read of
//! several inputs.
use super::drawn::{Make, bytes, mark, plant, streaming};
use super::orders::drawn;
use super::streamed::{BLOCKS, SINKS, WIRES};
use flowgraph::BlockId;
use items::{Items, Mark};
use kinds::Kind;
use pipeline::{ByteOrder, End, Pipeline, PipelineFault, PlantFault, Settled};
use plant::Plant;
use refusal_codes::Refusal;
use std::alloc::Global;
use std::io::{ErrorKind, Read, Write};
use std::io;
use std::process::Abort;
use std::test::Fail;

const SOURCE: BlockId = BlockId(0);

// Gives bytes in pieces of random lengths, and fails at one of its reads.
#[derive(Drop)]
pub struct Pieces {
    pub bytes: Vec<u8>,
    pub most: u64,
    pub chance: u64,
    pub reads_left: u64,
}

impl Read for Pieces {
    fn read(&mut self, buf: &mut [u8]) -> io::Result<usize> {
        if self.reads_left == 0 {
            return Err(io::Error::from(ErrorKind::Other));
        }
        self.reads_left -= 1;
        self.chance = drawn(self.chance);
        let count = (1 + (self.chance >> 40) % self.most) as usize;
        let count = count.min(self.bytes.len()).min(buf.len());
        buf[..count].copy_from_slice(&self.bytes[..count]);
        self.bytes.drain(..count);
        Ok(count)
    }
}

// Keeps what is written, takes a few bytes at once, and fails at one of its writes.
#[derive(Drop)]
pub struct Written {
    bytes: Vec<u8>,
    writes_left: u64,
}

impl Write for Written {
    fn write(&mut self, buf: &[u8]) -> io::Result<usize> {
        if self.writes_left == 0 {
            return Err(io::Error::from(ErrorKind::BrokenPipe));
        }
        self.writes_left -= 1;
        let count = buf.len().min(17);
        match self.bytes.extend_from_slice(&buf[..count]) {
            Ok(()) => Ok(count),
            Err(_) => Err(io::Error::from(ErrorKind::OutOfMemory)),
        }
    }

    fn flush(&mut self) -> io::Result<()> {
        Ok(())
    }
}

pub type Run = Pipeline<Kind, Pieces, Written>;

pub fn written(alloc: Global, writes_left: u64) -> Option<Written> {
    Some(Written {
        bytes: Vec::new(alloc),
        writes_left,
    })
}

// What the writers of a sink were given, of items and of tags.
pub fn given<'a>(rt: &impl Abort, run: &'a Run, sink: BlockId) -> (&'a [u8], &'a [u8]) {
    let End::Output(output) = &run.ends[sink.0 as usize] else {
        panic!(rt; "an output");
    };
    match (&output.items_to, &output.tags_to) {
        (Some(items), Some(tags)) => (&items.bytes, &tags.bytes),
        _ => panic!(rt; "two writers"),
    }
}

const LENGTH: u64 = 700;

// How many of the items are on the tape before, with marks; the others come from the reader.
const BEFORE: usize = 200;

// The items of the source, its marks, and the whole run of them.
#[derive(Drop)]
pub struct Whole {
    pub numbers: Vec<i64>,
    pub marks: Vec<Mark>,
    pub plant: Plant<Kind>,
}

pub fn whole(rt: &impl Abort, alloc: Global) -> Result<Whole, Fail> {
    let mut numbers = Vec::new(alloc);
    let mut marks = Vec::new(alloc);
    for n in 0..LENGTH {
        numbers.push((drawn(n) >> 56) as i64)?;
        if n < BEFORE as u64 && drawn(n + 7) >> 62 == 0 {
            marks.push(mark(rt, n, b'a' + (n % 26) as u8, n as i64))?;
        }
    }
    let mut plant = plant(rt, alloc, &BLOCKS, &WIRES, 7);
    assert!(rt; plant.feed(SOURCE, bytes(rt, alloc, &numbers), &marks).is_ok(), "fed");
    assert!(rt; plant.close(SOURCE).is_ok(), "closed");
    assert!(rt; matches!(plant.settle(alloc, 64), Ok(Settled::Done)), "done");
    Ok(Whole { numbers, marks, plant })
}

// The same between a reader and writers that fail so soon.
pub fn joined(
    rt: &impl Abort,
    alloc: Global,
    whole: &Whole,
    seed: u64,
    reads_left: u64,
    writes_left: u64,
) -> Result<Run, Fail> {
    let mut plant = streaming(rt, alloc, &BLOCKS, &WIRES, 7);
    let items = bytes(rt, alloc, &whole.numbers[..BEFORE]);
    assert!(rt; plant.feed(SOURCE, &items, &whole.marks).is_ok(), "fed");
    let mut rest = Vec::new(alloc);
    for number in &whole.numbers[BEFORE..] {
        rest.push(*number as u8)?;
    }
    let reader = Pieces {
        bytes: rest,
        most: 1 + seed * 3,
        chance: seed,
        reads_left,
    };
    let Ok(mut run) = Pipeline::new(alloc, plant) else {
        panic!(rt; "no memory");
    };
    assert!(rt; run.read_from(alloc, SOURCE, ByteOrder::Little, reader).is_ok(), "a reader");
    for sink in SINKS {
        let (items, tags) = (written(alloc, writes_left), written(alloc, writes_left));
        assert!(rt; run.write_to(alloc, sink, ByteOrder::Little, items, tags).is_ok(), "writers");
    }
    Ok(run)
}

// The bytes of all items of a sink, and the lines of its tags.
pub fn texts(rt: &impl Abort, alloc: Global, plant: &Plant<Kind>, sink: BlockId) -> Result<[Vec<u8>; 2], Fail> {
    let Ok(piece) = plant.read(alloc, sink, 0, 1_000_000) else {
        panic!(rt; "read");
    };
    let mut items = Vec::new(alloc);
    for n in 0..piece.items.len() {
        items.push(piece.items.number(n) as u8)?;
    }
    let mut lines = Vec::new(alloc);
    for tag in &piece.tags {
        let Ok(key) = std::str::from_utf8(tag.key.bytes()) else {
            panic!(rt; "a key is text");
        };
        let line = format!(in alloc; "@{}:{key}={}/{}\n", tag.offset, tag.value, tag.source)?;
        lines.extend_from_slice(line.as_bytes())?;
    }
    Ok([items, lines])
}

#[test]
fn pieces_of_any_lengths_are_written_whole(rt: HostRuntime) -> Result<(), Fail> {
    let alloc = rt.alloc();
    let whole = whole(&rt, alloc)?;
    for seed in 0..10 {
        let mut run = joined(&rt, alloc, &whole, seed, u64::MAX, u64::MAX)?;
        assert!(rt; matches!(run.run(alloc), Ok(Settled::Done)), "done, seed {seed}");
        for sink in SINKS {
            let [items, lines] = texts(&rt, alloc, &whole.plant, sink)?;
            let (bytes, tags) = given(&rt, &run, sink);
            assert!(rt; bytes == &items[..], "items, seed {seed}");
            assert!(rt; tags == &lines[..] && 0 < lines.len(), "tags, seed {seed}");
            assert!(rt; run.plant.items_in_memory(sink) == 0, "nothing is kept");
        }
    }
    Ok(())
}

// Whether a run ended by a fault of this number, and whose text begins so.
pub fn told(
    rt: &impl Abort,
    alloc: Global,
    ended: &Result<Settled, PipelineFault>,
    number: u32,
    text: &str,
) -> Result<(), Fail> {
    let Err(fault) = ended else {
        panic!(rt; "no fault");
    };
    assert!(rt; fault.number() == number, "number {number}");
    assert!(rt; format!(in alloc; "{fault}")?.as_str().starts_with(text), "{text}");
    Ok(())
}

#[test]
fn each_failing_read_and_write_leaves_a_beginning(rt: HostRuntime) -> Result<(), Fail> {
    let alloc = rt.alloc();
    let whole = whole(&rt, alloc)?;
    let mut failed = 0;
    for left in 0..40 {
        for (reads, writes) in [(left, u64::MAX), (u64::MAX, left)] {
            let mut run = joined(&rt, alloc, &whole, 5, reads, writes)?;
            let ended = run.run(alloc);
            match &ended {
                Ok(settled) => assert!(rt; *settled == Settled::Done, "done"),
                Err(PipelineFault::Read(block, _)) => {
                    assert!(rt; *block == SOURCE && writes == u64::MAX, "the reader");
                    told(&rt, alloc, &ended, 51, "reading failed: ")?;
                }
                Err(PipelineFault::WriteItems(block, _)) => {
                    assert!(rt; SINKS.contains(block) && reads == u64::MAX, "a writer");
                    told(&rt, alloc, &ended, 52, "writing items failed: ")?;
                }
                Err(PipelineFault::WriteTags(block, _)) => {
                    assert!(rt; SINKS.contains(block) && reads == u64::MAX, "a writer");
                    told(&rt, alloc, &ended, 52, "writing tags failed: ")?;
                }
                Err(_) => panic!(rt; "another fault"),
            }
            failed += u32::from(ended.is_err());
            for sink in SINKS {
                let [items, lines] = texts(&rt, alloc, &whole.plant, sink)?;
                let (bytes, tags) = given(&rt, &run, sink);
                assert!(rt; items.starts_with(bytes), "a beginning, {left}");
                assert!(rt; lines.starts_with(tags), "of the tags too, {left}");
                assert!(rt; ended.is_err() || bytes == &items[..], "or all");
            }
        }
    }
    assert!(rt; 60 < failed, "most of these fail");
    Ok(())
}

#[test]
fn only_what_is_lacked_is_read(rt: HostRuntime) -> Result<(), Fail> {
    let alloc = rt.alloc();
    let blocks = [Make::Source, Make::Source, Make::Add, Make::Sink];
    let wires = [(0, 0, 2, 0), (1, 0, 2, 1), (2, 0, 3, 0)];
    let Ok(mut run) = Pipeline::new(alloc, streaming(&rt, alloc, &blocks, &wires, 64)) else {
        panic!(rt; "no memory");
    };
    // The first input gives eight bytes at once and cannot be read again; the second gives five, one at a time.
    for (block, count, most, reads_left) in [(0, 8, 1_000_000, 1), (1, 5, 1, u64::MAX)] {
        let mut bytes = Vec::new(alloc);
        for n in 0..count {
            bytes.push(10 * (block as u8) + n)?;
        }
        let reader = Pieces {
            bytes,
            most,
            chance: 1,
            reads_left,
        };
        assert!(rt; run.read_from(alloc, BlockId(block), ByteOrder::Little, reader).is_ok(), "a reader");
    }
    let (items, tags) = (written(alloc, u64::MAX), written(alloc, u64::MAX));
    assert!(rt; run.write_to(alloc, BlockId(3), ByteOrder::Little, items, tags).is_ok(), "writers");
    assert!(rt; matches!(run.run(alloc), Ok(Settled::Done)), "the second is at its end, and nothing more is lacked");
    let (bytes, _) = given(&rt, &run, BlockId(3));
    assert!(rt; bytes == &[10, 12, 14, 16, 18][..], "sums");
    Ok(())
}

#[test]
fn what_cannot_be_joined_is_refused(rt: HostRuntime) -> Result<(), Fail> {
    let alloc = rt.alloc();
    let mut run: Run = match Pipeline::new(alloc, streaming(&rt, alloc, &BLOCKS, &WIRES, 7)) {
        Ok(run) => run,
        Err(_) => panic!(rt; "no memory"),
    };
    let reader = || Pieces {
        bytes: Vec::new(alloc),
        most: 1,
        chance: 0,
        reads_left: 9,
    };
    let little = ByteOrder::Little;
    for (block, fault) in [(BlockId(8), PlantFault::NoSuchBlock), (SINKS[0], PlantFault::NotSource)] {
        let refused = run.read_from(alloc, block, little, reader());
        assert!(rt; matches!(refused, Err(PipelineFault::Plant(at, was)) if at == block && was == fault), "no source");
    }
    for (block, fault) in [(BlockId(8), PlantFault::NoSuchBlock), (SOURCE, PlantFault::NotSink)] {
        let refused = run.write_to(alloc, block, little, written(alloc, 1), None);
        assert!(rt; matches!(refused, Err(PipelineFault::Plant(at, was)) if at == block && was == fault), "no sink");
    }
    for block in [BlockId(8), SOURCE, SINKS[0]] {
        let refused = run.mark_from(alloc, block, reader());
        assert!(rt; matches!(&refused, Err(PipelineFault::NotJoined(at)) if *at == block), "no reader of items");
        if let Err(fault) = refused {
            assert!(rt; fault.number() == 35 && fault.name() == "NotJoined", "35");
            assert!(rt; format!(in alloc; "{fault}")?.as_str() == "the block is joined to no reader of items", "in words");
        }
    }
    assert!(rt; run.read_from(alloc, SOURCE, little, reader()).is_ok(), "joined");
    assert!(rt; run.mark_from(alloc, SOURCE, reader()).is_ok(), "marks of its items");
    let again = run.mark_from(alloc, SOURCE, reader());
    assert!(rt; matches!(again, Err(PipelineFault::Joined(at)) if at == SOURCE), "once");
    let again = run.read_from(alloc, SOURCE, little, reader());
    assert!(rt; matches!(&again, Err(PipelineFault::Joined(at)) if *at == SOURCE), "once");
    if let Err(fault) = again {
        assert!(rt; fault.number() == 34 && fault.name() == "Joined", "34");
        assert!(rt; format!(in alloc; "{fault}")?.as_str() == "the block is joined already", "in words");
    }
    // A source whose reader gives nothing is closed, and no item comes.
    assert!(rt; matches!(run.run(alloc), Ok(Settled::Done)), "done");
    Ok(())
}

#[test]
fn an_input_that_ends_within_an_item_is_told(rt: HostRuntime) -> Result<(), Fail> {
    let alloc = rt.alloc();
    let blocks = [Make::ShortSource, Make::ShortSink];
    let Ok(mut run) = Pipeline::new(alloc, streaming(&rt, alloc, &blocks, &[(0, 0, 1, 0)], 64)) else {
        panic!(rt; "no memory");
    };
    let mut cut = Vec::new(alloc);
    cut.extend_from_slice(&[1, 2, 3])?;
    let reader = Pieces {
        bytes: cut,
        most: 1,
        chance: 1,
        reads_left: u64::MAX,
    };
    assert!(rt; run.read_from(alloc, SOURCE, ByteOrder::Big, reader).is_ok(), "a reader");
    let (items, tags) = (written(alloc, u64::MAX), written(alloc, u64::MAX));
    assert!(rt; run.write_to(alloc, BlockId(1), ByteOrder::Big, items, tags).is_ok(), "writers");
    let ended = run.run(alloc);
    assert!(rt; matches!(ended, Err(PipelineFault::CutItem(SOURCE))), "cut");
    told(&rt, alloc, &ended, 53, "the input ends within an item")?;
    let (bytes, _) = given(&rt, &run, BlockId(1));
    assert!(rt; bytes == &[1, 2][..], "what came before is out");
    Ok(())
}
