//! A graph file that streams between readers and writers in memory, one of marks among them, alone and with threads
//! that help, of which one allocation may fail.
use super::streams::Page;
use flow_core::opening::open_stream;
use graph_file::FileFault;
use helper_threads::HelperThreads;
use kinds::Kind;
use pipeline::{AllReady, BlockId, ByteOrder, End, Output, Pipeline, PipelineFault, Settled};
use refusal_codes::Refusal;
use std::alloc::Global;
use std::io::{Read, Write};
use std::io;
use std::sync::Wait;
use std::thread::Threads;
use std::time::{Clock, Duration};
use streaming::{Helpers, Job, NoHelpers, Unwatched, Worked};

// A source of shorts, a block that adds one, one that keeps the past of two items, and a sink. An item with a tag
// stands on the tape.
const FILE: &str = r#"
connect = [{ from = "s", to = "a" }, { from = "a", to = "f" }, { from = "f", to = "o" }]
feed = [{ source = "s", items = [250], tags = [{ at = 0, key = "k", value = -5 }] }]
[[block]]
name = "s"
kind = "vector_source"
type = "short"
[[block]]
name = "a"
kind = "add_const"
type = "short"
value = 1
[[block]]
name = "f"
kind = "fir"
type = "short"
taps = [1, 1]
[[block]]
name = "o"
kind = "vector_sink"
type = "short"
"#;

const SOURCE: BlockId = BlockId(0);

const SINK: BlockId = BlockId(3);

// The items 1, 2, 3 and 4, lowest byte first.
const INPUT: &[u8] = &[1, 0, 2, 0, 3, 0, 4, 0];

const MARKS: &[u8] = b"@2:m=1\n@2:n=2/7\n@4:m=3";

// Each item and one is added to that before it: 251, 251 + 2, 2 + 3, 3 + 4 and 4 + 5, lowest byte first.
const ITEM_BYTES: &[u8] = &[251, 0, 253, 0, 5, 0, 7, 0, 9, 0];

const TAG_LINES: &[u8] = b"@0:k=-5/0\n@2:m=1/0\n@2:n=2/0\n@4:m=3/0\n";

// Gives three bytes at once.
#[derive(Drop)]
struct Three {
    left: &'static [u8],
}

impl Read for Three {
    fn read(&mut self, buf: &mut [u8]) -> io::Result<usize> {
        let count = self.left.len().min(buf.len()).min(3);
        let (piece, left) = self.left.split_at(count);
        buf[..count].copy_from_slice(piece);
        self.left = left;
        Ok(count)
    }
}

// Takes all.
#[derive(Drop)]
struct Sheet {
    page: Page,
}

impl Write for Sheet {
    fn write(&mut self, buf: &[u8]) -> io::Result<usize> {
        self.page.put(buf);
        Ok(buf.len())
    }

    fn flush(&mut self) -> io::Result<()> {
        Ok(())
    }
}

type Run = Pipeline<Kind, Three, Sheet>;

/// What a run leaves.
#[derive(Drop)]
pub struct Left {
    items: Page,
    tags: Page,
    /// The number of the fault that ended it.
    pub fault: Option<u32>,
}

/// Opens the file, joins it and lets it run.
pub fn answer(alloc: Global) -> Left {
    let mut left = nothing_left();
    match opened(alloc) {
        Ok(run) => go(alloc, run, &mut NoHelpers, &mut left),
        Err(number) => left.fault = Some(number),
    }
    left
}

/// The same with threads that help, by a clock by which all work is dear.
pub fn helped<R: Threads + Wait + Clock + Copy + Send + 'static>(rt: R, alloc: Global) -> Left {
    let mut left = nothing_left();
    match opened(alloc) {
        Ok(run) => match HelperThreads::start(Fast { rt }, alloc, run.plant.graph()) {
            Ok(mut helpers) => {
                go(alloc, run, &mut helpers, &mut left);
                helpers.finish();
            }
            Err(_) => left.fault = Some(32),
        },
        Err(number) => left.fault = Some(number),
    }
    left
}

fn nothing_left() -> Left {
    Left {
        items: Page::new(),
        tags: Page::new(),
        fault: None,
    }
}

// A runtime whose time goes by a million times as fast.
#[derive(Clone, Copy)]
struct Fast<R> {
    rt: R,
}

impl<R: Threads> Threads for Fast<R> {}

impl<R: Wait> Wait for Fast<R> {}

impl<R: Clock> Clock for Fast<R> {
    fn monotonic(&self) -> io::Result<Duration> {
        let time = self.rt.monotonic()?;
        Ok(Duration::from_nanos((time.as_nanos() as u64).wrapping_mul(1_000_000) >> 1))
    }

    fn since_1970(&self) -> io::Result<Duration> {
        self.rt.since_1970()
    }
}

fn opened(alloc: Global) -> Result<Run, u32> {
    let plant = match open_stream(alloc, FILE.as_bytes()) {
        Ok(plant) => plant,
        Err(fault) => return Err(FileFault::number(&fault)),
    };
    match Pipeline::new(alloc, plant) {
        Ok(run) => Ok(run),
        Err(_) => Err(32),
    }
}

fn go<H: Helpers<Job<Kind>, Worked<Kind>>>(
    alloc: Global,
    mut run: Run,
    helpers: &mut H,
    left: &mut Left,
) {
    let ended = match join(alloc, &mut run) {
        Ok(()) => run.run_with(alloc, helpers, &mut AllReady, &mut Unwatched),
        Err(fault) => Err(fault),
    };
    left.fault = match ended {
        Ok(Settled::Done) => None,
        Ok(Settled::Quiet) => Some(0),
        Err(fault) => Some(fault.number()),
    };
    if let End::Output(output) = &run.ends[SINK.0 as usize] {
        keep(output, left);
    }
}

fn join(alloc: Global, run: &mut Run) -> Result<(), PipelineFault> {
    let order = ByteOrder::Little;
    run.read_from(alloc, SOURCE, order, Three { left: INPUT })?;
    let (items, tags) = (sheet(), sheet());
    run.write_to(alloc, SINK, order, items, tags)?;
    run.mark_from(alloc, SOURCE, Three { left: MARKS })
}

fn sheet() -> Option<Sheet> {
    Some(Sheet { page: Page::new() })
}

fn keep(output: &Output<Sheet>, left: &mut Left) {
    if let Some(sheet) = &output.items_to {
        left.items.put(sheet.page.bytes());
    }
    if let Some(sheet) = &output.tags_to {
        left.tags.put(sheet.page.bytes());
    }
}

/// Whether all was written; or memory was refused, and a beginning was written.
pub fn is_right(left: &Left) -> bool {
    let (items, tags) = (left.items.bytes(), left.tags.bytes());
    match left.fault {
        None => items == ITEM_BYTES && tags == TAG_LINES,
        Some(fault) => fault == 32 && ITEM_BYTES.starts_with(items) && TAG_LINES.starts_with(tags),
    }
}
