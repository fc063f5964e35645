//! Graphs of all kinds whose items rest on no input from long ago, drawn by chance, with rates that balance.
use super::forgetful::Sets::{Nothing, Number, Taps};
use super::forgetful::Takes::{Any, Bytes, Of, Wide};
use flowgraph::BlockId;
use items::ItemType;
use items::ItemType::{Byte, Int, Short};
use std::alloc::Global;
use std::test::Fail;

/// What a block may be set to while it runs.
#[derive(Clone, Copy, PartialEq, Eq)]
pub enum Sets {
    Nothing,
    /// A number of up to so many.
    Number(i64),
    /// So many taps.
    Taps(usize),
}

// Which items a kind takes.
#[derive(Clone, Copy)]
enum Takes {
    // Bytes, which its text does not say.
    Bytes,
    // Of this type.
    Of(ItemType),
    // Shorts and ints.
    Wide,
    Any,
}

// A kind with one input and one output, and what its text says behind its type: what it takes, what it gives if that is
// of another type, how many items it gives for how many, and what may be set.
type Row = (&'static str, &'static str, Takes, Option<ItemType>, (u64, u64), Sets);

const ONE: [Row; 72] = [
    ("add_const", "value = 7", Any, None, (1, 1), Number(9)),
    ("multiply_const", "value = 3", Any, None, (1, 1), Number(9)),
    ("divide_const", "value = 2", Any, None, (1, 1), Number(9)),
    ("and_const", "value = 12", Any, None, (1, 1), Number(255)),
    ("or_const", "value = 12", Any, None, (1, 1), Number(255)),
    ("xor_const", "value = 12", Any, None, (1, 1), Number(255)),
    ("scale", "factor = 300, shift = 7", Any, None, (1, 1), Number(999)),
    ("clip", "low = 3, high = 90", Any, None, (1, 1), Nothing),
    ("abs", "", Any, None, (1, 1), Nothing),
    ("not", "", Any, None, (1, 1), Nothing),
    ("mute", "on = 0", Any, None, (1, 1), Number(1)),
    ("map_bb", "map = [5, 6, 7]", Bytes, None, (1, 1), Nothing),
    ("table", "to = 'int', values = [1, 9, -70000]", Bytes, Some(Int), (1, 1), Nothing),
    ("table", "to = 'short', values = [-4, 300]", Bytes, Some(Short), (1, 1), Nothing),
    ("convert", "to = 'byte'", Any, Some(Byte), (1, 1), Nothing),
    ("convert", "to = 'short'", Any, Some(Short), (1, 1), Nothing),
    ("convert", "to = 'int'", Any, Some(Int), (1, 1), Nothing),
    ("binary_slicer", "threshold = 99", Any, Some(Byte), (1, 1), Nothing),
    ("ulaw_encode", "", Any, Some(Byte), (1, 1), Nothing),
    ("alaw_encode", "", Any, Some(Byte), (1, 1), Nothing),
    ("moving_sum", "length = 2", Any, None, (1, 1), Nothing),
    ("moving_sum", "length = 9", Any, None, (1, 1), Nothing),
    ("moving_sum", "length = 40", Any, None, (1, 1), Nothing),
    ("fir", "taps = [3, -1, 4, 1, -5], shift = 2", Wide, None, (1, 1), Taps(5)),
    ("fir", "taps = [3, -1, 4, 1, -5, 9, 2], decimation = 3", Wide, None, (1, 3), Taps(7)),
    ("fir", "taps = [1, 1], decimation = 4", Wide, None, (1, 4), Taps(2)),
    ("interp_fir", "taps = [3, -1, 4, 1, -5, 9, 2], interpolation = 3", Wide, None, (3, 1), Taps(7)),
    ("interp_fir", "taps = [3, -1, 4, 1], interpolation = 4", Wide, None, (4, 1), Taps(4)),
    ("interp_fir", "taps = [2, 7], interpolation = 1", Wide, None, (1, 1), Taps(2)),
    ("keep_one_in_n", "n = 2", Any, None, (1, 2), Nothing),
    ("keep_one_in_n", "n = 5", Any, None, (1, 5), Nothing),
    ("keep_m_in_n", "m = 2, n = 5, offset = 1", Any, None, (2, 5), Nothing),
    ("keep_m_in_n", "m = 3, n = 4", Any, None, (3, 4), Nothing),
    ("integrate", "n = 3", Any, None, (1, 3), Nothing),
    ("frame_minimum", "n = 2", Any, None, (1, 2), Nothing),
    ("frame_maximum", "n = 4", Any, None, (1, 4), Nothing),
    ("argmax", "n = 3", Any, None, (1, 3), Nothing),
    ("repeat", "n = 2", Any, None, (2, 1), Nothing),
    ("repeat", "n = 3", Any, None, (3, 1), Nothing),
    ("insert", "values = [9, 8], period = 5, offset = 1", Any, None, (5, 3), Nothing),
    ("insert", "values = [7], period = 2", Any, None, (2, 1), Nothing),
    ("permute", "order = [2, 0, 1]", Any, None, (3, 3), Nothing),
    ("permute", "order = [1, 0, 2, 4, 3]", Any, None, (5, 5), Nothing),
    ("head", "n = 5", Any, None, (1, 1), Nothing),
    ("head", "n = 100", Any, None, (1, 1), Nothing),
    ("skiphead", "n = 1", Any, None, (1, 1), Nothing),
    ("skiphead", "n = 4", Any, None, (1, 1), Nothing),
    ("skiphead", "n = 30", Any, None, (1, 1), Nothing),
    ("delay", "n = 1", Any, None, (1, 1), Nothing),
    ("delay", "n = 5", Any, None, (1, 1), Nothing),
    ("delay", "n = 60", Any, None, (1, 1), Nothing),
    ("pack_k_bits", "k = 3", Bytes, None, (1, 3), Nothing),
    ("unpack_k_bits", "k = 2", Bytes, None, (2, 1), Nothing),
    ("repack_bits", "k = 3, l = 8, order = 'lsb_first'", Bytes, None, (3, 8), Nothing),
    ("repack_bits", "k = 8, l = 3", Bytes, None, (8, 3), Nothing),
    ("repack_bits", "k = 4, l = 6", Bytes, None, (2, 3), Nothing),
    ("packed_to_unpacked", "bits = 3", Of(Byte), None, (8, 3), Nothing),
    ("packed_to_unpacked", "bits = 8, order = 'lsb_first'", Of(Short), None, (2, 1), Nothing),
    ("packed_to_unpacked", "bits = 12", Of(Int), None, (8, 3), Nothing),
    ("unpacked_to_packed", "bits = 4, order = 'lsb_first'", Of(Byte), None, (1, 2), Nothing),
    ("unpacked_to_packed", "bits = 6", Of(Short), None, (3, 8), Nothing),
    ("unpacked_to_packed", "bits = 16", Of(Int), None, (1, 2), Nothing),
    ("diff_decoder", "modulus = 4", Bytes, None, (1, 1), Nothing),
    ("descrambler", "bits = 7, mask = 65, init = 3", Bytes, None, (1, 1), Nothing),
    ("descrambler", "bits = 32, mask = 2147483649, init = 1", Bytes, None, (1, 1), Nothing),
    ("additive_scrambler", "bits = 7, mask = 65, init = 9", Bytes, None, (1, 1), Nothing),
    ("additive_scrambler", "bits = 31, mask = 1073741828, init = 77", Bytes, None, (1, 1), Nothing),
    ("correlate_access_code", "code = '101', threshold = 0", Bytes, None, (1, 1), Nothing),
    ("correlate_access_code", "code = '10111000101', threshold = 4", Bytes, None, (1, 1), Nothing),
    ("crc_append", "bits = 8, polynomial = 7, init = 0, final_xor = 0, n = 3", Bytes, None, (4, 3), Nothing),
    ("crc_append", "bits = 16, polynomial = 32773, init = 1, final_xor = 9, n = 5, order = 'lsb_first'", Bytes, None, (7, 5), Nothing),
    ("crc_check", "bits = 8, polynomial = 7, init = 0, final_xor = 0, n = 2", Bytes, None, (1, 3), Nothing),
];

const JOINS: [&str; 10] = [
    "add", "sub", "multiply", "divide", "minimum", "maximum", "and", "or", "xor", "interleave",
];

const TYPES: [ItemType; 3] = [Byte, Short, Int];

// Of the slowest and of the fastest stream, how many items one has for one of the other at most.
const MOST: u64 = 24;

// How many items a stream has for so many of others.
#[derive(Clone, Copy, PartialEq, Eq)]
struct Pace(u64, u64);

impl Pace {
    fn times(self, given: u64, taken: u64) -> Pace {
        let (over, under) = (self.0 * given, self.1 * taken);
        let divisor = common(over, under);
        Pace(over / divisor, under / divisor)
    }

    fn is_usual(self) -> bool {
        self.0 <= self.1 * MOST && self.1 <= self.0 * MOST
    }
}

// The greatest common divisor.
fn common(a: u64, b: u64) -> u64 {
    let (mut a, mut b) = (a, b);
    while b != 0 {
        let rest = a % b;
        a = b;
        b = rest;
    }
    a
}

// A stream that a block may take.
#[derive(Clone, Copy)]
struct Stream {
    block: usize,
    port: usize,
    item: ItemType,
    pace: Pace,
    is_read: bool,
}

/// A block that may be set, and how many items of its input a firing takes.
#[derive(Clone, Copy)]
pub struct Settable {
    pub block: BlockId,
    pub taken: u64,
    pub sets: Sets,
}

/// A graph that is drawn: its text, which blocks are its sources, and which may be set.
#[derive(Drop)]
pub struct Draft {
    chance: u64,
    blocks: String,
    wires: String,
    count: usize,
    streams: Vec<Stream>,
    pub sources: Vec<BlockId>,
    pub set: Vec<Settable>,
}

fn name_of(item: ItemType) -> &'static str {
    match item {
        Byte => "byte",
        Short => "short",
        Int => "int",
    }
}

impl Draft {
    /// The graph of this number.
    pub fn new(alloc: Global, seed: u64) -> Result<Draft, Fail> {
        let mut draft = Draft {
            chance: seed,
            blocks: String::new(alloc),
            wires: String::new(alloc),
            count: 0,
            streams: Vec::new(alloc),
            sources: Vec::new(alloc),
            set: Vec::new(alloc),
        };
        for _ in 0..[1, 1, 2, 3][draft.draw(4)] {
            draft.add_source(alloc)?;
        }
        for _ in 0..=draft.draw(5) {
            match draft.draw(6) {
                0 => draft.add_join(alloc)?,
                1 => draft.add_mux(alloc)?,
                2 if draft.draw(2) == 0 => draft.add_split(alloc)?,
                _ => draft.add_one(alloc)?,
            }
        }
        draft.end(alloc)?;
        Ok(draft)
    }

    /// A number below `end`.
    pub fn draw(&mut self, end: usize) -> usize {
        self.chance = self
            .chance
            .wrapping_mul(6_364_136_223_846_793_005)
            .wrapping_add(1_442_695_040_888_963_407);
        (self.chance >> 33) as usize % end
    }

    /// The text of the graph file.
    pub fn text(&self, alloc: Global) -> Result<String, Fail> {
        let (blocks, wires) = (self.blocks.as_str(), self.wires.as_str());
        Ok(format!(in alloc; "block = [\n{blocks}]\nconnect = [\n{wires}]\n")?)
    }

    // A block that takes these streams, of which this is the text. It returns its number.
    fn add(&mut self, alloc: Global, text: &str, from: &[usize]) -> Result<usize, Fail> {
        let number = self.count;
        self.count += 1;
        self.blocks.push_str("{ ")?;
        let block = format!(in alloc; "name = 'b{number}', {text}")?;
        self.blocks.push_str(block.as_str())?;
        self.blocks.push_str(" },\n")?;
        for (port, from) in from.iter().enumerate() {
            let (writer, out) = (self.streams[*from].block, self.streams[*from].port);
            self.streams[*from].is_read = true;
            self.wires.push_str("{ ")?;
            // (most of a short run's time is that of its text)
            let wire = match (out, port) {
                (0, 0) => format!(in alloc; "from = 'b{writer}', to = 'b{number}'")?,
                _ => format!(in alloc; "from = 'b{writer}', from_port = {out}, to = 'b{number}', to_port = {port}")?,
            };
            self.wires.push_str(wire.as_str())?;
            self.wires.push_str(" },\n")?;
        }
        Ok(number)
    }

    // A stream that somebody may take.
    fn give(&mut self, block: usize, port: usize, item: ItemType, pace: Pace) -> Result<(), Fail> {
        let is_read = false;
        Ok(self.streams.push(Stream { block, port, item, pace, is_read })?)
    }

    // What else the text of a block says: which tags it sends, how often it fires at once, and how few items its
    // outputs hold.
    fn options(&mut self, alloc: Global, kind: &str, is_one: bool) -> Result<String, Fail> {
        let tags = match self.draw(8) {
            0 => ", tags = 'none'",
            1 if is_one => ", tags = 'one'",
            _ => "",
        };
        // (these fire once at a time)
        let multiple = match self.draw(6) {
            _ if kind == "head" || kind == "skiphead" || kind == "delay" => "",
            0 => ", multiple = 2",
            1 => ", multiple = 3",
            _ => "",
        };
        let capacity = ["", ", capacity = 1", ", capacity = 3"][self.draw(3)];
        Ok(format!(in alloc; "{tags}{multiple}{capacity}")?)
    }

    fn add_source(&mut self, alloc: Global) -> Result<(), Fail> {
        let item = TYPES[self.draw(3)];
        let pace = [Pace(1, 1), Pace(1, 1), Pace(2, 1), Pace(3, 2), Pace(1, 3)][self.draw(5)];
        let kind = name_of(item);
        let text = format!(in alloc; "kind = 'vector_source', type = '{kind}'")?;
        let block = self.add(alloc, text.as_str(), &[])?;
        self.sources.push(BlockId(block as u32))?;
        self.give(block, 0, item, pace)
    }

    // A stream, rather one that nobody takes yet.
    fn pick(&mut self) -> usize {
        let first = self.draw(self.streams.len());
        let second = self.draw(self.streams.len());
        if self.streams[first].is_read { second } else { first }
    }

    fn add_one(&mut self, alloc: Global) -> Result<(), Fail> {
        let from = self.pick();
        let stream = self.streams[from];
        let (kind, keys, takes, gives, (given, taken), sets) = ONE[self.draw(ONE.len())];
        let pace = stream.pace.times(given, taken);
        let (fits, shown) = match takes {
            Bytes => (stream.item == Byte, false),
            Of(item) => (stream.item == item, true),
            Wide => (stream.item != Byte, true),
            Any => (true, true),
        };
        if !fits || !pace.is_usual() {
            return Ok(());
        }
        let own = name_of(stream.item);
        let item = if shown { format!(in alloc; ", type = '{own}'")? } else { String::new(alloc) };
        let comma = if keys.is_empty() { "" } else { ", " };
        let options = self.options(alloc, kind, true)?;
        let text = format!(in alloc; "kind = '{kind}'{item}{comma}{keys}{options}")?;
        let block = self.add(alloc, text.as_str(), &[from])?;
        if sets != Nothing {
            self.set.push(Settable { block: BlockId(block as u32), taken, sets })?;
        }
        self.give(block, 0, gives.unwrap_or(stream.item), pace)
    }

    // What takes as many items of two streams.
    fn add_join(&mut self, alloc: Global) -> Result<(), Fail> {
        let (one, two) = (self.pick(), self.pick());
        let (first, second) = (self.streams[one], self.streams[two]);
        if first.item != second.item || first.pace != second.pace {
            return Ok(());
        }
        let kind = JOINS[self.draw(JOINS.len())];
        let (own, options) = (name_of(first.item), self.options(alloc, kind, false)?);
        let ports = if kind == "interleave" { ", ports = 2" } else { "" };
        let pace = if kind == "interleave" { first.pace.times(2, 1) } else { first.pace };
        let text = format!(in alloc; "kind = '{kind}', type = '{own}'{ports}{options}")?;
        let block = self.add(alloc, text.as_str(), &[one, two])?;
        self.give(block, 0, first.item, pace)
    }

    // What takes so many items of two streams as these have.
    fn add_mux(&mut self, alloc: Global) -> Result<(), Fail> {
        let (one, two) = (self.pick(), self.pick());
        let (first, second) = (self.streams[one], self.streams[two]);
        let ratio = Pace(first.pace.0 * second.pace.1, first.pace.1 * second.pace.0).times(1, 1);
        let pace = first.pace.times(ratio.0 + ratio.1, ratio.0);
        if first.item != second.item || !pace.is_usual() {
            return Ok(());
        }
        let (own, options) = (name_of(first.item), self.options(alloc, "stream_mux", false)?);
        let (left, right) = (ratio.0, ratio.1);
        let text = format!(in alloc; "kind = 'stream_mux', type = '{own}', lengths = [{left}, {right}]{options}")?;
        let block = self.add(alloc, text.as_str(), &[one, two])?;
        self.give(block, 0, first.item, pace)
    }

    fn add_split(&mut self, alloc: Global) -> Result<(), Fail> {
        let from = self.pick();
        let stream = self.streams[from];
        let pace = stream.pace.times(1, 2);
        if !pace.is_usual() {
            return Ok(());
        }
        let (own, options) = (name_of(stream.item), self.options(alloc, "deinterleave", false)?);
        let text = format!(in alloc; "kind = 'deinterleave', type = '{own}', ports = 2{options}")?;
        let block = self.add(alloc, text.as_str(), &[from])?;
        self.give(block, 0, stream.item, pace)?;
        self.give(block, 1, stream.item, pace)
    }

    // A sink for each stream that nobody takes, and now and then one that keeps nothing.
    fn end(&mut self, alloc: Global) -> Result<(), Fail> {
        for at in 0..self.streams.len() {
            if !self.streams[at].is_read {
                self.add_sink(alloc, "vector_sink", at)?;
            }
        }
        if self.draw(5) == 0 {
            let at = self.draw(self.streams.len());
            self.add_sink(alloc, "null_sink", at)?;
        }
        Ok(())
    }

    fn add_sink(&mut self, alloc: Global, kind: &str, at: usize) -> Result<(), Fail> {
        let own = name_of(self.streams[at].item);
        let text = format!(in alloc; "kind = '{kind}', type = '{own}'")?;
        self.add(alloc, text.as_str(), &[at])?;
        Ok(())
    }
}
