//! Pipelines whose sources have marks: lines in pieces of any lengths beside one feed, each failing read, and each
//! refusal.
use super::drawn::{Make, streaming};
use super::pipelines::{Pieces, Run, Whole, given, texts, told, whole, written};
use super::streamed::{BLOCKS, SINKS, WIRES};
use flowgraph::BlockId;
use items::Mark;
use pipeline::{ByteOrder, Pipeline, PipelineFault, Settled, StreamPart, TapePart};
use std::alloc::Global;
use std::process::Abort;
use std::test::Fail;

const SOURCE: BlockId = BlockId(0);

// The lines of marks, as a person may write them: with zeros in front, with a source that is passed over, without a line
// feed at the end, and with lines that say up to which item all marks were there.
fn lines_of(rt: &impl Abort, alloc: Global, marks: &[Mark], style: u64) -> Result<Vec<u8>, Fail> {
    let mut lines = Vec::new(alloc);
    for (n, mark) in marks.iter().enumerate() {
        let Ok(key) = std::str::from_utf8(mark.key.bytes()) else {
            panic!(rt; "a key is text");
        };
        let (offset, value) = (mark.offset, mark.value);
        let line = match style % 4 {
            0 => format!(in alloc; "@{offset}:{key}={value}")?,
            1 => format!(in alloc; "@00{offset}:{key}={value}/{n}")?,
            2 => format!(in alloc; "until {offset}\r\n@{offset}:{key}={value}\nuntil 0{offset}")?,
            _ => format!(in alloc; "@{offset}:{key}={value}\r")?,
        };
        lines.extend_from_slice(line.as_bytes())?;
        if style % 4 != 0 || n + 1 < marks.len() {
            lines.push(b'\n')?;
        }
    }
    Ok(lines)
}

// The same items all from a reader, and the marks from another, each in pieces of random lengths.
fn marked(
    rt: &impl Abort,
    alloc: Global,
    whole: &Whole,
    lines: Vec<u8>,
    seed: u64,
    reads_left: u64,
) -> Result<Run, Fail> {
    let mut items = Vec::new(alloc);
    for number in &whole.numbers {
        items.push(*number as u8)?;
    }
    let reader = Pieces {
        bytes: items,
        most: 1 + seed * 5,
        chance: seed,
        reads_left: u64::MAX,
    };
    let marks = Pieces {
        bytes: lines,
        most: 1 + (seed * 7) % 60,
        chance: seed + 1,
        reads_left,
    };
    let Ok(mut run) = Pipeline::new(alloc, streaming(rt, alloc, &BLOCKS, &WIRES, 7)) else {
        panic!(rt; "no memory");
    };
    assert!(rt; run.read_from(alloc, SOURCE, ByteOrder::Little, reader).is_ok(), "a reader");
    assert!(rt; run.mark_from(alloc, SOURCE, marks).is_ok(), "one of marks");
    for sink in SINKS {
        let (items, tags) = (written(alloc, u64::MAX), written(alloc, u64::MAX));
        assert!(rt; run.write_to(alloc, sink, ByteOrder::Little, items, tags).is_ok(), "writers");
    }
    Ok(run)
}

#[test]
fn marks_in_pieces_are_those_of_one_feed(rt: HostRuntime) -> Result<(), Fail> {
    let alloc = rt.alloc();
    let whole = whole(&rt, alloc)?;
    assert!(rt; 20 < whole.marks.len(), "many");
    for seed in 0..12 {
        let lines = lines_of(&rt, alloc, &whole.marks, seed)?;
        let mut run = marked(&rt, alloc, &whole, lines, seed, u64::MAX)?;
        assert!(rt; matches!(run.run(alloc), Ok(Settled::Done)), "done, seed {seed}");
        for sink in SINKS {
            let [items, lines] = texts(&rt, alloc, &whole.plant, sink)?;
            let (bytes, tags) = given(&rt, &run, sink);
            assert!(rt; bytes == &items[..], "items, seed {seed}");
            assert!(rt; tags == &lines[..] && 0 < lines.len(), "tags, seed {seed}");
        }
    }
    Ok(())
}

#[test]
fn each_failing_read_of_marks_leaves_a_beginning(rt: HostRuntime) -> Result<(), Fail> {
    let alloc = rt.alloc();
    let whole = whole(&rt, alloc)?;
    let mut failed = 0;
    for left in 0..60 {
        let lines = lines_of(&rt, alloc, &whole.marks, 0)?;
        let mut run = marked(&rt, alloc, &whole, lines, 3, left)?;
        let ended = run.run(alloc);
        match &ended {
            Ok(settled) => assert!(rt; *settled == Settled::Done, "done"),
            Err(PipelineFault::ReadMarks(block, _)) => {
                assert!(rt; *block == SOURCE, "the source");
                told(&rt, alloc, &ended, 51, "reading marks failed: ")?;
            }
            Err(_) => panic!(rt; "another fault"),
        }
        failed += u32::from(ended.is_err());
        for sink in SINKS {
            let [items, lines] = texts(&rt, alloc, &whole.plant, sink)?;
            let (bytes, tags) = given(&rt, &run, sink);
            assert!(rt; items.starts_with(bytes), "a beginning, {left}");
            assert!(rt; lines.starts_with(tags), "of the tags too, {left}");
            assert!(rt; ended.is_err() || (bytes == &items[..] && tags == &lines[..]), "or all");
        }
    }
    assert!(rt; 20 < failed && failed < 60, "some of these fail");
    Ok(())
}

// A source of bytes and a sink, between a reader and writers, with marks.
fn short_run(rt: &impl Abort, alloc: Global, items: &[u8], marks: &[u8], most: u64) -> Result<Run, Fail> {
    let blocks = [Make::Source, Make::Sink];
    let Ok(mut run) = Pipeline::new(alloc, streaming(rt, alloc, &blocks, &[(0, 0, 1, 0)], 64)) else {
        panic!(rt; "no memory");
    };
    let pieces = |bytes, chance| Pieces { bytes, most, chance, reads_left: u64::MAX };
    let (items, marks) = (Vec::from_slice(alloc, items)?, Vec::from_slice(alloc, marks)?);
    assert!(rt; run.read_from(alloc, SOURCE, ByteOrder::Little, pieces(items, 1)).is_ok(), "a reader");
    assert!(rt; run.mark_from(alloc, SOURCE, pieces(marks, 2)).is_ok(), "one of marks");
    let (items, tags) = (written(alloc, u64::MAX), written(alloc, u64::MAX));
    assert!(rt; run.write_to(alloc, BlockId(1), ByteOrder::Little, items, tags).is_ok(), "writers");
    Ok(run)
}

#[test]
fn tags_that_are_written_can_be_read_as_marks(rt: HostRuntime) -> Result<(), Fail> {
    let alloc = rt.alloc();
    let lines = b"@0:a=-1/0\n@0:b=2/0\n@4:a=9223372036854775807/0\n@5:a=-9223372036854775808/0\n@5:a=0/0\n";
    for most in 1..40 {
        let mut first = short_run(&rt, alloc, b"source", lines, most)?;
        assert!(rt; matches!(first.run(alloc), Ok(Settled::Done)), "done");
        let (bytes, tags) = given(&rt, &first, BlockId(1));
        assert!(rt; bytes == b"source".as_slice() && tags == lines.as_slice(), "as they came");
        let mut second = short_run(&rt, alloc, bytes, tags, 41 - most)?;
        assert!(rt; matches!(second.run(alloc), Ok(Settled::Done)), "done");
        let (_, tags) = given(&rt, &second, BlockId(1));
        assert!(rt; tags == lines.as_slice(), "and again");
    }
    Ok(())
}

#[test]
fn bad_marks_are_told_by_their_line(rt: HostRuntime) -> Result<(), Fail> {
    let alloc = rt.alloc();
    // Six items, of which those before the fault come out where each is read alone.
    let cases: [(&[u8], u64, bool, usize); 20] = [
        (b"k=1\n", 1, true, 0),
        (b"@0:k=1\n@1:k=\n", 2, true, 0),
        (b"@0:k=1\n@3:k=1\n@4;k=1\n", 3, true, 3),
        (b"@0:k=1\n@3:k=1\n@2:k=1\n", 3, false, 3),
        (b"@5:k=1\n@6:k=1\n", 2, false, 6),
        (b"@18446744073709551615:k=1", 1, false, 6),
        (b"@18446744073709551616:k=1", 1, true, 0),
        (b"until 4\n@3:k=1\n", 2, false, 4),
        (b"@0:k=1\nuntil 3\n\nuntil 4", 3, true, 3),
        (b"@2:k=1\nuntil 1\n", 2, false, 2),
        (b"until 3\nuntil 2\n", 2, false, 3),
        (b"until 9\n@9:k=1\n", 2, false, 6),
        (b"until\n", 1, true, 0),
        (b"until x\n", 1, true, 0),
        (b"until 5 6\n", 1, true, 0),
        (b"until  5\n", 1, true, 0),
        (b"until 5 \n", 1, true, 0),
        (b"until -1\n", 1, true, 0),
        (b"Until 5\n", 1, true, 0),
        (b"until 2\nuntil 18446744073709551616\n", 2, true, 2),
    ];
    for (marks, number, is_bad, out) in cases {
        let mut run = short_run(&rt, alloc, b"source", marks, 1)?;
        let ended = run.run(alloc);
        match &ended {
            Err(PipelineFault::BadMark(SOURCE, line)) => {
                assert!(rt; is_bad && *line == number, "a bad line, {number}");
                told(&rt, alloc, &ended, 50, "line ")?;
            }
            Err(PipelineFault::MarkPlace(SOURCE, line)) => {
                assert!(rt; !is_bad && *line == number, "a bad place, {number}");
                told(&rt, alloc, &ended, 25, "line ")?;
            }
            _ => panic!(rt; "no such fault, {number}"),
        }
        let (bytes, _) = given(&rt, &run, BlockId(1));
        assert!(rt; bytes == &b"source"[..out], "what came before is out, {number}");
    }
    Ok(())
}

#[test]
fn marks_are_read_no_further_than_the_items(rt: HostRuntime) -> Result<(), Fail> {
    let alloc = rt.alloc();
    let blocks = [Make::Source, Make::Sink];
    let Ok(mut run) = Pipeline::new(alloc, streaming(&rt, alloc, &blocks, &[(0, 0, 1, 0)], 64)) else {
        panic!(rt; "no memory");
    };
    // The items come one at a time, and fail behind the fourth; the lines come one at a time too, eight bytes each.
    let pieces = |bytes, most, reads_left| Pieces { bytes, most, chance: 1, reads_left };
    let items = Vec::from_slice(alloc, b"source")?;
    let mut lines = Vec::new(alloc);
    for n in 0..6 {
        lines.extend_from_slice(&[b'@', b'0' + 2 * n, b':', b'k', b'=', b'1', b'\n'])?;
    }
    assert!(rt; run.read_from(alloc, SOURCE, ByteOrder::Little, pieces(items, 1, 4)).is_ok(), "a reader");
    assert!(rt; run.mark_from(alloc, SOURCE, pieces(lines, 1, 21)).is_ok(), "21 bytes are three lines");
    let (items, tags) = (written(alloc, u64::MAX), written(alloc, u64::MAX));
    assert!(rt; run.write_to(alloc, BlockId(1), ByteOrder::Little, items, tags).is_ok(), "writers");
    let ended = run.run(alloc);
    assert!(rt; matches!(ended, Err(PipelineFault::Read(SOURCE, _))), "the reader of items fails first");
    let (bytes, tags) = given(&rt, &run, BlockId(1));
    assert!(rt; bytes == b"sour".as_slice(), "four items");
    assert!(rt; tags == b"@0:k=1/0\n@2:k=1/0\n".as_slice(), "and their tags");
    Ok(())
}

#[test]
fn items_are_fed_up_to_where_no_mark_comes(rt: HostRuntime) -> Result<(), Fail> {
    let alloc = rt.alloc();
    // The reader of marks fails behind these bytes, which it gives one at a time, and what is out by then was not held up.
    let rows: [(&[u8], usize, &[u8]); 6] = [
        (b"", 0, b""),
        (b"until 2\n", 2, b""),
        (b"@1:k=1\nuntil 4\n", 4, b"@1:k=1/0\n"),
        (b"until 1\nuntil 1\n@1:k=1\nuntil 3\r\n", 3, b"@1:k=1/0\n"),
        (b"until 5\nuntil 6", 5, b""),
        (b"until 5\n@5:k=1\n", 5, b""),
    ];
    for (marks, out, lines) in rows {
        let mut run = cut_run(&rt, alloc, marks)?;
        assert!(rt; matches!(run.run(alloc), Err(PipelineFault::ReadMarks(SOURCE, _))), "marks fail, {out}");
        let (bytes, tags) = given(&rt, &run, BlockId(1));
        assert!(rt; bytes == &b"source"[..out] && tags == lines, "what is out, {out}");
    }
    // Up to the last item none comes, so that only the end of the items asks for more.
    for marks in [b"until 6\n".as_slice(), b"until 18446744073709551615\n".as_slice()] {
        let mut run = cut_run(&rt, alloc, marks)?;
        assert!(rt; matches!(run.run(alloc), Err(PipelineFault::ReadMarks(SOURCE, _))), "the end of the marks fails");
        let (bytes, _) = given(&rt, &run, BlockId(1));
        assert!(rt; bytes == b"source".as_slice(), "all items are out");
        let mut run = short_run(&rt, alloc, b"source", marks, 1)?;
        assert!(rt; matches!(run.run(alloc), Ok(Settled::Done)), "nothing comes of an item behind the last");
    }
    Ok(())
}

// A short run whose items come one at a time, and whose reader of marks fails behind these bytes.
fn cut_run(rt: &impl Abort, alloc: Global, marks: &[u8]) -> Result<Run, Fail> {
    let blocks = [Make::Source, Make::Sink];
    let Ok(mut run) = Pipeline::new(alloc, streaming(rt, alloc, &blocks, &[(0, 0, 1, 0)], 64)) else {
        panic!(rt; "no memory");
    };
    let pieces = |bytes, reads_left| Pieces { bytes, most: 1, chance: 1, reads_left };
    let items = Vec::from_slice(alloc, b"source")?;
    assert!(rt; run.read_from(alloc, SOURCE, ByteOrder::Little, pieces(items, u64::MAX)).is_ok(), "a reader");
    let reads = marks.len() as u64;
    let marks = Vec::from_slice(alloc, marks)?;
    assert!(rt; run.mark_from(alloc, SOURCE, pieces(marks, reads)).is_ok(), "one of marks");
    let (items, tags) = (written(alloc, u64::MAX), written(alloc, u64::MAX));
    assert!(rt; run.write_to(alloc, BlockId(1), ByteOrder::Little, items, tags).is_ok(), "writers");
    Ok(run)
}

// The items `source` from item 10 of a whole tape on, with the marks of the tape; and each item three times, from item
// 30 of a whole stream on, of which the first six are left out.
fn part_run(rt: &impl Abort, alloc: Global, marks: &[u8], goes_on: bool, most: u64) -> Result<Run, Fail> {
    let blocks = [Make::Source, Make::Repeat(3), Make::Sink];
    let plant = streaming(rt, alloc, &blocks, &[(0, 0, 1, 0), (1, 0, 2, 0)], 64);
    let Ok(mut run) = Pipeline::new(alloc, plant) else {
        panic!(rt; "no memory");
    };
    let pieces = |bytes, chance| Pieces { bytes, most, chance, reads_left: u64::MAX };
    let (items, marks) = (Vec::from_slice(alloc, b"source")?, Vec::from_slice(alloc, marks)?);
    assert!(rt; run.read_from(alloc, SOURCE, ByteOrder::Little, pieces(items, 1)).is_ok(), "a reader");
    let tape = TapePart { origin: 10, goes_on };
    assert!(rt; run.mark_part(alloc, SOURCE, tape, pieces(marks, 2)).is_ok(), "one of marks");
    let (items, tags) = (written(alloc, u64::MAX), written(alloc, u64::MAX));
    let part = StreamPart { origin: 30, drop: 6 };
    assert!(rt; run.write_part(alloc, BlockId(2), part, ByteOrder::Little, items, tags).is_ok(), "writers");
    Ok(run)
}

#[test]
fn lines_of_a_part_count_the_items_of_the_whole(rt: HostRuntime) -> Result<(), Fail> {
    let alloc = rt.alloc();
    // Item 12 of the tape is item 2 of the part, which gives item 6 of the sink, item 36 of the whole stream.
    let rows: [(&[u8], bool, &[u8]); 5] = [
        (b"@3:a=1\n@9:a=2\n@10:b=3\n@12:c=4\n@15:d=5\n", false, b"@36:c=4/0\n@45:d=5/0\n"),
        (b"@11:b=3\n@13:c=4\n@16:d=5\nno mark\n", true, b"@39:c=4/0\n"),
        (b"until 7\n@9:a=2\nuntil 12\n@12:c=4\nuntil 99\n", false, b"@36:c=4/0\n"),
        (b"until 3\n@13:c=4\nuntil 16\nno mark\n", true, b"@39:c=4/0\n"),
        (b"until 10\nuntil 10\n@12:c=4\n@12:d=5", true, b"@36:c=4/0\n@36:d=5/0\n"),
    ];
    for (marks, goes_on, lines) in rows {
        for most in [1, 4, 60] {
            let mut run = part_run(&rt, alloc, marks, goes_on, most)?;
            assert!(rt; matches!(run.run(alloc), Ok(Settled::Done)), "done, {most}");
            let (bytes, tags) = given(&rt, &run, BlockId(2));
            assert!(rt; bytes == b"uuurrrccceee".as_slice(), "the items, {most}");
            assert!(rt; tags == lines, "the tags, {most}");
        }
    }
    Ok(())
}

#[test]
fn marks_before_a_part_have_to_be_right(rt: HostRuntime) -> Result<(), Fail> {
    let alloc = rt.alloc();
    let rows: [(&[u8], u64, bool); 7] = [
        (b"until 9\n@8:a=2\n@12:c=4\n", 2, false),
        (b"@9:a=1\nuntil 8\n@12:c=4\n", 2, false),
        (b"until 17\n@16:d=5\n", 2, false),
        (b"@3:a=\n@12:c=4\n", 1, true),
        (b"@9:a=1\n@8:a=2\n@12:c=4\n", 2, false),
        (b"@10:a=1\n@9:a=2\n", 2, false),
        (b"@9:a=1\n@12:c=4\n@16:d=5\n", 3, false),
    ];
    for (marks, number, is_bad) in rows {
        let mut run = part_run(&rt, alloc, marks, false, 5)?;
        match run.run(alloc) {
            Err(PipelineFault::BadMark(SOURCE, line)) => assert!(rt; is_bad && line == number, "line {number}"),
            Err(PipelineFault::MarkPlace(SOURCE, line)) => assert!(rt; !is_bad && line == number, "line {number}"),
            _ => panic!(rt; "no such fault, {number}"),
        }
    }
    Ok(())
}
