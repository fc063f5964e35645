//! Runs between raw inputs and outputs that come in pieces, or fail.
use super::fakes::{Pieces, Written};
use flow_core::fault::Fault;
use flow_core::raw_fault::EndPlace::{Input, Output, Tags};
use flow_core::raw_fault::{EndFault, RawFault};
use flow_core::opening::open_plant;
use flow_core::raw_input::{feed_from, sink_named, source_named};
use flow_core::raw_output::{write_items, write_tags};
use flow_core::refusal_line::report_raw;
use flow_core::run::settle_plant;
use flow_core::script::ScriptFault;
use graph_file::FileFault;
use items::Items;
use kinds::Kind;
use plant::{BlockId, Plant, PlantFault, Unwatched};
use raw_items::ByteOrder;
use std::alloc::Global;
use std::process::Abort;
use std::test::Fail;

// A source and a sink of shorts. Their numbers are 0 and 1.
const CHAIN: &str = "[[block]]\nname = \"src\"\nkind = \"vector_source\"\ntype = \"short\"\n\
[[block]]\nname = \"out\"\nkind = \"vector_sink\"\ntype = \"short\"\n\
[[connect]]\nfrom = \"src\"\nto = \"out\"\n";

const SOURCE: BlockId = BlockId(0);

const SINK: BlockId = BlockId(1);

fn input(bytes: &[u8], most: usize, good: usize) -> Pieces<'_> {
    Pieces {
        left: bytes,
        most,
        good,
        failures: 0,
    }
}

fn output(alloc: Global, room: usize) -> Written {
    Written {
        bytes: Vec::new(alloc),
        room,
        failures: 0,
    }
}

// The plant of a file.
fn opened(alloc: Global, file: &str) -> Result<Plant<Kind>, RawFault> {
    open_plant(alloc, file.as_bytes()).map_err(|fault| RawFault::Whole(Fault::File(fault)))
}

// The run of a file with its feeds behind the chain, and the bytes fed to its source.
fn ran(alloc: Global, file: &str, input: &mut Pieces<'_>) -> Result<Plant<Kind>, RawFault> {
    let mut plant = opened(alloc, file)?;
    feed_from(alloc, &mut plant, 0, SOURCE, ByteOrder::Little, input)?;
    let (plant, _) = settle_plant(alloc, plant, &mut Unwatched)?;
    Ok(plant)
}

// The shorts that the sink holds.
fn held(alloc: Global, ran: &Plant<Kind>) -> Result<Vec<i16>, Fail> {
    match ran.read(alloc, SINK, 0, u64::MAX).map_err(|_| "a sink")?.items {
        Items::Short(shorts) => Ok(shorts),
        Items::Byte(_) | Items::Int(_) => Err("shorts")?,
    }
}

// So many bytes, which do not repeat soon.
fn bytes(alloc: Global, count: usize) -> Result<Vec<u8>, Fail> {
    let mut bytes = Vec::with_capacity(alloc, count)?;
    for place in 0..count {
        bytes.push((place % 251) as u8)?;
    }
    Ok(bytes)
}

#[test]
fn items_come_and_go_in_pieces(rt: HostRuntime) -> Result<(), Fail> {
    let alloc = rt.alloc();
    for count in [0, 2, 131_072, 140_000] {
        let bytes = bytes(alloc, count)?;
        for most in [1, 3, 65_535, usize::MAX] {
            // (a read for each byte of many takes long)
            if most == 1 && 2 < count {
                continue;
            }
            let mut input = input(&bytes, most, usize::MAX);
            let ran = ran(alloc, CHAIN, &mut input).map_err(|_| "a run")?;
            let mut output = output(alloc, usize::MAX);
            let written = write_items(alloc, &ran, Output(0), SINK, ByteOrder::Little, &mut output);
            assert!(rt; written.is_ok(), "{count} bytes, {most} at once");
            assert!(rt; output.bytes == bytes, "{count} bytes, {most} at once");
            assert!(rt; ran.all_done());
        }
    }
    Ok(())
}

#[test]
fn each_order_turns_the_other_about(rt: HostRuntime) -> Result<(), Fail> {
    let alloc = rt.alloc();
    for (order, turned) in [(ByteOrder::Little, "abcd"), (ByteOrder::Big, "badc")] {
        let ran = ran(alloc, CHAIN, &mut input(b"abcd", 3, 9)).map_err(|_| "a run")?;
        let mut output = output(alloc, 9);
        let written = write_items(alloc, &ran, Output(0), SINK, order, &mut output);
        assert!(rt; written.is_ok());
        assert_eq!(rt; output.bytes.as_slice(), turned.as_bytes());
        assert_eq!(rt; held(alloc, &ran)?.as_slice(), [25_185, 25_699].as_slice());
    }
    Ok(())
}

#[test]
fn a_failed_read_ends_an_input(rt: HostRuntime) -> Result<(), Fail> {
    let alloc = rt.alloc();
    for good in [0, 1, 2, 3] {
        let mut input = input(b"abcd", 1, good);
        let fault = ran(alloc, CHAIN, &mut input).err().ok_or("a fault")?;
        assert_eq!(rt;
            fault.to_string(alloc)?.as_str(),
            "51 Read input 0",
            "{good} bytes"
        );
        assert_eq!(rt; input.failures, 1, "{good} bytes");
        assert_eq!(rt; input.left.len(), 4 - good);
    }
    for count in [1, 3] {
        let mut input = input(&b"abcd"[..count], 1, usize::MAX);
        let fault = ran(alloc, CHAIN, &mut input).err().ok_or("a fault")?;
        assert_eq!(rt; fault.to_string(alloc)?.as_str(), "53 CutItem input 0");
        assert_eq!(rt; (input.failures, input.left.len()), (0, 0));
    }
    Ok(())
}

#[test]
fn a_failed_write_leaves_a_beginning(rt: HostRuntime) -> Result<(), Fail> {
    let alloc = rt.alloc();
    let bytes = bytes(alloc, 140_000)?;
    let ran = ran(alloc, CHAIN, &mut input(&bytes, usize::MAX, usize::MAX)).map_err(
        |_| "a run",
    )?;
    for room in [0, 1, 131_071, 131_072, 139_999] {
        let mut output = output(alloc, room);
        let written = write_items(alloc, &ran, Output(3), SINK, ByteOrder::Little, &mut output);
        let fault = written.err().ok_or("a fault")?;
        assert_eq!(rt;
            fault.to_string(alloc)?.as_str(),
            "52 Write output 3",
            "room for {room}"
        );
        assert!(rt;
            output.bytes.as_slice() == &bytes[..room],
            "room for {room}"
        );
        assert_eq!(rt; output.failures, 1);
    }
    Ok(())
}

#[test]
fn tags_are_written_line_by_line(rt: HostRuntime) -> Result<(), Fail> {
    let alloc = rt.alloc();
    let bytes = bytes(alloc, 140_000)?;
    let mut file = String::from_str(alloc, CHAIN)?;
    file.push_str(
        "[[feed]]\nsource = \"src\"\nitems = [1, 2]\ntags = [{ at = 1, key = \"k\", value = -7 }, { at = 0, key = \"k\", value = 5 }]\n",
    )?;
    let mut input = input(&bytes, usize::MAX, usize::MAX);
    let ran = ran(alloc, file.as_str(), &mut input).map_err(|_| "a run")?;
    let lines = "@0:k=5/0\n@1:k=-7/0\n";
    for room in [0, 5, 9, lines.len()] {
        let mut output = output(alloc, room);
        let written = write_tags(alloc, &ran, Tags(0), SINK, &mut output);
        assert_eq!(rt; written.is_ok(), room == lines.len(), "room for {room}");
        assert_eq!(rt;
            output.bytes.as_slice(),
            lines.as_bytes().get(..room).ok_or("lines")?
        );
    }
    Ok(())
}

#[test]
fn ends_are_named_by_blocks(rt: HostRuntime) -> Result<(), Fail> {
    let alloc = rt.alloc();
    let plant = opened(alloc, CHAIN).map_err(|_| "a plant")?;
    let place = Input(4);
    for (name, source, sink) in [
        ("src", "0", "22 NotSink input 4"),
        ("out", "21 NotSource input 4", "1"),
        ("", "20 NoSuchBlock input 4", "20 NoSuchBlock input 4"),
        ("src ", "20 NoSuchBlock input 4", "20 NoSuchBlock input 4"),
    ] {
        for (found, wanted) in [
            (source_named(plant.graph(), place, name.as_bytes()), source),
            (sink_named(plant.graph(), place, name.as_bytes()), sink),
        ] {
            let told = match found {
                Ok(block) => block.0.to_string(alloc)?,
                Err(fault) => fault.to_string(alloc)?,
            };
            assert_eq!(rt; told.as_str(), wanted, "the block {name}");
        }
    }
    Ok(())
}

#[test]
fn inputs_of_a_source_stand_one_behind_the_other(rt: HostRuntime) -> Result<(), Fail> {
    let alloc = rt.alloc();
    let mut plant = opened(alloc, CHAIN).map_err(|_| "a plant")?;
    for number in 0..2 {
        let fed = feed_from(
            alloc,
            &mut plant,
            number,
            SOURCE,
            ByteOrder::Big,
            &mut input(b"\x80\x00\x00\x01", 3, 9),
        );
        assert!(rt; fed.is_ok());
    }
    let (ran, _) = settle_plant(alloc, plant, &mut Unwatched)?;
    assert_eq!(rt; held(alloc, &ran)?.as_slice(), [-32_768, 1, -32_768, 1].as_slice());
    let mut output = output(alloc, 9);
    for (block, text) in [
        (SOURCE, "22 NotSink output 1"),
        (BlockId(2), "20 NoSuchBlock output 1"),
    ] {
        let written = write_items(alloc, &ran, Output(1), block, ByteOrder::Little, &mut output);
        assert_eq!(rt;
            written.err().ok_or("a fault")?.to_string(alloc)?.as_str(),
            text
        );
    }
    assert_eq!(rt; output.bytes.len(), 0);
    Ok(())
}

// A fault has this text and status, and is reported so.
fn is_reported(
    rt: &impl Abort,
    alloc: Global,
    fault: RawFault,
    text: &str,
    status: u8,
) -> Result<(), Fail> {
    assert_eq!(rt; fault.to_string(alloc)?.as_str(), text);
    assert_eq!(rt; fault.status(), status, "{text}");
    for (name, behind) in [("", ""), ("out=so", " in out=so")] {
        let mut errors = output(alloc, usize::MAX);
        report_raw(&fault, name, &mut errors);
        let line = format!(in alloc; "flow: refused {text}{behind}\n")?;
        assert_eq!(rt; errors.bytes.as_slice(), line.as_bytes());
    }
    Ok(())
}

#[test]
fn faults_of_ends_have_texts(rt: HostRuntime) -> Result<(), Fail> {
    let alloc = rt.alloc();
    let file = FileFault::Feed {
        feed: 1,
        fault: PlantFault::TapeFull,
    };
    let (memory, write) = (ScriptFault::Memory, ScriptFault::Write);
    for (fault, text, status) in [
        (Fault::File(file), "26 TapeFull feed 1", 1),
        (Fault::Script(memory), "32 Memory", 4),
        (Fault::Script(write), "52 Write", 4),
    ] {
        is_reported(&rt, alloc, RawFault::Whole(fault), text, status)?;
    }
    for (place, fault, text, status) in [
        (Input(0), EndFault::NoSuchBlock, "20 NoSuchBlock input 0", 1),
        (Input(10), EndFault::NotSource, "21 NotSource input 10", 1),
        (Output(0), EndFault::NotSink, "22 NotSink output 0", 1),
        (Input(1), EndFault::Closed, "23 Closed input 1", 1),
        (Input(1), EndFault::TapeFull, "26 TapeFull input 1", 1),
        (Input(1), EndFault::Read, "51 Read input 1", 4),
        (Tags(2), EndFault::Write, "52 Write tags 2", 4),
        (Input(1), EndFault::CutItem, "53 CutItem input 1", 1),
    ] {
        is_reported(&rt, alloc, RawFault::End(place, fault), text, status)?;
    }
    Ok(())
}
