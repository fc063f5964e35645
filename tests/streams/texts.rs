//! The texts of replies, reports and faults.
use flow_core::fault::Fault;
use flow_core::script::ScriptFault;
use flow_core::start_fault::StartFault;
use graph_file::FileFault;
use items::{ItemType, Items, Tag, TagKey};
use plant::PlantFault;
use script_text::{Reply, Report};
use std::io::ErrorKind;
use std::test::Fail;

#[test]
fn replies_have_texts(rt: HostRuntime) -> Result<(), Fail> {
    let alloc = rt.alloc();
    let shorts = Items::from_numbers(alloc, ItemType::Short, &[7, -32768])?;
    let ints = Items::from_numbers(alloc, ItemType::Int, &[-2147483648, 10])?;
    let tags = [tag()?, tag()?];
    for (reply, text) in [
        (Reply::Fed(0), "fed 0\n"),
        (Reply::Closed(4294967296), "closed 4294967296\n"),
        (Reply::Taken(u64::MAX), "taken 18446744073709551615\n"),
        (
            Reply::Claimed {
                first: 7,
                count: u32::MAX,
            },
            "claimed 7 4294967295\n",
        ),
        (Reply::Done, "done\n"),
        (Reply::Busy, "busy\n"),
        (Reply::WaitingItems(15), "waiting items 15\n"),
        (Reply::WaitingRoom(0), "waiting room 0\n"),
        (Reply::Did(1024), "did 1024\n"),
        (Reply::Abandoned, "abandoned\n"),
        (Reply::Refused(20), "refused 20\n"),
        (Reply::Late(5), "refused 27 5\n"),
        (Reply::Quiet(true), "quiet yes\n"),
        (Reply::Quiet(false), "quiet no\n"),
        (
            Reply::WaitsItems {
                port: 15,
                writer: b"a.b",
            },
            "waits items 15 of a.b\n",
        ),
        (
            Reply::WaitsRoom {
                port: 0,
                reader: b"out",
            },
            "waits room 0 for out\n",
        ),
        (Reply::WaitsFeed, "waits feed\n"),
        (Reply::Ready, "ready\n"),
        (Reply::Settled(true), "settled done\n"),
        (Reply::Settled(false), "settled quiet\n"),
    ] {
        assert_eq!(rt; reply.to_line(alloc)?.as_slice(), text.as_bytes(), "{text}");
    }
    let tagged = Reply::Piece {
        held: 2,
        items: &shorts,
        tags: &tags,
    };
    assert_eq!(rt;
        tagged.to_line(alloc)?.as_slice(),
        "read 2 7 -32768 @10:k.1=-9223372036854775808/255 @10:k.1=-9223372036854775808/255\n".as_bytes()
    );
    let plain = Reply::Piece {
        held: 5,
        items: &ints,
        tags: &[],
    };
    assert_eq!(rt;
        plain.to_line(alloc)?.as_slice(),
        "read 5 -2147483648 10\n".as_bytes()
    );
    for (report, text) in [
        (Report::Blocks(256), "blocks 256\n"),
        (Report::Connections(0), "connections 0\n"),
        (Report::Balanced, "rates balanced\n"),
        (Report::Uneven, "rates uneven\n"),
        (Report::TooLarge, "rates too_large\n"),
        (
            Report::Firings {
                name: b"a.b",
                count: 65536,
            },
            "q a.b 65536\n",
        ),
        (Report::Done, "done\n"),
        (Report::Stalled, "stalled\n"),
    ] {
        assert_eq!(rt;
            report.to_line(alloc)?.as_slice(),
            text.as_bytes(),
            "{text}"
        );
    }
    let sink = Report::Sink {
        name: b"out",
        held: 2,
        items: &shorts,
        tags: &tags[..1],
    };
    assert_eq!(rt;
        sink.to_line(alloc)?.as_slice(),
        "sink out 2 7 -32768 @10:k.1=-9223372036854775808/255\n".as_bytes()
    );
    let tape_full = FileFault::Feed {
        feed: 1,
        fault: PlantFault::TapeFull,
    };
    for (fault, text, status) in [
        (Fault::File(FileFault::Syntax), "40 Syntax", 1),
        (Fault::File(FileFault::Memory), "32 Memory", 4),
        (Fault::File(tape_full), "26 TapeFull feed 1", 1),
        (Fault::Script(ScriptFault::BadLine(7)), "50 BadLine 7", 1),
        (Fault::Script(ScriptFault::Read), "51 Read", 4),
        (Fault::Script(ScriptFault::Write), "52 Write", 4),
        (Fault::Script(ScriptFault::Memory), "32 Memory", 4),
    ] {
        assert_eq!(rt; fault.to_string(alloc)?.as_str(), text);
        assert_eq!(rt; fault.status(), status);
    }
    Ok(())
}

#[test]
fn a_start_that_fails_is_told(rt: HostRuntime) -> Result<(), Fail> {
    let no_memory = "flow: refused 32 Memory\n";
    for (fault, text, status) in [
        (
            StartFault::of_words(ErrorKind::InvalidData),
            "error: a word is no UTF-8\n",
            2,
        ),
        (StartFault::of_words(ErrorKind::OutOfMemory), no_memory, 4),
        (StartFault::of_call(true), no_memory, 4),
        (StartFault::of_call(false), "", 2),
        (StartFault::of_file(ErrorKind::OutOfMemory), no_memory, 4),
        (StartFault::of_trace(ErrorKind::OutOfMemory), no_memory, 4),
        (
            StartFault::of_trace(ErrorKind::NotFound),
            "flow: refused 52 Write trace\n",
            4,
        ),
        (
            StartFault::of_file(ErrorKind::NotFound),
            "flow: refused 51 Read\n",
            4,
        ),
        (
            StartFault::of_file(ErrorKind::IsADirectory),
            "flow: refused 51 Read\n",
            4,
        ),
    ] {
        assert_eq!(rt; fault.text(), text);
        assert_eq!(rt; fault.status(), status);
    }
    Ok(())
}

fn tag() -> Result<Tag, Fail> {
    Ok(Tag {
        offset: 10,
        key: TagKey::new(b"k.1").ok_or("k.1")?,
        value: i64::MIN,
        source: 255,
    })
}
