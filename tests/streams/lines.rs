//! What lines say, and how lines come in pieces.
use items::{Mark, TagKey};
use script_text::{Command, FirstLine, Line, LineSplitter, parse_line};
use std::alloc::{AllocError, Global};
use std::test::Fail;

// Lines that say nothing that a line may say.
const BAD: [&str; 34] = [
    "feed",
    "feed src +1",
    "feed src -",
    "feed src 1x",
    "feed src -9223372036854775809",
    "feed src 1 @0:=1",
    "feed src 1 @0:k=",
    "feed src 1 @0:k",
    "feed src 1 @-1:k=1",
    "feed src 1 @0:k=1/0",
    "feed src 1 @0:abcdefghijklmnopq=1",
    "close",
    "close a b",
    "close a/b",
    "Close src",
    "close\tsrc",
    "set a now",
    "set a 1",
    "set a then 1",
    "set a 18446744073709551616 1",
    "step a 0",
    "step a 4294967296",
    "step a",
    "claim a 0",
    "commit a 1",
    "abandon",
    "read out -1 2",
    "read out 0",
    "quiet now",
    "settle src",
    "settle 1",
    "why",
    "why a b",
    "why a/b",
];

#[test]
fn lines_say_commands(rt: HostRuntime) -> Result<(), Fail> {
    for line in BAD {
        let is_bad = matches!(parse_line(rt.alloc(), line.as_bytes())?, Line::Bad);
        assert!(rt; is_bad, "{line}");
    }
    for line in ["", "   ", "#", "# close src"] {
        let is_mute = matches!(parse_line(rt.alloc(), line.as_bytes())?, Line::Nothing);
        assert!(rt; is_mute, "{line}");
    }
    let line = parse_line(rt.alloc(), b" why  a.b-1_ ")?;
    let Line::Command(Command::Why { name }) = line else {
        return Err(Fail::from("a question"));
    };
    assert_eq!(rt; name.bytes(), b"a.b-1_".as_slice());
    let line = parse_line(rt.alloc(), b"set a.b-1_ now 1 -2")?;
    let Line::Command(Command::Set { name, at, numbers }) = line else {
        return Err(Fail::from("a setting"));
    };
    assert_eq!(rt; name.bytes(), b"a.b-1_".as_slice());
    assert_eq!(rt; (at, numbers.as_slice()), (None, [1, -2].as_slice()));
    let line = parse_line(
        rt.alloc(),
        b"  feed src -0 007  -9223372036854775808 @3:k=-1 @18446744073709551615:a.b=2 ",
    )?;
    let Line::Command(Command::Feed { name, items, marks }) = line else {
        return Err(Fail::from("a feed"));
    };
    assert_eq!(rt; name.bytes(), b"src".as_slice());
    assert_eq!(rt; items.as_slice(), [0, 7, i64::MIN].as_slice());
    let first = Mark {
        offset: 3,
        key: TagKey::new(b"k").ok_or("k")?,
        value: -1,
    };
    let second = Mark {
        offset: u64::MAX,
        key: TagKey::new(b"a.b").ok_or("a.b")?,
        value: 2,
    };
    assert_eq!(rt; marks.as_slice(), [first, second].as_slice());
    Ok(())
}

// How the first line is taken of so many spaces and some bytes behind them.
fn taken(alloc: Global, spaces: usize, bytes: &[u8]) -> Result<FirstLine, AllocError> {
    let spaces = vec![in alloc; b' '; spaces]?;
    let mut lines = LineSplitter::new(alloc)?;
    lines.push(spaces.as_slice());
    lines.push(bytes);
    Ok(lines.take_line())
}

#[test]
fn lines_come_in_pieces(rt: HostRuntime) -> Result<(), Fail> {
    let mut lines = LineSplitter::new(rt.alloc())?;
    lines.push(b"quiet\nclo");
    assert_eq!(rt; lines.take_line(), FirstLine::Whole);
    assert_eq!(rt; lines.line(), b"quiet".as_slice());
    assert_eq!(rt; lines.take_line(), FirstLine::Unfinished);
    lines.push(b"se a\r");
    assert_eq!(rt; lines.take_line(), FirstLine::Unfinished);
    lines.push(b"\n\n  x\r");
    assert_eq!(rt; lines.take_line(), FirstLine::Whole);
    assert_eq!(rt; lines.line(), b"close a".as_slice());
    assert_eq!(rt; lines.take_line(), FirstLine::Whole);
    assert_eq!(rt; lines.line(), b"".as_slice());
    assert_eq!(rt; lines.take_line(), FirstLine::Unfinished);
    assert_eq!(rt; lines.taken(), 3);
    assert_eq!(rt;
        lines.last_line().ok_or("a last line")?,
        b"  x\r".as_slice()
    );

    for (spaces, bytes, wanted) in [
        (65536, "", FirstLine::Unfinished),
        (65536, "\r", FirstLine::Unfinished),
        (65536, "\r\n", FirstLine::Whole),
        (65537, "", FirstLine::TooLong),
        (65537, "\n", FirstLine::Whole),
    ] {
        assert_eq!(rt;
            taken(rt.alloc(), spaces, bytes.as_bytes())?,
            wanted,
            "{spaces} spaces"
        );
    }
    Ok(())
}

#[test]
fn taken_lines_leave_room(rt: HostRuntime) -> Result<(), Fail> {
    let mut lines = LineSplitter::new(rt.alloc())?;
    for _ in 0..200 {
        lines.push([b'\n'; 4096].as_slice());
        while lines.take_line() == FirstLine::Whole {}
    }
    assert_eq!(rt; lines.taken(), 819200);
    Ok(())
}
