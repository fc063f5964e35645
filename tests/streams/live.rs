//! Live runs whose streams come in pieces, wait for one another, or fail.
ghost use Rattle.std.specs.Prelude.{None};

use super::fakes::{Pieces, Written, lines_in};
use super::served::{Ends, GOOD, served};
use byte_io::{Broken, ByteIn, ByteOut};
use flow_runs::serve::{Action, Verbosity, serve};
use plant::{Headway, Unwatched, Watch};
use std::alloc::Global;
use std::sync::Arc;
use std::sync::atomic::{AtomicU64, Ordering};
use std::test::Fail;
use std::time::Duration;
use threads::Open;

// A source of bytes, a block that adds ten, and a sink.
const CHAIN: &str = r#"
block = [
    { name = "src", kind = "vector_source", type = "byte" },
    { name = "a", kind = "add_const", type = "byte", value = 10 },
    { name = "out", kind = "vector_sink", type = "byte" },
]
connect = [{ from = "src", to = "a" }, { from = "a", to = "out" }]
feed = [{ source = "src", items = [250], tags = [{ at = 0, key = "k", value = -5 }] }]
"#;

const LINES: [&str; 6] = [
    "set a 1 20\n",
    "feed src 1 @1:k=9\n",
    "read out 99 1\n",
    "read zzz 0 1\n",
    "close src\n",
    "feed src 1\n",
];

const CALLS: &str =
    "set a 1 20\nfeed src 1 @1:k=9\nread out 99 1\nread zzz 0 1\nclose src\nfeed src 1\n";

const REPLIES: &str = "taken 1\nfed 2\nrefused 31\nrefused 20\nclosed 2\nrefused 23\n";

const WHOLE: &str = "taken 1\nfed 2\nrefused 31\nrefused 20\nclosed 2\nrefused 23\n\
sink out 2 4 21 @0:k=-5/0 @1:k=9/0\ndone\n";

// Lines, one at each read, which expect that each line before was answered.
#[derive(Drop)]
struct Asking {
    next: usize,
    answered: Arc<AtomicU64, Global>,
    early: u32,
}

impl ByteIn for Asking {
    ghost remaining = { λ _. None };

    ghost failed = { λ _. 0 };

    fn read(&mut self, buffer: &mut [u8]) -> Result<usize, Broken> {
        if self.answered.load(Ordering::SeqCst) != self.next as u64 {
            self.early = self.early.saturating_add(1);
        }
        let Some(line) = LINES.get(self.next) else {
            return Ok(0);
        };
        let count = line.len().min(buffer.len());
        let (piece, _) = line.as_bytes().split_at(count);
        buffer[..count].copy_from_slice(piece);
        self.next = self.next.saturating_add(1);
        Ok(count)
    }

    fn failures(&self) -> u64 {
        0
    }
}

// Where replies go, counted.
#[derive(Drop)]
struct Answered {
    lines: Arc<AtomicU64, Global>,
    bytes: Vec<u8>,
}

impl ByteOut for Answered {
    ghost contents = { λ _. None };

    ghost failed = { λ _. 0 };

    fn write(&mut self, piece: &[u8]) -> Result<(), Broken> {
        let _ = self.bytes.extend_from_slice(piece);
        for byte in piece {
            if *byte == b'\n' {
                self.lines.fetch_add(1, Ordering::SeqCst);
            }
        }
        Ok(())
    }

    fn failures(&self) -> u64 {
        0
    }
}

#[test]
fn each_line_is_answered_before_the_next_is_read(rt: HostRuntime) -> Result<(), Fail> {
    let alloc = rt.alloc();
    let Ok(lines) = Arc::new(alloc, AtomicU64::new(0)) else {
        panic!(&rt; "no memory");
    };
    let mut input = Asking {
        next: 0,
        answered: Arc::try_clone(&lines)?,
        early: 0,
    };
    let mut output = Answered {
        lines,
        bytes: Vec::new(alloc),
    };
    let mut errors = Written {
        bytes: Vec::new(alloc),
        room: usize::MAX,
        failures: 0,
    };
    let status = serve(
        rt,
        alloc,
        Action::Live,
        Verbosity::WithNotes,
        "",
        CHAIN.as_bytes(),
        &mut input,
        &mut output,
        &mut errors,
        None::<Arc<Open, Global>>,
        &mut Unwatched,
    );
    assert_eq!(rt; (status, input.next, input.early), (0, LINES.len(), 0));
    assert_eq!(rt; output.bytes.as_slice(), WHOLE.as_bytes());
    assert!(rt; errors.bytes.is_empty());
    Ok(())
}

#[test]
fn calls_come_in_pieces(rt: HostRuntime) -> Result<(), Fail> {
    let alloc = rt.alloc();
    for most in [1, 2, 3, 7, 4096] {
        let ends = Ends { most, ..GOOD };
        let left = served(rt, alloc, ends, Action::Live, CHAIN.as_bytes(), CALLS);
        assert!(rt; left.is(WHOLE.as_bytes(), "", 0), "pieces of {most}");
    }
    Ok(())
}

// After a fault no sink is shown, whatever the reply that it stands behind. (The fault has to stop the run: one that
// comes to rest of itself, since its source is open, is told as 62.)
#[test]
fn a_live_run_ends_where_its_streams_fail(rt: HostRuntime) -> Result<(), Fail> {
    let alloc = rt.alloc();
    for output_room in 0..WHOLE.len() {
        let ends = Ends {
            output_room,
            ..GOOD
        };
        let left = served(rt, alloc, ends, Action::Live, CHAIN.as_bytes(), CALLS);
        let (taken, _) = WHOLE.as_bytes().split_at(output_room);
        assert!(rt;
            left.is(taken, "flow: refused 52 Write\n", 4),
            "room for {output_room}"
        );
    }
    for good in 0..=CALLS.len() {
        let ends = Ends {
            most: 7,
            good,
            ..GOOD
        };
        let left = served(rt, alloc, ends, Action::Live, CHAIN.as_bytes(), CALLS);
        let whole = lines_in(CALLS.as_bytes(), good);
        assert_eq!(rt;
            (left.status, left.errors.as_slice()),
            (4, b"flow: refused 51 Read\n".as_slice()),
            "after {good} bytes"
        );
        assert_eq!(rt;
            left.output.as_slice(),
            first_lines(REPLIES.as_bytes(), whole),
            "after {good} bytes"
        );
    }
    Ok(())
}

// So many lines.
fn first_lines(bytes: &[u8], count: usize) -> &[u8] {
    let mut seen = 0;
    for (at, byte) in bytes.iter().enumerate() {
        if seen == count {
            return &bytes[..at];
        }
        if *byte == b'\n' {
            seen += 1;
        }
    }
    bytes
}

// Each of a thousand items is copied 16,777,216 times, which takes minutes. The source has room for one item.
const LONG: &str = r#"
block = [
    { name = "src", kind = "vector_source", type = "int", capacity = 1 },
    { name = "u", kind = "repeat", type = "int", n = 1024 },
    { name = "v", kind = "repeat", type = "int", n = 1024 },
    { name = "w", kind = "repeat", type = "int", n = 16 },
    { name = "out", kind = "null_sink", type = "int" },
]
connect = [
    { from = "src", to = "u" },
    { from = "u", to = "v" },
    { from = "v", to = "w" },
    { from = "w", to = "out" },
]
"#;

const LONG_FEED: u64 = 1_000;

// The file with its items, and a source that is fed a thousand.
fn long_file(alloc: Global) -> Result<String, Fail> {
    let mut file = String::from_str(alloc, LONG)?;
    file.push_str("[[feed]]\nsource = \"src\"\nitems = [")?;
    for _ in 0..LONG_FEED {
        file.push_str("7,")?;
    }
    file.push_str("]\n")?;
    Ok(file)
}

// How many items the sources had given when a run was last looked at.
#[derive(Drop)]
struct Given {
    items: u64,
}

impl Watch for Given {
    fn pause(&self) -> Option<Duration> {
        Some(Duration::from_millis(1))
    }

    fn show(&mut self, headway: Headway) {
        self.items = headway.given;
    }

    fn end(&mut self) {}
}

// What nobody waits for any more is not computed: behind a fault the run is stopped, long before its sources have given
// all.
#[test]
fn a_live_run_is_stopped_behind_a_fault(rt: HostRuntime) -> Result<(), Fail> {
    let alloc = rt.alloc();
    let file = long_file(alloc)?;
    for (lines, room, fault, wanted) in [
        (
            "close src\nclose\n",
            usize::MAX,
            "flow: refused 50 BadLine 2\n",
            1,
        ),
        ("close src\n", 3, "flow: refused 52 Write\n", 4),
    ] {
        let mut input = Pieces {
            left: lines.as_bytes(),
            most: usize::MAX,
            good: usize::MAX,
            failures: 0,
        };
        let mut output = Written {
            bytes: Vec::new(alloc),
            room,
            failures: 0,
        };
        let mut errors = Written {
            bytes: Vec::new(alloc),
            room: usize::MAX,
            failures: 0,
        };
        let mut given = Given { items: 0 };
        let status = serve(
            rt,
            alloc,
            Action::Live,
            Verbosity::WithNotes,
            "",
            file.as_bytes(),
            &mut input,
            &mut output,
            &mut errors,
            None::<Arc<Open, Global>>,
            &mut given,
        );
        assert_eq!(rt;
            (status, errors.bytes.as_slice()),
            (wanted, fault.as_bytes())
        );
        assert!(rt;
            b"closed 1000\n".starts_with(&output.bytes),
            "no sink is shown"
        );
        assert!(rt; given.items < LONG_FEED, "all {} were given", given.items);
    }
    Ok(())
}
