//! What is written to standard error.
use super::served::{Ends, GOOD, served};
use flow_runs::threading::Threading;
use flow_runs::serve::Action;
use std::alloc::Global;
use std::sync::Wait;
use std::test::Fail;
use std::thread::Threads;
use std::time::Clock;

// A source and a sink of bytes, with what follows.
const CHAIN: &str = "[[block]]\nname = \"src\"\nkind = \"vector_source\"\ntype = \"byte\"\n\
[[block]]\nname = \"out\"\nkind = \"vector_sink\"\ntype = \"byte\"\n\
[[connect]]\nfrom = \"src\"\nto = \"out\"\n";

const FILES: [(&str, &str); 14] = [
    ("x =", "40 Syntax"),
    ("[[block]]\nx = 1\n[x]", "41 UnknownKey top"),
    ("[[connect]]", "42 MissingKey connect 1 from"),
    ("[[feed]]\nsource = 7", "43 WrongType feed 0 source"),
    (
        "[[block]]\nname = \"a\"\nkind = \"\"",
        "44 UnknownKind block 2",
    ),
    (
        "[[block]]\nname = \"out\"\nkind = \"null_sink\"\ntype = \"int\"",
        "1 DuplicateName out",
    ),
    (
        "[[connect]]\nfrom = \"src\"\nto = \"a\"",
        "2 UnknownBlock connect 1",
    ),
    (
        "[[connect]]\nfrom = \"src\"\nto = \"out\"\nto_port = 1",
        "3 PortRange out in 1",
    ),
    (
        "[[connect]]\nfrom = \"src\"\nto = \"out\"",
        "4 InputTaken out 0",
    ),
    (
        "[[block]]\nname = \"a\"\nkind = \"null_sink\"\ntype = \"int\"",
        "8 TooFewPorts a",
    ),
    (
        "[[feed]]\nsource = \"in\"\nitems = [1]",
        "20 NoSuchBlock feed 0",
    ),
    (
        "[[feed]]\nsource = \"src\"\n[[feed]]\nsource = \"out\"",
        "21 NotSource feed 1",
    ),
    (
        "[[feed]]\nsource = \"src\"\nitems = [-1]",
        "24 ItemRange feed 0",
    ),
    (
        "[[feed]]\nsource = \"src\"\ntags = [{ at = 0, key = \"k\", value = 1 }]",
        "25 TagPlace feed 0",
    ),
];

// Whether a command writes nothing but this refusal, in place of any output, and ends in this status.
fn is_refused<R: Threads + Wait + Clock + Copy + Send + Sync + 'static>(
    rt: R,
    alloc: Global,
    command: Action,
    file: &[u8],
    refusal: &str,
    status: u8,
) -> bool {
    let left = served(rt, alloc, GOOD, command, file, "");
    match format!(in alloc; "flow: refused {refusal} in g.toml\n") {
        Ok(line) => left.is(b"", line.as_str(), status),
        Err(_) => false,
    }
}

#[test]
fn refusals_are_told(rt: HostRuntime) -> Result<(), Fail> {
    let alloc = rt.alloc();
    for (more, refusal) in FILES {
        let file = format!(in alloc; "{CHAIN}{more}\n")?;
        for command in [
            Action::CheckFeeds,
            Action::Run(Threading::Adaptive),
            Action::Run(Threading::PerBlock),
            Action::RunAlone,
            Action::Script,
        ] {
            assert!(rt;
                is_refused(rt, alloc, command, file.as_bytes(), refusal, 1),
                "{refusal}"
            );
        }
        let is_feed = refusal.starts_with('2') && !refusal.starts_with("2 ");
        assert!(rt;
            is_feed || is_refused(rt, alloc, Action::Check, file.as_bytes(), refusal, 1),
            "{refusal} in a check"
        );
    }
    assert!(rt;
        is_refused(rt, alloc, Action::Check, b"\xff", "40 Syntax", 1),
        "no text"
    );
    // What was answered before stays, and a report that cannot be written changes nothing else.
    let file = CHAIN.as_bytes();
    for (errors_room, errors) in [
        (usize::MAX, "flow: refused 50 BadLine 3\n"),
        (5, "flow:"),
        (0, ""),
    ] {
        let ends = Ends {
            errors_room,
            ..GOOD
        };
        let left = served(
            rt,
            alloc,
            ends,
            Action::Script,
            file,
            "close src\n\nclose\nquiet\n",
        );
        assert!(rt; left.is(b"closed 0\n", errors, 1), "room for {errors_room}");
    }
    Ok(())
}
