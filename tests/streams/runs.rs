//! Calls whose streams come in pieces, or fail.
use super::fakes::lines_in;
use super::served::{Ends, GOOD, served, served_with};
use flow_runs::threading::Threading;
use flow_runs::serve::{Action, Verbosity};
use std::test::Fail;

// Two ways from one source of bytes.
const TWO_WAYS: &str = r#"
block = [
    { name = "src", kind = "vector_source", type = "byte" },
    { name = "a", kind = "add_const", type = "byte", value = 10 },
    { name = "c", kind = "not", type = "byte" },
    { name = "of_a", kind = "vector_sink", type = "byte" },
    { name = "of_c", kind = "vector_sink", type = "byte" },
]
connect = [
    { from = "src", to = "a" },
    { from = "src", to = "c" },
    { from = "a", to = "of_a" },
    { from = "c", to = "of_c" },
]
feed = [{ source = "src", items = [250], tags = [{ at = 0, key = "k", value = -5 }] }]
"#;

const SCRIPT: &str =
    "feed src 1 @1:k=9\nstep src 8\nclaim a 1\nset a 1 20\ncommit a\nstep a 8\nstep a 1\n\
abandon c\nstep zzz 1\nstep of_a 8\nread of_a 0 8\nquiet\n";

const REPLIES: &str = "fed 2\ndid 2\nclaimed 0 1\ntaken 1\ndid 1\ndid 1\nwaiting items 0\n\
refused 30\nrefused 20\ndid 2\nread 2 4 21 @0:k=-5/0 @1:k=9/0\nquiet no\n";

const RUN: &str = "sink of_a 1 4 @0:k=-5/0\nsink of_c 1 5 @0:k=-5/0\ndone\n";

const CHECK: &str =
    "blocks 5\nconnections 4\nrates balanced\nq src 1\nq a 1\nq c 1\nq of_a 1\nq of_c 1\n";

#[test]
fn streams_come_in_pieces_and_fail(rt: HostRuntime) -> Result<(), Fail> {
    let alloc = rt.alloc();
    let file = TWO_WAYS.as_bytes();
    for (command, output) in [
        (Action::Check, CHECK),
        (Action::CheckFeeds, CHECK),
        (Action::Run(Threading::Adaptive), RUN),
        (Action::Run(Threading::PerBlock), RUN),
        (Action::RunAlone, RUN),
        (Action::Script, REPLIES),
    ] {
        for most in [1, 2, 3, 7, 4096] {
            let ends = Ends { most, ..GOOD };
            let left = served(rt, alloc, ends, command, file, SCRIPT);
            assert!(rt; left.is(output.as_bytes(), "", 0), "pieces of {most}");
        }
        // What there is room for is what was written.
        for output_room in 0..output.len() {
            let ends = Ends {
                output_room,
                ..GOOD
            };
            let left = served(rt, alloc, ends, command, file, SCRIPT);
            assert_eq!(rt; left.output.len(), output_room);
            assert!(rt;
                output.as_bytes().starts_with(&left.output),
                "room for {output_room}"
            );
            assert_eq!(rt;
                left.errors.as_slice(),
                b"flow: refused 52 Write\n".as_slice()
            );
            assert_eq!(rt; left.status, 4);
        }
    }
    // Only the lines that came whole have replies.
    for good in 0..=SCRIPT.len() {
        let ends = Ends {
            most: 7,
            good,
            ..GOOD
        };
        let left = served(rt, alloc, ends, Action::Script, file, SCRIPT);
        assert!(rt;
            REPLIES.as_bytes().starts_with(&left.output),
            "after {good} bytes"
        );
        assert_eq!(rt;
            lines_in(&left.output, usize::MAX),
            lines_in(SCRIPT.as_bytes(), good),
            "the replies after {good} bytes"
        );
        assert!(rt;
            left.output.is_empty() || left.output.ends_with(b"\n"),
            "whole replies"
        );
        assert_eq!(rt;
            left.errors.as_slice(),
            b"flow: refused 51 Read\n".as_slice()
        );
        assert_eq!(rt; left.status, 4);
    }
    Ok(())
}

// A join of two ways, of which one has half as many items as the other.
const UNEVEN: &str = r#"
block = [
    { name = "src", kind = "vector_source", type = "byte", capacity = 4 },
    { name = "sum", kind = "add", type = "byte" },
    { name = "half", kind = "keep_one_in_n", type = "byte", n = 2 },
    { name = "out", kind = "vector_sink", type = "byte" },
]
connect = [
    { from = "src", to = "sum" },
    { from = "src", to = "half" },
    { from = "half", to = "sum", to_port = 1 },
    { from = "sum", to = "out" },
]
feed = [{ source = "src", items = [1, 2, 3, 4, 5, 6, 7, 8, 9, 10] }]
"#;

const STALLED: &str = "sink out 3 3 6 9\nstalled\n";

const RING: &str = "flow: stalled: src waits for room on output 0, which sum has not read\n\
flow: stalled: sum waits for items of half on input 1\n\
flow: stalled: half waits for items of src on input 0\n\
flow: stalled: a greater capacity of src may open this ring\n\
flow: stalled: the rates are uneven: on longer streams any capacity may fill\n";

// Whether that can be written is nothing to the run.
#[test]
fn a_stall_is_explained(rt: HostRuntime) -> Result<(), Fail> {
    let alloc = rt.alloc();
    let file = UNEVEN.as_bytes();
    for command in [
        Action::Run(Threading::Adaptive),
        Action::Run(Threading::PerBlock),
        Action::RunAlone,
        Action::Live,
    ] {
        let left = served_with(rt, alloc, GOOD, command, Verbosity::Quiet, file, "");
        assert!(rt; left.is(STALLED.as_bytes(), "", 3), "nothing is told");
        for errors_room in [0, 1, 14, 50, 100, 200, RING.len() - 1, RING.len()] {
            let ends = Ends {
                errors_room,
                ..GOOD
            };
            let left = served(rt, alloc, ends, command, file, "");
            let (told, _) = RING.split_at(errors_room);
            assert!(rt;
                left.is(STALLED.as_bytes(), told, 3),
                "room for {errors_room}"
            );
        }
    }
    // A report that could not be written is a fault, and no stall.
    let ends = Ends {
        output_room: 3,
        ..GOOD
    };
    let left = served(rt, alloc, ends, Action::RunAlone, file, "");
    assert!(rt; left.is(b"sin", "flow: refused 52 Write\n", 4), "no report");
    Ok(())
}

#[test]
fn open_sources_are_told(rt: HostRuntime) -> Result<(), Fail> {
    let alloc = rt.alloc();
    let told = "flow: stalled: src is open: it waits to be fed\n";
    for (notes, errors) in [(Verbosity::WithNotes, told), (Verbosity::Quiet, "")] {
        let left = served_with(
            rt,
            alloc,
            GOOD,
            Action::Live,
            notes,
            TWO_WAYS.as_bytes(),
            "",
        );
        let output = "sink of_a 1 4 @0:k=-5/0\nsink of_c 1 5 @0:k=-5/0\nstalled\n";
        assert!(rt; left.is(output.as_bytes(), errors, 3), "{errors}");
    }
    Ok(())
}
