//! What the program answers for a graph file where an allocation fails.
use super::chains;
use super::streams::{Page, Text};
use drawings::Format;
use flow_runs::threading::Threading;
use flow_runs::serve::{Action, Verbosity, serve};
use plant::Unwatched;
use std::alloc::{AllocError, Global};
use std::sync::{Arc, Wait};
use std::thread::Threads;
use std::time::Clock;
use threads::Open;

// A source goes to a filter, which has a setting, and on to a sink.
const FILTER: &str = r#"
connect = [{ from = "s", to = "f" }, { from = "f", to = "o" }]
feed = [{ source = "s", items = [1, 2], tags = [{ at = 1, key = "k", value = 5 }] }]
[[block]]
name = "s"
kind = "vector_source"
type = "short"
[[block]]
name = "f"
kind = "fir"
type = "short"
taps = [1, 2]
capacity = 8
[[block]]
name = "o"
kind = "vector_sink"
type = "short"
"#;

// Two sources are added.
const JOIN: &str = r#"
block = [
    { name = "a", kind = "vector_source", type = "byte" },
    { name = "b", kind = "vector_source", type = "byte" },
    { name = "j", kind = "add", type = "byte", tags = "none" },
    { name = "o", kind = "vector_sink", type = "byte" },
]
[[connect]]
from = "a"
to = "j"
[[connect]]
from = "b"
to = "j"
to_port = 1
[[connect]]
from = "j"
to = "o"
[[feed]]
source = "a"
items = [250, 1]
[[feed]]
source = "b"
items = [1, 2]
"#;

// A join of two ways, of which one has half as many items as the other.
const UNEVEN: &str = r#"
block = [
    { name = "s", kind = "vector_source", type = "byte", capacity = 4 },
    { name = "j", kind = "add", type = "byte" },
    { name = "k", kind = "keep_one_in_n", type = "byte", n = 2 },
    { name = "o", kind = "vector_sink", type = "byte" },
]
connect = [
    { from = "s", to = "j" },
    { from = "s", to = "k" },
    { from = "k", to = "j", to_port = 1 },
    { from = "j", to = "o" },
]
feed = [{ source = "s", items = [1, 2, 3, 4, 5, 6, 7, 8, 9, 10] }]
"#;

const STALLED: &str = "sink o 3 3 6 9\nstalled\n";

const RING: &str = "flow: stalled: s waits for room on output 0, which j has not read\n\
flow: stalled: j waits for items of k on input 1\n\
flow: stalled: k waits for items of s on input 0\n\
flow: stalled: a greater capacity of s may open this ring\n";

const RATES: &str =
    "flow: stalled: the rates are uneven: on longer streams any capacity may fill\n";

const CHECKED: &str = "blocks 3\nconnections 2\nrates balanced\nq s 1\nq f 1\nq o 1\n";

const RAN: &str = "sink o 2 251 3\ndone\n";

// A script on the filter.
const LINES: &str =
    "feed s 3 @2:k=-7\nstep s 8\nclaim f 2\nset f now 2 0\ncommit f\nclaim f 8\nabandon f\nwhy o\nstep f 8\nstep o 8\nread o 1 9\nquiet\nclose s\nsettle\n";

const REPLIES: &str =
    "fed 3\ndid 3\nclaimed 0 2\ntaken 2\ndid 2\nclaimed 2 1\nabandoned\nready\ndid 1\ndid 3\nread 3 4 6 @1:k=5/0 @2:k=-7/0\nquiet yes\nclosed 3\nsettled done\n";

const DRAWN: &str = r##"digraph {
  rankdir=LR;
  node [shape=record];
  "s" [label="{s\nvector_source\nq 1|{<o0> 0}}"];
  "f" [label="{{<i0> 0}|f\nfir\n2 taps\nq 1|{<o0> 0}}"];
  "o" [label="{{<i0> 0}|o\nvector_sink\nq 1}"];
  "s":o0:e -> "f":i0:w [label="short 4096", color="#C8A000"];
  "f":o0:e -> "o":i0:w [label="short 8", color="#C8A000"];
}
"##;

const MEMORY: &str = "flow: refused 32 Memory\n";
// Where a run in threads lacks it: for a claim or before the first, and for a thread.
const NO_RUN: &str = "flow: refused 60 Memory\n";

const NO_THREAD: &str = "flow: refused 61 Thread\n";

/// What was written, and the status.
#[derive(Drop)]
pub struct Written {
    pub output: Page,
    pub errors: Page,
    pub status: u8,
}

/// A command, its graph file, its lines, and what it writes where no allocation fails.
#[derive(Clone, Copy)]
pub struct Case {
    pub command: Action,
    file: &'static str,
    lines: &'static str,
    whole: &'static str,
}

pub const CHECK: Case = Case {
    command: Action::Check,
    file: FILTER,
    lines: "",
    whole: CHECKED,
};

pub const FEEDS: Case = Case {
    command: Action::CheckFeeds,
    ..CHECK
};

pub const DRAW: Case = Case {
    command: Action::Draw(Format::Dot),
    whole: DRAWN,
    ..CHECK
};

pub const RUN: Case = Case {
    command: Action::Run(Threading::Adaptive),
    file: JOIN,
    lines: "",
    whole: RAN,
};

pub const PER_BLOCK: Case = Case {
    command: Action::Run(Threading::PerBlock),
    ..RUN
};

pub const ALONE: Case = Case {
    command: Action::RunAlone,
    ..RUN
};

/// A chain of three, as short as files are.
pub const CHAIN: Case = Case {
    file: chains::CHAIN,
    whole: chains::RAN,
    ..RUN
};

pub const SCRIPT: Case = Case {
    command: Action::Script,
    file: FILTER,
    lines: LINES,
    whole: REPLIES,
};

/// Lines of a run that goes on in threads.
pub const LIVE: Case = Case {
    command: Action::Live,
    file: chains::CHAIN,
    lines: chains::LIVE_LINES,
    whole: chains::LIVE_REPLIES,
};

/// Tags of two sources, which come by a sum and thinned out to a sink.
pub const TAGS: Case = Case {
    file: chains::TAGGED,
    lines: chains::TAGGED_LINES,
    whole: chains::TAGGED_REPLIES,
    ..SCRIPT
};

/// Settings on both sides of a claim.
pub const SETTINGS: Case = Case {
    file: chains::CHAIN,
    lines: chains::SETTING_LINES,
    whole: chains::SETTING_REPLIES,
    ..SCRIPT
};

/// Claims of two readers of one source.
pub const FORK: Case = Case {
    file: chains::FORK,
    lines: chains::FORK_LINES,
    whole: chains::FORK_REPLIES,
    ..SCRIPT
};

/// What a case leaves.
pub fn answer<R: Threads + Wait + Clock + Copy + Send + Sync + 'static>(
    rt: R,
    alloc: Global,
    case: Case,
) -> Written {
    answer_of(rt, alloc, case.command, case.file, case.lines)
}

/// A run that stalls.
pub fn stall<R: Threads + Wait + Clock + Copy + Send + Sync + 'static>(rt: R, alloc: Global) -> Written {
    answer_of(rt, alloc, Action::RunAlone, UNEVEN, "")
}

// Does a command with a file.
fn answer_of<R: Threads + Wait + Clock + Copy + Send + Sync + 'static>(
    rt: R,
    alloc: Global,
    command: Action,
    file: &str,
    lines: &str,
) -> Written {
    let mut input = Text::new(lines);
    let mut output = Page::new();
    let mut errors = Page::new();
    let status = serve(
        rt,
        alloc,
        command,
        Verbosity::WithNotes,
        "",
        file.as_bytes(),
        &mut input,
        &mut output,
        &mut errors,
        None::<Arc<Open, Global>>,
        &mut Unwatched,
    );
    Written {
        output,
        errors,
        status,
    }
}

/// Whether the answer is whole; or reports the refusal behind a beginning of it, which of a report is nothing or all,
/// and of a live run has no report; or is that of the lines without the one that it refuses.
pub fn is_right<R: Threads + Wait + Clock + Copy + Send + Sync + 'static>(
    rt: R,
    alloc: Global,
    case: Case,
    answer: &Written,
) -> Result<bool, AllocError> {
    let (output, errors) = (answer.output.text(), answer.errors.text());
    if answer.status == 4 {
        return Ok(is_told(case.command, errors) && is_beginning(case, output));
    }
    if answer.status != 0 || !errors.is_empty() {
        return Ok(false);
    }
    match output.lines().position(|reply| reply == "refused 32") {
        None => Ok(output == case.whole),
        Some(number) => is_like_the_others(rt, alloc, case, output, number),
    }
}

fn is_told(command: Action, errors: &str) -> bool {
    let starts_threads = matches!(command, Action::Run(Threading::PerBlock) | Action::Live);
    let is_run = matches!(command, Action::Run(_) | Action::Live);
    errors == MEMORY || is_run && errors == NO_RUN || starts_threads && errors == NO_THREAD
}

fn is_beginning(case: Case, output: &str) -> bool {
    if !case.whole.starts_with(output) {
        return false;
    }
    match case.command {
        Action::Script => true,
        // (it is over before its report)
        Action::Live => !output.contains("sink"),
        _ => output.is_empty() || output == case.whole,
    }
}

/// The number of the fault by which a run in threads ended.
pub fn run_fault(answer: &Written) -> Option<u32> {
    match answer.errors.text() {
        NO_RUN => Some(60),
        NO_THREAD => Some(61),
        _ => None,
    }
}

/// Whether a stall is explained; where memory runs out for that, only nothing of the rates. Or the run is refused,
/// before anything is written.
pub fn is_explained(answer: &Written) -> bool {
    let (output, errors) = (answer.output.text(), answer.errors.text());
    if answer.status == 4 {
        return output.is_empty() && errors == MEMORY;
    }
    let is_told = match errors.strip_prefix(RING) {
        Some(rates) => rates.is_empty() || rates == RATES,
        None => false,
    };
    answer.status == 3 && output == STALLED && is_told
}

// The lines of a text without the one of this number.
fn without(alloc: Global, text: &str, number: usize) -> Result<String, AllocError> {
    let mut others = String::new(alloc);
    for (at, line) in text.lines().enumerate() {
        if at != number {
            others.push_str(line)?;
            others.push('\n')?;
        }
    }
    Ok(others)
}

// A line that was refused memory has left nothing: the other replies are those of the lines without it.
fn is_like_the_others<R: Threads + Wait + Clock + Copy + Send + Sync + 'static>(
    rt: R,
    alloc: Global,
    case: Case,
    replies: &str,
    number: usize,
) -> Result<bool, AllocError> {
    let lines = without(alloc, case.lines, number)?;
    let wanted = answer_of(rt, alloc, case.command, case.file, &lines);
    let others = without(alloc, replies, number)?;
    Ok(wanted.status == 0 && wanted.output.text() == others.as_str())
}
