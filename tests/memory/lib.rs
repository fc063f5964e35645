//! Calls of a library, a run in threads, a call of the program, or the reading of its words and its file, of which one
//! allocation fails. The first word says which; the second how many allocations are made before, so that the failure of
//! a fixed one comes to each in turn; the third, where a file is read, names it. It writes whether one of them came to
//! fail; of `steady`, in whose rounds none is made, also whether the one that failed came before them. Where a run in
//! threads was refused, which is told 60 and never 61, a second line has the fault's number.

mod calls;
mod chains;
mod launches;
mod live;
mod piped;
mod raw;
mod served;
mod steady;
mod streams;
mod words_read;
// (the program's own files)
mod call;
mod end_words;
mod ends;
mod kind_words;
mod slice;
mod stretch;
mod talk;
mod words;

use launches::Way;
use piped::Left;
use refusal_codes::Refusal;
use served::Case;
use crate::Host;
use std::alloc::Global;
use std::env;
use std::process::{Abort, ExitCode};

// More allocations than are made in between.
const MANY: u32 = 2000;

// How many words the program has where a file is read, and how long that file is.
const OWN_WORDS: usize = 4;

const FILE_BYTES: usize = 3_000;

// What is done while an allocation may fail.
#[derive(Clone, Copy)]
enum Task {
    Calls,
    Live(live::Way),
    Launches(Way),
    Serve(Case),
    Raw,
    Piped,
    Helped,
    Stall,
    Words,
    Call,
    File,
    Steady,
    NoThreads,
}

/// Does the task that the words of the process ask for, and says in which status it ends; `None` where they ask for
/// none.
pub fn answer<R: Host>(rt: R) -> Option<ExitCode> {
    let (task, before, path) = asked(&rt)?;
    let alloc = rt.alloc();
    let (came, fault) = match task {
        Task::Calls => (calls_task(&rt, alloc, before), None),
        Task::Live(way) => (live_task(rt, alloc, before, way), None),
        Task::Launches(way) => launches_task(rt, alloc, before, way),
        Task::Serve(case) => serve_task(rt, alloc, before, case),
        Task::Raw => raw_task(&rt, alloc, before),
        Task::Piped => (piped_task(rt, alloc, before, piped::answer), None),
        Task::Helped => (piped_task(rt, alloc, before, |alloc| piped::helped(rt, alloc)), None),
        Task::Stall => (stall_task(rt, alloc, before), None),
        Task::Words | Task::Call | Task::File => {
            (words_task(&rt, alloc, before, task, &path), None)
        },
        Task::Steady => (go_on(&rt, alloc, before), None),
        Task::NoThreads => (no_threads_task(rt, alloc), None),
    };
    let _ = println!(rt; "{came}");
    if let Some(number) = fault {
        let _ = println!(rt; "{number}");
    }
    Some(ExitCode::SUCCESS)
}

/// Makes all allocations up to the one that is refused, so that none is refused later.
pub fn use_up(alloc: Global) {
    let _ = waste(alloc, MANY);
}

// Where the failing allocation came: before or behind what was done, or in it.
fn place(is_early: bool, is_late: bool) -> &'static str {
    if is_early || is_late {
        "outside"
    } else {
        "inside"
    }
}

// Whether a fault does not tell of a thread. The allocation that fails is never one that starts a thread, as the C
// library makes those.
fn is_no_thread_refused(fault: Option<u32>) -> bool {
    fault != Some(61)
}

fn calls_task(rt: &impl Abort, alloc: Global, before: u32) -> &'static str {
    let is_early = waste(alloc, before);
    calls::run(rt, alloc);
    place(is_early, waste(alloc, MANY))
}

// (what is made ready in this and the next is opened elsewhere with each allocation failing)
fn live_task(rt: impl Host, alloc: Global, before: u32, way: live::Way) -> &'static str {
    let Some(ready) = live::make_ready(alloc) else {
        panic!(&rt; "nothing is ready");
    };
    let is_early = waste(alloc, before);
    let ended = live::run_live(&rt, alloc, way, ready);
    let is_late = waste(alloc, MANY);
    // (from here on nothing fails)
    assert!(&rt; live::is_right(rt, alloc, ended), "a live run went wrong");
    place(is_early, is_late)
}

fn launches_task(
    rt: impl Host,
    alloc: Global,
    before: u32,
    way: Way,
) -> (&'static str, Option<u32>) {
    let Some(ready) = launches::make_ready(alloc, way) else {
        panic!(&rt; "nothing is ready");
    };
    let is_early = waste(alloc, before);
    let ended = launches::run_ready(rt, alloc, way, ready);
    let is_late = waste(alloc, MANY);
    let fault = ended.fault.map(|fault| fault.number());
    assert!(&rt;
        is_no_thread_refused(fault) && launches::is_right(rt, alloc, way, ended),
        "a run went wrong: {}",
        fault.unwrap_or(0)
    );
    (place(is_early, is_late), fault)
}

fn serve_task(
    rt: impl Host,
    alloc: Global,
    before: u32,
    case: Case,
) -> (&'static str, Option<u32>) {
    let is_early = waste(alloc, before);
    let answer = served::answer(rt, alloc, case);
    let is_late = waste(alloc, MANY);
    let is_right = served::is_right(rt, alloc, case, &answer) == Ok(true);
    let (output, errors) = (answer.output.text(), answer.errors.text());
    let fault = served::run_fault(&answer);
    assert!(&rt;
        is_right && is_no_thread_refused(fault),
        "{} {output}{errors}",
        answer.status
    );
    (place(is_early, is_late), fault)
}

fn raw_task(rt: &impl Abort, alloc: Global, before: u32) -> (&'static str, Option<u32>) {
    let is_early = waste(alloc, before);
    let left = raw::answer(alloc);
    let is_late = waste(alloc, MANY);
    let fault = left.fault;
    assert!(rt;
        raw::is_right(&left),
        "a raw run went wrong: {}",
        fault.unwrap_or(0)
    );
    (place(is_early, is_late), fault)
}

fn piped_task<F: FnOnce(Global) -> Left>(
    rt: impl Host,
    alloc: Global,
    before: u32,
    answer: F,
) -> &'static str {
    let is_early = waste(alloc, before);
    let left = answer(alloc);
    let is_late = waste(alloc, MANY);
    assert!(&rt;
        piped::is_right(&left),
        "a pipeline went wrong: {}",
        left.fault.unwrap_or(0)
    );
    place(is_early, is_late)
}

fn stall_task(rt: impl Host, alloc: Global, before: u32) -> &'static str {
    let is_early = waste(alloc, before);
    let answer = served::stall(rt, alloc);
    let is_late = waste(alloc, MANY);
    let (output, errors) = (answer.output.text(), answer.errors.text());
    assert!(&rt;
        served::is_explained(&answer),
        "{} {output}{errors}",
        answer.status
    );
    place(is_early, is_late)
}

fn words_task(
    rt: &impl Host,
    alloc: Global,
    before: u32,
    task: Task,
    path: &str,
) -> &'static str {
    let Some(call) = words_read::make_words(alloc) else {
        panic!(rt; "no words");
    };
    let is_early = waste(alloc, before);
    let is_right = match task {
        Task::Words => words_read::are_read(rt, alloc, OWN_WORDS),
        Task::Call => words_read::are_understood(alloc, &call),
        _ => words_read::is_read(rt, path, FILE_BYTES),
    };
    let is_late = waste(alloc, MANY);
    assert!(rt; is_right, "words or a file went wrong");
    place(is_early, is_late)
}

// No thread can be started, and nothing is refused memory: each run is told 61.
fn no_threads_task(rt: impl Host, alloc: Global) -> &'static str {
    for way in [Way::Launch, Way::Run, Way::Start, Way::Pool] {
        let Some(ready) = launches::make_ready(alloc, way) else {
            panic!(&rt; "nothing is ready");
        };
        let ended = launches::run_ready(rt, alloc, way, ready);
        assert!(&rt; launches::is_refused(alloc, ended), "a run is not told 61");
    }
    for case in [served::PER_BLOCK, served::LIVE] {
        let answer = served::answer(rt, alloc, case);
        let is_right = served::is_right(rt, alloc, case, &answer) == Ok(true);
        assert!(&rt;
            is_right && served::run_fault(&answer) == Some(61),
            "{}",
            answer.errors.text()
        );
    }
    let Some(ready) = launches::make_ready(alloc, Way::Adaptive) else {
        panic!(&rt; "nothing is ready");
    };
    let ended = launches::run_ready(rt, alloc, Way::Adaptive, ready);
    assert!(&rt;
        ended.fault.is_none() && launches::is_right(rt, alloc, Way::Adaptive, ended),
        "the caller's thread is enough"
    );
    for case in [served::RUN, served::CHAIN, served::ALONE] {
        let answer = served::answer(rt, alloc, case);
        let is_right = served::is_right(rt, alloc, case, &answer) == Ok(true);
        assert!(&rt; is_right && answer.status == 0, "one thread is enough");
    }
    "refused"
}

// Where the failing allocation came in a run with steady rounds: before them, in them, or behind them.
fn go_on(rt: &impl Abort, alloc: Global, before: u32) -> &'static str {
    let ready = steady::make_ready(alloc);
    let is_early = waste(alloc, before);
    let Some(mut plant) = ready else {
        return "early";
    };
    match steady::go_on(alloc, &mut plant) {
        Ok(done) => assert!(rt; done == steady::FIRINGS, "{done} firings"),
        Err(_) => return "inside",
    }
    let is_late = waste(alloc, MANY);
    match (is_early, is_late) {
        (true, _) => "early",
        (false, true) => "outside",
        (false, false) => "inside",
    }
}

fn asked(rt: &impl Host) -> Option<(Task, u32, String)> {
    let Ok(mut words) = env::args(rt) else {
        return None;
    };
    let name = words.nth(1)?;
    let before = words.next()?;
    let path = match words.next() {
        Some(path) => path,
        None => String::new(rt.alloc()),
    };
    Some((task_of(name.as_str())?, before.parse().ok()?, path))
}

fn task_of(name: &str) -> Option<Task> {
    Some(match name {
        "calls" => Task::Calls,
        "live" => Task::Live(live::Way::EachBlock),
        "live_adaptive" => Task::Live(live::Way::Adaptive),
        "launch" => Task::Launches(Way::Launch),
        "whole_run" => Task::Launches(Way::Run),
        "start" => Task::Launches(Way::Start),
        "launch_nothing" => Task::Launches(Way::LaunchNothing),
        "adaptive" => Task::Launches(Way::Adaptive),
        "pool" => Task::Launches(Way::Pool),
        "check" => Task::Serve(served::CHECK),
        "feeds" => Task::Serve(served::FEEDS),
        "draw" => Task::Serve(served::DRAW),
        "run" => Task::Serve(served::RUN),
        "per_block" => Task::Serve(served::PER_BLOCK),
        "alone" => Task::Serve(served::ALONE),
        "chain" => Task::Serve(served::CHAIN),
        "script" => Task::Serve(served::SCRIPT),
        "lines" => Task::Serve(served::LIVE),
        "tags" => Task::Serve(served::TAGS),
        "settings" => Task::Serve(served::SETTINGS),
        "fork" => Task::Serve(served::FORK),
        "raw" => Task::Raw,
        "piped" => Task::Piped,
        "helped" => Task::Helped,
        "stall" => Task::Stall,
        "words" => Task::Words,
        "call" => Task::Call,
        "file" => Task::File,
        "steady" => Task::Steady,
        "no_threads" => Task::NoThreads,
        _ => return None,
    })
}

// Makes so many allocations, and tells whether one was refused.
fn waste(alloc: Global, count: u32) -> bool {
    let mut is_refused = false;
    for _ in 0..count {
        let wasted = Vec::<u8>::with_capacity(alloc, 1);
        is_refused = is_refused || wasted.is_err();
    }
    is_refused
}
