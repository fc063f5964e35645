//! What a whole run shows, and what the words say of it.
use super::terminal::Terminal;
use super::words::{Asked, asked_by};
use byte_io::{ReadEnd, WriteEnd};
use clap::error::ErrorKind;
use flow_runs::threading::Threading;
use flow_runs::serve::{Action, Verbosity, serve};
use std::alloc::Global;
use std::cell::Cell;
use std::io;
use std::sync::{Arc, Wait};
use std::test::Fail;
use std::thread::Threads;
use std::time::{Clock, Duration};
use threads::Open;

const GRAPH: &str = r#"
block = [
    { name = "two", kind = "vector_source", type = "byte" },
    { name = "more", kind = "repeat", type = "byte", n = 1000 },
    { name = "none", kind = "null_sink", type = "byte" },
]
connect = [{ from = "two", to = "more" }, { from = "more", to = "none" }]
feed = [{ source = "two", items = [7, 8] }]
"#;

// A clock that goes on by so many milliseconds each time that it is read.
#[derive(Drop)]
struct Ticking {
    milliseconds: Cell<u64>,
    step: u64,
}

impl Clock for Ticking {
    fn monotonic(&self) -> io::Result<Duration> {
        let now = self.milliseconds.get();
        self.milliseconds.set(now + self.step);
        Ok(Duration::from_millis(now))
    }

    fn since_1970(&self) -> io::Result<Duration> {
        self.monotonic()
    }
}

// What a run shows where a clock goes on by so many milliseconds each time, and what it ends in.
fn shown<R: Threads + Wait + Clock + Copy + Send + Sync + 'static>(
    rt: R,
    alloc: Global,
    step: u64,
    may_show: bool,
) -> (Vec<u8>, u8) {
    let clock = Ticking {
        milliseconds: Cell::new(0),
        step,
    };
    let mut screen = Vec::new(alloc);
    let mut output = WriteEnd::new(Vec::new(alloc));
    let mut errors = WriteEnd::new(Vec::new(alloc));
    let status = {
        let mut terminal = Terminal::new(&clock, &mut screen, may_show);
        serve(
            rt,
            alloc,
            Action::RunAlone,
            Verbosity::WithNotes,
            "",
            GRAPH.as_bytes(),
            &mut ReadEnd::new(b"".as_slice()),
            &mut output,
            &mut errors,
            None::<Arc<Open, Global>>,
            &mut terminal,
        )
    };
    (screen, status)
}

#[test]
fn a_run_shows_how_far_it_is(rt: HostRuntime) -> Result<(), Fail> {
    let (screen, status) = shown(rt, rt.alloc(), 300, true);
    assert_eq!(rt; status, 0);
    assert!(rt; screen.starts_with(b"\rflow: "), "a line comes first");
    assert!(rt;
        screen.ends_with(b" of 2 items\r\x1b[K"),
        "the last line is cleared"
    );
    for (step, may_show) in [(300, false), (0, true)] {
        let (screen, status) = shown(rt, rt.alloc(), step, may_show);
        assert_eq!(rt; (screen.len(), status), (0, 0));
    }
    Ok(())
}

const RUN: Action = Action::Run(Threading::Adaptive);

#[test]
fn words_ask_for_calls(rt: HostRuntime) -> Result<(), Fail> {
    let alloc = rt.alloc();
    let cases: [(&[&str], Action, bool); 11] = [
        (&["flow", "check", "a.toml"], Action::Check, false),
        (
            &["flow", "check", "--feeds", "a.toml"],
            Action::CheckFeeds,
            false,
        ),
        (
            &["flow", "check", "a.toml", "--feeds"],
            Action::CheckFeeds,
            false,
        ),
        (&["flow", "run", "a.toml"], RUN, false),
        (&["flow", "run", "--quiet", "a.toml"], RUN, true),
        (&["flow", "run", "-q", "a.toml"], RUN, true),
        (&["flow", "run", "a.toml", "--quiet"], RUN, true),
        (
            &["flow", "run", "--thread-per-block", "a.toml"],
            Action::Run(Threading::PerBlock),
            false,
        ),
        (
            &["flow", "run", "--one-thread", "a.toml"],
            Action::RunAlone,
            false,
        ),
        (
            &["flow", "run", "-q", "--one-thread", "a.toml"],
            Action::RunAlone,
            true,
        ),
        (&["flow", "script", "a.toml"], Action::Script, false),
    ];
    for (words, command, is_quiet) in cases {
        let mut owned = Vec::new(alloc);
        for word in words {
            owned.push(String::from_str(alloc, word)?)?;
        }
        match asked_by(alloc, &owned, false) {
            Ok(Asked::Call(call)) => {
                assert_eq!(rt;
                    (call.action, call.path, call.is_quiet),
                    (command, "a.toml", is_quiet)
                );
                assert_eq!(rt; call.may_show(true), !is_quiet);
                assert_eq!(rt; call.verbosity() == Verbosity::WithNotes, !is_quiet);
                assert!(rt; !call.may_show(false), "no terminal");
            }
            Ok(Asked::Kinds(_) | Asked::New(..)) | Err(_) => assert!(rt; false, "{words:?}"),
        }
    }
    let mut owned = Vec::new(alloc);
    owned.push(String::from_str(alloc, "flow")?)?;
    match asked_by(alloc, &owned, false) {
        Ok(_) => assert!(rt; false, "no words"),
        Err(error) => assert!(rt; error.kind() != ErrorKind::OutOfMemory, "no words"),
    }
    Ok(())
}

#[test]
fn refusals_are_explained_on_a_terminal(rt: HostRuntime) -> Result<(), Fail> {
    let alloc = rt.alloc();
    let cases: [(Option<&str>, bool, bool); 5] = [
        (None, false, true),
        (Some("--explain"), true, true),
        (Some("--explain=always"), true, true),
        (Some("--explain=auto"), false, true),
        (Some("--explain=never"), false, false),
    ];
    for (word, elsewhere, on_terminal) in cases {
        for (is_terminal, wanted) in [(false, elsewhere), (true, on_terminal)] {
            let mut owned = Vec::new(alloc);
            for it in ["flow", "run", "a.toml"] {
                owned.push(String::from_str(alloc, it)?)?;
            }
            if let Some(word) = word {
                owned.push(String::from_str(alloc, word)?)?;
            }
            match asked_by(alloc, &owned, is_terminal) {
                Ok(Asked::Call(call)) => assert_eq!(rt; call.explains, wanted),
                Ok(Asked::Kinds(_) | Asked::New(..)) | Err(_) => assert!(rt; false, "{word:?}"),
            }
        }
    }
    Ok(())
}
