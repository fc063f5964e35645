//! What stands on the screen, at which times.
use super::terminal::Terminal;
use plant::{Headway, Watch};
use std::alloc::Global;
use std::cell::Cell;
use std::io;
use std::io::Write;
use std::test::Fail;
use std::time::{Clock, Duration};

// A clock that shows what it is set to, or fails.
#[derive(Drop)]
struct Set {
    milliseconds: Cell<Option<u64>>,
}

impl Clock for Set {
    fn monotonic(&self) -> io::Result<Duration> {
        match self.milliseconds.get() {
            Some(milliseconds) => Ok(Duration::from_millis(milliseconds)),
            None => Err(io::Error::from(io::ErrorKind::Other)),
        }
    }

    fn since_1970(&self) -> io::Result<Duration> {
        self.monotonic()
    }
}

// A screen that takes so many bytes.
#[derive(Drop)]
struct Screen<'a> {
    bytes: &'a mut Vec<u8>,
    room: usize,
}

impl Write for Screen<'_> {
    fn write(&mut self, bytes: &[u8]) -> io::Result<usize> {
        if self.bytes.len() + bytes.len() > self.room {
            return Err(io::Error::from(io::ErrorKind::Other));
        }
        self.bytes.extend_from_slice(bytes)?;
        Ok(bytes.len())
    }

    fn flush(&mut self) -> io::Result<()> {
        Ok(())
    }
}

// When the run begins and when its rounds end, by the clock; a time that is missing is a clock that fails.
#[derive(Drop)]
struct Times<'a> {
    start: Option<u64>,
    rounds: &'a [Option<u64>],
}

// All that is written of a run, each of whose rounds brings a thousand items of nine thousand.
fn written(alloc: Global, times: Times<'_>, may_show: bool, room: usize) -> Vec<u8> {
    let clock = Set {
        milliseconds: Cell::new(times.start),
    };
    let mut bytes = Vec::new(alloc);
    {
        let screen = Screen {
            bytes: &mut bytes,
            room,
        };
        let mut terminal = Terminal::new(&clock, screen, may_show);
        let mut given = 0;
        for time in times.rounds {
            clock.milliseconds.set(*time);
            given += 1000;
            terminal.show(Headway { given, fed: 9000 });
        }
        terminal.end();
        terminal.end();
    }
    bytes
}

#[test]
fn a_line_comes_each_quarter_of_a_second(rt: HostRuntime) -> Result<(), Fail> {
    let cases: [(Option<u64>, &[Option<u64>], &str); 7] = [
        (Some(0), &[Some(100), Some(249)], ""),
        (
            Some(0),
            &[
                Some(100),
                Some(249),
                Some(250),
                Some(400),
                Some(499),
                Some(500),
            ],
            "\rflow: 3000 of 9000 items\rflow: 6000 of 9000 items\r\x1b[K",
        ),
        (
            Some(7000),
            &[Some(7260), Some(7500), Some(7509), Some(7510)],
            "\rflow: 1000 of 9000 items\rflow: 4000 of 9000 items\r\x1b[K",
        ),
        // A clock that goes back.
        (
            Some(1000),
            &[Some(500), Some(1249), Some(1250)],
            "\rflow: 3000 of 9000 items\r\x1b[K",
        ),
        // One that fails.
        (None, &[Some(300), Some(900)], ""),
        (Some(0), &[None, Some(900)], ""),
        (
            Some(0),
            &[Some(300), None, Some(900)],
            "\rflow: 1000 of 9000 items\r\x1b[K",
        ),
    ];
    for (start, rounds, wanted) in cases {
        let bytes = written(rt.alloc(), Times { start, rounds }, true, 1000);
        assert!(rt; bytes.as_slice() == wanted.as_bytes(), "{wanted:?}");
        let bytes = written(rt.alloc(), Times { start, rounds }, false, 1000);
        assert!(rt; bytes.is_empty(), "it may not show");
    }
    Ok(())
}

#[test]
fn a_screen_that_fails_is_nothing(rt: HostRuntime) -> Result<(), Fail> {
    let rounds = [Some(300), Some(600)];
    // A line of which nothing, or not all, was written is cleared too.
    for (room, wanted) in [
        (0, ""),
        (4, "\r\x1b[K"),
        (25, "\rflow: 1000 of 9000 items"),
        (29, "\rflow: 1000 of 9000 items\r\x1b[K"),
    ] {
        let times = Times {
            start: Some(0),
            rounds: &rounds,
        };
        let bytes = written(rt.alloc(), times, true, room);
        assert!(rt; bytes.as_slice() == wanted.as_bytes(), "room for {room}");
    }
    Ok(())
}
