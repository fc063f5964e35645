//! Readers and writers as ends of a script: a call that failed is not tried again.
ghost use Rattle.std.specs.Prelude.{◌≤◌, IfOk};

use byte_io::{Broken, ByteIn, ByteOut, ReadEnd, WriteEnd};
use std::io::{ErrorKind, Read, Write};
use std::io;
use std::test::Fail;

// A device that counts its calls. The one of this number is interrupted, or takes nothing, and each other moves two
// bytes at most.
#[derive(Drop)]
struct Faulty {
    fails_at: u32,
    takes_none: bool,
    calls: u32,
    flushes: u32,
}

impl Faulty {
    fn new(fails_at: u32, takes_none: bool) -> Faulty {
        Faulty {
            fails_at,
            takes_none,
            calls: 0,
            flushes: 0,
        }
    }

    fn moved(&mut self, most: usize) -> io::Result<usize>
        ensures { IfOk result (λ n. n ≤ most) }
    {
        self.calls = self.calls.wrapping_add(1);
        if self.calls != self.fails_at {
            Ok(most.min(2))
        } else if self.takes_none {
            Ok(0)
        } else {
            Err(io::Error::from(ErrorKind::Interrupted))
        }
    }
}

impl Read for Faulty {
    fn read(&mut self, buf: &mut [u8]) -> io::Result<usize> {
        self.moved(buf.len())
    }
}

impl Write for Faulty {
    fn write(&mut self, buf: &[u8]) -> io::Result<usize> {
        self.moved(buf.len())
    }

    fn flush(&mut self) -> io::Result<()> {
        self.flushes = self.flushes.wrapping_add(1);
        match self.moved(0) {
            Ok(_) => Ok(()),
            Err(error) => Err(error),
        }
    }
}

#[test]
fn no_failed_call_is_tried_again(rt: HostRuntime) -> Result<(), Fail> {
    let mut buffer = [0; 4];
    let mut reader = ReadEnd::new(b"abcde".as_slice());
    assert_eq!(rt; reader.read(&mut buffer), Ok(4));
    assert_eq!(rt; buffer, *b"abcd");
    assert_eq!(rt; reader.read(&mut buffer), Ok(1));
    assert_eq!(rt; reader.read(&mut buffer), Ok(0));
    assert_eq!(rt; reader.failures(), 0);

    let mut reader = ReadEnd::new(Faulty::new(1, false));
    assert_eq!(rt; reader.read(&mut buffer), Err(Broken));
    assert_eq!(rt; (reader.reader.calls, reader.failures()), (1, 1));

    // Three bytes are two writes.
    for (fails_at, takes_none, result, calls) in [
        (0, false, Ok(()), 2),
        (1, false, Err(Broken), 1),
        (2, false, Err(Broken), 2),
        (1, true, Err(Broken), 1),
        (2, true, Err(Broken), 2),
    ] {
        let mut writer = WriteEnd::new(Faulty::new(fails_at, takes_none));
        assert_eq!(rt;
            writer.write(b"abc"),
            result,
            "a write that fails at {fails_at}"
        );
        assert_eq!(rt;
            writer.writer.calls,
            calls,
            "the writes of one that fails at {fails_at}"
        );
    }
    for (fails_at, result) in [(0, Ok(())), (1, Err(Broken))] {
        let mut writer = WriteEnd::new(Faulty::new(fails_at, false));
        assert_eq!(rt; writer.write(b""), Ok(()));
        assert_eq!(rt; writer.flush(), result, "a flush that fails at {fails_at}");
        assert_eq!(rt; (writer.writer.calls, writer.writer.flushes), (1, 1));
    }
    // A flush behind a write that failed is a call of its own: it succeeds here, and the write stays the one failure.
    for (fails_at, takes_none, calls) in [
        (1, false, 2),
        (2, false, 3),
        (1, true, 2),
        (2, true, 3),
    ] {
        let mut writer = WriteEnd::new(Faulty::new(fails_at, takes_none));
        assert_eq!(rt; writer.write(b"abc"), Err(Broken));
        assert_eq!(rt;
            writer.flush(),
            Ok(()),
            "a flush behind a write that fails at {fails_at}"
        );
        assert_eq!(rt; (writer.writer.calls, writer.writer.flushes), (calls, 1));
        assert_eq!(rt; writer.failures(), 1);
    }
    Ok(())
}
