//! Devices that note why they failed: the failure is told, and its reason is kept.
use diagnostics::Noted;
use std::io::{ErrorKind, Read, Write};
use std::io;
use std::test::Fail;

// Each call of it fails.
#[derive(Drop)]
struct Dead;

impl Read for Dead {
    fn read(&mut self, _buf: &mut [u8]) -> io::Result<usize> {
        Err(io::Error::from(ErrorKind::BrokenPipe))
    }
}

impl Write for Dead {
    fn write(&mut self, _buf: &[u8]) -> io::Result<usize> {
        Err(io::Error::from(ErrorKind::BrokenPipe))
    }

    fn flush(&mut self) -> io::Result<()> {
        Err(io::Error::from(ErrorKind::BrokenPipe))
    }
}

// Whether it is what such a device fails with.
fn is_noted(noted: &Noted<Dead>) -> bool {
    match &noted.reason {
        Some(error) => matches!(error.kind(), ErrorKind::BrokenPipe),
        None => false,
    }
}

#[test]
fn a_call_that_fails_is_told_and_noted(rt: HostRuntime) -> Result<(), Fail> {
    let mut read = Noted::new(Dead);
    assert!(rt; !is_noted(&read), "not yet");
    assert!(rt; read.read(&mut [0; 4]).is_err() && is_noted(&read), "a read");
    let mut written = Noted::new(Dead);
    assert!(rt; written.write(b"text").is_err() && is_noted(&written), "a write");
    let mut flushed = Noted::new(Dead);
    assert!(rt; flushed.flush().is_err() && is_noted(&flushed), "a flush");
    Ok(())
}
