//! Standard streams in memory, which ask for none.
ghost use Rattle.std.specs.Prelude.{None};

use byte_io::{Broken, ByteIn, ByteOut};

const ROOM: usize = 512;

/// Input from a text.
#[derive(Drop)]
pub struct Text<'a> {
    left: &'a [u8],
}

impl<'a> Text<'a> {
    pub fn new(text: &'a str) -> Text<'a> {
        Text {
            left: text.as_bytes(),
        }
    }
}

impl<'a> ByteIn for Text<'a> {
    ghost remaining = { λ _. None };

    ghost failed = { λ _. 0 };

    fn read(&mut self, buffer: &mut [u8]) -> Result<usize, Broken> {
        let count = self.left.len().min(buffer.len());
        let (piece, left) = self.left.split_at(count);
        buffer[..count].copy_from_slice(piece);
        self.left = left;
        Ok(count)
    }

    fn failures(&self) -> u64 {
        0
    }
}

/// Output of at most so many bytes.
#[derive(Drop)]
pub struct Page {
    bytes: [u8; ROOM],
    length: usize,
    failures: u64,
}

impl Page {
    pub fn new() -> Page {
        Page {
            bytes: [0; ROOM],
            length: 0,
            failures: 0,
        }
    }

    pub fn bytes(&self) -> &[u8] {
        &self.bytes[..self.length]
    }

    pub fn text(&self) -> &str {
        std::str::from_utf8(self.bytes()).unwrap_or("no text")
    }

    /// Writes this at its end, as far as there is room.
    pub fn put(&mut self, piece: &[u8]) {
        let _ = self.write(piece);
    }
}

impl ByteOut for Page {
    ghost contents = { λ _. None };

    ghost failed = { λ s. s.failures };

    fn write(&mut self, piece: &[u8]) -> Result<(), Broken> {
        let end = self.length + piece.len();
        if end > ROOM {
            self.failures += 1;
            return Err(Broken);
        }
        self.bytes[self.length..end].copy_from_slice(piece);
        self.length = end;
        Ok(())
    }

    fn failures(&self) -> u64 {
        self.failures
    }
}
