//! Streams over memory that fail where they are told to.
ghost use Rattle.std.specs.Prelude.{None};

use byte_io::{Broken, ByteIn, ByteOut};

/// A text that comes in pieces.
#[derive(Drop)]
pub struct Pieces<'a> {
    pub left: &'a [u8],
    /// How many bytes one read gives at most.
    pub most: usize,
    /// How many bytes come before a read fails.
    pub good: usize,
    pub failures: u64,
}

impl<'a> ByteIn for Pieces<'a> {
    ghost remaining = { λ _. None };

    ghost failed = { λ s. s.failures };

    fn read(&mut self, buffer: &mut [u8]) -> Result<usize, Broken> {
        if self.good == 0 {
            self.failures += 1;
            return Err(Broken);
        }
        let count = self
            .left
            .len()
            .min(self.most)
            .min(self.good)
            .min(buffer.len());
        let (piece, left) = self.left.split_at(count);
        buffer[..count].copy_from_slice(piece);
        self.left = left;
        self.good -= count;
        Ok(count)
    }

    fn failures(&self) -> u64 {
        self.failures
    }
}

/// What was written, and for how many more bytes there is room. A write of more takes a beginning and fails.
#[derive(Drop)]
pub struct Written {
    pub bytes: Vec<u8>,
    pub room: usize,
    pub failures: u64,
}

impl ByteOut for Written {
    ghost contents = { λ _. None };

    ghost failed = { λ s. s.failures };

    fn write(&mut self, piece: &[u8]) -> Result<(), Broken> {
        let taken = piece.len().min(self.room);
        self.room -= taken;
        let grown = self.bytes.extend_from_slice(&piece[..taken]);
        if grown.is_err() || taken < piece.len() {
            self.failures += 1;
            return Err(Broken);
        }
        Ok(())
    }

    fn failures(&self) -> u64 {
        self.failures
    }
}

/// How many lines end among so many of the first bytes.
pub fn lines_in(bytes: &[u8], count: usize) -> usize {
    bytes
        .iter()
        .take(count)
        .filter(|byte| **byte == b'\n')
        .count()
}
