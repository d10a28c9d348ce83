//! Streams in memory that pass some bytes a call and may fail after so many.
ghost use Rattle.std.specs.Prelude.{◌==◌, length, take, drop};

use jsonpath_run::{Input, IoFailed, Output};
use std::alloc::Global;

/// Gives the bytes of a slice, one or so many a call at most, and fails after so many calls.
#[derive(Drop)]
pub(crate) struct Source<'a> {
    bytes: &'a [u8],
    given: usize,
    good: usize,
    piece: usize,
    has_failed: bool,
}

impl<'a> Source<'a> {
    pub(crate) fn new(bytes: &'a [u8], good: usize, piece: usize) -> Source<'a> {
        Source {
            bytes,
            given: 0,
            good,
            piece,
            has_failed: false,
        }
    }

    // The bytes that are still to be given.
    pub(crate) fn rest(&self) -> &'a [u8] {
        self.bytes.get(self.given..).unwrap_or(&[])
    }
}

impl Input for Source<'_> {
    ghost given = { λ s. take s.given s.bytes.now };

    ghost has_ended = { λ s. length (drop s.given s.bytes.now) == 0 };

    ghost has_failed = { λ s. s.has_failed };

    fn read(&mut self, buffer: &mut [u8]) -> Result<usize, IoFailed> {
        if self.good == 0 {
            self.has_failed = true;
            return Err(IoFailed);
        }
        self.good -= 1;
        let rest = self.rest();
        let count = rest.len().min(buffer.len()).min(self.piece.max(1));
        buffer[..count].copy_from_slice(&rest[..count]);
        self.given += count;
        Ok(count)
    }

    fn failed(&self) -> bool {
        self.has_failed
    }
}

/// Keeps what is written, one byte a call, and fails once so many were written.
#[derive(Drop)]
pub(crate) struct Sink {
    pub(crate) bytes: Vec<u8>,
    good: usize,
    has_failed: bool,
}

impl Sink {
    pub(crate) fn new(bytes: Vec<u8>, good: usize) -> Sink {
        Sink {
            bytes,
            good,
            has_failed: false,
        }
    }
}

impl Output for Sink {
    ghost written = { λ s. s.bytes.items };

    ghost has_failed = { λ s. s.has_failed };

    fn write(&mut self, piece: &[u8]) -> Result<usize, IoFailed> {
        let room = self.good.saturating_sub(self.bytes.len());
        let count = piece.len().min(room).min(1);
        if (count == 0 && !piece.is_empty())
            || self.bytes.extend_from_slice(&piece[..count]).is_err()
        {
            self.has_failed = true;
            return Err(IoFailed);
        }
        Ok(count)
    }

    fn failed(&self) -> bool {
        self.has_failed
    }
}

pub(crate) fn make_sink(alloc: Global, good: usize) -> Sink {
    Sink::new(Vec::new(alloc), good)
}
