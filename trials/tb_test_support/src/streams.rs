//! Readers and writers that hand on a few bytes at a time and fail in mid-stream, hold bytes back, or count.
ghost use Rattle.std.specs.Prelude.{Some};

use std::alloc::Global;
use std::io;
use std::io::{Read, Write};

/// Gives its bytes a few at a time, and fails after some of them.
#[derive(Drop)]
pub struct FailingReader<'a> {
    /// What is still to be given.
    pub rest: &'a [u8],
    /// How many more bytes it gives before it fails.
    pub until_fault: usize,
    /// How many bytes it gives at once, at most.
    pub most: usize,
}

impl<'a> FailingReader<'a> {
    /// A reader of these bytes that gives at most `most` at once, and fails after `until_fault` bytes.
    pub fn new(rest: &'a [u8], until_fault: usize, most: usize) -> FailingReader<'a> {
        FailingReader {
            rest,
            until_fault,
            most,
        }
    }
}

impl Read for FailingReader<'_> {
    fn read(&mut self, buf: &mut [u8]) -> io::Result<usize> {
        if self.until_fault == 0 {
            return Err(io::Error::from(io::ErrorKind::Other));
        }
        let room = buf.len().min(self.most).min(self.until_fault);
        let count = self.rest.read(&mut buf[..room])?;
        self.until_fault -= count;
        Ok(count)
    }
}

/// Takes a few bytes at a time, and fails after some of them.
#[derive(Drop)]
pub struct FailingWriter {
    /// What it took.
    pub taken: Vec<u8>,
    /// How many more bytes it takes before it fails.
    pub until_fault: usize,
    /// How many bytes it takes at once, at most.
    pub most: usize,
}

impl FailingWriter {
    /// A writer that has taken nothing, takes at most `most` bytes at once, and fails after `until_fault` bytes.
    pub fn new(alloc: Global, until_fault: usize, most: usize) -> FailingWriter {
        FailingWriter {
            taken: Vec::new(alloc),
            until_fault,
            most,
        }
    }
}

impl Write for FailingWriter {
    ghost contents = { λ w. Some w.taken.items };

    fn write(&mut self, buf: &[u8]) -> io::Result<usize> {
        if self.until_fault == 0 {
            return Err(io::Error::from(io::ErrorKind::Other));
        }
        let count = buf.len().min(self.most).min(self.until_fault);
        self.taken.extend_from_slice(&buf[..count])?;
        self.until_fault -= count;
        Ok(count)
    }

    fn flush(&mut self) -> io::Result<()> {
        Ok(())
    }
}

/// Takes all bytes and holds them back until it is flushed, which may fail.
#[derive(Drop)]
pub struct HoldingWriter {
    /// What it took.
    pub taken: Vec<u8>,
    /// How many of these bytes it has handed on.
    pub handed_on: usize,
    /// Whether each flush fails.
    pub fails: bool,
}

impl HoldingWriter {
    /// A writer that has taken nothing, each of whose flushes fails if `fails` is true.
    pub fn new(alloc: Global, fails: bool) -> HoldingWriter {
        HoldingWriter {
            taken: Vec::new(alloc),
            handed_on: 0,
            fails,
        }
    }
}

impl Write for HoldingWriter {
    ghost contents = { λ w. Some w.taken.items };

    fn write(&mut self, buf: &[u8]) -> io::Result<usize> {
        self.taken.extend_from_slice(buf)?;
        Ok(buf.len())
    }

    fn flush(&mut self) -> io::Result<()> {
        if self.fails {
            return Err(io::Error::from(io::ErrorKind::Other));
        }
        self.handed_on = self.taken.len();
        Ok(())
    }
}

/// Notes how many bytes it had taken at each flush.
#[derive(Drop)]
pub struct CountingWriter {
    pub taken: usize,
    pub flushed_at: Vec<usize>,
}

impl CountingWriter {
    /// A writer that has taken nothing.
    pub fn new(alloc: Global) -> CountingWriter {
        CountingWriter {
            taken: 0,
            flushed_at: Vec::new(alloc),
        }
    }
}

impl Write for CountingWriter {
    fn write(&mut self, buf: &[u8]) -> io::Result<usize> {
        self.taken = self.taken.wrapping_add(buf.len());
        Ok(buf.len())
    }

    fn flush(&mut self) -> io::Result<()> {
        self.flushed_at.push(self.taken)?;
        Ok(())
    }
}
