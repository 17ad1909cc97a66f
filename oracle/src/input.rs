//! An input that is read in large pieces, of which a few bytes at a time are looked at.

use std::io::{self, Read};

/// The bytes that are read and written at a time.
pub const BUFFER: usize = 1 << 16;

pub struct Input<R> {
    from: R,
    buffer: Vec<u8>,
    /// What was read and not taken yet is `buffer[start..end]`.
    start: usize,
    end: usize,
    ended: bool,
}

impl<R: Read> Input<R> {
    pub fn new(from: R) -> Input<R> {
        Input {
            from,
            buffer: vec![0; BUFFER],
            start: 0,
            end: 0,
            ended: false,
        }
    }

    /// What comes next: at least so many bytes, or all that is left.
    pub fn ahead(&mut self, least: usize) -> io::Result<&[u8]> {
        if self.end - self.start < least {
            self.fill(least)?;
        }
        Ok(&self.buffer[self.start..self.end])
    }

    /// Goes on behind so many of the bytes ahead.
    pub fn take(&mut self, bytes: usize) {
        self.start += bytes;
    }

    /// Moves what is left to the front, and reads behind it. Nothing is read behind the end: a
    /// terminal would ask once more.
    fn fill(&mut self, least: usize) -> io::Result<()> {
        self.buffer.copy_within(self.start..self.end, 0);
        self.end -= self.start;
        self.start = 0;
        while self.end < least && !self.ended {
            let more = self.from.read(&mut self.buffer[self.end..])?;
            self.end += more;
            self.ended = more == 0;
        }
        Ok(())
    }
}
