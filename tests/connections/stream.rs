//! A stream that is slow, blocks, is interrupted, or fails.
ghost use Rattle.std.specs.Prelude.{◌≡◌, ◌≤◌, [], take, None, Some, IfOk, MatchResult};
ghost use Rattle.std.specs.Io.{ReadsAtMost, WritesAtMost};
ghost use Rattle.std.specs.Io.KnownBytes.{Consumes, ReadConsumes, WriteAppends};

use std::alloc::Global;
use std::io::{self, ErrorKind, Read, Write};

/// A stream that reads and takes a few bytes at a time, and fails after so many calls.
#[derive(Drop)]
pub struct Stream<'a> {
    /// The bytes that weren't read yet.
    pub sends: &'a [u8],
    /// The bytes that were written.
    pub took: Vec<u8>,
    /// How many bytes are read or written at a time, at most.
    pub at_a_time: usize,
    /// What every other call is told, beginning with the first.
    pub told: Option<ErrorKind>,
    /// Whether the last call was told so.
    pub is_next: bool,
    /// How many calls are left; each later one fails with `BrokenPipe`.
    pub calls_left: u32,
}

impl<'a> Stream<'a> {
    /// One that sends these bytes.
    pub fn new(
        alloc: Global,
        sends: &'a [u8],
        at_a_time: usize,
        told: Option<ErrorKind>,
        calls_left: u32,
    ) -> Stream<'a>
        ensures sends { result.sends.now ≡ sends.now }
        ensures took { result.took.items ≡ [] }
        ensures at_a_time { result.at_a_time ≡ at_a_time }
        ensures told { result.told ≡ told }
        ensures calls_left { result.calls_left ≡ calls_left }
    {
        Stream {
            sends,
            took: Vec::new(alloc),
            at_a_time,
            told,
            is_next: true,
            calls_left,
        }
    }

    /// What this call is told.
    fn error(&mut self) -> Option<ErrorKind>
        ensures sends { self.new.sends.now ≡ self.old.sends.now }
        ensures took { self.new.took.items ≡ self.old.took.items }
        ensures at_a_time { self.new.at_a_time ≡ self.old.at_a_time }
    {
        if self.calls_left == 0 {
            return Some(ErrorKind::BrokenPipe);
        }
        self.calls_left -= 1;
        self.is_next = !self.is_next;
        if self.is_next { None } else { self.told }
    }
}

// The trait isn't told which bytes are left: it asks that none are left once a read gives none, and where `at_a_time` is 0
// each read gives none.
impl Read for Stream<'_> {
    fn read(&mut self, buf: &mut [u8]) -> io::Result<usize>
        ensures bound { ReadsAtMost result buf.new }
        ensures bytes { ReadConsumes None None result buf.new }
        ensures few { IfOk result (λ n. n ≤ self.old.at_a_time) }
        ensures sent { MatchResult result
            (λ n. Consumes (Some self.old.sends.now) (Some self.new.sends.now) (take n buf.new))
            (λ _. self.new.sends.now ≡ self.old.sends.now) }
    {
        if let Some(kind) = self.error() {
            return Err(io::Error::from(kind));
        }
        let count = buf.len().min(self.at_a_time);
        self.sends.read(&mut buf[..count])
    }
}

impl Write for Stream<'_> {
    ghost contents = { λ stream. Some stream.took.items };

    fn write(&mut self, buf: &[u8]) -> io::Result<usize>
        ensures bound { WritesAtMost result buf.now }
        ensures bytes { WriteAppends (Some self.old.took.items) (Some self.new.took.items) result buf.now }
        ensures few { IfOk result (λ n. n ≤ self.old.at_a_time) }
    {
        if let Some(kind) = self.error() {
            return Err(io::Error::from(kind));
        }
        let count = buf.len().min(self.at_a_time);
        self.took.extend_from_slice(&buf[..count])?;
        Ok(count)
    }

    fn flush(&mut self) -> io::Result<()> {
        Ok(())
    }
}
