//! A server that answers what it was told to.
use crate::lines::{Case, NoAnswer, debug, fixed};
use redis_store::{Link, LinkFault};
use std::alloc::Global;

/// A server that answers what it was told to, so many bytes at once, and writes down what it is told: a bar where a
/// connection is made, a full stop where it is let go, and each command with spaces for the ends of its lines.
#[derive(Drop)]
pub struct Played {
    /// The replies that are left, the last one first.
    replies: Vec<Vec<u8>>,
    /// The reply that is read, and how many bytes of it were.
    waiting: Vec<u8>,
    read: usize,
    told: Vec<u8>,
    clock: u64,
    at_once: usize,
}

impl Played {
    /// A server that gives so many bytes at once, and the replies that stand from a place on.
    pub fn new(
        alloc: Global,
        at_once: u64,
        case: &Case<'_>,
        from: usize,
    ) -> Result<Played, NoAnswer> {
        let mut replies = Vec::new(alloc);
        for at in from..case.len() {
            replies.push(case.bytes(alloc, at)?)?;
        }
        replies.reverse();
        Ok(Played {
            replies,
            waiting: Vec::new(alloc),
            read: 0,
            told: Vec::new(alloc),
            clock: 0,
            at_once: at_once as usize,
        })
    }

    /// What it was told.
    pub fn into_told(self, alloc: Global) -> Result<String, NoAnswer> {
        match String::from_utf8(self.told) {
            Ok(text) => debug(alloc, &text),
            Err(_) => fixed(alloc, "no text"),
        }
    }

    /// Writes down what it is told.
    fn write_down(&mut self, bytes: &[u8]) -> Result<(), LinkFault> {
        for byte in bytes {
            match *byte {
                b'\r' => {}
                b'\n' => self.told.push(b' ').map_err(|_| LinkFault::Ended)?,
                other => self.told.push(other).map_err(|_| LinkFault::Ended)?,
            }
        }
        Ok(())
    }
}

impl Link for Played {
    fn connect(&mut self) -> Result<(), LinkFault> {
        self.waiting.clear();
        self.told.push(b'|').map_err(|_| LinkFault::Ended)
    }

    fn write_all(&mut self, parts: &[&[u8]]) -> Result<(), LinkFault> {
        for part in parts {
            self.write_down(part)?;
        }
        if let Some(reply) = self.replies.pop() {
            self.waiting = reply;
            self.read = 0;
        }
        Ok(())
    }

    fn read(&mut self, room: &mut [u8]) -> Result<usize, LinkFault> {
        let Some(rest) = self.waiting.get(self.read..) else {
            return Ok(0);
        };
        let count = self.at_once.min(room.len()).min(rest.len());
        room[..count].copy_from_slice(&rest[..count]);
        self.read = self.read.saturating_add(count);
        Ok(count)
    }

    fn give_time(&mut self) {}

    fn close(&mut self) {
        let _full = self.told.push(b'.');
    }

    fn seconds(&mut self) -> u64 {
        self.clock = self.clock.saturating_add(1);
        self.clock
    }
}
