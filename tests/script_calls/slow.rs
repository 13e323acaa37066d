//! Readers and writers that are slow, are interrupted, or fail.
ghost use Rattle.std.specs.Prelude.{◌≡◌, ◌^◌, ◌-◌, [], IsTrue, IsFalse, None, Some, true};

use octets::fakes::{AtTheEnd, SlowReader, SlowWriter};
use std::alloc::Global;

/// A reader of these bytes that then fails.
pub fn breaking(bytes: &[u8]) -> SlowReader<'_>
    ensures whole { result.bytes.now ≡ bytes.now }
    ensures at_once { result.at_a_time ≡ 2 ^ 64 - 1 }
    ensures uninterrupted { result.interrupts ≡ None }
    ensures fails { IsTrue result.fails }
{
    SlowReader {
        bytes,
        at_a_time: usize::MAX,
        interrupts: None,
        fails: true,
    }
}

/// A reader of these bytes that is interrupted before each of them.
pub fn interrupted(bytes: &[u8]) -> SlowReader<'_>
    ensures whole { result.bytes.now ≡ bytes.now }
    ensures one_at_a_time { result.at_a_time ≡ 1 }
    ensures interrupts { result.interrupts ≡ Some true }
    ensures ends_well { IsFalse result.fails }
{
    SlowReader {
        bytes,
        at_a_time: 1,
        interrupts: Some(true),
        fails: false,
    }
}

/// A writer that takes so many bytes, three at a time, and then fails.
pub fn narrow(alloc: Global, room: usize) -> SlowWriter
    ensures empty { result.held.items ≡ [] }
    ensures room { result.room ≡ room }
    ensures at_a_time { result.at_a_time ≡ 3 }
    ensures uninterrupted { result.interrupts ≡ None }
    ensures fails { result.at_the_end ≡ AtTheEnd.Fails }
    ensures flushes { IsTrue result.flushes }
{
    SlowWriter {
        held: Vec::new(alloc),
        room,
        at_a_time: 3,
        interrupts: None,
        at_the_end: AtTheEnd::Fails,
        flushes: true,
    }
}
