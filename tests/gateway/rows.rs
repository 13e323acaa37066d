//! What callers ask and are told.

use gate_core::Gateway;
use share_store::{MemStore, Store};
use std::alloc::Global;
use std::test::Fail;

/// A connection, bytes that come on it, and what it is told then.
pub type Row<'a> = (u64, &'a [u8], &'a [u8]);

/// Connections are told so, row by row.
pub fn are_told<S: Store>(gateway: &mut Gateway<S>, rows: &[Row<'_>]) -> Result<(), Fail> {
    for (id, piece, wanted) in rows {
        gateway.bytes(*id, *piece)?;
        let told = gateway.take(*id, 100_000)?;
        holds(told.as_slice() == *wanted, "another reply")?;
    }
    Ok(())
}

/// A test goes on where something is so, and else fails with these words.
pub fn holds(is_so: bool, words: &str) -> Result<(), Fail> {
    match is_so {
        true => Ok(()),
        false => Err(Fail::from(words)),
    }
}

/// A gateway of 3 of 10 over one store in memory, with room for so many bytes of shares.
pub fn with_room(alloc: Global, room: u64) -> Result<Gateway<MemStore>, Fail> {
    let mut stores = Vec::new(alloc);
    stores.push(MemStore::new(alloc, room))?;
    Ok(Gateway::new(alloc, 3, 10, stores, b"")?)
}
