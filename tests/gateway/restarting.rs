//! A crash at each moment of an upload, over shelves in memory, and a gateway that is resumed over what it left.

use super::rows::holds;
use gate_core::Gateway;
use kept_store::KeptStore;
use share_shelf::MemShelf;
use share_store::Store;
use std::alloc::Global;
use std::test::Fail;

/// The cap of 56 times the letter a, as another program gives it.
pub const LETTERS_CAP: &[u8] =
    b"URI:CHK:xciehu7wkhrkdhseyznarsl6n4:ro65en3n4zxwl3gfinnekkeqado3jxpde7tfaj3sr7als57h4qoa:3:10:56";

type Kept = Gateway<KeptStore<MemShelf>>;

fn opened(alloc: Global, shelf: MemShelf) -> Result<KeptStore<MemShelf>, Fail> {
    let store = KeptStore::open(alloc, shelf, 100_000);
    Ok(store.ok().ok_or("not opened")?)
}

/// The store of a server as it is opened after a crash at this moment of its shelf.
fn left(
    alloc: Global,
    gateway: &Kept,
    server: usize,
    moment: usize,
) -> Result<KeptStore<MemShelf>, Fail> {
    let store = gateway.servers().get(server).ok_or("no such server")?;
    let shelf = store.shelf();
    if moment > shelf.moment() {
        return Err(Fail::from("no such moment"));
    }
    opened(alloc, shelf.left_at(alloc, moment)?)
}

/// 3 of 10 on two servers.
pub fn resumed<S: Store + Drop>(alloc: Global, first: S, second: S) -> Result<Gateway<S>, Fail> {
    let mut stores = Vec::new(alloc);
    stores.push(first)?;
    stores.push(second)?;
    Ok(Gateway::resume(alloc, 3, 10, stores, b"")?)
}

/// The reply to a put of 56 times a letter.
pub fn put_reply<S: Store>(gateway: &mut Gateway<S>, letter: u8) -> Result<Vec<u8>, Fail> {
    gateway.bytes(
        1,
        b"PUT /uri HTTP/1.1\r\nHost: g\r\nContent-Length: 56\r\n\r\n",
    )?;
    gateway.bytes(1, &[letter; 56])?;
    Ok(gateway.take(1, 1_000)?)
}

/// Puts 56 times a letter, and gives the cap.
pub fn put<S: Store>(alloc: Global, gateway: &mut Gateway<S>, letter: u8) -> Result<Vec<u8>, Fail> {
    let reply = put_reply(gateway, letter)?;
    let (_head, cap) = reply.split_at(reply.len().saturating_sub(95));
    Ok(cap.to_vec(alloc)?)
}

/// Whether the cap gives 56 times a letter, or else is gone.
pub fn is_given<S: Store>(gateway: &mut Gateway<S>, cap: &[u8], letter: u8) -> Result<bool, Fail> {
    gateway.bytes(1, b"GET /uri/")?;
    gateway.bytes(1, cap)?;
    gateway.bytes(1, b" HTTP/1.1\r\nHost: g\r\n\r\n")?;
    let reply = gateway.take(1, 1_000)?;
    let is_whole = reply.starts_with(b"HTTP/1.1 200 ") && reply.ends_with(&[letter; 56]);
    let is_gone = reply.starts_with(b"HTTP/1.1 410 ");
    holds(is_whole || is_gone, "neither whole nor gone")?;
    Ok(is_whole)
}

/// The first file is whole, and so is the second or not.
fn are_given(gateway: &mut Kept, caps: (&[u8], &[u8]), has_second: bool) -> Result<(), Fail> {
    gateway.open(1, None)?;
    let is_first = is_given(gateway, caps.0, b'b')?;
    let is_second = is_given(gateway, caps.1, b'a')?;
    holds(is_first && is_second == has_second, "another file")
}

/// After a crash at these moments the first file is whole, and so is the second where three shares of it stand.
fn are_as_left(
    alloc: Global,
    gateway: &Kept,
    caps: (&[u8], &[u8]),
    here: usize,
    there: usize,
) -> Result<(), Fail> {
    let first = left(alloc, gateway, 0, here)?;
    let second = left(alloc, gateway, 1, there)?;
    let mut again = resumed(alloc, first, second)?;
    are_given(&mut again, caps, here.saturating_add(there) >= 13)
}

/// Two files are put, and a crash comes at each moment of the second.
#[test]
fn after_a_crash_a_file_is_whole_or_gone(rt: HostRuntime) -> Result<(), Fail> {
    let alloc = rt.alloc();
    let one = opened(alloc, MemShelf::new(alloc))?;
    let another = opened(alloc, MemShelf::new(alloc))?;
    let mut gateway = resumed(alloc, one, another)?;
    gateway.open(1, None)?;
    let first = put(alloc, &mut gateway, b'b')?;
    let second = put(alloc, &mut gateway, b'a')?;
    holds(second.as_slice() == LETTERS_CAP, "another cap")?;
    for at in 0..36usize {
        let here = 5 + at / 6;
        let there = 5 + at % 6;
        are_as_left(alloc, &gateway, (&first, &second), here, there)?;
    }
    Ok(())
}
