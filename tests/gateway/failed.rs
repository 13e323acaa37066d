//! A shelf that fails and has done its change all the same, later calls, and a crash.

use super::restarting::{LETTERS_CAP, is_given, put, put_reply, resumed};
use super::rows::holds;
use gate_core::Gateway;
use kept_store::KeptStore;
use share_shelf::{FailShelf, MemShelf};
use share_store::Store;
use std::alloc::Global;
use std::test::Fail;

/// How many bytes a share of a file of 56 bytes has.
const SHARE: u64 = 394;

type Kept = Gateway<KeptStore<FailShelf>>;

/// A store over a shelf of which this call fails, counted from 1, and is done all the same; none does for 0.
fn opened(alloc: Global, inner: MemShelf, at: u64) -> Result<KeptStore<FailShelf>, Fail> {
    let shelf = FailShelf::new(inner, at, false, true);
    let store = KeptStore::open(alloc, shelf, 100_000);
    Ok(store.ok().ok_or("not opened")?)
}

/// The put of 56 times a letter is answered that a store failed.
fn is_refused(gateway: &mut Kept, letter: u8) -> Result<(), Fail> {
    let reply = put_reply(gateway, letter)?;
    let is_down = reply.starts_with(b"HTTP/1.1 503 ") && reply.ends_with(b"store down\n");
    holds(is_down, "not refused")
}

/// The first server holds so many shares.
fn first_holds(gateway: &Kept, shares: u64) -> Result<(), Fail> {
    let store = gateway.servers().first().ok_or("no server")?;
    let is_so = store.held() == shares.saturating_mul(SHARE);
    holds(is_so, "another number of shares")
}

/// The first server's store, opened over what a crash leaves now.
fn left(alloc: Global, gateway: &Kept) -> Result<KeptStore<FailShelf>, Fail> {
    let store = gateway.servers().first().ok_or("no server")?;
    let shelf = store.shelf().inner();
    let inner = shelf.left_at(alloc, shelf.moment())?;
    opened(alloc, inner, 0)
}

/// A file is put, and the next upload meets the failure at its third share at the first server. Whatever is called
/// then, the store answers the shares before that one, and its shelf has that one too.
fn is_done_though_it_failed(alloc: Global, gateway: &mut Kept) -> Result<(), Fail> {
    gateway.open(1, None)?;
    let cap = put(alloc, gateway, b'b')?;
    is_refused(gateway, b'a')?;
    first_holds(gateway, 7)?;
    is_refused(gateway, b'c')?;
    first_holds(gateway, 7)?;
    // The crash. The other server lost all, so three shares of the first one are needed.
    let first = left(alloc, gateway)?;
    let second = opened(alloc, MemShelf::new(alloc), 0)?;
    are_both_given(&mut resumed(alloc, first, second)?, &cap)
}

/// The first server holds the eighth share too, and both files are whole.
fn are_both_given(again: &mut Kept, cap: &[u8]) -> Result<(), Fail> {
    again.open(1, None)?;
    first_holds(again, 8)?;
    let is_first = is_given(again, cap, b'b')?;
    let is_second = is_given(again, LETTERS_CAP, b'a')?;
    holds(is_first && is_second, "a file is gone")
}

#[test]
fn what_a_shelf_did_though_it_failed_stands_after_a_later_crash(
    rt: HostRuntime,
) -> Result<(), Fail> {
    let alloc = rt.alloc();
    // Its first call lists what it has, and five put the shares of the first file.
    let first = opened(alloc, MemShelf::new(alloc), 9)?;
    let second = opened(alloc, MemShelf::new(alloc), 0)?;
    is_done_though_it_failed(alloc, &mut resumed(alloc, first, second)?)
}
