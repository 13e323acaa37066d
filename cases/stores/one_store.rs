//! One store in memory, which may fail. A storage index is sixteen times one byte.
ghost use Rattle.std.specs.Prelude.{◌≡◌, IfOk};
ghost use Rattle.std.specs.Prelude.{length as length_of};
ghost use Rattle.std.specs.Rc.{rc_slice_items};

use crate::lines::{Case, NoAnswer, debug, fixed, told};
use share_store::{FailAt, MemStore, Store};
use std::alloc::Global;
use std::rc::RcSlice;

/// A share of so many bytes 0.
fn share_of(alloc: Global, length: usize) -> Result<RcSlice<u8>, NoAnswer>
    ensures { IfOk result (λ share. length_of (rc_slice_items share) ≡ length) }
{
    Ok(RcSlice::from_vec(vec![in alloc; 0u8; length]?)?)
}

/// The storage index at a place.
pub fn index_at(case: &Case<'_>, at: usize) -> Result<[u8; 16], NoAnswer> {
    Ok([case.byte(at)?; 16])
}

/// The share's number at a place.
pub fn number_at(case: &Case<'_>, at: usize) -> Result<u16, NoAnswer> {
    case.small(at)
}

/// A store with this room, which fails at a call, counted from 1 (none where it is 0): `once`, or `for-good`.
pub fn store_of(alloc: Global, room: u64, at: u64, how: &str) -> FailAt
    ensures { ⟦<FailAt as Store>⟧.held result ≡ 0 }
{
    FailAt::new(alloc, MemStore::new(alloc, room), at, how == "for-good")
}

/// The answer to a case of a store.
pub fn answer(
    alloc: Global,
    held: &mut Option<FailAt>,
    case: &Case<'_>,
) -> Result<String, NoAnswer> {
    if case.word(1)? == "new" {
        *held = Some(store_of(alloc, case.number(2)?, case.number(3)?, case.word(4)?));
        return fixed(alloc, "ok");
    }
    match held {
        Some(store) => asked(alloc, store, case),
        None => Err(NoAnswer::Question),
    }
}

/// The answer of a store.
fn asked(alloc: Global, store: &mut FailAt, case: &Case<'_>) -> Result<String, NoAnswer> {
    match case.word(1)? {
        "put" => put(alloc, store, case),
        "has" => told(alloc, store.has(index_at(case, 2)?, number_at(case, 3)?)),
        "numbers" => told(alloc, store.numbers(index_at(case, 2)?)),
        "get" => got(alloc, store.get(index_at(case, 2)?, number_at(case, 3)?)?),
        "nth" => standing(alloc, store, case.number(2)?),
        "lose" => told(alloc, store.lose(index_at(case, 2)?, number_at(case, 3)?)),
        "toggle" => toggle(alloc, store, case),
        "toggle-lent" => toggle_lent(alloc, store, case),
        "room" => debug(alloc, &store.room()),
        "held" => debug(alloc, &store.held()),
        "failures" => debug(alloc, &store.failures()),
        _ => Err(NoAnswer::Question),
    }
}

/// Puts a share of so many bytes 0.
fn put(alloc: Global, store: &mut FailAt, case: &Case<'_>) -> Result<String, NoAnswer> {
    let length = case.number(4)? as usize;
    if length == 0 {
        return Err(NoAnswer::Word(4));
    }
    let share = share_of(alloc, length)?;
    told(
        alloc,
        store.put(index_at(case, 2)?, number_at(case, 3)?, share),
    )
}

/// Changes the lowest bit of a byte.
fn toggle(alloc: Global, store: &mut FailAt, case: &Case<'_>) -> Result<String, NoAnswer> {
    let place = case.number(4)?;
    told(
        alloc,
        store.toggle(index_at(case, 2)?, number_at(case, 3)?, place),
    )
}

/// Changes the lowest bit of a byte while the share is lent, and tells what was lent then.
fn toggle_lent(alloc: Global, store: &mut FailAt, case: &Case<'_>) -> Result<String, NoAnswer> {
    let lent = store.get(index_at(case, 2)?, number_at(case, 3)?)?;
    let _ = toggle(alloc, store, case)?;
    got(alloc, lent)
}

/// How many bytes a share has, and its last one.
fn got(alloc: Global, share: Option<RcSlice<u8>>) -> Result<String, NoAnswer> {
    match share {
        Some(bytes) => debug(alloc, &(bytes.len(), bytes.as_slice().last().copied())),
        None => fixed(alloc, "none"),
    }
}

/// The first byte of the index, the number and the length of the share at a place.
fn standing(alloc: Global, store: &mut FailAt, at: u64) -> Result<String, NoAnswer> {
    match store.nth(at)? {
        Some(share) => debug(alloc, &(share.index[0], share.number, share.bytes.len())),
        None => fixed(alloc, "none"),
    }
}
