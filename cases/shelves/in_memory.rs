//! A shelf in memory that may fail: what each call gives, and what a call that fails or a crash leaves.
use crate::shelves::shelf_calls::{calls, count};
use crate::lines::{Case, NoAnswer, debug, fixed};
use share_shelf::{FailShelf, MemShelf};
use std::alloc::Global;

/// The storage index of all shares of shelves in memory and of stores.
pub const INDEX: [u8; 16] = [7; 16];

/// At which call a shelf fails, from 1 (none where it is 0), whether for good, and whether a change that fails is done.
pub fn failure_at(case: &Case<'_>, at: usize) -> Result<(u64, bool, bool), NoAnswer> {
    let call = case.number(at)?;
    let for_good = case.word(at.saturating_add(1))? == "for-good";
    let is_done = case.word(at.saturating_add(2))? == "done";
    Ok((call, for_good, is_done))
}

/// What a crash after a moment leaves of a shelf, the moment at a place.
pub fn left_at(
    alloc: Global,
    shelf: &FailShelf,
    case: &Case<'_>,
    at: usize,
) -> Result<MemShelf, NoAnswer> {
    let moment = case.number(at)? as usize;
    let inner = shelf.inner();
    if moment <= inner.moment() {
        return Ok(inner.left_at(alloc, moment)?);
    }
    Err(NoAnswer::Word(at))
}

/// What a crash now leaves of a shelf.
pub fn left_now(alloc: Global, shelf: &Option<FailShelf>) -> Result<MemShelf, NoAnswer> {
    match shelf {
        Some(shelf) => {
            let inner = shelf.inner();
            Ok(inner.left_at(alloc, inner.moment())?)
        }
        None => Err(NoAnswer::Question),
    }
}

/// A shelf in memory that holds nothing and fails as is said from place 2 on.
fn made(alloc: Global, case: &Case<'_>) -> Result<FailShelf, NoAnswer> {
    let (at, for_good, is_done) = failure_at(case, 2)?;
    Ok(FailShelf::new(MemShelf::new(alloc), at, for_good, is_done))
}

/// The answer to a case of the shelf in memory.
pub fn answer(
    alloc: Global,
    held: &mut Option<FailShelf>,
    case: &Case<'_>,
) -> Result<String, NoAnswer> {
    match case.word(1)? {
        "new" => {
            *held = Some(made(alloc, case)?);
            fixed(alloc, "ok")
        }
        "inner" => inner(alloc, held.take()),
        _ => match held {
            Some(shelf) => asked(alloc, shelf, case),
            None => Err(NoAnswer::Question),
        },
    }
}

/// How many shares a shelf holds under the failures, which is taken from the bench.
fn inner(alloc: Global, held: Option<FailShelf>) -> Result<String, NoAnswer> {
    let Some(shelf) = held else {
        return Err(NoAnswer::Question);
    };
    let mut inner = shelf.into_inner();
    count(alloc, &mut inner)
}

/// The answer of the shelf.
fn asked(alloc: Global, shelf: &mut FailShelf, case: &Case<'_>) -> Result<String, NoAnswer> {
    match case.word(1)? {
        "moment" => debug(alloc, &shelf.inner().moment()),
        "left" => left(alloc, shelf, case),
        _ => calls(alloc, shelf, INDEX, case, 1),
    }
}

/// How many shares a crash after the moment at place 2 leaves.
fn left(alloc: Global, shelf: &FailShelf, case: &Case<'_>) -> Result<String, NoAnswer> {
    let mut left = left_at(alloc, shelf, case, 2)?;
    count(alloc, &mut left)
}
