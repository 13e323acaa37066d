//! Stores whose bytes are on a shelf: what each call answers, and what a shelf that fails or rots leaves.
use crate::shelves::in_memory::{failure_at, left_at, left_now};
use crate::shelves::store_calls::calls;
use crate::lines::{Case, NoAnswer, debug};
use share_shelf::{FailShelf, MemShelf, OpenFault};
use shelf_store::ShelfStore;
use std::alloc::Global;

/// A shelf that rots.
mod rotting;

/// A store over a shelf that fails at its `at`-th call. The open makes a call to list, and one for each share.
fn over_failing(
    alloc: Global,
    inner: MemShelf,
    room: u64,
    failure: (u64, bool, bool),
) -> Result<ShelfStore<FailShelf>, OpenFault> {
    let (at, for_good, is_done) = failure;
    inner.settled();
    match ShelfStore::open(alloc, FailShelf::new(inner, at, for_good, is_done), room) {
        Ok(store) => Ok(store),
        Err((fault, _shelf)) => Err(fault),
    }
}

/// A store over a copy of the shelf in memory, with the room and the failure that stand from place 2 on.
fn over(
    alloc: Global,
    shelf: &Option<FailShelf>,
    case: &Case<'_>,
) -> Result<Result<ShelfStore<FailShelf>, OpenFault>, NoAnswer> {
    let room = case.number(2)?;
    let failure = failure_at(case, 3)?;
    let inner = left_now(alloc, shelf)?;
    Ok(over_failing(alloc, inner, room, failure))
}

/// The answer to a case of a store. `over` and `rotting` open one over a copy of the shelf in memory.
pub fn answer(
    alloc: Global,
    shelf: &Option<FailShelf>,
    held: &mut Option<ShelfStore<FailShelf>>,
    case: &Case<'_>,
) -> Result<String, NoAnswer> {
    match case.word(1)? {
        "over" => match over(alloc, shelf, case)? {
            Ok(store) => *held = Some(store),
            Err(fault) => return debug(alloc, &fault),
        },
        "rotting" => return rotting::answer(alloc, shelf, case),
        _ => {}
    }
    match held {
        Some(store) => asked(alloc, store, case),
        None => Err(NoAnswer::Question),
    }
}

/// The answer of the store.
fn asked(
    alloc: Global,
    store: &mut ShelfStore<FailShelf>,
    case: &Case<'_>,
) -> Result<String, NoAnswer> {
    match case.word(1)? {
        "left" => left(alloc, store.shelf(), case),
        "over" => calls(alloc, store, case, 6),
        _ => calls(alloc, store, case, 1),
    }
}

/// The answers of a store that is opened over what a crash after the moment at place 2 leaves.
fn left(alloc: Global, shelf: &FailShelf, case: &Case<'_>) -> Result<String, NoAnswer> {
    let room = case.number(3)?;
    let inner = left_at(alloc, shelf, case, 2)?;
    match over_failing(alloc, inner, room, (0, false, false)) {
        Ok(mut store) => calls(alloc, &mut store, case, 4),
        Err(fault) => debug(alloc, &fault),
    }
}
