//! Stores in memory with a shelf beside them: crashes at each moment, and shelves that fail.
use crate::shelves::in_memory::{INDEX, failure_at, left_at, left_now};
use crate::shelves::store_calls::calls;
use crate::lines::{Case, NoAnswer, debug};
use kept_store::{Call, KeptStore};
use share_shelf::{FailShelf, MemShelf, OpenFault};
use std::alloc::Global;
use std::rc::RcSlice;

/// A store over a shelf that fails at its `at`-th call. The open makes a call to list, and one for each share.
fn over_failing(
    alloc: Global,
    inner: MemShelf,
    room: u64,
    failure: (u64, bool, bool),
) -> Result<KeptStore<FailShelf>, OpenFault> {
    let (at, for_good, is_done) = failure;
    inner.settled();
    KeptStore::open(alloc, FailShelf::new(inner, at, for_good, is_done), room)
}

/// A store over a copy of the shelf in memory, with the room and the failure that stand from place 2 on.
fn over(
    alloc: Global,
    shelf: &Option<FailShelf>,
    case: &Case<'_>,
) -> Result<Result<KeptStore<FailShelf>, OpenFault>, NoAnswer> {
    let room = case.number(2)?;
    let failure = failure_at(case, 3)?;
    let inner = left_now(alloc, shelf)?;
    Ok(over_failing(alloc, inner, room, failure))
}

/// The answer to a case of a store. `over` opens it over a copy of the shelf in memory.
pub fn answer(
    alloc: Global,
    shelf: &Option<FailShelf>,
    held: &mut Option<KeptStore<FailShelf>>,
    case: &Case<'_>,
) -> Result<String, NoAnswer> {
    if case.word(1)? == "over" {
        match over(alloc, shelf, case)? {
            Ok(store) => *held = Some(store),
            Err(fault) => return debug(alloc, &fault),
        }
    }
    match held {
        Some(store) => asked(alloc, store, case),
        None => Err(NoAnswer::Question),
    }
}

/// The answer of the store.
fn asked(
    alloc: Global,
    store: &mut KeptStore<FailShelf>,
    case: &Case<'_>,
) -> Result<String, NoAnswer> {
    match case.word(1)? {
        "moment" => debug(alloc, &store.shelf().inner().moment()),
        "left" => left(alloc, store.shelf(), case),
        "run" => run(alloc, store, case),
        "over" => calls(alloc, store, case, 6),
        _ => calls(alloc, store, case, 1),
    }
}

/// The answers of a store that is opened over what a crash after the moment at place 2 leaves.
fn left(alloc: Global, shelf: &FailShelf, case: &Case<'_>) -> Result<String, NoAnswer> {
    let room = case.number(3)?;
    let inner = left_at(alloc, shelf, case, 2)?;
    match over_failing(alloc, inner, room, (0, false, false)) {
        Ok(mut store) => calls(alloc, &mut store, case, 4),
        Err(fault) => debug(alloc, &fault),
    }
}

/// What a run of the changes that stand from place 2 on answers.
fn run(
    alloc: Global,
    store: &mut KeptStore<FailShelf>,
    case: &Case<'_>,
) -> Result<String, NoAnswer> {
    let mut changes = Vec::new(alloc);
    for at in 2..case.len() {
        if let Some(change) = change_at(alloc, case, at)? {
            changes.push(change)?;
        }
    }
    let mut answers = Vec::new(alloc);
    store.run(&changes, &mut answers)?;
    debug(alloc, &answers)
}

/// The change that begins at a place, if one does. What is put may have no bytes.
fn change_at(alloc: Global, case: &Case<'_>, at: usize) -> Result<Option<Call>, NoAnswer> {
    let change = match case.word(at)? {
        "put" => put_at(alloc, case, at),
        "lose" => lose_at(case, at),
        "toggle" => toggle_at(case, at),
        _ => return Ok(None),
    };
    Ok(Some(change?))
}

/// A put of the share whose number and bytes stand behind a place.
fn put_at(alloc: Global, case: &Case<'_>, at: usize) -> Result<Call, NoAnswer> {
    let number = case.small(at.saturating_add(1))?;
    let bytes = case.bytes(alloc, at.saturating_add(2))?;
    Ok(Call::Put(INDEX, number, RcSlice::from_vec(bytes)?))
}

/// A loss of the share whose number stands behind a place.
fn lose_at(case: &Case<'_>, at: usize) -> Result<Call, NoAnswer> {
    let number = case.small(at.saturating_add(1))?;
    Ok(Call::Lose(INDEX, number))
}

/// A toggle of the byte whose share and place stand behind a place.
fn toggle_at(case: &Case<'_>, at: usize) -> Result<Call, NoAnswer> {
    let number = case.small(at.saturating_add(1))?;
    let place = case.number(at.saturating_add(2))?;
    Ok(Call::Toggle(INDEX, number, place))
}
