//! Calls of any store: `has NUMBER`, `numbers`, `get NUMBER`, `gather LIMIT`, `prefetch LIMIT`, `prefetch-another LIMIT`
//! (under another index), `nth PLACE`, `put NUMBER BYTES`, `lose NUMBER`, `toggle NUMBER PLACE` and `failures`.
use crate::shelves::shelf_calls::share_at;
use crate::shelves::in_memory::INDEX;
use crate::shelves::texts::{add, given};
use crate::lines::{Case, NoAnswer, debug, fixed, shown, told};
use share_store::Store;
use std::alloc::Global;
use std::rc::RcSlice;

/// The storage index of no share.
const ANOTHER: [u8; 16] = [8; 16];

/// The answers of a store to the calls that stand from a place on, each with how many bytes the store holds then, and
/// how many it has room for in all.
pub fn calls<S: Store>(
    alloc: Global,
    store: &mut S,
    case: &Case<'_>,
    from: usize,
) -> Result<String, NoAnswer> {
    let mut answers = String::new(alloc);
    for at in from..case.len() {
        if let Some(answer) = call(alloc, store, case, at)? {
            let answer = with_bytes(alloc, store, &answer)?;
            add(&mut answers, &answer)?;
        }
    }
    Ok(answers)
}

/// An answer, how many bytes a store holds, and how many it has room for in all.
fn with_bytes<S: Store>(alloc: Global, store: &mut S, answer: &str) -> Result<String, NoAnswer> {
    let held = store.held();
    let room = store.room().saturating_add(held);
    Ok(format!(in alloc; "{answer} {held}/{room}")?)
}

/// The answer to the call that begins at a place, if one does.
pub fn call<S: Store>(
    alloc: Global,
    store: &mut S,
    case: &Case<'_>,
    at: usize,
) -> Result<Option<String>, NoAnswer> {
    let answer = match case.word(at)? {
        "numbers" => told(alloc, store.numbers(INDEX)),
        "failures" => debug(alloc, &store.failures()),
        "has" => has(alloc, store, case, at),
        "get" => get(alloc, store, case, at),
        "gather" => gather(alloc, store, case, at),
        "prefetch" => prefetch(alloc, store, INDEX, number_of(case, at)?),
        "prefetch-another" => prefetch(alloc, store, ANOTHER, number_of(case, at)?),
        "nth" => nth(alloc, store, case, at),
        "put" => put(alloc, store, case, at),
        "lose" => lose(alloc, store, case, at),
        "toggle" => toggle(alloc, store, case, at),
        _ => return Ok(None),
    };
    Ok(Some(answer?))
}

/// The share's number of the call that begins at a place.
fn number_of(case: &Case<'_>, at: usize) -> Result<u16, NoAnswer> {
    case.small(at.saturating_add(1))
}

/// Whether a share stands.
fn has<S: Store>(
    alloc: Global,
    store: &mut S,
    case: &Case<'_>,
    at: usize,
) -> Result<String, NoAnswer> {
    let number = number_of(case, at)?;
    told(alloc, store.has(INDEX, number))
}

/// The bytes of a share.
fn get<S: Store>(
    alloc: Global,
    store: &mut S,
    case: &Case<'_>,
    at: usize,
) -> Result<String, NoAnswer> {
    let number = number_of(case, at)?;
    given(alloc, store.get(INDEX, number))
}

/// The shares of numbers below a limit, each as its number and its bytes.
fn gather<S: Store>(
    alloc: Global,
    store: &mut S,
    case: &Case<'_>,
    at: usize,
) -> Result<String, NoAnswer> {
    let limit = number_of(case, at)?;
    match store.gather(INDEX, Some(limit)) {
        Ok(shares) => listed(alloc, &shares),
        Err(fault) => debug(alloc, &fault),
    }
}

/// `ok`, once the store was told that shares of numbers below a limit will be gathered.
fn prefetch<S: Store>(
    alloc: Global,
    store: &mut S,
    index: [u8; 16],
    limit: u16,
) -> Result<String, NoAnswer> {
    store.prefetch(index, Some(limit));
    fixed(alloc, "ok")
}

/// Shares as text: each as its number, a sign and its bytes, between brackets.
fn listed(alloc: Global, shares: &[(u16, RcSlice<u8>)]) -> Result<String, NoAnswer> {
    let mut text = String::from_str(alloc, "[")?;
    for (number, bytes) in shares {
        if text.len() > 1 {
            text.push_str(" ")?;
        }
        let bytes = shown(alloc, bytes.as_slice())?;
        let share = format!(in alloc; "{number}={bytes}")?;
        text.push_str(&share)?;
    }
    text.push_str("]")?;
    Ok(text)
}

/// The bytes of the share at a place among all.
fn nth<S: Store>(
    alloc: Global,
    store: &mut S,
    case: &Case<'_>,
    at: usize,
) -> Result<String, NoAnswer> {
    let place = case.number(at.saturating_add(1))?;
    match store.nth(place) {
        Ok(Some(share)) => Ok(shown(alloc, share.bytes.as_slice())?),
        Ok(None) => fixed(alloc, "none"),
        Err(fault) => debug(alloc, &fault),
    }
}

/// Puts a share.
fn put<S: Store>(
    alloc: Global,
    store: &mut S,
    case: &Case<'_>,
    at: usize,
) -> Result<String, NoAnswer> {
    let number = number_of(case, at)?;
    let share = share_at(alloc, case, at.saturating_add(2))?;
    told(alloc, store.put(INDEX, number, share))
}

/// Loses a share.
fn lose<S: Store>(
    alloc: Global,
    store: &mut S,
    case: &Case<'_>,
    at: usize,
) -> Result<String, NoAnswer> {
    let number = number_of(case, at)?;
    told(alloc, store.lose(INDEX, number))
}

/// Changes the lowest bit of a byte of a share.
fn toggle<S: Store>(
    alloc: Global,
    store: &mut S,
    case: &Case<'_>,
    at: usize,
) -> Result<String, NoAnswer> {
    let number = number_of(case, at)?;
    let place = case.number(at.saturating_add(2))?;
    told(alloc, store.toggle(INDEX, number, place))
}
