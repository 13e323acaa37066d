//! Calls of any shelf: `put NUMBER BYTES`, `remove NUMBER`, `read NUMBER`, `list` and `count`.
ghost use Rattle.std.specs.Prelude.{◌<◌, IfOk, length as length_of};
ghost use Rattle.std.specs.Rc.{rc_slice_items};

use crate::shelves::texts::{add, given};
use crate::lines::{Case, NoAnswer, debug, done};
use share_shelf::Shelf;
use std::alloc::Global;
use std::rc::RcSlice;

/// The share at a place, which has some bytes.
pub fn share_at(alloc: Global, case: &Case<'_>, at: usize) -> Result<RcSlice<u8>, NoAnswer>
    ensures { IfOk result (λ share. 0 < length_of (rc_slice_items share)) }
{
    let share = RcSlice::from_vec(case.bytes(alloc, at)?)?;
    if share.as_slice().is_empty() {
        return Err(NoAnswer::Word(at));
    }
    Ok(share)
}

/// The answers of a shelf to the calls that stand from a place on, all of shares under this index.
pub fn calls<H: Shelf>(
    alloc: Global,
    shelf: &mut H,
    index: [u8; 16],
    case: &Case<'_>,
    from: usize,
) -> Result<String, NoAnswer> {
    let mut answers = String::new(alloc);
    for at in from..case.len() {
        if let Some(answer) = call(alloc, shelf, index, case, at)? {
            add(&mut answers, &answer)?;
        }
    }
    Ok(answers)
}

/// The answer to the call that begins at a place, if one does.
pub fn call<H: Shelf>(
    alloc: Global,
    shelf: &mut H,
    index: [u8; 16],
    case: &Case<'_>,
    at: usize,
) -> Result<Option<String>, NoAnswer> {
    let answer = match case.word(at)? {
        "put" => put(alloc, shelf, index, case, at),
        "remove" => remove(alloc, shelf, index, case, at),
        "read" => read(alloc, shelf, index, case, at),
        "list" => list(alloc, shelf),
        "count" => count(alloc, shelf),
        _ => return Ok(None),
    };
    Ok(Some(answer?))
}

/// Puts a share.
fn put<H: Shelf>(
    alloc: Global,
    shelf: &mut H,
    index: [u8; 16],
    case: &Case<'_>,
    at: usize,
) -> Result<String, NoAnswer> {
    let number = case.small(at.saturating_add(1))?;
    let share = share_at(alloc, case, at.saturating_add(2))?;
    done(alloc, shelf.put(index, number, share))
}

/// Removes a share.
fn remove<H: Shelf>(
    alloc: Global,
    shelf: &mut H,
    index: [u8; 16],
    case: &Case<'_>,
    at: usize,
) -> Result<String, NoAnswer> {
    let number = case.small(at.saturating_add(1))?;
    done(alloc, shelf.remove(index, number))
}

/// The bytes of a share.
fn read<H: Shelf>(
    alloc: Global,
    shelf: &mut H,
    index: [u8; 16],
    case: &Case<'_>,
    at: usize,
) -> Result<String, NoAnswer> {
    let number = case.small(at.saturating_add(1))?;
    given(alloc, shelf.read(index, number))
}

/// The numbers of the shares that are listed.
fn list<H: Shelf>(alloc: Global, shelf: &mut H) -> Result<String, NoAnswer> {
    let mut numbers = Vec::new(alloc);
    match shelf.list(alloc) {
        Ok(names) => {
            for name in &names {
                numbers.push(name.1)?;
            }
            debug(alloc, &numbers)
        }
        Err(fault) => debug(alloc, &fault),
    }
}

/// How many shares are listed.
pub fn count<H: Shelf>(alloc: Global, shelf: &mut H) -> Result<String, NoAnswer> {
    match shelf.list(alloc) {
        Ok(names) => debug(alloc, &names.len()),
        Err(fault) => debug(alloc, &fault),
    }
}
