//! A grid of stores in memory, one of which may fail.
ghost use Rattle.std.specs.Prelude.{◌≡◌, ◌<◌, All, IfOk, vec_len};
ghost use Rattle.std.specs.Prelude.{length as length_of};
ghost use Rattle.std.specs.Rc.{rc_slice_items};

use crate::stores::one_store::{number_at, store_of};
use crate::lines::{Case, NoAnswer, debug, done, fixed, told};
use grid::Grid;
use share_store::{FailAt, Store};
use std::alloc::Global;
use std::rc::RcSlice;

/// A storage index of bytes 9, save the last one.
fn index_of(last: u8) -> [u8; 16] {
    let mut index = [9; 16];
    index[15] = last;
    index
}

/// The storage index whose last byte stands at a place.
fn index_at(case: &Case<'_>, at: usize) -> Result<[u8; 16], NoAnswer> {
    Ok(index_of(case.byte(at)?))
}

/// So many stores that hold nothing, of which a server's fails at a call.
pub fn stores_of(
    alloc: Global,
    count: usize,
    room: u64,
    failure: (usize, u64, &str),
) -> Result<Vec<FailAt>, NoAnswer>
    ensures count { IfOk result (λ stores. vec_len stores ≡ count) }
    ensures empty { IfOk result (λ stores.
        All (λ store. ⟦<FailAt as Store>⟧.held store ≡ 0) stores.items) }
{
    let (server, at, how) = failure;
    let mut stores = Vec::new(alloc);
    for place in 0..count {
        let at = if place == server { at } else { 0 };
        stores.push(store_of(alloc, room, at, how))?;
    }
    Ok(stores)
}

/// The failure that words from a place on name: a server, a call from 1, and `once` or `for-good`.
pub fn failure_at<'a>(case: &Case<'a>, at: usize) -> Result<(usize, u64, &'a str), NoAnswer> {
    if case.len() <= at {
        return Ok((0, 0, "once"));
    }
    Ok((
        case.number(at)? as usize,
        case.number(at.saturating_add(1))?,
        case.word(at.saturating_add(2))?,
    ))
}

/// How many servers the word at a place says: 1 to 256.
pub fn servers_at(case: &Case<'_>, at: usize) -> Result<usize, NoAnswer>
    ensures { IfOk result (λ count. (0 < count) × (count < 257)) }
{
    let count = case.number(at)? as usize;
    if count == 0 || count > 256 {
        return Err(NoAnswer::Word(at));
    }
    Ok(count)
}

/// The answer to a case of a grid.
pub fn answer(
    alloc: Global,
    held: &mut Option<Grid<FailAt>>,
    case: &Case<'_>,
) -> Result<String, NoAnswer> {
    if case.word(1)? == "new" {
        let count = servers_at(case, 2)?;
        let stores = stores_of(alloc, count, case.number(3)?, failure_at(case, 4)?)?;
        *held = Some(Grid::new(stores));
        return fixed(alloc, "ok");
    }
    match held {
        Some(grid) => asked(alloc, grid, case),
        None => Err(NoAnswer::Question),
    }
}

/// The answer of a grid.
fn asked(alloc: Global, grid: &mut Grid<FailAt>, case: &Case<'_>) -> Result<String, NoAnswer> {
    match case.word(1)? {
        "put" => {
            let shares = shares_of(alloc, case.byte(3)?)?;
            done(alloc, grid.put_all(index_at(case, 2)?, &shares))
        }
        "gather" => gathered(alloc, grid, index_at(case, 2)?),
        "gather-below" => {
            let index = index_at(case, 2)?;
            listed(alloc, grid.gather_below(index, number_at(case, 3)?)?)
        }
        "lose" => {
            let (server, number) = (case.number(2)? as usize, number_at(case, 4)?);
            told(alloc, grid.lose(server, index_at(case, 3)?, number))
        }
        "spoil" => {
            let (server, number) = (case.number(2)? as usize, number_at(case, 4)?);
            told(
                alloc,
                grid.spoil(server, index_at(case, 3)?, number, case.number(5)?),
            )
        }
        _ => Err(NoAnswer::Question),
    }
}

/// Shares of three bytes each, share i of the bytes i.
pub fn shares_of(alloc: Global, count: u8) -> Result<Vec<RcSlice<u8>>, NoAnswer>
    ensures count { IfOk result (λ shares. vec_len shares ≡ count) }
    ensures some { IfOk result (λ shares.
        All (λ share. 0 < length_of (rc_slice_items share)) shares.items) }
{
    let mut shares = Vec::new(alloc);
    for i in 0..count {
        shares.push(RcSlice::from_vec(vec![in alloc; i; 3]?)?)?;
    }
    Ok(shares)
}

/// The server, the number and the last byte of each share under an index.
pub fn gathered<S: Store>(
    alloc: Global,
    grid: &mut Grid<S>,
    index: [u8; 16],
) -> Result<String, NoAnswer> {
    listed(alloc, grid.gather(index)?)
}

/// The server, the number and the last byte of each of these shares.
fn listed(alloc: Global, shares: Vec<(usize, u16, RcSlice<u8>)>) -> Result<String, NoAnswer> {
    let mut found = Vec::new(alloc);
    for (server, number, bytes) in shares {
        found.push((
            server,
            number,
            bytes.as_slice().last().copied().unwrap_or(0),
        ))?;
    }
    debug(alloc, &found)
}
