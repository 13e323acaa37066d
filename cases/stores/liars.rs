//! A store that lies.
ghost use Rattle.octets.specs.Sharing.{IsSharing};

use crate::stores::files::fault_of_begin;
use caps::{Cap, ReadFields, VerifyCap, weaken};
use crate::lines::{Case, NoAnswer, debug};
use chk_file::{Cache, Health, ReadFault, check, read, upload};
use grid::{Grid, GridFault};
use share_store::{Liar, Store};
use std::alloc::{AllocError, Global};
use std::rc::RcSlice;

/// A store that gives the bytes at the places from 2 on in turn, up to the end or a word `|`.
fn liar_of(alloc: Global, case: &Case<'_>) -> Result<Liar, NoAnswer> {
    let mut answers = Vec::new(alloc);
    for at in 2..case.len() {
        if case.word(at)? == "|" {
            break;
        }
        answers.push(RcSlice::from_vec(case.bytes(alloc, at)?)?)?;
    }
    Ok(Liar::new(alloc, answers))
}

/// The answer to a case of a liar.
pub fn answer(alloc: Global, case: &Case<'_>) -> Result<String, NoAnswer> {
    let mut liar = liar_of(alloc, case)?;
    match case.word(1)? {
        "has" => debug(alloc, &liar.has([7; 16], 9)?),
        "numbers" => debug(alloc, &liar.numbers([7; 16])?.len()),
        "thrice" => {
            let lengths = [given(&mut liar)?, given(&mut liar)?, given(&mut liar)?];
            debug(alloc, &lengths)
        }
        "file" => file(alloc, liar, case),
        _ => Err(NoAnswer::Question),
    }
}

/// What comes of a file that is stored at a liar alone, with the k, n and bytes that stand from place 4 on: of a read, of
/// beginning a download, and how many good and corrupt shares a check finds.
fn file(alloc: Global, liar: Liar, case: &Case<'_>) -> Result<String, NoAnswer> {
    let (k, n) = (case.small(4)?, case.small(5)?);
    if !octets::is_sharing(k, n) {
        return Err(NoAnswer::Word(4));
    }
    let bytes = case.bytes(alloc, 6)?;
    let mut stores = Vec::new(alloc);
    stores.push(liar)?;
    let mut grid = Grid::new(stores);
    stored_and_found(alloc, &mut grid, k, n, bytes)
}

/// The same over a grid of a liar. Each of its calls has a cache of its own, in a function of its own: a function that owns a
/// cache and may leave at several places is dear to prove.
fn stored_and_found(
    alloc: Global,
    grid: &mut Grid<Liar>,
    k: u16,
    n: u16,
    bytes: Vec<u8>,
) -> Result<String, NoAnswer>
    requires { IsSharing k n }
{
    match stored(alloc, grid, k, n, bytes)? {
        Ok(cap) => found_of(alloc, grid, &cap),
        Err(fault) => debug(alloc, &fault),
    }
}

/// What an upload says.
fn stored(
    alloc: Global,
    grid: &mut Grid<Liar>,
    k: u16,
    n: u16,
    bytes: Vec<u8>,
) -> Result<Result<Cap, GridFault>, AllocError>
    requires { IsSharing k n }
{
    let mut cache = Cache::new(alloc)?;
    Ok(upload(alloc, grid, &mut cache, k, n, b"", bytes))
}

/// What is found of a file.
fn found_of(alloc: Global, grid: &mut Grid<Liar>, cap: &Cap) -> Result<String, NoAnswer> {
    let (Cap::Chk(fields), Some(verify_cap)) = (cap, weaken(cap)) else {
        return Err(NoAnswer::Question);
    };
    let read = fault_of_read(alloc, grid, fields)?;
    let begun = fault_of_begin(alloc, grid, fields)?;
    let found = checked(alloc, grid, &verify_cap)??;
    debug(alloc, &(read, begun, found.good, found.corrupt.len()))
}

/// Why a read is refused, if it is.
fn fault_of_read(
    alloc: Global,
    grid: &mut Grid<Liar>,
    fields: &ReadFields,
) -> Result<Option<ReadFault>, AllocError> {
    let mut cache = Cache::new(alloc)?;
    Ok(read(alloc, grid, &mut cache, fields).err())
}

/// What a check says that verifies.
fn checked(
    alloc: Global,
    grid: &mut Grid<Liar>,
    verify_cap: &VerifyCap,
) -> Result<Result<Health, AllocError>, AllocError> {
    let mut cache = Cache::new(alloc)?;
    Ok(check(alloc, grid, &mut cache, verify_cap, true))
}

/// How many bytes it gives, if it gives any.
fn given(liar: &mut Liar) -> Result<Option<usize>, NoAnswer> {
    Ok(liar.get([7; 16], 0)?.map(|bytes| bytes.len()))
}
