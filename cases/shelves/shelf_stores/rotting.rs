//! A shelf that rots, and stores over it.
ghost use Rattle.std.specs.Prelude.{false};
ghost use Rattle.std.specs.FinMap as map;

use crate::shelves::in_memory::left_now;
use crate::shelves::store_calls::calls;
use crate::lines::{Case, NoAnswer, debug};
use share_shelf::{FailShelf, MemShelf, OpenFault, Shelf, ShelfFault};
use shelf_store::ShelfStore;
use std::alloc::Global;
use std::rc::RcSlice;

/// A shelf that gives so many shares as they are, and then for each so many bytes, each 0, or none, until one is put: from
/// then on it is sound.
#[derive(Drop)]
struct RottingShelf {
    alloc: Global,
    inner: MemShelf,
    sound: u64,
    left: Option<usize>,
}

impl Shelf for RottingShelf {
    ghost honest = { λ shelf. false };

    ghost moment = { λ shelf. 0 };

    ghost left_since = { λ shelf t c. Unit {0} };

    ghost shares = { λ shelf. map.empty };

    ghost failures = { λ shelf. 0 };

    fn list(&mut self, alloc: Global) -> Result<Vec<([u8; 16], u16)>, ShelfFault> {
        self.inner.list(alloc)
    }

    fn read(&mut self, index: [u8; 16], number: u16) -> Result<Option<RcSlice<u8>>, ShelfFault> {
        if self.sound > 0 {
            self.sound -= 1;
            return self.inner.read(index, number);
        }
        match self.left {
            None => Ok(None),
            Some(length) => Ok(Some(RcSlice::from_vec(vec![in self.alloc; 0u8; length]?)?)),
        }
    }

    fn put(&mut self, index: [u8; 16], number: u16, bytes: RcSlice<u8>) -> Result<(), ShelfFault> {
        self.sound = u64::MAX;
        self.inner.put(index, number, bytes)
    }

    fn remove(&mut self, index: [u8; 16], number: u16) -> Result<(), ShelfFault> {
        self.inner.remove(index, number)
    }

    ghost narrows = { λ shelf t u c le left. left };

    ghost keeps = { λ shelf m honest keeps. cc };
}

/// How many bytes 0 the shelf gives, where it gives any: a decimal number, or `none`.
fn length_at(case: &Case<'_>, at: usize) -> Result<Option<usize>, NoAnswer> {
    if case.word(at)? == "none" {
        return Ok(None);
    }
    Ok(Some(case.number(at)? as usize))
}

/// A store over a shelf that rots after so many reads. The open makes one for each share.
fn over_rotting(
    alloc: Global,
    inner: MemShelf,
    room: u64,
    rot: (u64, Option<usize>),
) -> Result<ShelfStore<RottingShelf>, (OpenFault, RottingShelf)> {
    let (sound, left) = rot;
    let shelf = RottingShelf {
        alloc,
        inner,
        sound,
        left,
    };
    ShelfStore::open(alloc, shelf, room)
}

/// The answers of a store over a copy of the shelf in memory: its room, after how many reads the shelf rots, and what is
/// left then stand from place 2 on.
pub(super) fn answer(
    alloc: Global,
    shelf: &Option<FailShelf>,
    case: &Case<'_>,
) -> Result<String, NoAnswer> {
    let room = case.number(2)?;
    let sound = case.number(3)?;
    let left = length_at(case, 4)?;
    let inner = left_now(alloc, shelf)?;
    match over_rotting(alloc, inner, room, (sound, left)) {
        Ok(mut store) => calls(alloc, &mut store, case, 5),
        Err((fault, _shelf)) => debug(alloc, &fault),
    }
}
