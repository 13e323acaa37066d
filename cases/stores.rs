//! Cases of stores, grids and files: one store, one grid, one image, and the files that were stored last; and another grid, of
//! stores in memory, with its files.

/// Files on a grid.
mod files;
/// Placement, loss and spoiling.
mod grids;
/// Images of grids.
mod images;
/// A store that lies.
mod liars;
/// Files that are prepared before they are read.
mod memory;
/// A store of shares.
mod one_store;
/// Answers as text.
mod texts;

use crate::lines::{Answers, Case, NoAnswer};
use files::Files;
use grid::Grid;
use memory::Memory;
use share_store::FailAt;
use std::alloc::Global;

/// What the cases are about.
pub struct Stores {
    /// The store of the cases that begin with `store`.
    pub store: Option<FailAt>,
    /// The grid.
    pub grid: Option<Grid<FailAt>>,
    /// The stores that the image last refused left.
    pub left: Vec<FailAt>,
    /// The files of the grid.
    pub files: Files,
    /// The grid of stores in memory, with its files.
    pub memory: Memory,
}

// Its own, so that what owns one calls it: a derived drop is spelled out wherever a value may be dropped.
impl Drop for Stores {
    fn drop(self) {
        let Stores {
            store: _,
            grid: _,
            left: _,
            files: _,
            memory: _,
        } = self;
    }
}

impl Stores {
    /// Nothing yet.
    pub fn new(alloc: Global) -> Stores {
        Stores {
            store: None,
            grid: None,
            left: Vec::new(alloc),
            files: Files::new(alloc),
            memory: Memory::new(alloc),
        }
    }
}

impl Answers for Stores {
    fn answer(&mut self, alloc: Global, case: &Case<'_>) -> Result<String, NoAnswer> {
        match case.word(0)? {
            "store" => one_store::answer(alloc, &mut self.store, case),
            "grid" => grids::answer(alloc, &mut self.grid, case),
            "image" => images::answer(alloc, &mut self.grid, &mut self.left, case),
            "file" => match &mut self.grid {
                Some(grid) => files::answer(alloc, grid, &mut self.files, case),
                None => Err(NoAnswer::Question),
            },
            "memory" => self.memory.answer(alloc, case),
            "liar" => liars::answer(alloc, case),
            _ => Err(NoAnswer::Question),
        }
    }
}
