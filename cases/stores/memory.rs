//! Files on a grid of stores in memory, which can be prepared before they are read.
ghost use Rattle.std.specs.Prelude.{◌<◌};

use crate::stores::files::{self, Files};
use crate::stores::grids::servers_at;
use crate::lines::{Case, NoAnswer, fixed};
use grid::Grid;
use share_store::MemStore;
use std::alloc::Global;

/// A grid of stores in memory, and the files on it.
pub struct Memory {
    /// The grid.
    grid: Option<Grid<MemStore>>,
    /// Its files.
    files: Files,
}

// Its own, so that what owns one calls it: a derived drop is spelled out wherever a value may be dropped.
impl Drop for Memory {
    fn drop(self) {
        let Memory { grid: _, files: _ } = self;
    }
}

impl Memory {
    /// Nothing yet.
    pub fn new(alloc: Global) -> Memory {
        Memory {
            grid: None,
            files: Files::new(alloc),
        }
    }

    /// Begins with this grid, and no file.
    fn begin(&mut self, alloc: Global, grid: Grid<MemStore>) {
        self.grid = Some(grid);
        self.files = Files::new(alloc);
    }

    /// The answer to a case: a new grid of so many servers with so much room, or what a file's case asks.
    pub fn answer(&mut self, alloc: Global, case: &Case<'_>) -> Result<String, NoAnswer> {
        if case.word(1)? == "new" {
            let grid = grid_of(alloc, servers_at(case, 2)?, case.number(3)?)?;
            self.begin(alloc, grid);
            return fixed(alloc, "ok");
        }
        match &mut self.grid {
            Some(grid) => files::answer(alloc, grid, &mut self.files, case),
            None => Err(NoAnswer::Question),
        }
    }
}

/// A grid of so many servers that hold nothing.
fn grid_of(alloc: Global, count: usize, room: u64) -> Result<Grid<MemStore>, NoAnswer>
    requires { (0 < count) × (count < 257) }
{
    let mut stores = Vec::new(alloc);
    for place in 0..count {
        let _ = place;
        stores.push(MemStore::new(alloc, room))?;
    }
    Ok(Grid::new(stores))
}
