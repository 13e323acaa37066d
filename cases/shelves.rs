//! Cases of shelves, and of stores that stand on them: a shelf in memory, a store of each kind, and a file system with a
//! folder.

/// Folders of files as shelves.
mod folders;
/// Shelves in memory.
mod in_memory;
/// Stores in memory with a shelf beside them.
mod kept_stores;
/// Stores on a Redis server.
mod redis_stores;
/// Calls of shelves.
mod shelf_calls;
/// Stores whose bytes are on a shelf.
mod shelf_stores;
/// Calls of stores.
mod store_calls;
/// Answers as text.
mod texts;

use crate::lines::{Answers, Case, NoAnswer};
use folders::Folder;
use kept_store::KeptStore;
use redis_store::RedisStore;
use redis_stores::Played;
use share_shelf::FailShelf;
use shelf_store::ShelfStore;
use std::alloc::Global;

/// What the cases are about.
pub struct Shelves {
    /// The shelf in memory. Stores are opened over copies of it.
    shelf: Option<FailShelf>,
    /// A store in memory with a shelf beside it.
    kept: Option<KeptStore<FailShelf>>,
    /// A store whose bytes are on a shelf.
    stored: Option<ShelfStore<FailShelf>>,
    /// A file system in memory, and a shelf in a folder of it.
    folder: Option<Folder>,
    /// A store on a server that answers what it was told to.
    shared: Option<RedisStore<Played>>,
}

// Its own, so that what owns one calls it: a derived drop is spelled out wherever a value may be dropped.
impl Drop for Shelves {
    fn drop(self) {
        let Shelves {
            shelf: _,
            kept: _,
            stored: _,
            folder: _,
            shared: _,
        } = self;
    }
}

impl Shelves {
    /// Nothing yet.
    pub fn new() -> Shelves {
        Shelves {
            shelf: None,
            kept: None,
            stored: None,
            folder: None,
            shared: None,
        }
    }
}

impl Answers for Shelves {
    fn answer(&mut self, alloc: Global, case: &Case<'_>) -> Result<String, NoAnswer> {
        match case.word(0)? {
            "shelf" => in_memory::answer(alloc, &mut self.shelf, case),
            "kept" => kept_stores::answer(alloc, &self.shelf, &mut self.kept, case),
            "stored" => shelf_stores::answer(alloc, &self.shelf, &mut self.stored, case),
            "folder" => folders::answer(alloc, &mut self.folder, case),
            "shared" => redis_stores::answer(alloc, &mut self.shared, case),
            _ => Err(NoAnswer::Question),
        }
    }
}
