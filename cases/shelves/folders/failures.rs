//! Places of failure, one after the other: what a put or an open leaves of which a call failed, and then the machine.
use super::index_from;
use super::mem_files::MemFiles;
use crate::lines::{Case, NoAnswer, fixed};
use folder_shelf::{FileShelf, FolderFault, FolderShelf, StoreSettings};
use share_shelf::Shelf;
use std::alloc::Global;
use std::rc::RcSlice;

/// The shelf in the folder `/d`.
fn opened(files: &MemFiles) -> Result<FileShelf<MemFiles>, FolderFault> {
    let settings = StoreSettings::new(3, 10, 3, 10, b"swordfish");
    FolderShelf::open(files.clone()?, "/d", &settings, true)
}

/// Puts share 7.
fn put(alloc: Global, shelf: &mut FileShelf<MemFiles>, bytes: &[u8]) -> Result<(), FolderFault> {
    let share = RcSlice::from_vec(bytes.to_vec(alloc)?)?;
    if share.as_slice().is_empty() {
        return Err(FolderFault::Failed);
    }
    shelf
        .put(index_from(0), 7, share)
        .map_err(|_| FolderFault::Failed)
}

/// Puts a share in the place of another while a call fails, and crashes. Whether the put was answered, and whether what
/// stands after it is as it has to be.
fn put_with_failure(alloc: Global, calls: u64) -> Result<(bool, bool), FolderFault> {
    let files = MemFiles::new(alloc)?;
    let mut shelf = opened(&files)?;
    put(alloc, &mut shelf, b"before")?;
    files.fail_after(calls)?;
    let is_done = put(alloc, &mut shelf, b"after").is_ok();
    files.fail_after(u64::MAX)?;
    files.crash()?;
    let mut shelf = opened(&files)?;
    let Ok(Some(found)) = shelf.read(index_from(0), 7) else {
        return Ok((is_done, false));
    };
    let bytes = found.as_slice();
    let is_right = bytes == b"after".as_slice() || !is_done && bytes == b"before".as_slice();
    Ok((is_done, is_right))
}

/// Puts with each of the first so many calls failing: `ok` where each is done or not, and before the last call that
/// refuses the put come as many as are said. The three numbers stand from place 2 on.
pub(super) fn puts(alloc: Global, case: &Case<'_>) -> Result<String, NoAnswer> {
    let (calls, first, last) = (case.number(2)?, case.number(3)?, case.number(4)?);
    let mut refused = 0u64;
    for at in 0..calls {
        match put_with_failure(alloc, at) {
            Ok((true, true)) => {}
            Ok((false, true)) => refused = at,
            _ => return after(alloc, at),
        }
    }
    if refused < first || refused > last {
        return Ok(format!(in alloc; "refused at {refused}")?);
    }
    fixed(alloc, "ok")
}

/// Opens a folder while a call fails, and again after a crash. Whether the second open succeeds.
fn opens_again(alloc: Global, calls: u64) -> Result<bool, FolderFault> {
    let files = MemFiles::new(alloc)?;
    files.fail_after(calls)?;
    let _opened = opened(&files).is_ok();
    files.fail_after(u64::MAX)?;
    files.crash()?;
    Ok(opened(&files).is_ok())
}

/// Opens with each of the first so many calls failing: `ok` where each can be tried again.
pub(super) fn opens(alloc: Global, calls: u64) -> Result<String, NoAnswer> {
    for at in 0..calls {
        match opens_again(alloc, at) {
            Ok(true) => {}
            _ => return after(alloc, at),
        }
    }
    fixed(alloc, "ok")
}

/// Where it went wrong.
fn after(alloc: Global, calls: u64) -> Result<String, NoAnswer> {
    Ok(format!(in alloc; "wrong after {calls} calls")?)
}
