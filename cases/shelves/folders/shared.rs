//! Stores that use one folder at the same time: what one answered the others find, whichever call fails, and after a crash.
use super::mem_files::MemFiles;
use crate::shelves::in_memory::INDEX;
use crate::shelves::store_calls::call;
use crate::shelves::texts::add;
use crate::lines::{Case, NoAnswer, debug, fixed};
use folder_shelf::{FileDisk, FolderFault, StoreSettings, settings_text};
use share_store::Store;
use shared_folder::{SharedFolder, SharedOpening};
use std::alloc::Global;
use std::fs;
use std::rc::RcSlice;

/// A store in a folder of the file system in memory. Nothing is locked there.
type MemFolder = SharedFolder<FileDisk<MemFiles>, ()>;

/// The store of a process of this number in a folder.
pub(super) fn opened_in(
    files: &MemFiles,
    folder: &str,
    settings: StoreSettings,
    process: u8,
) -> Result<MemFolder, FolderFault> {
    let opening = SharedOpening {
        folder,
        settings,
        random: [process; 16],
        synced: true,
    };
    SharedFolder::open(files.clone()?, (), &opening)
}

/// The settings of the folder `/d`.
fn ours() -> StoreSettings {
    StoreSettings::new(3, 10, 3, 10, b"swordfish")
}

/// The store of a process of this number in the folder `/d`.
fn opened(files: &MemFiles, process: u8) -> Result<MemFolder, FolderFault> {
    opened_in(files, "/d", ours(), process)
}

/// The answers of a store to the calls that stand from a place on.
pub(super) fn calls(
    alloc: Global,
    store: &mut MemFolder,
    case: &Case<'_>,
    from: usize,
) -> Result<String, NoAnswer> {
    let mut answers = String::new(alloc);
    for at in from..case.len() {
        if case.word(at)? == "fault" {
            let fault = store.last_fault();
            add(&mut answers, &debug(alloc, &fault)?)?;
        } else if let Some(answer) = call(alloc, store, case, at)? {
            add(&mut answers, &answer)?;
        }
    }
    Ok(answers)
}

/// Puts share 7, and says whether it was put. A refusal is a fault.
fn put(alloc: Global, store: &mut MemFolder, bytes: &[u8]) -> Result<bool, FolderFault> {
    let share = RcSlice::from_vec(bytes.to_vec(alloc)?)?;
    if share.as_slice().is_empty() {
        return Err(FolderFault::Failed);
    }
    store.put(INDEX, 7, share).map_err(|_| FolderFault::Failed)
}

/// Whether share 7 has these bytes; `None` where it isn't there.
fn gives(store: &mut MemFolder, bytes: &[u8]) -> Result<Option<bool>, FolderFault> {
    match store.get(INDEX, 7)? {
        Some(share) => Ok(Some(share.as_slice() == bytes)),
        None => Ok(None),
    }
}

/// A put of which a call fails, and a crash: what was answered stands, and what was refused stands whole or not at all. It
/// can be put again.
fn put_holds(alloc: Global, calls: u64) -> Result<bool, FolderFault> {
    let files = MemFiles::new(alloc)?;
    let mut one = opened(&files, 0)?;
    files.fail_after(calls)?;
    let is_done = put(alloc, &mut one, b"seven").is_ok();
    files.fail_after(u64::MAX)?;
    files.crash()?;
    let mut other = opened(&files, 1)?;
    let found = gives(&mut other, b"seven")?;
    if found == Some(false) || (is_done && found.is_none()) {
        return Ok(false);
    }
    let put = put(alloc, &mut other, b"seven")?;
    Ok(put == found.is_none())
}

/// A put of which a call fails, another process that puts the same, and a crash: what the other was answered stands, though
/// the first may not have synced what the other found.
fn find_holds(alloc: Global, calls: u64) -> Result<bool, FolderFault> {
    let files = MemFiles::new(alloc)?;
    let mut one = opened(&files, 0)?;
    let mut other = opened(&files, 1)?;
    files.fail_after(calls)?;
    let _refused = put(alloc, &mut one, b"seven").is_err();
    files.fail_after(u64::MAX)?;
    let _put = put(alloc, &mut other, b"seven")?;
    files.crash()?;
    let mut third = opened(&files, 2)?;
    Ok(gives(&mut third, b"seven")? == Some(true))
}

/// A start over a new folder of which a call fails, another beside it, and a crash: the other's folder is opened again.
fn start_holds(alloc: Global, calls: u64) -> Result<bool, FolderFault> {
    let files = MemFiles::new(alloc)?;
    files.fail_after(calls)?;
    let _refused = opened(&files, 0).is_err();
    files.fail_after(u64::MAX)?;
    let _other = opened(&files, 1)?;
    files.crash()?;
    Ok(opened(&files, 2).is_ok())
}

/// A start over a new folder while another process gives it settings: those that stand are the ones that came first, and
/// the start is refused exactly where they are others.
fn start_is_alone(alloc: Global, calls: u64, theirs: StoreSettings) -> Result<bool, FolderFault> {
    let files = MemFiles::new(alloc)?;
    let arriving = settings_text(alloc, &theirs)?;
    files.arrive_after(calls, "/d/grid", &arriving)?;
    let started = opened(&files, 0);
    let stands = fs::read(&files, "/d/grid")?;
    let wanted = settings_text(alloc, &ours())?;
    match started {
        Ok(_) => Ok(stands.as_slice() == wanted.as_slice()),
        Err(FolderFault::OtherGrid) => Ok(stands.as_slice() == arriving.as_slice()),
        Err(_) => Ok(false),
    }
}

/// [`put_holds`] with each of the first so many calls failing.
pub(super) fn puts(alloc: Global, calls: u64) -> Result<String, NoAnswer> {
    for at in 0..calls {
        if put_holds(alloc, at) != Ok(true) {
            return not_at(alloc, at);
        }
    }
    fixed(alloc, "ok")
}

/// [`find_holds`] with each of the first so many calls failing.
pub(super) fn finds(alloc: Global, calls: u64) -> Result<String, NoAnswer> {
    for at in 0..calls {
        if find_holds(alloc, at) != Ok(true) {
            return not_at(alloc, at);
        }
    }
    fixed(alloc, "ok")
}

/// [`start_holds`] with each of the first so many calls failing.
pub(super) fn starts(alloc: Global, calls: u64) -> Result<String, NoAnswer> {
    for at in 0..calls {
        if start_holds(alloc, at) != Ok(true) {
            return not_at(alloc, at);
        }
    }
    fixed(alloc, "ok")
}

/// [`start_is_alone`] with the other's settings coming before each of the first so many calls, which are others, and the
/// same.
pub(super) fn starts_at_once(alloc: Global, calls: u64) -> Result<String, NoAnswer> {
    let others = StoreSettings::new(3, 10, 3, 10, b"Swordfish");
    for at in 0..calls {
        let is_well = start_is_alone(alloc, at, others) == Ok(true)
            && start_is_alone(alloc, at, ours()) == Ok(true);
        if !is_well {
            return not_at(alloc, at);
        }
    }
    fixed(alloc, "ok")
}

/// Where it went wrong.
fn not_at(alloc: Global, calls: u64) -> Result<String, NoAnswer> {
    Ok(format!(in alloc; "wrong after {calls} calls")?)
}
