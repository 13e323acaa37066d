//! A shelf in a folder of a file system that fails and crashes, and names and texts of another program.
use crate::shelves::shelf_calls::calls;
use crate::lines::{Case, NoAnswer, debug, done, fixed};
use failures::{opens, puts};
use folder_shelf::{
    FileDisk, FileShelf, FolderShelf, StoreSettings, name_of, read_name, read_settings, seal_of,
    settings_text,
};
use mem_files::MemFiles;
use shared_folder::SharedFolder;
use std::alloc::Global;
use std::fs;
use std::io::Write;

/// Places of failure, one after the other.
mod failures;
/// Stores that use one folder at the same time.
mod shared;
/// A file system in memory.
mod mem_files;

/// A file system in memory, and the shelf that was opened last in a folder of it, and all stores that were.
#[derive(Drop)]
pub struct Folder {
    files: MemFiles,
    shelf: Option<FileShelf<MemFiles>>,
    stores: Vec<SharedFolder<FileDisk<MemFiles>, ()>>,
}

/// The storage index of bytes from this one on.
fn index_from(first: u8) -> [u8; 16] {
    let mut index = [first; 16];
    for (byte, count) in index.iter_mut().zip(0..16u8) {
        *byte = first.wrapping_add(count);
    }
    index
}

/// The settings that stand from a place on: the server's place, three numbers of the grid, and the secret.
fn settings_at(alloc: Global, case: &Case<'_>, at: usize) -> Result<StoreSettings, NoAnswer> {
    let place = case.small(at)?;
    let servers = case.small(at.saturating_add(1))?;
    let needed = case.small(at.saturating_add(2))?;
    let made = case.small(at.saturating_add(3))?;
    let secret = case.bytes(alloc, at.saturating_add(4))?;
    Ok(StoreSettings::new(place, servers, needed, made, &secret))
}

/// The answer to a case of a folder, or of what stands in one.
pub fn answer(
    alloc: Global,
    held: &mut Option<Folder>,
    case: &Case<'_>,
) -> Result<String, NoAnswer> {
    match case.word(1)? {
        "name" => name(alloc, case),
        "read-name" => names_share(alloc, case),
        "seal" => seal(alloc, case),
        "settings" => settings(alloc, case),
        "reads-settings" => reads_settings(alloc, case),
        "puts-that-fail" => puts(alloc, case),
        "opens-that-fail" => opens(alloc, case.number(2)?),
        "shared-puts-that-fail" => shared::puts(alloc, case.number(2)?),
        "shared-finds" => shared::finds(alloc, case.number(2)?),
        "shared-starts-that-fail" => shared::starts(alloc, case.number(2)?),
        "shared-starts-at-once" => shared::starts_at_once(alloc, case.number(2)?),
        _ => on_files(alloc, held, case),
    }
}

/// The name of a share: the first byte of its index and its number.
fn name(alloc: Global, case: &Case<'_>) -> Result<String, NoAnswer> {
    let index = index_from(case.byte(2)?);
    let number = case.small(3)?;
    Ok(name_of(alloc, &index, number)?)
}

/// The bytes of the storage index and the number that a name says, `none` where it is none.
fn names_share(alloc: Global, case: &Case<'_>) -> Result<String, NoAnswer> {
    let Ok(name) = String::from_utf8(case.bytes(alloc, 2)?) else {
        return Err(NoAnswer::Word(2));
    };
    let Some(share) = read_name(alloc, &name)? else {
        return fixed(alloc, "none");
    };
    let index = hex::encode(alloc, share.0.as_slice())?;
    let number = share.1;
    Ok(format!(in alloc; "{index} {number}")?)
}

/// The seal of bytes in hexadecimal digits.
fn seal(alloc: Global, case: &Case<'_>) -> Result<String, NoAnswer> {
    let bytes = case.bytes(alloc, 2)?;
    let seal = seal_of(&bytes);
    Ok(hex::encode(alloc, seal.as_slice())?)
}

/// The text of settings in hexadecimal digits.
fn settings(alloc: Global, case: &Case<'_>) -> Result<String, NoAnswer> {
    let settings = settings_at(alloc, case, 2)?;
    let text = settings_text(alloc, &settings)?;
    Ok(hex::encode(alloc, text.as_slice())?)
}

/// Whether settings are read of a text.
fn reads_settings(alloc: Global, case: &Case<'_>) -> Result<String, NoAnswer> {
    let text = case.bytes(alloc, 2)?;
    let settings = settings_at(alloc, case, 3)?;
    let read = read_settings(alloc, &text)?;
    debug(alloc, &(read == Some(settings)))
}

/// The answer to a case of the file system.
fn on_files(alloc: Global, held: &mut Option<Folder>, case: &Case<'_>) -> Result<String, NoAnswer> {
    if case.word(1)? == "new" {
        let files = MemFiles::new(alloc)?;
        *held = Some(Folder {
            files,
            shelf: None,
            stores: Vec::new(alloc),
        });
        return fixed(alloc, "ok");
    }
    match held {
        Some(folder) => asked(alloc, folder, case),
        None => Err(NoAnswer::Question),
    }
}

/// The answer of a file system or of the shelf.
fn asked(alloc: Global, folder: &mut Folder, case: &Case<'_>) -> Result<String, NoAnswer> {
    match case.word(1)? {
        "crash" => done(alloc, folder.files.crash()),
        "write" => write(alloc, &folder.files, case),
        "make" => done(alloc, fs::create_dir(&folder.files, case.word(2)?)),
        "lose" => done(alloc, folder.files.lose_folder(case.word(2)?)),
        "stands" => {
            let found = fs::metadata(&folder.files, case.word(2)?);
            debug(alloc, &found.is_ok())
        }
        "open" => open(alloc, folder, case),
        "share" => share(alloc, folder, case),
        "with" => with(alloc, folder, case),
        _ => match &mut folder.shelf {
            Some(shelf) => of_shelf(alloc, shelf, case),
            None => Err(NoAnswer::Question),
        },
    }
}

/// Writes a file that is none of the shelf's.
fn write(alloc: Global, files: &MemFiles, case: &Case<'_>) -> Result<String, NoAnswer> {
    let path = case.word(2)?;
    let bytes = case.bytes(alloc, 3)?;
    done(alloc, fs::write(files, path, &bytes))
}

/// Opens the shelf in the folder at place 2, with the settings behind it.
fn open(alloc: Global, folder: &mut Folder, case: &Case<'_>) -> Result<String, NoAnswer> {
    let path = case.word(2)?;
    let settings = settings_at(alloc, case, 3)?;
    let files = folder.files.clone()?;
    match FolderShelf::open(files, path, &settings, true) {
        Ok(shelf) => {
            folder.shelf = Some(shelf);
            fixed(alloc, "ok")
        }
        Err(fault) => debug(alloc, &fault),
    }
}

/// Opens one more store in the folder at place 2, with the settings behind it.
fn share(alloc: Global, folder: &mut Folder, case: &Case<'_>) -> Result<String, NoAnswer> {
    let path = case.word(2)?;
    let settings = settings_at(alloc, case, 3)?;
    let process = folder.stores.len().min(255) as u8;
    match shared::opened_in(&folder.files, path, settings, process) {
        Ok(store) => {
            folder.stores.push(store)?;
            fixed(alloc, "ok")
        }
        Err(fault) => debug(alloc, &fault),
    }
}

/// The answers of the store of the number at place 2 to the calls behind it, and `fault`, in which it failed last.
fn with(alloc: Global, folder: &mut Folder, case: &Case<'_>) -> Result<String, NoAnswer> {
    match folder.stores.get_mut(case.small(2)? as usize) {
        Some(store) => shared::calls(alloc, store, case, 3),
        None => Err(NoAnswer::Word(2)),
    }
}

/// The answer of the shelf. `of` makes calls of shares under the index from the byte at place 2 on.
fn of_shelf(
    alloc: Global,
    shelf: &mut FileShelf<MemFiles>,
    case: &Case<'_>,
) -> Result<String, NoAnswer> {
    match case.word(1)? {
        "of" => {
            let index = index_from(case.byte(2)?);
            calls(alloc, shelf, index, case, 3)
        }
        "rotten" => debug(alloc, &shelf.rotten().len()),
        "strangers" => debug(alloc, &shelf.strangers().len()),
        _ => Err(NoAnswer::Question),
    }
}
