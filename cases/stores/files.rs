//! Files on the grid, of which shares stand at server 0.
use crate::stores::texts::compared;
use caps::{Cap, ReadFields, print, storage_index, weaken};
use crate::lines::{Case, NoAnswer, debug, fixed, told};
use chk_file::{Cache, Download, ReadFault, begin, check, read, upload};
use grid::Grid;
use share_store::Store;
use std::alloc::{AllocError, Global};

/// The files that were stored, with what was read of them.
pub struct Files {
    /// The caps of the files, in the order in which they were stored.
    caps: Vec<Cap>,
    /// What was read last.
    cache: Option<Cache>,
    /// The file that is given a segment at a time.
    download: Option<Download>,
}

// Its own, so that what owns one calls it: a derived drop is spelled out wherever a value may be dropped.
impl Drop for Files {
    fn drop(self) {
        let Files {
            caps: _,
            cache: _,
            download: _,
        } = self;
    }
}

impl Files {
    /// None.
    pub fn new(alloc: Global) -> Files {
        Files {
            caps: Vec::new(alloc),
            cache: None,
            download: None,
        }
    }
}

/// The answer to a case of a file.
pub fn answer<S: Store>(
    alloc: Global,
    grid: &mut Grid<S>,
    files: &mut Files,
    case: &Case<'_>,
) -> Result<String, NoAnswer> {
    match case.word(1)? {
        "forget" => forgotten(alloc, files),
        "upload" => store(alloc, grid, files, case),
        "store" => {
            let _ = store(alloc, grid, files, case)?;
            fixed(alloc, "ok")
        }
        "prepare" => prepared(alloc, files, case),
        "take" => taken(alloc, files, &case.bytes(alloc, 2)?),
        _ => of_file(alloc, grid, files, case),
    }
}

/// Forgets all files. What is dropped is large, so it is dropped here alone.
fn forgotten(alloc: Global, files: &mut Files) -> Result<String, NoAnswer> {
    *files = Files::new(alloc);
    fixed(alloc, "ok")
}

/// The answer to a case of the file that the word at place 2 counts, from 0.
fn of_file<S: Store>(
    alloc: Global,
    grid: &mut Grid<S>,
    files: &mut Files,
    case: &Case<'_>,
) -> Result<String, NoAnswer> {
    let Some(cap) = files.caps.get(case.number(2)? as usize) else {
        return Err(NoAnswer::Word(2));
    };
    let Some(fields) = fields_of(cap) else {
        return Err(NoAnswer::Word(2));
    };
    let index = storage_index(&fields.key);
    match case.word(1)? {
        "read" => got(alloc, grid, &mut files.cache, &fields, case),
        "read-anew" => got(alloc, grid, &mut None, &fields, case),
        "read-forged" => got(alloc, grid, &mut files.cache, &forged(&fields, case)?, case),
        "begin" => begun(alloc, grid, files, &fields),
        "begin-anew" => debug(alloc, &fault_of_begin(alloc, grid, &fields)?),
        "ahead" => ahead(alloc, grid, &mut files.cache, &fields, case),
        "lose" => told(alloc, grid.lose(0, index, case.small(3)?)),
        "spoil" => told(alloc, grid.spoil(0, index, case.small(3)?, case.number(4)?)),
        "check" => checked(alloc, grid, &mut files.cache, cap, case),
        "check-ahead" => check_ahead(alloc, grid, &mut files.cache, cap, case),
        "check-forged" => {
            let other = Cap::Chk(forged(&fields, case)?);
            checked(alloc, grid, &mut files.cache, &other, case)
        }
        _ => Err(NoAnswer::Question),
    }
}

/// The fields of a read cap.
fn fields_of(cap: &Cap) -> Option<ReadFields> {
    match cap {
        Cap::Chk(fields) => Some(*fields),
        _ => None,
    }
}

/// Stores a file: k, n, the secret and the bytes. The cap, which is kept, or the fault.
fn store<S: Store>(
    alloc: Global,
    grid: &mut Grid<S>,
    files: &mut Files,
    case: &Case<'_>,
) -> Result<String, NoAnswer> {
    let (k, n) = (case.small(2)?, case.small(3)?);
    if !octets::is_sharing(k, n) {
        return Err(NoAnswer::Word(2));
    }
    let secret = case.bytes(alloc, 4)?;
    let bytes = case.bytes(alloc, 5)?;
    let cache = held(alloc, &mut files.cache)?;
    match upload(alloc, grid, cache, k, n, &secret, bytes) {
        Ok(cap) => {
            let text = print(alloc, &cap)?;
            files.caps.push(cap)?;
            Ok(text)
        }
        Err(fault) => debug(alloc, &fault),
    }
}

/// Prepares an upload to its end: k, n, the secret and the bytes, in two halves.
fn prepared(alloc: Global, files: &mut Files, case: &Case<'_>) -> Result<String, NoAnswer> {
    let (k, n) = (case.small(2)?, case.small(3)?);
    if !octets::is_sharing(k, n) {
        return Err(NoAnswer::Word(2));
    }
    let secret = case.bytes(alloc, 4)?;
    let bytes = case.bytes(alloc, 5)?;
    let (body, next) = bytes.split_at(bytes.len() / 2);
    let cache = held(alloc, &mut files.cache)?;
    for _ in 0..1000 {
        if !cache.prepare(alloc, k, n, &secret, body, next) {
            return fixed(alloc, "ok");
        }
    }
    Err(NoAnswer::Question)
}

/// Prepares the reading of a file by a step, and then by at most as many more as the word at place 3 says. Whether some were
/// left after the first, and whether some are left.
fn ahead<S: Store>(
    alloc: Global,
    grid: &mut Grid<S>,
    cache: &mut Option<Cache>,
    fields: &ReadFields,
    case: &Case<'_>,
) -> Result<String, NoAnswer> {
    let cache = held(alloc, cache)?;
    let was_left = cache.read_ahead(alloc, grid, fields);
    let mut is_left = was_left;
    for _ in 0..case.number(3)? {
        if is_left {
            is_left = cache.read_ahead(alloc, grid, fields);
        }
    }
    debug(alloc, &(was_left, is_left))
}

/// A cap of the same file with the k, n and size that stand after the file's place.
fn forged(fields: &ReadFields, case: &Case<'_>) -> Result<ReadFields, NoAnswer> {
    let (k, n) = (case.small(4)?, case.small(5)?);
    if !octets::is_sharing(k, n) {
        return Err(NoAnswer::Word(4));
    }
    Ok(ReadFields {
        key: fields.key,
        ueb: fields.ueb,
        k,
        n,
        size: case.number(6)?,
    })
}

/// Whether what is read is the bytes at place 3, or the fault.
fn got<S: Store>(
    alloc: Global,
    grid: &mut Grid<S>,
    cache: &mut Option<Cache>,
    fields: &ReadFields,
    case: &Case<'_>,
) -> Result<String, NoAnswer> {
    let wanted = case.bytes(alloc, 3)?;
    match read(alloc, grid, held(alloc, cache)?, fields) {
        Ok(bytes) => compared(alloc, &bytes, &wanted),
        Err(fault) => debug(alloc, &fault),
    }
}

/// The cache, which is made where there is none.
fn held(alloc: Global, cache: &mut Option<Cache>) -> Result<&mut Cache, AllocError> {
    if cache.is_none() {
        *cache = Some(Cache::new(alloc)?);
    }
    match cache {
        Some(cache) => Ok(cache),
        None => Err(AllocError),
    }
}

/// Begins to give a file.
fn begun<S: Store>(
    alloc: Global,
    grid: &mut Grid<S>,
    files: &mut Files,
    fields: &ReadFields,
) -> Result<String, NoAnswer> {
    match begin(alloc, grid, held(alloc, &mut files.cache)?, fields) {
        Ok(download) => {
            files.download = Some(download);
            fixed(alloc, "ok")
        }
        Err(fault) => debug(alloc, &fault),
    }
}

/// Why beginning to give a file with an empty cache is refused, if it is.
pub fn fault_of_begin<S: Store>(
    alloc: Global,
    grid: &mut Grid<S>,
    fields: &ReadFields,
) -> Result<Option<ReadFault>, AllocError> {
    let mut cache = Cache::new(alloc)?;
    Ok(begin(alloc, grid, &mut cache, fields).err())
}

/// Whether all that is given is these bytes; how many segments there were, and how many bytes the last one had.
fn taken(alloc: Global, files: &mut Files, wanted: &[u8]) -> Result<String, NoAnswer> {
    let Some(download) = &mut files.download else {
        return Err(NoAnswer::Question);
    };
    let (mut bytes, mut count, mut last) = (Vec::new(alloc), 0_u64, 0);
    for _ in 0..20 {
        let Some(segment) = download.next()? else {
            break;
        };
        bytes.extend_from_slice(&segment)?;
        count = count.saturating_add(1);
        last = segment.len();
    }
    debug(alloc, &(bytes.as_slice() == wanted, count, last))
}

/// What a check finds, with `verify` or `look` at place 3.
fn checked<S: Store>(
    alloc: Global,
    grid: &mut Grid<S>,
    cache: &mut Option<Cache>,
    cap: &Cap,
    case: &Case<'_>,
) -> Result<String, NoAnswer> {
    let Some(verify_cap) = weaken(cap) else {
        return Err(NoAnswer::Word(2));
    };
    let found = check(
        alloc,
        grid,
        held(alloc, cache)?,
        &verify_cap,
        case.word(3)? == "verify",
    )?;
    debug(
        alloc,
        &(found.needed, found.expected, found.good, found.corrupt),
    )
}

/// Prepares the check of a file by a step, and then by at most as many more as the word at place 3 says. Whether some were
/// left after the first, and whether some are left.
fn check_ahead<S: Store>(
    alloc: Global,
    grid: &Grid<S>,
    cache: &mut Option<Cache>,
    cap: &Cap,
    case: &Case<'_>,
) -> Result<String, NoAnswer> {
    let Some(verify_cap) = weaken(cap) else {
        return Err(NoAnswer::Word(2));
    };
    let cache = held(alloc, cache)?;
    let was_left = cache.check_ahead(alloc, grid, &verify_cap.fields);
    let mut is_left = was_left;
    for _ in 0..case.number(3)? {
        if is_left {
            is_left = cache.check_ahead(alloc, grid, &verify_cap.fields);
        }
    }
    debug(alloc, &(was_left, is_left))
}
