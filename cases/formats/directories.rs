//! Directories: their texts, and children as JSON. A fault is answered by its name, and where there is none, `read`.
use crate::formats::words::{count, digits, in_hex, joined, said, truth};
use caps::print;
use crate::lines::{Case, NoAnswer};
use children_reader::from_children_json;
use dir_codec::{DirFault, decode, encode, laws};
use std::alloc::{AllocError, Global};
use tag_hash::push_netstring;

/// Answers questions whose second word is `made`, `children`, `cut_children`, `found`, `name`, `value`, `find`, `text`,
/// `entry`, `second` or `cuts`.
pub fn answer(alloc: Global, case: &Case<'_>) -> Result<String, NoAnswer> {
    match case.word(1)? {
        "found" => found(alloc, case),
        "name" => name(alloc, case),
        "value" => value(alloc, case),
        "find" => find(alloc, case),
        "entry" => of_entry(alloc, case),
        "second" => of_entry(alloc, case),
        "cuts" => of_entry(alloc, case),
        asked => of_bytes(alloc, asked, &case.bytes(alloc, 2)?),
    }
}

/// What is asked of bytes.
fn of_bytes(alloc: Global, asked: &str, bytes: &[u8]) -> Result<String, NoAnswer> {
    match asked {
        "made" => made(alloc, bytes),
        "children" => told(alloc, children_fault(alloc, bytes)),
        "cut_children" => cut_children(alloc, bytes),
        "text" => told(alloc, text_fault(alloc, bytes)),
        _ => Err(NoAnswer::Question),
    }
}

/// Why a text is refused.
fn text_fault(alloc: Global, text: &[u8]) -> Option<DirFault> {
    decode(alloc, text).err()
}

/// Why children JSON is refused.
fn children_fault(alloc: Global, json: &[u8]) -> Option<DirFault> {
    from_children_json(alloc, json).err()
}

/// The name of a fault.
fn told(alloc: Global, fault: Option<DirFault>) -> Result<String, NoAnswer> {
    match fault {
        Some(fault) => Ok(format!(in alloc; "{fault:?}")?),
        None => said(alloc, "read"),
    }
}

/// The text of an entry of these four texts.
fn entry(alloc: Global, parts: [&[u8]; 4]) -> Result<Vec<u8>, AllocError> {
    let mut inside = Vec::new(alloc);
    for part in parts {
        push_netstring(&mut inside, part)?;
    }
    let mut text = Vec::new(alloc);
    push_netstring(&mut text, &inside)?;
    Ok(text)
}

/// What is asked of an entry, whose four texts are the words from the third on.
fn of_entry(alloc: Global, case: &Case<'_>) -> Result<String, NoAnswer> {
    let (name, cap) = (case.bytes(alloc, 2)?, case.bytes(alloc, 3)?);
    let (write_cap, metadata) = (case.bytes(alloc, 4)?, case.bytes(alloc, 5)?);
    let text = entry(alloc, [&name, &cap, &write_cap, &metadata])?;
    of_entry_text(alloc, case.word(1)?, &text)
}

/// What is asked of an entry's text.
fn of_entry_text(alloc: Global, asked: &str, text: &[u8]) -> Result<String, NoAnswer> {
    match asked {
        "entry" => told(alloc, text_fault(alloc, text)),
        "second" => second(alloc, text),
        _ => cuts(alloc, text),
    }
}

/// The fault of the text behind an entry of the name `a`, the same where bytes follow that are no entry.
fn second(alloc: Global, behind: &[u8]) -> Result<String, NoAnswer> {
    let mut text = entry(alloc, [b"a", b"URI:LIT:", b"", b" { } "])?;
    if text_fault(alloc, &text).is_some() {
        return said(alloc, "a first entry that is refused");
    }
    text.extend_from_slice(behind)?;
    let fault = text_fault(alloc, &text);
    text.extend_from_slice(b"torn")?;
    if text_fault(alloc, &text) != fault {
        return said(alloc, "another fault where bytes follow");
    }
    told(alloc, fault)
}

/// The fault of each beginning of a text but the empty one, where all have it.
fn cuts(alloc: Global, text: &[u8]) -> Result<String, NoAnswer> {
    let fault = text_fault(alloc, text.get(..1).unwrap_or(text));
    for cut in 1..text.len() {
        if text_fault(alloc, &text[..cut]) != fault {
            return Ok(format!(in alloc; "another fault at {cut}")?);
        }
    }
    told(alloc, fault)
}

/// The fault of each beginning of JSON that names children, where all have it.
fn cut_children(alloc: Global, json: &[u8]) -> Result<String, NoAnswer> {
    if children_fault(alloc, json).is_some() {
        return said(alloc, "no children");
    }
    let fault = children_fault(alloc, b"");
    for cut in 0..json.len() {
        if children_fault(alloc, &json[..cut]) != fault {
            return Ok(format!(in alloc; "another fault at {cut}")?);
        }
    }
    told(alloc, fault)
}

/// The text of the directory of these children, where it is read as a directory that has it.
fn made(alloc: Global, json: &[u8]) -> Result<String, NoAnswer> {
    laws::written_directories_are_read_back();
    laws::texts_and_entries_belong_together();
    laws::texts_are_refused_for_the_first_fault();
    json_spelling::laws::spellings_stand_for_metadata();
    children_reader::laws::made_children_are_named();
    let Ok(directory) = from_children_json(alloc, json) else {
        return said(alloc, "no children");
    };
    let text = encode(alloc, &directory)?;
    match decode(alloc, &text) {
        Ok(again) if encode(alloc, &again)? == text => Ok(in_hex(alloc, &text)?),
        _ => said(alloc, "not read back"),
    }
}

/// The cap and the metadata of the child of a name, which is the third word.
fn found(alloc: Global, case: &Case<'_>) -> Result<String, NoAnswer> {
    let (name, json) = (case.word(2)?, case.bytes(alloc, 3)?);
    let Ok(directory) = from_children_json(alloc, &json) else {
        return said(alloc, "no children");
    };
    let Some(entry) = directory.into_found(name) else {
        return said(alloc, "none");
    };
    let cap = print(alloc, &entry.cap)?;
    joined(alloc, &[&cap, entry.metadata.as_str()])
}

/// The JSON of one child of this name, an empty file.
fn child_json(alloc: Global, name: &str) -> Result<String, AllocError> {
    let mut json = String::from_str(alloc, "{\"")?;
    json.push_str(name)?;
    json.push_str("\":[\"\",{\"ro_uri\":\"URI:LIT:\"}]}")?;
    Ok(json)
}

/// Whether a child of this name is found.
fn is_found(alloc: Global, json: &[u8], name: &str) -> bool {
    match from_children_json(alloc, json) {
        Ok(directory) => directory.find(name).is_some(),
        Err(_) => false,
    }
}

/// Whether a child of the first name is found by the second, and the fault of an entry of the first name.
fn name(alloc: Global, case: &Case<'_>) -> Result<String, NoAnswer> {
    let (key, name) = (case.word(2)?, case.word(3)?);
    let json = child_json(alloc, key)?;
    let is_found = truth(is_found(alloc, json.as_bytes(), name));
    let text = entry(alloc, [key.as_bytes(), b"URI:LIT:", b"", b"{}"])?;
    let fault = told(alloc, text_fault(alloc, &text))?;
    joined(alloc, &[is_found, &fault])
}

/// Metadata that have a value in so many arrays.
fn metadata(alloc: Global, value: &str, depth: usize) -> Result<String, AllocError> {
    let mut metadata = String::from_str(alloc, "{\"m\":")?;
    metadata.push_str(&"[".repeat(alloc, depth)?)?;
    metadata.push_str(value)?;
    metadata.push_str(&"]".repeat(alloc, depth)?)?;
    metadata.push_str("}")?;
    Ok(metadata)
}

/// The faults of children and of an entry whose metadata have a value in so many arrays.
fn value(alloc: Global, case: &Case<'_>) -> Result<String, NoAnswer> {
    let metadata = metadata(alloc, case.word(2)?, count(case, 3)?)?;
    let mut json = String::from_str(alloc, "{\"b\":[\"\",{\"metadata\":")?;
    json.push_str(&metadata)?;
    json.push_str(",\"ro_uri\":\"URI:LIT:\"}]}")?;
    let text = entry(alloc, [b"b", b"URI:LIT:", b"", metadata.as_bytes()])?;
    let children = told(alloc, children_fault(alloc, json.as_bytes()))?;
    let read = told(alloc, text_fault(alloc, &text))?;
    joined(alloc, &[&children, &read])
}

/// How many entries a directory of these names has, which commas part, and the name that is found by the first.
fn find(alloc: Global, case: &Case<'_>) -> Result<String, NoAnswer> {
    let (name, names) = (case.word(2)?, case.word(3)?);
    let text = empty_directories(alloc, names)?;
    let Ok(directory) = decode(alloc, &text) else {
        return said(alloc, "no directory");
    };
    let count = digits(alloc, directory.entries().len() as u64)?;
    match directory.find(name) {
        Some(entry) => joined(alloc, &[&count, entry.name.as_str()]),
        None => joined(alloc, &[&count, "none"]),
    }
}

/// The text of a directory of empty directories of these names, which commas part.
fn empty_directories(alloc: Global, names: &str) -> Result<Vec<u8>, AllocError> {
    let mut text = Vec::new(alloc);
    for name in names.split(',') {
        if !name.is_empty() {
            let parts = [name.as_bytes(), b"URI:DIR2-LIT:", b"", b"{}"];
            text.extend_from_slice(&entry(alloc, parts)?)?;
        }
    }
    Ok(text)
}
