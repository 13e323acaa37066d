//! Replies and commands of the Redis protocol. A reply's text is shown by a mark in front of each item: `+` text, `-`
//! error, `$` bulk string, `:` integer, `null`; an array stands in brackets.
use crate::formats::words::{digits, joined, said};
use crate::lines::{Case, NoAnswer, shown};
use resp::{Element, Item, Limits, Reply, RespFault, command, read_reply};
use std::alloc::{AllocError, Global};

const LIMITS: Limits = Limits {
    line: 128,
    bulk: 64,
    elements: 4,
};

/// Answers `reply read BYTES`, `reply wrong BYTES` and `reply command WORD..`.
pub fn answer(alloc: Global, case: &Case<'_>) -> Result<String, NoAnswer> {
    match case.word(1)? {
        "read" => whole(alloc, &case.bytes(alloc, 2)?),
        "wrong" => told(alloc, &case.bytes(alloc, 2)?),
        "command" => written(alloc, case),
        _ => Err(NoAnswer::Question),
    }
}

/// What the bytes say, whatever follows, where no beginning of them says anything.
fn whole(alloc: Global, bytes: &[u8]) -> Result<String, NoAnswer> {
    for cut in 0..bytes.len() {
        if told(alloc, &bytes[..cut])?.as_str() != "more" {
            return said(alloc, "read too soon");
        }
    }
    let mut followed = bytes.to_vec(alloc)?;
    followed.extend_from_slice(b"\x00\r\n!")?;
    told(alloc, &followed)
}

/// What the bytes say and how many of them, or what is wrong and where, or `more`.
fn told(alloc: Global, bytes: &[u8]) -> Result<String, NoAnswer> {
    match read_reply(alloc, LIMITS, bytes) {
        Ok(Some((reply, len))) => {
            let word = shown(alloc, &spelled(alloc, &reply)?)?;
            joined(alloc, &[&word, &digits(alloc, len as u64)?])
        }
        Ok(None) => said(alloc, "more"),
        Err(RespFault::Wrong(wrong, place)) => Ok(format!(in alloc; "{wrong:?} {place}")?),
        Err(RespFault::NoMemory) => Err(NoAnswer::NoMemory),
    }
}

/// A reply with its marks.
fn spelled(alloc: Global, reply: &Reply) -> Result<Vec<u8>, AllocError> {
    let mut spelled = Vec::new(alloc);
    match reply {
        Reply::One(item) => push_item(alloc, &mut spelled, item)?,
        Reply::Several(elements) => {
            spelled.push(b'[')?;
            for element in elements.as_slice() {
                push_element(alloc, &mut spelled, element)?;
            }
            spelled.push(b']')?;
        }
    }
    Ok(spelled)
}

fn push_element(alloc: Global, spelled: &mut Vec<u8>, element: &Element) -> Result<(), AllocError> {
    match element {
        Element::One(item) => push_item(alloc, spelled, item),
        Element::Several(items) => {
            spelled.push(b'[')?;
            for item in items.as_slice() {
                push_item(alloc, spelled, item)?;
            }
            spelled.push(b']')?;
            Ok(())
        }
    }
}

fn push_item(alloc: Global, spelled: &mut Vec<u8>, item: &Item) -> Result<(), AllocError> {
    match item {
        Item::Text(text) => push_marked(spelled, b'+', text.as_slice()),
        Item::Error(text) => push_marked(spelled, b'-', text.as_slice()),
        Item::Bulk(bytes) => push_marked(spelled, b'$', bytes.as_slice()),
        Item::Integer(value) => push_marked(
            spelled,
            b':',
            format!(in alloc; "{value}")?.as_bytes(),
        ),
        Item::Null => spelled.extend_from_slice(b"null"),
    }
}

fn push_marked(spelled: &mut Vec<u8>, mark: u8, bytes: &[u8]) -> Result<(), AllocError> {
    spelled.push(mark)?;
    spelled.extend_from_slice(bytes)
}

/// The bytes of a command of the words from the third on.
fn written(alloc: Global, case: &Case<'_>) -> Result<String, NoAnswer> {
    let mut words = Vec::new(alloc);
    for at in 2..case.len() {
        words.push(case.bytes(alloc, at)?)?;
    }
    let mut slices = Vec::new(alloc);
    for word in &words {
        slices.push(word.as_slice())?;
    }
    Ok(shown(alloc, &command(alloc, &slices)?)?)
}
