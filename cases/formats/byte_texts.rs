//! Bytes that are held, cut, read slowly and written in parts, texts and numbers.
use crate::formats::words::{count, digits, joined, said, small_number, truth};
use crate::lines::{Case, NoAnswer, shown};
use octets::fakes::{AtTheEnd, SlowReader, SlowWriter};
use octets::{Bytes, Text, is_sharing, laws, read_number, split_at_byte, write_whole};
use std::alloc::{AllocError, Global};
use std::io::{self, Read};

/// Answers questions whose second word is `held`, `none`, `roomy`, `text`, `number`, `cut`, `sharing`, `write`, `calls` or
/// `read`.
pub fn answer(alloc: Global, case: &Case<'_>) -> Result<String, NoAnswer> {
    match case.word(1)? {
        "held" => held_word(alloc, case),
        "none" => held(alloc, &Bytes::new(alloc)),
        "roomy" => roomy(alloc, case),
        "text" => text(alloc, case.word(2)?),
        "number" => number(alloc, case),
        "cut" => cut(alloc, case),
        "sharing" => sharing(alloc, case),
        "write" => written(alloc, case),
        "calls" => calls_left(alloc, case),
        "read" => slowly_read(alloc, &case.bytes(alloc, 2)?),
        _ => Err(NoAnswer::Question),
    }
}

/// What is held of the third word.
fn held_word(alloc: Global, case: &Case<'_>) -> Result<String, NoAnswer> {
    let bytes = case.bytes(alloc, 2)?;
    held(alloc, &Bytes::from_slice(alloc, &bytes)?)
}

/// The bytes, how many they are, and whether there is none.
fn held(alloc: Global, bytes: &Bytes) -> Result<String, NoAnswer> {
    let word = shown(alloc, bytes.as_slice())?;
    let len = digits(alloc, bytes.len() as u64)?;
    joined(alloc, &[&word, &len, truth(bytes.is_empty())])
}

/// The bytes as a vector with room for more gives them back, and whether it still has that room.
fn roomy(alloc: Global, case: &Case<'_>) -> Result<String, NoAnswer> {
    let (room, bytes) = (count(case, 2)?, case.bytes(alloc, 3)?);
    let mut roomy = Vec::with_capacity(alloc, room)?;
    roomy.extend_from_slice(&bytes)?;
    let vector = Bytes::from_vec(roomy).into_vec();
    let word = shown(alloc, &vector)?;
    joined(alloc, &[&word, truth(vector.capacity() >= room)])
}

/// A text in quotes.
fn text(alloc: Global, word: &str) -> Result<String, NoAnswer> {
    let text = Text::from_string(String::from_str(alloc, word)?);
    Ok(format!(in alloc; "\"{}\"", text.as_str())?)
}

fn number(alloc: Global, case: &Case<'_>) -> Result<String, NoAnswer> {
    laws::numbers_have_one_text();
    let text = case.bytes(alloc, 2)?;
    match read_number(&text, case.number(3)?) {
        Some(number) => Ok(digits(alloc, number)?),
        None => said(alloc, "none"),
    }
}

/// What stands in front of a byte and behind it.
fn cut(alloc: Global, case: &Case<'_>) -> Result<String, NoAnswer> {
    let (bytes, at) = (case.bytes(alloc, 2)?, case.bytes(alloc, 3)?);
    let Some(byte) = at.first() else {
        return Err(NoAnswer::Word(3));
    };
    let Some((front, back)) = split_at_byte(&bytes, *byte) else {
        return said(alloc, "none");
    };
    let (front, back) = (shown(alloc, front)?, shown(alloc, back)?);
    joined(alloc, &[&front, &back])
}

fn sharing(alloc: Global, case: &Case<'_>) -> Result<String, NoAnswer> {
    let is_sharing = is_sharing(small_number(case, 2)?, small_number(case, 3)?);
    said(alloc, truth(is_sharing))
}

/// What a writer with so much room holds after so many calls at most, and the outcome.
fn written(alloc: Global, case: &Case<'_>) -> Result<String, NoAnswer> {
    let mut calls = case.number(3)?;
    let at_the_end = match case.word(4)? {
        "fails" => AtTheEnd::Fails,
        "takes_nothing" => AtTheEnd::TakesNothing,
        _ => return Err(NoAnswer::Word(4)),
    };
    let mut writer = SlowWriter {
        held: Vec::new(alloc),
        room: count(case, 2)?,
        at_a_time: 2,
        interrupts: Some(true),
        at_the_end,
        flushes: true,
    };
    let outcome = write_whole(&mut writer, &case.bytes(alloc, 5)?, &mut calls);
    let word = shown(alloc, &writer.held)?;
    joined(alloc, &[&word, &format!(in alloc; "{outcome:?}")?])
}

/// What a vector holds after two times of bytes, and how many of so many calls are left.
fn calls_left(alloc: Global, case: &Case<'_>) -> Result<String, NoAnswer> {
    let mut calls = case.number(2)?;
    let mut writer = Vec::new(alloc);
    let first = write_whole(&mut writer, &case.bytes(alloc, 3)?, &mut calls).is_ok();
    let second = write_whole(&mut writer, &case.bytes(alloc, 4)?, &mut calls).is_ok();
    let word = shown(alloc, &writer)?;
    let calls = digits(alloc, calls)?;
    joined(alloc, &[&word, truth(first), truth(second), &calls])
}

/// What a reader that is interrupted once and fails at the end gives, four bytes at a time, and what it gives there when
/// it doesn't fail.
fn slowly_read(alloc: Global, bytes: &[u8]) -> Result<String, NoAnswer> {
    let mut reader = SlowReader {
        bytes,
        at_a_time: 4,
        interrupts: Some(false),
        fails: true,
    };
    let mut buf = [0; 8];
    let first = outcome(alloc, reader.read(&mut buf))?;
    let word = shown(alloc, buf.as_slice())?;
    let second = outcome(alloc, reader.read(&mut buf))?;
    let third = outcome(alloc, reader.read(&mut buf))?;
    reader.interrupts = None;
    let fourth = outcome(alloc, reader.read(&mut buf))?;
    reader.fails = false;
    let fifth = outcome(alloc, reader.read(&mut buf))?;
    joined(alloc, &[&first, &word, &second, &third, &fourth, &fifth])
}

/// How many bytes were read, or the kind of the error.
fn outcome(alloc: Global, read: io::Result<usize>) -> Result<String, AllocError> {
    match read {
        Ok(size) => format!(in alloc; "{size}"),
        Err(error) => format!(in alloc; "{:?}", error.kind()),
    }
}
