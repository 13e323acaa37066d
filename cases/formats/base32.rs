//! Base32: a text is written and read back, or refused.
use crate::formats::words::said;
use base32_text::{B32Fault, decode, encode, push_encoded};
use crate::lines::{Case, NoAnswer, shown};
use std::alloc::Global;

/// Answers `base32 both BYTES`, `base32 refuse TEXT`, `base32 push TEXT BYTES` and `base32 no_memory`.
pub fn answer(alloc: Global, case: &Case<'_>) -> Result<String, NoAnswer> {
    match case.word(1)? {
        "both" => written_and_read(alloc, &case.bytes(alloc, 2)?),
        "refuse" => refusal(alloc, &case.bytes(alloc, 2)?),
        "push" => pushed(alloc, case.word(2)?, &case.bytes(alloc, 3)?),
        "no_memory" => Ok(format!(in alloc; "{}", B32Fault::NoMemory)?),
        _ => Err(NoAnswer::Question),
    }
}

/// The text that is written for the bytes, where they are read back from it.
fn written_and_read(alloc: Global, bytes: &[u8]) -> Result<String, NoAnswer> {
    let written = encode(alloc, bytes)?;
    match decode(alloc, written.as_bytes()) {
        Ok(read) if read.as_slice() == bytes => Ok(shown(alloc, written.as_bytes())?),
        _ => said(alloc, "not read back"),
    }
}

/// Why a text spells no bytes.
fn refusal(alloc: Global, text: &[u8]) -> Result<String, NoAnswer> {
    match decode(alloc, text) {
        Ok(bytes) => Ok(shown(alloc, &bytes)?),
        Err(fault) => Ok(format!(in alloc; "{fault}")?),
    }
}

/// A text, and behind it the one that is written for the bytes.
fn pushed(alloc: Global, before: &str, bytes: &[u8]) -> Result<String, NoAnswer> {
    let mut text = String::from_str(alloc, before)?;
    push_encoded(&mut text, bytes)?;
    Ok(text)
}
