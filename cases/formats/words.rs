//! Words that several modules read and write.
use crate::lines::{Case, NoAnswer};
use hex::FromHex;
use std::alloc::{AllocError, Global};

/// The word at a place as a number of 16 bits.
pub fn small_number(case: &Case<'_>, at: usize) -> Result<u16, NoAnswer> {
    match case.word(at)?.parse::<u16>() {
        Ok(number) => Ok(number),
        Err(_) => Err(NoAnswer::Word(at)),
    }
}

/// The word at a place as a number of bytes or of things.
pub fn count(case: &Case<'_>, at: usize) -> Result<usize, NoAnswer> {
    match case.word(at)?.parse::<usize>() {
        Ok(number) => Ok(number),
        Err(_) => Err(NoAnswer::Word(at)),
    }
}

/// The word at a place as a hash.
pub fn hash(case: &Case<'_>, at: usize) -> Result<[u8; 32], NoAnswer> {
    match <[u8; 32] as FromHex>::from_hex(case.word(at)?) {
        Ok(hash) => Ok(hash),
        Err(_) => Err(NoAnswer::Word(at)),
    }
}

/// Bytes as a word of hexadecimal digits, `-` where there is none.
pub fn in_hex(alloc: Global, bytes: &[u8]) -> Result<String, AllocError> {
    if bytes.is_empty() {
        return String::from_str(alloc, "-");
    }
    hex::encode(alloc, bytes)
}

/// Hashes as a word, one after another.
pub fn hashes_in_hex(alloc: Global, hashes: &[[u8; 32]]) -> Result<String, AllocError> {
    let mut bytes = Vec::new(alloc);
    for hash in hashes {
        bytes.extend_from_slice(hash.as_slice())?;
    }
    in_hex(alloc, &bytes)
}

/// Words with a blank between them.
pub fn joined(alloc: Global, words: &[&str]) -> Result<String, NoAnswer> {
    let mut line = String::new(alloc);
    for word in words {
        if !line.is_empty() {
            line.push(' ')?;
        }
        line.push_str(word)?;
    }
    Ok(line)
}

/// A number in decimal digits.
pub fn digits(alloc: Global, number: u64) -> Result<String, AllocError> {
    format!(in alloc; "{number}")
}

/// A truth value as a word.
pub fn truth(holds: bool) -> &'static str {
    if holds { "true" } else { "false" }
}

/// A text of the program's own.
pub fn said(alloc: Global, text: &str) -> Result<String, NoAnswer> {
    Ok(String::from_str(alloc, text)?)
}
