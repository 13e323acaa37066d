//! Caps: their texts, fields, verify caps and storage indexes.
use crate::formats::words::{digits, in_hex, joined, said};
use caps::{Cap, CapFault, ReadFields, laws, parse, parse_bytes, print, storage_index, weaken};
use crate::lines::{Case, NoAnswer, shown};
use hex::FromHex;
use std::alloc::Global;

/// Answers `cap text CAP`, `cap weaken CAP`, `cap holds CAP`, `cap refuse BYTES`, `cap index KEY` and `cap no_memory`.
pub fn answer(alloc: Global, case: &Case<'_>) -> Result<String, NoAnswer> {
    match case.word(1)? {
        "refuse" => refusal(alloc, &case.bytes(alloc, 2)?),
        "index" => index(alloc, case.word(2)?),
        "no_memory" => Ok(format!(in alloc; "{}", CapFault::NoMemory)?),
        asked => match parse(alloc, case.word(2)?) {
            Ok(cap) => of_cap(alloc, asked, &cap),
            Err(fault) => Ok(format!(in alloc; "{fault}")?),
        },
    }
}

/// What is asked of a cap.
fn of_cap(alloc: Global, asked: &str, cap: &Cap) -> Result<String, NoAnswer> {
    match asked {
        "text" => Ok(print(alloc, cap)?),
        "weaken" => weakened(alloc, cap),
        "holds" => held(alloc, cap),
        _ => Err(NoAnswer::Question),
    }
}

/// The text of the verify cap.
fn weakened(alloc: Global, cap: &Cap) -> Result<String, NoAnswer> {
    laws::verify_caps_are_their_own();
    match weaken(cap) {
        Some(verify) => Ok(print(alloc, &Cap::from(verify))?),
        None => said(alloc, "none"),
    }
}

/// What a cap of a file, or a literal one, holds.
fn held(alloc: Global, cap: &Cap) -> Result<String, NoAnswer> {
    match cap {
        Cap::Lit(bytes) => bytes_held(alloc, "Lit", bytes.as_slice()),
        Cap::DirLit(bytes) => bytes_held(alloc, "DirLit", bytes.as_slice()),
        Cap::Chk(fields) => fields_held(alloc, fields),
        _ => said(alloc, "another cap"),
    }
}

/// The kind of a literal cap, and its bytes.
fn bytes_held(alloc: Global, kind: &str, bytes: &[u8]) -> Result<String, NoAnswer> {
    let word = shown(alloc, bytes)?;
    joined(alloc, &[kind, &word])
}

/// The key, the hash of the extension block, and the numbers.
fn fields_held(alloc: Global, fields: &ReadFields) -> Result<String, NoAnswer> {
    let (key, ueb) = (in_hex(alloc, &fields.key)?, in_hex(alloc, &fields.ueb)?);
    let k = digits(alloc, u64::from(fields.k))?;
    let n = digits(alloc, u64::from(fields.n))?;
    let size = digits(alloc, fields.size)?;
    joined(alloc, &["Chk", &key, &ueb, &k, &n, &size])
}

/// Why bytes are no cap's text.
fn refusal(alloc: Global, text: &[u8]) -> Result<String, NoAnswer> {
    match parse_bytes(alloc, text) {
        Ok(_) => said(alloc, "read"),
        Err(fault) => Ok(format!(in alloc; "{fault}")?),
    }
}

/// The storage index of a key.
fn index(alloc: Global, key: &str) -> Result<String, NoAnswer> {
    let Ok(key) = <[u8; 16] as FromHex>::from_hex(key) else {
        return Err(NoAnswer::Word(2));
    };
    Ok(in_hex(alloc, &storage_index(&key))?)
}
