//! Netstrings and tagged hashes.
use crate::formats::words::{count, in_hex};
use crate::lines::{Case, NoAnswer, shown};
use octets::fakes::counted_bytes;
use std::alloc::Global;
use tag_hash::{
    Decimal, TagHasher, netstring, pair, push_netstring, read_netstring, tagged, tagged16,
};

/// Answers questions whose second word is `decimal`, `netstring`, `netstrings`, `read`, `tagged`, `tagged16`, `counted`,
/// `pieces`, `pair` or `mixed`.
pub fn answer(alloc: Global, case: &Case<'_>) -> Result<String, NoAnswer> {
    match case.word(1)? {
        "decimal" => Ok(shown(alloc, Decimal::new(case.number(2)?).as_bytes())?),
        "netstring" => one_netstring(alloc, case),
        "netstrings" => netstrings(alloc, case),
        "read" => read(alloc, case),
        "counted" => of_count(alloc, case),
        "pieces" => in_pieces(alloc, case),
        "pair" => of_two(alloc, case),
        "mixed" => of_two(alloc, case),
        asked => hashed(alloc, asked, &case.bytes(alloc, 2)?, &case.bytes(alloc, 3)?),
    }
}

/// A netstring.
fn one_netstring(alloc: Global, case: &Case<'_>) -> Result<String, NoAnswer> {
    let text = netstring(alloc, &case.bytes(alloc, 2)?)?;
    Ok(shown(alloc, &text)?)
}

/// Two netstrings, one behind the other.
fn netstrings(alloc: Global, case: &Case<'_>) -> Result<String, NoAnswer> {
    let mut text = netstring(alloc, &case.bytes(alloc, 2)?)?;
    push_netstring(&mut text, &case.bytes(alloc, 3)?)?;
    Ok(shown(alloc, &text)?)
}

/// Where the bytes of the netstring at a place begin, how many they are, and where it ends.
fn read(alloc: Global, case: &Case<'_>) -> Result<String, NoAnswer> {
    let bytes = case.bytes(alloc, 2)?;
    match read_netstring(&bytes, count(case, 3)?) {
        Ok((span, end)) => Ok(format!(in alloc; "{} {} {end}", span.start, span.len)?),
        Err(fault) => Ok(format!(in alloc; "{fault:?}")?),
    }
}

/// A hash of bytes under a tag.
fn hashed(alloc: Global, asked: &str, tag: &[u8], bytes: &[u8]) -> Result<String, NoAnswer> {
    match asked {
        "tagged" => Ok(in_hex(alloc, &tagged(tag, bytes))?),
        "tagged16" => Ok(in_hex(alloc, &tagged16(tag, bytes))?),
        _ => Err(NoAnswer::Question),
    }
}

/// The hash of so many counted bytes.
fn of_count(alloc: Global, case: &Case<'_>) -> Result<String, NoAnswer> {
    let (tag, bytes) = (
        case.bytes(alloc, 2)?,
        counted_bytes(alloc, count(case, 3)?)?,
    );
    Ok(in_hex(alloc, &tagged(&tag, &bytes))?)
}

/// A hash of two texts of bytes.
fn of_two(alloc: Global, case: &Case<'_>) -> Result<String, NoAnswer> {
    let tag = case.bytes(alloc, 2)?;
    let (first, second) = (case.bytes(alloc, 3)?, case.bytes(alloc, 4)?);
    match case.word(1)? {
        "pair" => Ok(in_hex(alloc, &pair(&tag, &first, &second))?),
        _ => mixed(alloc, &tag, &first, &second),
    }
}

/// The hash of so many counted bytes that are given in pieces of such a size.
fn in_pieces(alloc: Global, case: &Case<'_>) -> Result<String, NoAnswer> {
    let (tag, bytes) = (
        case.bytes(alloc, 2)?,
        counted_bytes(alloc, count(case, 3)?)?,
    );
    let mut hasher = TagHasher::new(&tag);
    for piece in bytes.chunks(count(case, 4)?.max(1)) {
        hasher.update(piece);
    }
    Ok(in_hex(alloc, &hasher.finish())?)
}

/// The first half of the hash of a netstring and of bytes behind it.
fn mixed(alloc: Global, tag: &[u8], first: &[u8], behind: &[u8]) -> Result<String, NoAnswer> {
    let mut hasher = TagHasher::new(tag);
    hasher.update_netstring(first);
    hasher.update(behind);
    Ok(in_hex(alloc, &hasher.finish16())?)
}
