//! Hashes of several values at once, in each lane and at each length that ends a block in another way. Byte `i` of value
//! `j` is `7 i + 31 j + 1` modulo 256.
use crate::formats::words::{count, hashes_in_hex, in_hex, said};
use crate::lines::{Case, NoAnswer};
use std::alloc::{AllocError, Global};
use tag_hash::{tagged_all, tagged_four};

/// The values of the cases before, and their hashes.
#[derive(Drop)]
pub struct Lanes {
    values: Vec<Vec<u8>>,
    hashes: Vec<[u8; 32]>,
}

impl Lanes {
    /// No values.
    pub fn new(alloc: Global) -> Lanes {
        Lanes {
            values: Vec::new(alloc),
            hashes: Vec::new(alloc),
        }
    }

    /// Answers `lanes four TAG SIZE`: the hashes of values 0 to 3 of this size; `lanes next TAG SIZE`, the hash of the
    /// next value, of this size; and `lanes none TAG`, how many hashes no values have.
    pub fn answer(&mut self, alloc: Global, case: &Case<'_>) -> Result<String, NoAnswer> {
        let tag = case.bytes(alloc, 2)?;
        match case.word(1)? {
            "four" => four(alloc, &tag, count(case, 3)?),
            "next" => self.next(alloc, &tag, count(case, 3)?),
            "none" => Ok(format!(in alloc; "{}", tagged_all(alloc, &tag, &[])?.len())?),
            _ => Err(NoAnswer::Question),
        }
    }

    /// The hash of a further value, made with those of all before it, and with those of the last four, where all agree.
    fn next(&mut self, alloc: Global, tag: &[u8], size: usize) -> Result<String, NoAnswer> {
        self.values.push(value(alloc, self.values.len(), size)?)?;
        let mut slices = Vec::new(alloc);
        for bytes in &self.values {
            slices.push(bytes.as_slice())?;
        }
        let hashes = tagged_all(alloc, tag, &slices)?;
        if hashes.len() != slices.len() || !hashes.starts_with(&self.hashes) {
            return said(alloc, "other hashes than before");
        }
        if !is_of_four(tag, &slices, &hashes) {
            return said(alloc, "other hashes than of four at once");
        }
        self.hashes = hashes;
        match self.hashes.last() {
            Some(hash) => Ok(in_hex(alloc, hash)?),
            None => said(alloc, "no hash"),
        }
    }
}

/// Whether the last four hashes are those of the last four values at once. Fewer than four are.
fn is_of_four(tag: &[u8], values: &[&[u8]], hashes: &[[u8; 32]]) -> bool {
    let Some([a, b, c, d]) = values.last_chunk::<4>() else {
        return true;
    };
    hashes.ends_with(&tagged_four(tag, &[*a, *b, *c, *d]))
}

/// The hashes of values 0 to 3 of a size, made at once.
fn four(alloc: Global, tag: &[u8], size: usize) -> Result<String, NoAnswer> {
    let a = value(alloc, 0, size)?;
    let b = value(alloc, 1, size)?;
    let c = value(alloc, 2, size)?;
    let d = value(alloc, 3, size)?;
    Ok(hashes_in_hex(alloc, &tagged_four(tag, &[&a, &b, &c, &d]))?)
}

/// Value `j` of `size` bytes.
fn value(alloc: Global, j: usize, size: usize) -> Result<Vec<u8>, AllocError> {
    let mut bytes = Vec::with_capacity(alloc, size)?;
    for i in 0..size {
        bytes.push(((i % 256 * 7 + j % 256 * 31 + 1) % 256) as u8)?;
    }
    Ok(bytes)
}
