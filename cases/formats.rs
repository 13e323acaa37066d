//! Cases of bytes, hashes, codes, caps and directories, over the public calls of their crates. The second word of a
//! question that a module answers names the call.

/// Base32.
mod base32;
/// Bytes, texts and numbers.
mod byte_texts;
/// Caps and their texts.
mod cap_texts;
/// The k-of-N code.
mod codes;
/// Directory texts and children as JSON.
mod directories;
/// Several messages hashed at once.
mod hash_lanes;
/// Requests to stores of objects, and their replies.
mod object_texts;
/// Shares and crypttexts that are judged in steps.
mod readings;
/// Replies of the Redis protocol.
mod redis_texts;
/// Shares.
mod shares;
/// Codes by a key, and signatures.
mod signatures;
/// Netstrings and tagged hashes.
mod tagged_hashes;
/// Hash trees.
mod trees;
/// Words that several modules read and write.
mod words;

use crate::lines::{Answers, Case, NoAnswer};
use hash_lanes::Lanes;
use shares::Shares;
use std::alloc::Global;

/// What is kept from one case for the next.
#[derive(Drop)]
pub struct Formats {
    lanes: Lanes,
    shares: Shares,
}

impl Formats {
    /// Nothing yet.
    pub fn new(alloc: Global) -> Formats {
        Formats {
            lanes: Lanes::new(alloc),
            shares: Shares::new(alloc),
        }
    }
}

impl Answers for Formats {
    fn answer(&mut self, alloc: Global, case: &Case<'_>) -> Result<String, NoAnswer> {
        match case.word(0)? {
            "base32" => base32::answer(alloc, case),
            "octets" => byte_texts::answer(alloc, case),
            "cap" => cap_texts::answer(alloc, case),
            "code" => codes::answer(alloc, case),
            "directory" => directories::answer(alloc, case),
            "lanes" => self.lanes.answer(alloc, case),
            "object" => object_texts::answer(alloc, case),
            "reading" => readings::answer(alloc, case),
            "reply" => redis_texts::answer(alloc, case),
            "share" => self.shares.answer(alloc, case),
            "hash" => tagged_hashes::answer(alloc, case),
            "hmac" => signatures::code(alloc, case),
            "s3" => signatures::answer(alloc, case),
            "tree" => trees::answer(alloc, case),
            _ => Err(NoAnswer::Question),
        }
    }
}
