//! Shares: how they are made, and when bytes are one.
use crate::formats::words::{count, digits, hash, in_hex, joined, said, small_number};
use crate::lines::{Case, NoAnswer};
use octets::fakes::counted_bytes;
use octets::is_sharing;
use sha2::{Digest, Sha256};
use share_codec::{Params, Share, ShareFault, crypttext_root, make_shares, read_share};
use std::alloc::Global;
use std::rc::RcSlice;
use tag_hash::{TagHasher, read_netstring};

/// Bytes that may be a share, and the shares that were made last.
#[derive(Drop)]
pub struct Shares {
    held: Vec<u8>,
    made: Vec<Vec<u8>>,
}

impl Shares {
    /// No bytes, and no shares.
    pub fn new(alloc: Global) -> Shares {
        Shares {
            held: Vec::new(alloc),
            made: Vec::new(alloc),
        }
    }

    /// Answers questions whose second word is `hold`, `read`, `changed`, `make`, `counted`, `row`, `sha256`, `bytes`,
    /// `lengths`, `cut`, `segments` or `root`.
    pub fn answer(&mut self, alloc: Global, case: &Case<'_>) -> Result<String, NoAnswer> {
        match case.word(1)? {
            "hold" => self.hold(alloc, case.bytes(alloc, 2)?),
            "read" => read(alloc, &self.held, case),
            "changed" => self.read_changed(alloc, case),
            "make" => self.make_of_word(alloc, case),
            "counted" => self.make_of_count(alloc, case),
            "row" => self.hash_of_row(alloc),
            "cut" => of_numbers(alloc, case),
            "segments" => of_numbers(alloc, case),
            "root" => root(alloc, case),
            asked => self.of_made(alloc, asked, count(case, 2)?),
        }
    }

    /// What is asked of a share that was made.
    fn of_made(&self, alloc: Global, asked: &str, number: usize) -> Result<String, NoAnswer> {
        match self.made.get(number) {
            Some(share) => of_share(alloc, asked, share),
            None => said(alloc, "no such share"),
        }
    }

    /// Makes the shares of the crypttext that is the fifth word.
    fn make_of_word(&mut self, alloc: Global, case: &Case<'_>) -> Result<String, NoAnswer> {
        let crypttext = case.bytes(alloc, 4)?;
        self.make(alloc, case, &crypttext)
    }

    /// Makes the shares of as many counted bytes as the fifth word says.
    fn make_of_count(&mut self, alloc: Global, case: &Case<'_>) -> Result<String, NoAnswer> {
        let crypttext = counted_bytes(alloc, count(case, 4)?)?;
        self.make(alloc, case, &crypttext)
    }

    /// Keeps the bytes for the next cases, and tells how many they are.
    fn hold(&mut self, alloc: Global, bytes: Vec<u8>) -> Result<String, NoAnswer> {
        self.held = bytes;
        Ok(format!(in alloc; "{}", self.held.len())?)
    }

    /// The bytes that are held, with the lowest bit of one changed, read as a share.
    fn read_changed(&self, alloc: Global, case: &Case<'_>) -> Result<String, NoAnswer> {
        let mut bytes = Vec::from_slice(alloc, &self.held)?;
        match bytes.get_mut(count(case, 7)?) {
            Some(byte) => *byte ^= 1,
            None => return Err(NoAnswer::Word(7)),
        }
        read(alloc, &bytes, case)
    }

    /// Makes the shares of a crypttext, and tells how many they are and the hash of their extension block, where each is
    /// read as a good one.
    fn make(
        &mut self,
        alloc: Global,
        case: &Case<'_>,
        crypttext: &[u8],
    ) -> Result<String, NoAnswer> {
        let params = params(case, crypttext.len() as u64)?;
        if params.size == 0 || params.size != crypttext.len() as u64 {
            return Err(NoAnswer::Word(4));
        }
        let (shares, ueb) = make_shares(alloc, &params, crypttext)?;
        for (number, share) in (0..params.n).zip(&shares) {
            let held = RcSlice::from_slice(alloc, share)?;
            if let Err(fault) = read_share(alloc, &held, number, &params, &ueb) {
                return Ok(format!(in alloc; "{number}: {fault:?}")?);
            }
        }
        self.made = shares;
        let ueb = in_hex(alloc, &ueb)?;
        Ok(format!(in alloc; "{} {ueb}", self.made.len())?)
    }

    /// The hash of the shares that were made, in a row.
    fn hash_of_row(&self, alloc: Global) -> Result<String, NoAnswer> {
        let mut hasher = TagHasher::new(b"shares");
        for share in &self.made {
            hasher.update(share);
        }
        Ok(in_hex(alloc, &hasher.finish())?)
    }
}

/// The numbers of an encoding, of which k and n are the third and fourth word.
pub fn params(case: &Case<'_>, size: u64) -> Result<Params, NoAnswer> {
    let (k, n) = (small_number(case, 2)?, small_number(case, 3)?);
    if !is_sharing(k, n) {
        return Err(NoAnswer::Word(2));
    }
    Ok(Params::new(k, n, size))
}

/// What bytes are as a share of the numbers k, n and size, the number and the hash of an extension block in the words from
/// the third on: the share's number, how many blocks it has, the first of them and the crypttext root, or the fault.
fn read(alloc: Global, bytes: &[u8], case: &Case<'_>) -> Result<String, NoAnswer> {
    let params = params(case, case.number(4)?)?;
    let (number, ueb) = (small_number(case, 5)?, hash(case, 6)?);
    let held = RcSlice::from_slice(alloc, bytes)?;
    let read = read_share(alloc, &held, number, &params, &ueb);
    drop(held);
    match read {
        Ok(share) => parts(alloc, &share),
        Err(ShareFault::NoMemory) => Err(NoAnswer::NoMemory),
        Err(fault) => Ok(format!(in alloc; "{fault:?}")?),
    }
}

/// What a good share has.
fn parts(alloc: Global, share: &Share) -> Result<String, NoAnswer> {
    if share.block_count() == 0 {
        return said(alloc, "no blocks");
    }
    let block = in_hex(alloc, share.block(0))?;
    let root = in_hex(alloc, &share.ueb().crypttext_root)?;
    let number = digits(alloc, u64::from(share.number()))?;
    let count = digits(alloc, share.block_count() as u64)?;
    joined(alloc, &[&number, &count, &block, &root])
}

/// What is asked of the numbers of an encoding.
fn of_numbers(alloc: Global, case: &Case<'_>) -> Result<String, NoAnswer> {
    let params = params(case, case.number(4)?)?;
    match case.word(1)? {
        "cut" => cut(alloc, &params),
        _ => segments(alloc, &params),
    }
}

/// What is asked of a share.
fn of_share(alloc: Global, asked: &str, share: &Vec<u8>) -> Result<String, NoAnswer> {
    match asked {
        "sha256" => Ok(in_hex(alloc, &Sha256::digest(share.as_slice()))?),
        "bytes" => Ok(in_hex(alloc, share)?),
        "lengths" => lengths(alloc, share),
        _ => Err(NoAnswer::Question),
    }
}

/// How many bytes a share has, how many it has room for, and the lengths of the netstrings that it is.
fn lengths(alloc: Global, share: &Vec<u8>) -> Result<String, NoAnswer> {
    let mut lengths = format!(in alloc; "{} {}", share.len(), share.capacity())?;
    let mut at = 0;
    for _ in 0..6 {
        let Ok((_, next)) = read_netstring(share, at) else {
            return said(alloc, "torn");
        };
        write!(lengths, " {}", next.saturating_sub(at))?;
        at = next;
    }
    Ok(lengths)
}

/// The sizes of a segment, how many there are, and the sizes of a block and of all blocks.
fn cut(alloc: Global, params: &Params) -> Result<String, NoAnswer> {
    if params.size == 0 {
        return Err(NoAnswer::Word(4));
    }
    let (segment, segments) = (params.segment_size(), params.segment_count());
    let (block, blocks) = (params.block_size(), params.blocks_size());
    Ok(format!(in alloc; "{segment} {segments} {block} {blocks}")?)
}

/// The lengths of the segments.
fn segments(alloc: Global, params: &Params) -> Result<String, NoAnswer> {
    let mut lengths = String::new(alloc);
    if params.size == 0 {
        return Err(NoAnswer::Word(4));
    }
    for at in 0..params.segment_count() {
        if at > 0 {
            lengths.push(' ')?;
        }
        write!(lengths, "{}", params.segment_length(at))?;
    }
    Ok(lengths)
}

/// The root of the segments of the crypttext that is the fifth word.
fn root(alloc: Global, case: &Case<'_>) -> Result<String, NoAnswer> {
    let crypttext = case.bytes(alloc, 4)?;
    let params = params(case, crypttext.len() as u64)?;
    if params.size == 0 || params.size != crypttext.len() as u64 {
        return Err(NoAnswer::Word(4));
    }
    Ok(in_hex(alloc, &crypttext_root(alloc, &params, &crypttext)?)?)
}
