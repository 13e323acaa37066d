//! Shares and crypttexts that are judged in steps.
use crate::formats::shares::params;
use crate::formats::words::{count, digits, said, small_number};
use crate::lines::{Case, NoAnswer};
use octets::fakes::counted_bytes;
use share_codec::{
    CrypttextReading, Params, Share, ShareFault, ShareReading, crypttext_root, make_shares,
    read_share,
};
use std::alloc::Global;
use std::rc::RcSlice;
use tag_hash::read_netstring;

/// More steps than any case takes.
const MOST_STEPS: usize = 1_000_000;

/// Answers questions whose second word is `share`, `string` or `crypttext`. The numbers k, n and size follow.
pub fn answer(alloc: Global, case: &Case<'_>) -> Result<String, NoAnswer> {
    match case.word(1)? {
        "share" => share(alloc, case),
        "string" => string(alloc, case),
        "crypttext" => crypttext(alloc, case),
        _ => Err(NoAnswer::Question),
    }
}

/// As what strings are judged, and how many blocks are hashed in a step.
#[derive(Drop)]
struct Asked {
    params: Params,
    number: u16,
    ueb: [u8; 32],
    most: usize,
}

impl Asked {
    /// What a string is, and in how many steps all is hashed. It is judged at once, and where it is judged in steps before
    /// the first one and after each.
    fn judge(&self, alloc: Global, bytes: &[u8]) -> Result<String, NoAnswer> {
        let held = RcSlice::from_slice(alloc, bytes)?;
        let read = read_share(alloc, &held, self.number, &self.params, &self.ueb);
        let wanted = told(alloc, &read)?;
        let mut reading = ShareReading::new(alloc, held, &self.params);
        let mut left = true;
        for steps in 0..MOST_STEPS {
            let found = told(alloc, &reading.read(alloc, self.number, &self.ueb))?;
            if found != wanted {
                return Ok(format!(in alloc; "{found} after {steps}")?);
            }
            if !left {
                return Ok(format!(in alloc; "{wanted}:{steps}")?);
            }
            left = reading.step(self.most)?;
        }
        said(alloc, "without end")
    }

    /// What a string is with the lowest bit of a byte changed.
    fn judge_changed(&self, alloc: Global, bytes: &[u8], at: usize) -> Result<String, NoAnswer> {
        let mut changed = Vec::from_slice(alloc, bytes)?;
        match changed.get_mut(at) {
            Some(byte) => *byte ^= 1,
            None => return said(alloc, "no such byte"),
        }
        self.judge(alloc, &changed)
    }
}

/// What a string is.
fn told(alloc: Global, read: &Result<Share, ShareFault>) -> Result<String, NoAnswer> {
    match read {
        Ok(_) => said(alloc, "good"),
        Err(ShareFault::NoMemory) => Err(NoAnswer::NoMemory),
        Err(fault) => Ok(format!(in alloc; "{fault:?}")?),
    }
}

/// Of a share of counted bytes, by the number in the sixth word, in steps of as many blocks as the seventh word says: what
/// it is, and what it is with a bit changed of the last byte of each of its texts, and of its own last byte.
fn share(alloc: Global, case: &Case<'_>) -> Result<String, NoAnswer> {
    let crypttext = counted_bytes(alloc, count(case, 4)?)?;
    let params = params(case, crypttext.len() as u64)?;
    if params.size == 0 || params.size != crypttext.len() as u64 {
        return Err(NoAnswer::Word(4));
    }
    let (shares, ueb) = make_shares(alloc, &params, &crypttext)?;
    let (number, most) = (small_number(case, 5)?, count(case, 6)?);
    let asked = Asked {
        params,
        number,
        ueb,
        most,
    };
    match shares.get(number as usize) {
        Some(share) => of_share(alloc, &asked, share),
        None => Err(NoAnswer::Word(5)),
    }
}

/// What a share is, and what it is with bits of its parts changed.
fn of_share(alloc: Global, asked: &Asked, share: &[u8]) -> Result<String, NoAnswer> {
    let mut line = asked.judge(alloc, share)?;
    let mut at = 0;
    for _ in 0..6 {
        let Ok((_, next)) = read_netstring(share, at) else {
            return said(alloc, "torn");
        };
        let last = next.saturating_sub(2);
        line.push(' ')?;
        line.push_str(&asked.judge_changed(alloc, share, last)?)?;
        at = next;
    }
    let last = share.len().saturating_sub(1);
    line.push(' ')?;
    line.push_str(&asked.judge_changed(alloc, share, last)?)?;
    Ok(line)
}

/// What the bytes in the eighth word are as a share of the numbers before them, in steps of as many blocks as the seventh
/// word says.
fn string(alloc: Global, case: &Case<'_>) -> Result<String, NoAnswer> {
    let asked = Asked {
        params: params(case, case.number(4)?)?,
        number: small_number(case, 5)?,
        ueb: [0; 32],
        most: count(case, 6)?,
    };
    asked.judge(alloc, &case.bytes(alloc, 7)?)
}

/// In how many steps of as many segments as the sixth word says counted bytes are hashed, where their root is the same
/// before the first step and after each, and the bytes are given back.
fn crypttext(alloc: Global, case: &Case<'_>) -> Result<String, NoAnswer> {
    let bytes = counted_bytes(alloc, count(case, 4)?)?;
    let params = params(case, bytes.len() as u64)?;
    if params.size == 0 || params.size != bytes.len() as u64 {
        return Err(NoAnswer::Word(4));
    }
    let wanted = crypttext_root(alloc, &params, &bytes)?;
    let most = count(case, 5)?;
    let mut reading = CrypttextReading::new(alloc, bytes.clone()?, &params);
    let mut left = true;
    for steps in 0..MOST_STEPS {
        if reading.root(alloc)? != wanted {
            return Ok(format!(in alloc; "another root after {steps}")?);
        }
        if !left {
            return given_back(alloc, reading, &bytes, steps);
        }
        left = reading.step(most)?;
    }
    said(alloc, "without end")
}

/// How many steps were taken, where a reading gives its bytes back.
fn given_back(
    alloc: Global,
    reading: CrypttextReading,
    bytes: &[u8],
    steps: usize,
) -> Result<String, NoAnswer> {
    if reading.into_bytes().as_slice() != bytes {
        return said(alloc, "other bytes");
    }
    Ok(digits(alloc, steps as u64)?)
}
