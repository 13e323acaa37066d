//! The words of a case.
use crate::lines::fault::NoAnswer;
use octets::fakes::counted_bytes;
use percent_encoding::{CONTROLS, percent_decode_str, percent_encode};
use std::alloc::{AllocError, Global};

/// The words of a case, the question first. A word that is bytes has pieces that `+` joins: an even number of hexadecimal
/// digits, or `'` and text in which `%` and two such digits are a byte (RFC 3986, section 2.1), or `#` and a decimal count of
/// bytes of which byte i is i modulo 251. A decimal count and `*` in front of a piece repeat it. `-` is no bytes.
#[derive(Drop)]
pub struct Case<'a> {
    words: Vec<&'a str>,
}

impl<'a> Case<'a> {
    /// The words of a text, which spaces part.
    pub fn new(alloc: Global, text: &'a str) -> Result<Case<'a>, AllocError> {
        let mut words = Vec::new(alloc);
        for word in text.split(' ') {
            words.push(word)?;
        }
        Ok(Case { words })
    }

    /// How many words there are.
    pub fn len(&self) -> usize {
        self.words.len()
    }

    /// Whether there is none.
    pub fn is_empty(&self) -> bool {
        self.words.is_empty()
    }

    /// The word at a place, from 0, which is the question's.
    pub fn word(&self, at: usize) -> Result<&'a str, NoAnswer> {
        match self.words.get(at) {
            Some(word) => Ok(*word),
            None => Err(NoAnswer::Word(at)),
        }
    }

    /// The word at a place as a decimal number.
    pub fn number(&self, at: usize) -> Result<u64, NoAnswer> {
        match self.word(at)?.parse::<u64>() {
            Ok(number) => Ok(number),
            Err(_) => Err(NoAnswer::Word(at)),
        }
    }

    /// The word at a place as a decimal number below 65,536.
    pub fn small(&self, at: usize) -> Result<u16, NoAnswer> {
        match self.word(at)?.parse::<u16>() {
            Ok(number) => Ok(number),
            Err(_) => Err(NoAnswer::Word(at)),
        }
    }

    /// The word at a place as a decimal number below 256.
    pub fn byte(&self, at: usize) -> Result<u8, NoAnswer> {
        match self.word(at)?.parse::<u8>() {
            Ok(number) => Ok(number),
            Err(_) => Err(NoAnswer::Word(at)),
        }
    }

    /// The word at a place as bytes.
    pub fn bytes(&self, alloc: Global, at: usize) -> Result<Vec<u8>, NoAnswer> {
        let mut bytes = Vec::new(alloc);
        let word = self.word(at)?;
        if word == "-" {
            return Ok(bytes);
        }
        for piece in word.split('+') {
            if !push_piece(alloc, piece, &mut bytes)? {
                return Err(NoAnswer::Word(at));
            }
        }
        Ok(bytes)
    }
}

/// Adds the bytes of a piece. `false` where it is none.
fn push_piece(alloc: Global, piece: &str, bytes: &mut Vec<u8>) -> Result<bool, AllocError> {
    let (count, once) = piece.split_once('*').unwrap_or(("1", piece));
    let (Ok(count), Some(once)) = (count.parse::<u32>(), decoded(alloc, once)?) else {
        return Ok(false);
    };
    for _ in 0..count {
        bytes.extend_from_slice(&once)?;
    }
    Ok(true)
}

/// The bytes of a piece without its count.
fn decoded(alloc: Global, piece: &str) -> Result<Option<Vec<u8>>, AllocError> {
    if let Some(count) = piece.strip_prefix('#') {
        return match count.parse::<u32>() {
            Ok(count) => Ok(Some(counted_bytes(alloc, count as usize)?)),
            Err(_) => Ok(None),
        };
    }
    let Some(text) = piece.strip_prefix('\'') else {
        return Ok(hex::decode(alloc, piece).ok());
    };
    let mut bytes = Vec::new(alloc);
    percent_decode_str(text).append_to(&mut bytes)?;
    Ok(Some(bytes))
}

/// Bytes as a word: `'` and text in which bytes that are no visible ASCII, `%`, `+` and `*` are percent-encoded.
pub fn shown(alloc: Global, bytes: &[u8]) -> Result<String, AllocError> {
    let mut word = String::from_str(alloc, "'")?;
    percent_encode(bytes, CONTROLS.add(b' ').add(b'%').add(b'+').add(b'*')).append_to(&mut word)?;
    Ok(word)
}
