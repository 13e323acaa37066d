//! The k-of-N code: blocks that are made and decoded, in both forms of each call, and products that are added.
ghost use Rattle.std.specs.Prelude.{◌≡◌, ◌<◌, IsTrue, take, All};
ghost use Rattle.erasure.specs.Given.{contents_of, HaveOneLength};

use crate::formats::words::{count, in_hex, said, small_number};
use crate::lines::{Case, NoAnswer};
use erasure::{Code, CodeFault, mul_add};
use gf_field::mul;
use std::alloc::{AllocError, Global};

/// Answers `code new K N`, `code rest K N BLOCK..`, `code choices K N BLOCK..`, `code decode K N (NUMBER BLOCK)..`,
/// `code add DST SRC C`, `code sums COUNT BYTE` and `code sum COUNT C`.
pub fn answer(alloc: Global, case: &Case<'_>) -> Result<String, NoAnswer> {
    match case.word(1)? {
        "new" => fresh(alloc, case),
        "add" => added(alloc, case),
        "sums" => sums(alloc, case),
        "sum" => sum(alloc, case),
        "decode" => from_numbered(alloc, case),
        _ => of_primary(alloc, case),
    }
}

fn constant(case: &Case<'_>, at: usize) -> Result<u8, NoAnswer> {
    match case.word(at)?.parse::<u8>() {
        Ok(number) => Ok(number),
        Err(_) => Err(NoAnswer::Word(at)),
    }
}

/// Whether there is a code of these numbers.
fn fresh(alloc: Global, case: &Case<'_>) -> Result<String, NoAnswer> {
    match Code::new(small_number(case, 2)?, small_number(case, 3)?) {
        Ok(_) => said(alloc, "a code"),
        Err(fault) => Ok(format!(in alloc; "{fault}")?),
    }
}

/// What is asked of the primary blocks that are the words from the fifth on.
fn of_primary(alloc: Global, case: &Case<'_>) -> Result<String, NoAnswer> {
    let numbers = (small_number(case, 2)?, small_number(case, 3)?);
    let blocks = blocks_of(alloc, case)?;
    let primary = slices_of(alloc, &blocks)?;
    of_blocks(alloc, case.word(1)?, numbers, &primary)
}

/// What is asked of primary blocks.
fn of_blocks(
    alloc: Global,
    asked: &str,
    numbers: (u16, u16),
    primary: &[&[u8]],
) -> Result<String, NoAnswer> {
    match asked {
        "rest" => rest(alloc, numbers, primary),
        "choices" => choices(alloc, numbers, primary),
        _ => Err(NoAnswer::Question),
    }
}

/// The blocks that are the words from the fifth on.
fn blocks_of(alloc: Global, case: &Case<'_>) -> Result<Vec<Vec<u8>>, NoAnswer> {
    let mut blocks = Vec::new(alloc);
    for at in 4..case.len() {
        blocks.push(case.bytes(alloc, at)?)?;
    }
    Ok(blocks)
}

/// The same blocks, lent.
fn slices_of(alloc: Global, blocks: &[Vec<u8>]) -> Result<Vec<&[u8]>, AllocError> {
    let mut slices = Vec::new(alloc);
    for block in blocks {
        slices.push(block.as_slice())?;
    }
    Ok(slices)
}

fn have_one_length(blocks: &[&[u8]]) -> bool
    ensures { IsTrue result → HaveOneLength (contents_of blocks.now) }
{
    for block in blocks {
        if block.len() != blocks[0].len() {
            return false;
        }
    }
    true
}

fn can_decode(code: &Code, n: u16, blocks: &[(u16, &[u8])]) -> bool
    requires { code.now.n ≡ n }
    ensures { IsTrue result → All (λ b. b.0 < code.now.n) (take code.now.k blocks.now) }
{
    for (number, _) in blocks {
        if *number >= n {
            return false;
        }
    }
    true
}

/// All n blocks, where both forms of the call make the same.
fn encode_all(
    alloc: Global,
    (k, n): (u16, u16),
    primary: &[&[u8]],
) -> Result<Vec<Vec<u8>>, CodeFault> {
    let code = Code::new(k, n)?;
    if primary.len() != k as usize || !have_one_length(primary) {
        return Err(CodeFault::UnequalLength);
    }
    let mut blocks = Vec::new(alloc);
    let mut row = Vec::new(alloc);
    for i in 0..n {
        let block = code.encode_block(alloc, primary, i)?;
        code.encode_block_into(primary, i, &mut row)?;
        if !row.ends_with(&block) {
            return Err(CodeFault::BadParameters);
        }
        blocks.push(block)?;
    }
    Ok(blocks)
}

/// The primary blocks, where both forms of the call decode the same.
fn decode(
    alloc: Global,
    (k, n): (u16, u16),
    blocks: &[(u16, &[u8])],
) -> Result<Vec<Vec<u8>>, CodeFault> {
    let code = Code::new(k, n)?;
    if !can_decode(&code, n, blocks) {
        return Err(CodeFault::BadParameters);
    }
    let mut row = Vec::from_slice(alloc, &[7])?;
    let into = code.decode_into(alloc, blocks, &mut row);
    let primary = code.decode(alloc, blocks);
    let mut whole = Vec::from_slice(alloc, &[7])?;
    if let Ok(primary) = &primary {
        for block in primary {
            whole.extend_from_slice(block)?;
        }
    }
    if into.as_ref().err() != primary.as_ref().err() || row != whole {
        return Err(CodeFault::BadParameters);
    }
    primary
}

/// Whether the first blocks are the primary ones.
fn begin_with(blocks: &[Vec<u8>], primary: &[&[u8]]) -> bool {
    for (block, expected) in blocks.iter().zip(primary) {
        if block.as_slice() != *expected {
            return false;
        }
    }
    blocks.len() >= primary.len()
}

/// Whether the primary blocks are decoded from the last k of all.
fn are_from_last(
    alloc: Global,
    (k, n): (u16, u16),
    blocks: &[Vec<u8>],
    primary: &[&[u8]],
) -> Result<bool, AllocError> {
    let mut last = Vec::new(alloc);
    for (number, block) in (0..n).zip(blocks) {
        if number >= n.saturating_sub(k) {
            last.push((number, block.as_slice()))?;
        }
    }
    match decode(alloc, (k, n), &last) {
        Ok(decoded) => Ok(begin_with(&decoded, primary)),
        Err(_) => Ok(false),
    }
}

/// The blocks behind the primary ones, where the last k of all give the primary ones back.
fn rest(alloc: Global, (k, n): (u16, u16), primary: &[&[u8]]) -> Result<String, NoAnswer> {
    let Ok(blocks) = encode_all(alloc, (k, n), primary) else {
        return said(alloc, "not encoded");
    };
    if !begin_with(&blocks, primary) || !are_from_last(alloc, (k, n), &blocks, primary)? {
        return said(alloc, "other primary blocks");
    }
    let mut rest = Vec::new(alloc);
    for block in blocks.iter().skip(k as usize) {
        rest.extend_from_slice(block)?;
    }
    Ok(in_hex(alloc, &rest)?)
}

/// From how many choices of k of the n blocks, at most 8, the primary ones are decoded.
fn choices(alloc: Global, (k, n): (u16, u16), primary: &[&[u8]]) -> Result<String, NoAnswer> {
    let Ok(blocks) = encode_all(alloc, (k, n), primary) else {
        return said(alloc, "not encoded");
    };
    let mut decoding = 0_u32;
    for choice in 0..1_u16 << n.min(8) {
        if is_decoding(alloc, (k, n), &blocks, primary, choice)? {
            decoding = decoding.saturating_add(1);
        }
    }
    Ok(format!(in alloc; "{decoding}")?)
}

/// Whether k bits of the choice are set, and the primary blocks are decoded from the blocks whose bits these are.
fn is_decoding(
    alloc: Global,
    (k, n): (u16, u16),
    blocks: &[Vec<u8>],
    primary: &[&[u8]],
    choice: u16,
) -> Result<bool, AllocError> {
    let mut given = Vec::new(alloc);
    for (i, block) in (0..n).zip(blocks) {
        if (choice >> (i % 16)) & 1 == 1 {
            given.push((i, block.as_slice()))?;
        }
    }
    if given.len() != k as usize {
        return Ok(false);
    }
    match decode(alloc, (k, n), &given) {
        Ok(decoded) => Ok(decoded.len() == k as usize && begin_with(&decoded, primary)),
        Err(_) => Ok(false),
    }
}

/// The words from the fifth on, a number and a block each.
fn numbered(alloc: Global, case: &Case<'_>) -> Result<Vec<(u16, Vec<u8>)>, NoAnswer> {
    let mut blocks = Vec::new(alloc);
    for at in 4..case.len() {
        if at % 2 == 0 {
            let number = small_number(case, at)?;
            let block = case.bytes(alloc, at.saturating_add(1))?;
            blocks.push((number, block))?;
        }
    }
    Ok(blocks)
}

/// The primary blocks that are decoded from the words from the fifth on, a number and a block each.
fn from_numbered(alloc: Global, case: &Case<'_>) -> Result<String, NoAnswer> {
    let (k, n) = (small_number(case, 2)?, small_number(case, 3)?);
    let blocks = numbered(alloc, case)?;
    let mut given = Vec::new(alloc);
    for (number, block) in &blocks {
        given.push((*number, block.as_slice()))?;
    }
    match decode(alloc, (k, n), &given) {
        Ok(primary) => in_words(alloc, &primary),
        Err(fault) => Ok(format!(in alloc; "{fault}")?),
    }
}

/// Blocks in hexadecimal digits, each with a blank behind it but the last.
fn in_words(alloc: Global, blocks: &[Vec<u8>]) -> Result<String, NoAnswer> {
    let mut words = String::new(alloc);
    for block in blocks {
        if !words.is_empty() {
            words.push(' ')?;
        }
        words.push_str(&in_hex(alloc, block)?)?;
    }
    Ok(words)
}

/// Bytes to which the products of others and a constant were added.
fn added(alloc: Global, case: &Case<'_>) -> Result<String, NoAnswer> {
    let (mut sum, src) = (case.bytes(alloc, 2)?, case.bytes(alloc, 3)?);
    if sum.len() != src.len() {
        return Err(NoAnswer::Word(3));
    }
    mul_add(&mut sum, &src, constant(case, 4)?);
    Ok(in_hex(alloc, &sum)?)
}

/// So many bytes that are spread over all values.
fn spread(alloc: Global, count: usize) -> Result<Vec<u8>, AllocError> {
    let mut bytes = Vec::with_capacity(alloc, count)?;
    for i in 0..count {
        bytes.push((i % 256 * 167 % 256) as u8)?;
    }
    Ok(bytes)
}

/// Whether products are added as byte by byte, by the field's own product.
fn is_plain(alloc: Global, start: &[u8], src: &[u8], c: u8) -> Result<bool, AllocError> {
    let mut fast = Vec::from_slice(alloc, start)?;
    let mut plain = Vec::from_slice(alloc, start)?;
    if fast.len() != src.len() {
        return Ok(false);
    }
    mul_add(&mut fast, src, c);
    for (sum, byte) in plain.iter_mut().zip(src) {
        *sum ^= mul(c, *byte);
    }
    Ok(fast == plain)
}

/// At how many constants and lengths up to the third word products are added to bytes of one value as byte by byte.
fn sums(alloc: Global, case: &Case<'_>) -> Result<String, NoAnswer> {
    let (src, start) = (spread(alloc, count(case, 2)?)?, case.bytes(alloc, 3)?);
    let mut plain = 0_u32;
    for c in 0..=255_u8 {
        for size in 0..=src.len() {
            let starts = start.repeat(alloc, size)?;
            if is_plain(alloc, &starts, &src[..size], c)? {
                plain = plain.saturating_add(1);
            }
        }
    }
    Ok(format!(in alloc; "{plain}")?)
}

/// Whether the products of so many bytes and a constant are added to these bytes as byte by byte.
fn sum(alloc: Global, case: &Case<'_>) -> Result<String, NoAnswer> {
    let (src, c) = (spread(alloc, count(case, 2)?)?, constant(case, 3)?);
    Ok(format!(in alloc; "{}", is_plain(alloc, &src, &src, c)?)?)
}
