//! Questions about the words of a case itself: cases/wrong.txt has cases that fail on purpose, and lines that are none.
use crate::lines::{Answers, Case, NoAnswer, shown};
use std::alloc::Global;

/// What answers the cases.
#[derive(Drop)]
pub struct Words;

impl Answers for Words {
    fn answer(&mut self, alloc: Global, case: &Case<'_>) -> Result<String, NoAnswer> {
        match case.word(0)? {
            "word" => Ok(String::from_str(alloc, case.word(1)?)?),
            "bytes" => bytes(alloc, case),
            "number" => Ok(case.number(1)?.to_string(alloc)?),
            "small" => Ok(case.small(1)?.to_string(alloc)?),
            "byte" => Ok(case.byte(1)?.to_string(alloc)?),
            _ => Err(NoAnswer::Question),
        }
    }
}

/// The bytes of a word, shown as one.
fn bytes(alloc: Global, case: &Case<'_>) -> Result<String, NoAnswer> {
    let bytes = case.bytes(alloc, 1)?;
    Ok(shown(alloc, &bytes)?)
}
