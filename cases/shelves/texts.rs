//! Answers as text.
use crate::lines::{NoAnswer, debug, fixed, shown};
use std::alloc::Global;
use std::fmt::Debug;
use std::rc::RcSlice;

/// The bytes of a share as a word, `none` where there is no share, or the fault's debug text.
pub fn given<E: Debug + Drop>(
    alloc: Global,
    outcome: Result<Option<RcSlice<u8>>, E>,
) -> Result<String, NoAnswer> {
    match outcome {
        Ok(Some(share)) => Ok(shown(alloc, share.as_slice())?),
        Ok(None) => fixed(alloc, "none"),
        Err(fault) => debug(alloc, &fault),
    }
}

/// Puts an answer behind others, with `; ` between them.
pub fn add(answers: &mut String, answer: &str) -> Result<(), NoAnswer> {
    if !answers.is_empty() {
        answers.push_str("; ")?;
    }
    answers.push_str(answer)?;
    Ok(())
}
