//! Answers as text.
use crate::lines::{NoAnswer, debug, fixed};
use std::alloc::Global;

/// Whether bytes are those that are wanted: `same`, or how many there are.
pub fn compared(alloc: Global, bytes: &[u8], wanted: &[u8]) -> Result<String, NoAnswer> {
    if bytes == wanted {
        fixed(alloc, "same")
    } else {
        debug(alloc, &bytes.len())
    }
}
