//! What an answer says, as text.
use crate::lines::NoAnswer;
use std::alloc::Global;
use std::fmt::Debug;

/// A value's debug text.
pub fn debug<T: Debug>(alloc: Global, value: &T) -> Result<String, NoAnswer> {
    match format!(in alloc; "{value:?}") {
        Ok(text) => Ok(text),
        Err(_) => Err(NoAnswer::NoMemory),
    }
}

/// A fixed text.
pub fn fixed(alloc: Global, text: &str) -> Result<String, NoAnswer> {
    Ok(String::from_str(alloc, text)?)
}

/// `ok`, or the fault's debug text.
pub fn done<T: Drop, E: Debug + Drop>(
    alloc: Global,
    outcome: Result<T, E>,
) -> Result<String, NoAnswer> {
    match outcome {
        Ok(_) => fixed(alloc, "ok"),
        Err(fault) => debug(alloc, &fault),
    }
}

/// The debug text of the value, or of the fault.
pub fn told<T: Debug + Drop, E: Debug + Drop>(
    alloc: Global,
    outcome: Result<T, E>,
) -> Result<String, NoAnswer> {
    match outcome {
        Ok(value) => debug(alloc, &value),
        Err(fault) => debug(alloc, &fault),
    }
}
