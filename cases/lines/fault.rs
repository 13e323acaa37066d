//! Why a case has no answer, or a run no end.
use std::alloc::{AllocError, AllocFailed};
use std::{fmt, io};

/// Why a case has no answer: what stands in its line is no question. Such a case failed.
#[derive(Clone, Copy, PartialEq, Eq)]
pub enum NoAnswer {
    /// The word at this place, from 0, is missing, or isn't of the kind that is asked for there.
    Word(usize),
    /// The first word is none of those that are answered.
    Question,
    /// Memory was refused.
    NoMemory,
}

impl fmt::Display for NoAnswer {
    fn fmt<W: fmt::Write>(&self, f: &mut fmt::Formatter<W>) -> fmt::Result {
        let words = match self {
            NoAnswer::Word(place) => return write!(f, "bad word {place}"),
            NoAnswer::Question => "bad question",
            NoAnswer::NoMemory => "out of memory",
        };
        f.write_str(words)
    }
}

impl From<AllocError> for NoAnswer {
    fn from(_error: AllocError) -> NoAnswer {
        NoAnswer::NoMemory
    }
}

impl<T: Drop> From<AllocFailed<T>> for NoAnswer {
    fn from(_error: AllocFailed<T>) -> NoAnswer {
        NoAnswer::NoMemory
    }
}

/// Why a run of cases ended before its end, or was no success.
#[derive(Clone, Copy, Debug, PartialEq, Eq)]
pub enum CaseFault {
    /// The cases could not be read.
    NotRead,
    /// What was found could not be written.
    NotWritten,
    /// So many cases had another answer than the one that is wanted.
    Failed(u64),
}

impl fmt::Display for CaseFault {
    fn fmt<W: fmt::Write>(&self, f: &mut fmt::Formatter<W>) -> fmt::Result {
        let words = match self {
            CaseFault::NotRead => "the cases could not be read",
            CaseFault::NotWritten => "standard output could not be written",
            CaseFault::Failed(count) => return write!(f, "cases that failed: {count}"),
        };
        f.write_str(words)
    }
}

impl From<io::Error> for CaseFault {
    fn from(_error: io::Error) -> CaseFault {
        CaseFault::NotWritten
    }
}
