//! Cases of tests as lines of text, so that one function answers many of them: the words of what is asked, ` = `, and the
//! answer that is wanted. Empty lines and those that begin with `#` are skipped.
//!
//!     # RFC 4648, section 10
//!     base32 'foo = mzxw6

/// The words of a case.
mod case;
/// Why a case has no answer, or a run no end.
mod fault;
/// The run of all cases.
mod run;
/// What an answer says, as text.
mod texts;

pub use case::{Case, shown};
pub use fault::{CaseFault, NoAnswer};
pub use run::{Answers, run_cases};
pub use texts::{debug, done, fixed, told};
