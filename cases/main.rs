//! Answers the cases on standard input, a line each, over the public calls of `crates/`, and writes a line for each answer that
//! isn't the one that is wanted. It is run, and not proved.
#![tactic(auto)]

/// Cases as lines of text.
mod lines;
/// Questions about the words of a case itself.
mod words;
/// Bytes, hashes, codes, caps and directories.
mod formats;
/// Stores, grids and files.
mod stores;
/// Shelves, and stores that stand on them.
mod shelves;

use formats::Formats;
use lines::{Answers, Case, CaseFault, NoAnswer, run_cases};
use shelves::Shelves;
use std::alloc::Global;
use stores::Stores;
use words::Words;

/// What is kept from one case for the next.
#[derive(Drop)]
struct Questions {
    words: Words,
    formats: Formats,
    stores: Stores,
    shelves: Shelves,
}

/// The answer, or `None` where the first word is another's.
fn known(answer: Result<String, NoAnswer>) -> Option<Result<String, NoAnswer>> {
    match answer {
        Err(NoAnswer::Question) => None,
        answer => Some(answer),
    }
}

impl Answers for Questions {
    fn answer(&mut self, alloc: Global, case: &Case<'_>) -> Result<String, NoAnswer> {
        if let Some(answer) = known(self.formats.answer(alloc, case)) {
            return answer;
        }
        if let Some(answer) = known(self.stores.answer(alloc, case)) {
            return answer;
        }
        if let Some(answer) = known(self.shelves.answer(alloc, case)) {
            return answer;
        }
        self.words.answer(alloc, case)
    }
}

fn main(rt: HostRuntime) -> Result<(), CaseFault> {
    let mut questions = Questions {
        words: Words,
        formats: Formats::new(rt.alloc()),
        stores: Stores::new(rt.alloc()),
        shelves: Shelves::new(),
    };
    run_cases(&rt, &mut questions)
}
