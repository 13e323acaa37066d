//! The run of all cases.
use crate::lines::case::Case;
use crate::lines::fault::{CaseFault, NoAnswer};
use std::alloc::Global;
use std::io::{BufRead, BufReader};

/// What answers cases, one after the other.
pub trait Answers {
    /// The answer to a case: a text without LF.
    fn answer(&mut self, alloc: Global, case: &Case<'_>) -> Result<String, NoAnswer>;
}

/// Answers the cases on standard input, writes a line for each answer that isn't the one that is wanted, and then how many
/// cases there were. A line that is no case counts as one that failed.
pub fn run_cases<R: Input + Print + AllocGlobal, A: Answers>(
    rt: &R,
    answers: &mut A,
) -> Result<(), CaseFault> {
    let alloc = rt.alloc();
    let Ok(reader) = BufReader::new(alloc, rt.reader()) else {
        return Err(CaseFault::NotRead);
    };
    let (mut place, mut cases, mut failed) = (0_u64, 0_u64, 0_u64);
    for line in reader.lines(alloc) {
        let Ok(line) = line else {
            return Err(CaseFault::NotRead);
        };
        place = place.saturating_add(1);
        if line.is_empty() || line.starts_with('#') {
            continue;
        }
        cases = cases.saturating_add(1);
        if !is_answered(rt, answers, place, &line)? {
            failed = failed.saturating_add(1);
        }
    }
    println!(rt; "cases: {cases}")?;
    match failed {
        0 => Ok(()),
        _ => Err(CaseFault::Failed(failed)),
    }
}

/// Whether the case of a line has the answer that is wanted; a line is written where it hasn't.
fn is_answered<R: Print + AllocGlobal, A: Answers>(
    rt: &R,
    answers: &mut A,
    place: u64,
    line: &str,
) -> Result<bool, CaseFault> {
    let Some((asked, wanted)) = line.split_once(" = ") else {
        println!(rt; "line {place}: no case")?;
        return Ok(false);
    };
    match answer_to(rt.alloc(), answers, asked) {
        Ok(answer) if answer.as_str() == wanted => Ok(true),
        Ok(answer) => {
            println!(rt; "line {place}: {answer}")?;
            Ok(false)
        }
        Err(fault) => {
            println!(rt; "line {place}: {fault}")?;
            Ok(false)
        }
    }
}

/// The answer to what is asked.
fn answer_to<A: Answers>(alloc: Global, answers: &mut A, asked: &str) -> Result<String, NoAnswer> {
    let case = Case::new(alloc, asked)?;
    answers.answer(alloc, &case)
}
