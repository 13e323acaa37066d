//! Scripts over readers and writers that end, fail or are interrupted.
use crate::script_calls::slow::{breaking, interrupted, narrow};
use gate_tasks::{ScriptFault, run_script};
use octets::fakes::{AtTheEnd, SlowWriter};
use std::io::{self, BufRead, BufReader};
use std::process::Abort;
use std::test::Fail;

/// Compares what a script comes to that is read from this reader.
fn runs<R: BufRead>(
    rt: &(impl Abort + AllocGlobal),
    reader: &mut R,
    wanted: &[u8],
    outcome: Result<(), ScriptFault>,
) {
    let mut answers = Vec::new(rt.alloc());
    let found = run_script(rt.alloc(), reader, &mut answers);
    assert!(rt; found == outcome);
    assert!(rt; answers.as_slice() == wanted);
}

#[test]
fn a_last_line_may_lack_its_end(rt: HostRuntime) {
    let mut reader = b"grid 3 10 1 5 -\nopen 1\ntake 1 7".as_slice();
    runs(&rt, &mut reader, b"ok\nok\nbytes \n", Ok(()));
}

#[test]
fn a_line_without_an_end_is_too_long(rt: HostRuntime) -> Result<(), Fail> {
    let mut reader = BufReader::with_capacity(rt.alloc(), 65_536, io::repeat(b'a'))?;
    runs(&rt, &mut reader, b"", Err(ScriptFault::TooLong));
    Ok(())
}

#[test]
fn a_reader_that_fails_leaves_the_answers_of_the_lines_before(rt: HostRuntime) -> Result<(), Fail> {
    let script = b"grid 3 10 1 5 -\nopen 1\ntake 1 7\n".as_slice();
    for read in 0..script.len() {
        let lines = script[..read].iter().filter(|byte| **byte == b'\n').count();
        let wanted = match lines {
            0 => b"".as_slice(),
            1 => b"ok\n".as_slice(),
            _ => b"ok\nok\n".as_slice(),
        };
        let mut reader = BufReader::with_capacity(rt.alloc(), 5, breaking(&script[..read]))?;
        runs(&rt, &mut reader, wanted, Err(ScriptFault::ReadFailed));
    }
    Ok(())
}

#[test]
fn a_script_is_read_on_after_an_interrupt(rt: HostRuntime) -> Result<(), Fail> {
    let script = b"grid 3 10 1 5 -\nopen 1\n";
    let mut reader = BufReader::with_capacity(rt.alloc(), 7, interrupted(script))?;
    runs(&rt, &mut reader, b"ok\nok\n", Ok(()));
    Ok(())
}

#[test]
fn a_writer_that_fails_has_a_beginning_of_the_answers(rt: HostRuntime) {
    let script = b"grid 3 10 1 5 -\nopen 1\nopen 1\ntake 1 7\nshut\n".as_slice();
    let whole = b"ok\nok\nfault 1 Known\nbytes \n".as_slice();
    for room in 0..whole.len() + 1 {
        let mut reader = script;
        let mut writer = narrow(rt.alloc(), room);
        let outcome = run_script(rt.alloc(), &mut reader, &mut writer);
        let wanted = if room < whole.len() {
            ScriptFault::WriteFailed
        } else {
            ScriptFault::BadLine(5)
        };
        assert!(rt; outcome == Err(wanted));
        assert!(rt; writer.held.as_slice() == &whole[..room]);
    }
}

#[test]
fn a_writer_that_takes_nothing_or_does_not_flush_fails(rt: HostRuntime) {
    for room in [usize::MAX, 0] {
        let mut reader = b"grid 3 10 1 5 -\nopen 1\n".as_slice();
        let mut writer = SlowWriter {
            held: Vec::new(rt.alloc()),
            room,
            at_a_time: usize::MAX,
            interrupts: None,
            at_the_end: AtTheEnd::TakesNothing,
            flushes: false,
        };
        let outcome = run_script(rt.alloc(), &mut reader, &mut writer);
        assert!(rt; outcome == Err(ScriptFault::WriteFailed));
    }
}
