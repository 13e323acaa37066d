//! Arguments, statuses and words.
use gate_flow::FlowFault;
use gate_tasks::{ProgramFault, ScriptFault, ServeFault, Task, UsageFault, exit_status, read_task};
use octets::Bytes;
use std::alloc::{AllocError, Global};

fn words(alloc: Global, texts: &[&str]) -> Result<Vec<Bytes>, AllocError> {
    let mut words = Vec::new(alloc);
    for text in texts {
        words.push(Bytes::from_slice(alloc, text.as_bytes())?)?;
    }
    Ok(words)
}

/// What arguments ask for: 1 for a script, 2 for a server, or which of them is wrong.
fn asked(alloc: Global, texts: &[&str]) -> Result<Result<u8, UsageFault>, AllocError> {
    let words = words(alloc, texts)?;
    match read_task(alloc, &words) {
        Ok(Task::Replay) => Ok(Ok(1)),
        Ok(Task::Serve(_)) => Ok(Ok(2)),
        Err(ProgramFault::Usage(fault)) => Ok(Err(fault)),
        Err(_) => Err(AllocError),
    }
}

/// Arguments, and what they ask for.
const ASKED: &[(&[&str], Result<u8, UsageFault>)] = &[
    (&["replay"], Ok(1)),
    (&["serve", "127.0.0.1:80", "1"], Ok(2)),
    (&["serve", "[::1]:0", "65535", "my"], Ok(2)),
    (&["serve", "127.0.0.1:80", "1", ""], Ok(2)),
    (&["replay", "x"], Err(UsageFault::ReplayCount)),
    (&["Replay"], Err(UsageFault::OtherCommand)),
    (&["serve"], Err(UsageFault::ServeCount)),
    (&["serve", "127.0.0.1:80"], Err(UsageFault::ServeCount)),
    (&["serve", "localhost:80", "0"], Err(UsageFault::Address)),
    (&["serve", "127.0.0.1", "1"], Err(UsageFault::Address)),
    (
        &["serve", "127.0.0.1:80", "0", "mz"],
        Err(UsageFault::Connections),
    ),
    (
        &["serve", "127.0.0.1:80", "01"],
        Err(UsageFault::Connections),
    ),
    (
        &["serve", "127.0.0.1:80", "65536"],
        Err(UsageFault::Connections),
    ),
    (
        &["serve", "127.0.0.1:80", "1", "mz"],
        Err(UsageFault::Secret),
    ),
    (
        &["serve", "127.0.0.1:80", "1", "MY"],
        Err(UsageFault::Secret),
    ),
    (
        &["serve", "127.0.0.1:80", "1", "my", "x"],
        Err(UsageFault::ServeCount),
    ),
    (&[], Err(UsageFault::NoCommand)),
];

#[test]
fn arguments_are_read(rt: HostRuntime) -> Result<(), AllocError> {
    for (texts, wanted) in ASKED {
        let found = asked(rt.alloc(), texts)?;
        assert!(rt; found == *wanted);
    }
    Ok(())
}

/// Faults that end the program, with its status and what is told.
const PROGRAM_FAULTS: &[(ProgramFault, u8, &str)] = &[
    (
        ProgramFault::Usage(UsageFault::NoCommand),
        2,
        "there is no command; usage: gate_main replay < SCRIPT, or gate_main serve ADDR CONNS [SECRET]",
    ),
    (
        ProgramFault::Script(ScriptFault::BadLine(7)),
        1,
        "line 7 is bad",
    ),
    (
        ProgramFault::Script(ScriptFault::ReadFailed),
        1,
        "the script could not be read",
    ),
    (
        ProgramFault::Script(ScriptFault::WriteFailed),
        1,
        "an answer could not be written",
    ),
    (
        ProgramFault::Script(ScriptFault::NoMemory),
        1,
        "out of memory",
    ),
    (
        ProgramFault::Script(ScriptFault::TooLong),
        1,
        "the script or one of its lines is too long",
    ),
    (
        ProgramFault::BindFailed,
        1,
        "the address could not be bound",
    ),
    (
        ProgramFault::Serve(ServeFault::AcceptFailed),
        1,
        "no connection could be accepted",
    ),
    (
        ProgramFault::Connections(2),
        1,
        "connections that had a fault: 2",
    ),
    (ProgramFault::NoMemory, 1, "out of memory"),
];

/// What is wrong with arguments, with what is told.
const USAGE_FAULTS: &[(UsageFault, &str)] = &[
    (UsageFault::NoText, "an argument is no UTF-8"),
    (UsageFault::NoCommand, "there is no command"),
    (
        UsageFault::OtherCommand,
        "the command is neither replay nor serve",
    ),
    (
        UsageFault::ReplayCount,
        "replay takes no argument: the script is its standard input",
    ),
    (
        UsageFault::ServeCount,
        "serve takes ADDR, CONNS and at most a SECRET",
    ),
    (
        UsageFault::Address,
        "ADDR is no IP address in numbers with a port, as 127.0.0.1:3456",
    ),
    (
        UsageFault::Connections,
        "CONNS is no number from 1 to 65535",
    ),
    (
        UsageFault::Secret,
        "SECRET is no base32 text of at most 256 bytes",
    ),
];

/// Faults that end a connection's turns, with what is told.
const TURN_FAULTS: &[(FlowFault, &str)] = &[
    (FlowFault::Refused, "the gateway refused it"),
    (FlowFault::ReadFailed, "it could not be read"),
    (FlowFault::WriteFailed, "it could not be written to"),
    (FlowFault::NoMemory, "out of memory"),
];

#[test]
fn outcomes_have_their_words_and_statuses(rt: HostRuntime) -> Result<(), AllocError> {
    assert!(rt; exit_status(&Ok(())) == 0);
    for (fault, status, words) in PROGRAM_FAULTS {
        let told = format!(in rt.alloc(); "{fault}")?;
        assert!(rt; told.as_str() == *words);
        assert!(rt; exit_status(&Err(*fault)) == *status);
    }
    for (fault, words) in USAGE_FAULTS {
        let told = format!(in rt.alloc(); "{fault}")?;
        assert!(rt; told.as_str() == *words);
    }
    for (fault, words) in TURN_FAULTS {
        let told = format!(in rt.alloc(); "{fault}")?;
        assert!(rt; told.as_str() == *words);
    }
    Ok(())
}
