//! Words, and what they ask for: each option with two values.

use clap::error::ErrorKind;
use client_options::{Node, Options, Task, read_words};
use std::alloc::{AllocError, Global};
use std::test::Fail;

/// A command line, behind the program's name.
fn line(alloc: Global, given: &[&str]) -> Result<Vec<String>, AllocError> {
    let mut words = Vec::new(alloc);
    words.push(String::from_str(alloc, "woz")?)?;
    for word in given {
        words.push(String::from_str(alloc, *word)?)?;
    }
    Ok(words)
}

/// What is asked for, or else a refusal that names nothing.
fn read<'a>(alloc: Global, words: &'a [String]) -> Result<Options<'a>, Fail> {
    match read_words(alloc, words) {
        Ok(options) => Ok(options),
        Err(_) => Err(Fail::from("no options")),
    }
}

/// Whether this is the node.
fn is_node(node: &Node<'_>, cap: &str, path: &str) -> bool {
    node.cap == cap && node.path == path
}

#[test]
fn the_gateway_is_the_one_that_is_named(rt: HostRuntime) -> Result<(), Fail> {
    let words = line(rt.alloc(), &["ls", "URI:LIT:"])?;
    assert!(rt; read(rt.alloc(), &words)?.gateway.is_none());
    for url in ["http://127.0.0.1:1", "http://stores.example"] {
        let words = line(rt.alloc(), &["--gateway", url, "ls", "URI:LIT:"])?;
        assert!(rt; read(rt.alloc(), &words)?.gateway == Some(url));
    }
    Ok(())
}

#[test]
fn patience_is_as_long_as_it_is_given(rt: HostRuntime) -> Result<(), Fail> {
    let words = line(rt.alloc(), &["ls", "URI:LIT:"])?;
    assert!(rt; read(rt.alloc(), &words)?.patience.is_none());
    for seconds in ["2", "600"] {
        let words = line(rt.alloc(), &["--patience", seconds, "ls", "URI:LIT:"])?;
        assert!(rt; read(rt.alloc(), &words)?.patience == Some(seconds));
    }
    Ok(())
}

#[test]
fn progress_is_told_but_for_quiet(rt: HostRuntime) -> Result<(), Fail> {
    let words = line(rt.alloc(), &["ls", "URI:LIT:"])?;
    assert!(rt; !read(rt.alloc(), &words)?.quiet);
    let words = line(rt.alloc(), &["--quiet", "ls", "URI:LIT:"])?;
    assert!(rt; read(rt.alloc(), &words)?.quiet);
    Ok(())
}

#[test]
fn a_put_has_its_file(rt: HostRuntime) -> Result<(), Fail> {
    for word in ["-r", "--recursive"] {
        let words = line(rt.alloc(), &["put", word, "papers"])?;
        let Task::Put {
            what,
            recursive,
            ..
        } = read(rt.alloc(), &words)?.task
        else {
            return Err(Fail::from("no put"));
        };
        assert!(rt; what == "papers" && recursive);
    }
    for name in ["-", "notes.txt"] {
        let words = line(rt.alloc(), &["put", name])?;
        let Task::Put {
            what,
            recursive,
            ..
        } = read(rt.alloc(), &words)?.task
        else {
            return Err(Fail::from("no put"));
        };
        assert!(rt; what == name && !recursive);
    }
    Ok(())
}

#[test]
fn a_get_has_its_node_and_file(rt: HostRuntime) -> Result<(), Fail> {
    let words = line(rt.alloc(), &["get", "@cap/a/b", "-r", "out"])?;
    let Task::Get {
        node,
        file,
        recursive,
        ..
    } = read(rt.alloc(), &words)?.task
    else {
        return Err(Fail::from("no get"));
    };
    assert!(rt; is_node(&node, "@cap", "a/b") && file == Some("out") && recursive);
    let words = line(rt.alloc(), &["get", "URI:LIT:me"])?;
    let Task::Get {
        node,
        file,
        recursive,
        ..
    } = read(rt.alloc(), &words)?.task
    else {
        return Err(Fail::from("no get"));
    };
    assert!(rt; is_node(&node, "URI:LIT:me", "") && file.is_none() && !recursive);
    Ok(())
}

#[test]
fn a_listing_has_its_form(rt: HostRuntime) -> Result<(), Fail> {
    for (given, wanted) in [
        (["ls", "@cap/x", "--json"].as_slice(), true),
        (["ls", "@cap/x"].as_slice(), false),
    ] {
        let words = line(rt.alloc(), given)?;
        let Task::List { node, json } = read(rt.alloc(), &words)?.task else {
            return Err(Fail::from("no listing"));
        };
        assert!(rt; is_node(&node, "@cap", "x") && json == wanted);
    }
    Ok(())
}

#[test]
fn a_check_has_each_flag(rt: HostRuntime) -> Result<(), Fail> {
    for (flag, flags) in [
        ("--verify", [true, false, false]),
        ("--read", [false, true, false]),
        ("-r", [false, false, true]),
    ] {
        let words = line(rt.alloc(), &["check", flag, "@cap/"])?;
        let Task::Check {
            node,
            verify,
            read,
            recursive,
        } = read(rt.alloc(), &words)?.task
        else {
            return Err(Fail::from("no check"));
        };
        assert!(rt; is_node(&node, "@cap", "") && [verify, read, recursive] == flags);
    }
    Ok(())
}

#[test]
fn a_repair_has_its_node(rt: HostRuntime) -> Result<(), Fail> {
    for (given, wanted) in [
        (["repair", "@cap//x"].as_slice(), false),
        (["repair", "-r", "@cap//x"].as_slice(), true),
    ] {
        let words = line(rt.alloc(), given)?;
        let Task::Repair { node, recursive } = read(rt.alloc(), &words)?.task else {
            return Err(Fail::from("no repair"));
        };
        assert!(rt; is_node(&node, "@cap", "/x") && recursive == wanted);
    }
    Ok(())
}

#[test]
fn a_directory_has_its_children(rt: HostRuntime) -> Result<(), Fail> {
    let words = line(rt.alloc(), &["mkdir", "a=@one", "b=@two"])?;
    let Task::Mkdir(children) = read(rt.alloc(), &words)?.task else {
        return Err(Fail::from("no directory"));
    };
    assert!(rt; children.as_slice() == ["a=@one", "b=@two"].as_slice());
    Ok(())
}

#[test]
fn other_words_are_refused(rt: HostRuntime) -> Result<(), Fail> {
    for (given, wanted) in [
        ([].as_slice(), ErrorKind::MissingSubcommand),
        (["ls"].as_slice(), ErrorKind::MissingRequiredArgument),
        (["mkdir"].as_slice(), ErrorKind::MissingRequiredArgument),
        (
            ["ls", "--verify", "@cap"].as_slice(),
            ErrorKind::UnknownArgument,
        ),
        (
            ["get", "--skip-existing", "seen", "@cap"].as_slice(),
            ErrorKind::UnknownArgument,
        ),
        (
            ["check", "--read", "--read", "@cap"].as_slice(),
            ErrorKind::ArgumentConflict,
        ),
        (
            ["--gateway", "http://a", "--help"].as_slice(),
            ErrorKind::DisplayHelp,
        ),
        (["help", "put"].as_slice(), ErrorKind::DisplayHelp),
        (["--version"].as_slice(), ErrorKind::DisplayVersion),
    ] {
        let words = line(rt.alloc(), given)?;
        match read_words(rt.alloc(), &words) {
            Ok(_) => return Err(Fail::from("taken")),
            Err(error) => assert_eq!(rt; error.kind(), wanted),
        }
    }
    Ok(())
}

#[test]
fn jobs_are_those_that_are_given(rt: HostRuntime) -> Result<(), Fail> {
    let words = line(rt.alloc(), &["put", "-r", "--jobs", "3", "papers"])?;
    let Task::Put { jobs, .. } = read(rt.alloc(), &words)?.task else {
        return Err(Fail::from("no put"));
    };
    assert!(rt; jobs == Some("3"));
    let words = line(rt.alloc(), &["get", "-r", "@cap", "out"])?;
    let Task::Get { jobs, .. } = read(rt.alloc(), &words)?.task else {
        return Err(Fail::from("no get"));
    };
    assert!(rt; jobs.is_none());
    Ok(())
}

#[test]
fn a_put_has_its_state(rt: HostRuntime) -> Result<(), Fail> {
    let words = line(
        rt.alloc(),
        &["put", "-r", "--skip-existing", "seen", "--verify", "papers"],
    )?;
    let Task::Put {
        state,
        verified,
        ..
    } = read(rt.alloc(), &words)?.task
    else {
        return Err(Fail::from("no put"));
    };
    assert!(rt; state == Some("seen") && verified);
    let words = line(rt.alloc(), &["put", "-r", "papers"])?;
    let Task::Put {
        state,
        verified,
        ..
    } = read(rt.alloc(), &words)?.task
    else {
        return Err(Fail::from("no put"));
    };
    assert!(rt; state.is_none() && !verified);
    Ok(())
}
