//! Texts and their words. What is wanted is what Python's `tomllib` reads in the same texts.
use option_file::{OptionFault, file_words};
use std::alloc::Global;
use std::test::Fail;

/// Options of each kind.
const OPTIONS: &str = "# a grid\n\
    listen = \"127.0.0.1:3456\" # where\n\
    control = 'localhost:0'\n\
    store = [\n    \"dir:/srv/grid/0\",\n    'dir:/srv/grid/1:10G,disk',\n]\n\
    connections = 1_000\n\
    idle = 0x3c\n\
    \"room\" = \"\"\"\n2\\u0047\"\"\"\n\
    no-sync = true\n\
    disk = false\n";

/// Words of a command line.
fn line(alloc: Global, given: &[&str]) -> Result<Vec<String>, Fail> {
    let mut words = Vec::new(alloc);
    for word in given {
        words.push(String::from_str(alloc, *word)?)?;
    }
    Ok(words)
}

/// Whether these are the words of a text beside those of a command line.
fn stands_for(alloc: Global, text: &str, given: &[&str], wanted: &[&str]) -> Result<bool, Fail> {
    let given = line(alloc, given)?;
    match file_words(alloc, text, &given) {
        Ok(words) => Ok(words == line(alloc, wanted)?),
        Err(_) => Ok(false),
    }
}

/// What is told of a text that is refused.
fn told_of(alloc: Global, text: &str) -> Result<String, Fail> {
    match file_words(alloc, text, &[]) {
        Ok(_) => Err(Fail::from("it is taken")),
        Err(fault) => Ok(format!(in alloc; "{fault}")?),
    }
}

#[test]
fn a_text_stands_for_its_words(rt: HostRuntime) -> Result<(), Fail> {
    let wanted = [
        "--connections=1000",
        "--control=localhost:0",
        "--idle=60",
        "--listen=127.0.0.1:3456",
        "--no-sync",
        "--room=2G",
        "--store=dir:/srv/grid/0",
        "--store=dir:/srv/grid/1:10G,disk",
    ];
    assert!(rt; stands_for(rt.alloc(), OPTIONS, &[], &wanted)?);
    assert!(rt; stands_for(rt.alloc(), "", &[], &[])?);
    assert!(rt; stands_for(rt.alloc(), "store = []\n", &[], &[])?);
    let numbers = "low = -9_223_372_036_854_775_808\nzero = -0\n\"a b\" = \"\"\n\"é\" = \"--x\"\n";
    let wanted = [
        "--a b=",
        "--low=-9223372036854775808",
        "--zero=0",
        "--é=--x",
    ];
    assert!(rt; stands_for(rt.alloc(), numbers, &[], &wanted)?);
    Ok(())
}

#[test]
fn an_option_of_the_command_line_is_left_out(rt: HostRuntime) -> Result<(), Fail> {
    let given = [
        "wozhinnam",
        "serve",
        "--config=file",
        "--listen",
        "[::1]:1",
        "--store=mem:1",
        "--no-synchrony",
        "--idl",
        "idle",
    ];
    let wanted = [
        "--connections=1000",
        "--control=localhost:0",
        "--idle=60",
        "--no-sync",
        "--room=2G",
    ];
    assert!(rt; stands_for(rt.alloc(), OPTIONS, &given, &wanted)?);
    assert!(rt; stands_for(rt.alloc(), "config = 1.5\n", &given, &[])?);
    Ok(())
}

#[test]
fn other_values_are_refused_by_their_key(rt: HostRuntime) -> Result<(), Fail> {
    for text in [
        "idle = 1.5\n",
        "idle = 1979-05-27\n",
        "idle = {}\n",
        "[idle]\nlisten = \"a\"\n",
        "idle = [true]\n",
        "idle = [[\"a\"]]\n",
        "idle = [1, 2, 3.0]\nlisten = 1.5\n",
    ] {
        let given = line(rt.alloc(), &["serve"])?;
        match file_words(rt.alloc(), text, &given) {
            Err(OptionFault::OtherKind(key)) => assert!(rt; key.as_str() == "idle"),
            _ => return Err(Fail::from("it is taken")),
        }
    }
    assert!(rt;
        told_of(rt.alloc(), "idle = 1.5")?.as_str()
            == "idle: a text, a whole number, true, false, or an array of texts and whole numbers is wanted"
    );
    Ok(())
}

#[test]
fn what_is_no_toml_is_told_by_its_line(rt: HostRuntime) -> Result<(), Fail> {
    for (text, line) in [
        ("listen = \"a\"\n\nidle = \n", "line 3: "),
        ("listen = \"a\"\nlisten = \"b\"\n", "line 2: "),
        ("a = 1\nb = \"x\n", "line 2: "),
        ("x = 08\n", "line 1: "),
        ("a\n", "line 1: "),
    ] {
        assert!(rt; told_of(rt.alloc(), text)?.as_str().starts_with(line));
    }
    Ok(())
}
