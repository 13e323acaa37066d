//! Texts that are read a token at a time, written and let go of. The wanted ones are what Python's `json` writes with
//! `sort_keys=True, separators=(",", ":")`.

use json::{Reader, Scratch};
use json_tree::{Remains, TextWriter, TreeBuilder, TreeFault, Writing, Written};
use serde_json::Value;
use std::alloc::Global;
use std::test::Fail;

/// The value that a text is, built token by token.
fn built(alloc: Global, text: &str, levels: usize) -> Result<Option<Value>, Fail> {
    let mut scratch = Scratch::new(alloc);
    let mut reader = Reader::new(text, &mut scratch)?;
    let mut builder = TreeBuilder::within(alloc, levels);
    'tokens: while let Some(token) = reader.next() {
        match builder.push(alloc, token) {
            Ok(()) => {}
            Err(TreeFault::NotJson) => return Ok(None),
            Err(TreeFault::NoMemory) => return Err(Fail::from(TreeFault::NoMemory)),
        }
    }
    Ok(builder.finish().ok())
}

/// The text of a value, written step by step.
fn written(alloc: Global, value: Value) -> Result<Written, Fail> {
    let mut writer = TextWriter::new(alloc, value);
    for i in 0..1_000 {
        match writer.step(alloc)? {
            Writing::Going(next) => writer = next,
            Writing::Done(written) => return Ok(written),
        }
    }
    Err(Fail::from(TreeFault::NotJson))
}

#[test]
fn keys_in_any_order_are_written_in_order(rt: HostRuntime) -> Result<(), Fail> {
    let alloc = rt.alloc();
    let text = "{\"z\":[1,-2,[],{}],\"\\u00e9\\n\":\"\\\"x\\\"\",\"a\":null,\"z\":[true,false]}";
    let value = built(alloc, text, 3)?.ok_or("no value")?;
    let written = written(alloc, value)?;
    let wanted = "{\"a\":null,\"z\":[true,false],\"é\\n\":\"\\\"x\\\"\"}";
    assert_eq!(rt; written.text.as_slice(), wanted.as_bytes());
    assert_eq!(rt; written.levels, 2);
    assert!(rt; !written.fractional);
    Ok(())
}

#[test]
fn other_texts_are_no_values(rt: HostRuntime) -> Result<(), Fail> {
    let alloc = rt.alloc();
    assert!(rt; built(alloc, "[[]]", 1)?.is_none());
    assert!(rt; built(alloc, "[1e999]", 1)?.is_none());
    assert!(rt; built(alloc, "[1", 1)?.is_none());
    let fraction = written(alloc, built(alloc, "[1.5]", 1)?.ok_or("no value")?)?;
    assert!(rt; fraction.fractional);
    Ok(())
}

#[test]
fn a_long_array_is_written_and_let_go_of_in_steps(rt: HostRuntime) -> Result<(), Fail> {
    let alloc = rt.alloc();
    let mut text = String::from_str(alloc, "[0")?;
    for i in 1..3_000 {
        text.push_str(",0")?;
    }
    text.push_str("]")?;
    let value = built(alloc, text.as_str(), 1)?.ok_or("no value")?;
    let mut remains = Remains::of(alloc, value);
    assert!(rt; remains.step()?);
    assert!(rt; remains.step()?);
    assert!(rt; !remains.step()?);
    let again = written(alloc, built(alloc, text.as_str(), 1)?.ok_or("no value")?)?;
    assert_eq!(rt; again.text.as_slice(), text.as_bytes());
    Ok(())
}
