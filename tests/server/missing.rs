//! Stores whose folders are missing: the words that say so, and what such a store answers.

use super::shares::share;
use server_options::{Options, Refusal, StoreWanted, Task, read_words};
use server_stores::unreachable_store;
use share_store::{Store, StoreFault};
use std::alloc::Global;
use std::test::Fail;

/// These words of `serve`.
fn serving(alloc: Global, given: &[&str]) -> Result<Vec<String>, Fail> {
    let mut words = Vec::new(alloc);
    words.push(String::from_str(alloc, "wozhinnam")?)?;
    words.push(String::from_str(alloc, "serve")?)?;
    for word in given {
        words.push(String::from_str(alloc, *word)?)?;
    }
    Ok(words)
}

/// What `serve` is asked for with these words.
fn options_of<'a>(alloc: Global, words: &'a [String]) -> Result<Options<'a>, Fail> {
    match read_words(alloc, words) {
        Ok(Task::Serve(options)) => Ok(options),
        _ => Err(Fail::from("no options")),
    }
}

#[test]
fn a_missing_folder_keeps_its_place(rt: HostRuntime) -> Result<(), Fail> {
    let given = [
        "--store",
        "dir:/a",
        "--store=mem:7",
        "--missing",
        "/c",
        "--store=dir:/b:5",
        "--store=dir:/c:6,disk",
        "--missing=/b",
    ];
    let words = serving(rt.alloc(), &given)?;
    let options = options_of(rt.alloc(), &words)?;
    let wanted = [
        StoreWanted::Folder("/a", 1_073_741_824),
        StoreWanted::Memory(7),
        StoreWanted::Missing("/b"),
        StoreWanted::Missing("/c"),
    ];
    assert_eq!(rt; options.stores.as_slice(), wanted.as_slice());
    assert_eq!(rt; options.with_handles(), 1);
    Ok(())
}

#[test]
fn what_cannot_be_missing_is_refused(rt: HostRuntime) -> Result<(), Fail> {
    let none: [&[&str]; 4] = [
        &["--missing=/a"],
        &["--store=dir:/a", "--missing=/a/"],
        &["--store=mem:1", "--missing=mem:1"],
        &["--store=dir:/a", "--store=dir:/b", "--missing=a"],
    ];
    for given in &none {
        let words = serving(rt.alloc(), *given)?;
        assert!(rt; matches!(read_words(rt.alloc(), &words), Err(Refusal::Missing)));
    }
    let all: [&[&str]; 2] = [
        &["--store=dir:/a", "--missing=/a"],
        &[
            "--store=dir:/a",
            "--store=dir:/b:1,disk",
            "--missing=/b",
            "--missing=/a",
        ],
    ];
    for given in &all {
        let words = serving(rt.alloc(), *given)?;
        assert!(rt; matches!(read_words(rt.alloc(), &words), Err(Refusal::AllMissing)));
    }
    let given = [
        "--store=dir:/a",
        "--store=dir:/b",
        "--missing=/a",
        "--new=/a",
    ];
    let words = serving(rt.alloc(), &given)?;
    assert!(rt; matches!(read_words(rt.alloc(), &words), Err(Refusal::New)));
    Ok(())
}

#[test]
fn a_missing_store_has_nothing_and_fails(rt: HostRuntime) -> Result<(), Fail> {
    let alloc = rt.alloc();
    let mut store = unreachable_store(alloc);
    assert_eq!(rt; store.failures(), 0);
    assert!(rt; store.put([7; 16], 0, share(alloc)?) == Err(StoreFault::Down));
    assert!(rt; !store.has([7; 16], 0)?);
    assert!(rt; store.numbers([7; 16])?.is_empty());
    assert!(rt; store.get([7; 16], 0)?.is_none());
    assert!(rt; store.nth(0)?.is_none());
    assert!(rt; store.lose([7; 16], 0) == Err(StoreFault::Down));
    assert!(rt; store.toggle([7; 16], 0, 0) == Err(StoreFault::Down));
    assert_eq!(rt; store.failures(), 7);
    assert_eq!(rt; store.held(), 0);
    assert_eq!(rt; store.room(), 0);
    Ok(())
}
