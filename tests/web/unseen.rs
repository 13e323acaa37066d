//! What no script of `script_tests` shows: the number and the words of a framing fault, since many have one reply; a file
//! larger than any store; texts that no request line holds; a missing child's name; and the room of a buffer.
use crate::web::only_name::only_name;
use caps::{Cap, parse};
use chk_file::Cache;
use grid::Grid;
use http_edge::{Conn, FramingFault, Item, Reply, ReplyFields, Status, render_into};
use octets::Bytes;
use path_walk::{Names, PathFault, WalkFault, names, walk};
use range_view::{Resolved, resolve};
use share_store::MemStore;
use std::alloc::Global;
use std::test::Fail;
use web_replies::refusal;
use web_request::{Fields, Head, WebFault, interpret};

/// Each framing fault with its number and its words.
const FAULTS: &[(FramingFault, u8, &str)] = &[
    (FramingFault::BadChunk, 25, "bad chunk"),
    (FramingFault::BadHead, 19, "bad request head"),
    (FramingFault::BadHost, 20, "bad Host field"),
    (
        FramingFault::TransferCoding,
        21,
        "transfer coding not supported",
    ),
    (FramingFault::BadLength, 22, "bad Content-Length field"),
    (FramingFault::TooLong, 23, "body too long"),
];

#[test]
fn faults_have_their_numbers_and_words(rt: HostRuntime) -> Result<(), Fail> {
    for (fault, number, words) in FAULTS {
        let said = fault.to_string(rt.alloc())?;
        if fault.number() != *number || said.as_str() != *words {
            return Err(Fail::from(*words));
        }
    }
    Ok(())
}

/// Texts that are answered `bad request`, and the numbers of their faults.
const BAD_REQUESTS: &[(&[u8], u8)] = &[
    (b"\rGET / HTTP/1.1\r\nHost: g\r\n\r\n", 19),
    (b"\r\r\nGET / HTTP/1.1\r\nHost: g\r\n\r\n", 19),
    (b"GET / HTTP/1.1\r\nHost: g\r\n\r\r\n\r\n", 19),
    (b"GET / HTTP/1.1\r\n\r\n", 20),
    (b"HEAD / HTTP/1.1\r\n\r\n", 20),
    (b"head / HTTP/1.1\r\n\r\n", 20),
    (b"GET / HTTP/1.1\r\nHost: a\r\nhOST: a\r\n\r\n", 20),
    (b"GET / HTTP/1.0\r\nHost: a\r\nHost: a\r\n\r\n", 20),
    (b"GET / HTTP/1.1\r\nContent-Length: x\r\n\r\n", 20),
    (b"GET / HTTP/1.2\r\nHost: g\r\n\r\n", 19),
    (b"HEAD /\r\n\r\n", 19),
    (b"GET /\xff HTTP/1.1\r\nHost: g\r\n\r\n", 19),
    (
        b"HEAD / HTTP/1.1\r\nHost: g\r\nContent-Length: x\r\n\r\n",
        22,
    ),
    (
        b"P / HTTP/1.1\r\nHost: g\r\nContent-Length: 0\r\n\r\na b \n\n",
        19,
    ),
    (
        b"P / HTTP/1.1\r\nHost: g\r\nContent-Length:\r\n\r\na b \n\n",
        22,
    ),
    (
        b"P / HTTP/1.1\r\nHost: g\r\nContent-Length: +1\r\n\r\na b \n\n",
        22,
    ),
    (
        b"P / HTTP/1.1\r\nHost: g\r\nContent-Length: -1\r\n\r\na b \n\n",
        22,
    ),
    (
        b"P / HTTP/1.1\r\nHost: g\r\nContent-Length: 1 1\r\n\r\na b \n\n",
        22,
    ),
    (
        b"P / HTTP/1.1\r\nHost: g\r\nContent-Length: 1,1\r\n\r\na b \n\n",
        22,
    ),
    (
        b"P / HTTP/1.1\r\nHost: g\r\nContent-Length: 0x4\r\n\r\na b \n\n",
        22,
    ),
    (
        b"P / HTTP/1.1\r\nHost: g\r\nContent-Length: 4.0\r\n\r\na b \n\n",
        22,
    ),
    (
        b"P / HTTP/1.1\r\nHost: g\r\nContent-Length: 4\r\nContent-Length: 4\r\n\r\na b \n\n",
        22,
    ),
    (
        b"P / HTTP/1.1\r\nHost: g\r\nContent-Length: 9999999\r\ncontent-length: x\r\n\r\na b \n\n",
        22,
    ),
    (
        b"P / HTTP/1.1\r\nHost: g\r\nTransfer-Encoding: chunked\r\nContent-Length: x\r\n\r\na b \n\n",
        22,
    ),
    (
        b"P / HTTP/1.1\r\nHost: g\r\nA: Content-Length: 4\r\n\r\na b \n\n",
        19,
    ),
    (
        b"PUT / HTTP/1.1\r\nHost: g\r\nTransfer-Encoding: chunked\r\nContent-Length: 1\r\n\r\n",
        22,
    ),
    (b"PUT / HTTP/1.0\r\nTransfer-Encoding: chunked\r\n\r\n", 22),
    (
        b"PUT / HTTP/1.1\r\nHost: g\r\nContent-Length: 3\r\nTransfer-Encoding: chunked\r\n\r\n",
        22,
    ),
];

/// The number of the fault among the items of a text, 0 where none is.
fn number_of(alloc: Global, text: &[u8]) -> Result<u8, Fail> {
    let mut conn = Conn::new(alloc);
    for item in conn.feed(text)?.iter() {
        if let Item::Fault { fault, .. } = item {
            return Ok(fault.number());
        }
    }
    Ok(0)
}

#[test]
fn bad_requests_have_their_numbers(rt: HostRuntime) -> Result<(), Fail> {
    for (text, number) in BAD_REQUESTS {
        if number_of(rt.alloc(), *text)? != *number {
            return Err(Fail::from("another number"));
        }
    }
    Ok(())
}

/// Values of the Range field for a file of 2^64 - 1 bytes, and what they come to.
const OF_THE_LARGEST: &[(&str, Resolved)] = &[
    (
        "bytes=18446744073709551614-",
        Resolved::Part(18446744073709551614, 18446744073709551614),
    ),
    ("bytes=18446744073709551615-", Resolved::Unsatisfiable),
    (
        "bytes=-18446744073709551615",
        Resolved::Part(0, 18446744073709551614),
    ),
    (
        "bytes=-18446744073709551616",
        Resolved::Part(0, 18446744073709551614),
    ),
    (
        "bytes=-1",
        Resolved::Part(18446744073709551614, 18446744073709551614),
    ),
    (
        "bytes=0-18446744073709551615",
        Resolved::Part(0, 18446744073709551614),
    ),
];

#[test]
fn the_largest_size_has_a_last_place(_rt: HostRuntime) -> Result<(), Fail> {
    for (value, wanted) in OF_THE_LARGEST {
        if resolve(value.as_bytes(), u64::MAX) != *wanted {
            return Err(Fail::from(*value));
        }
    }
    Ok(())
}

/// A directory in its cap, with the file `a`.
const SMALL: &str = "URI:DIR2-LIT:gi3dumj2mewdcmb2kvjesosmjfkdu3lzfqydulbshj5x2lbm";

/// A verify cap.
const VERIFY: &str =
    "URI:DIR2-CHK-Verifier:yslfiuaixl7f6qelvvaj3u446i:x6yc4s52wnu5kaz32xmzyus35hcqnq7kztn57tgji2leja75r6fq:3:10:237";

/// Where a walk to the child `b` ends that reaches none. What owns a grid or a cache hands it on and leaves at no other place:
/// all else is dear to prove.
fn end_of(alloc: Global, cap: &Cap) -> Result<String, Fail> {
    let names = only_name(alloc, "b")?;
    let mut stores = Vec::new(alloc);
    stores.push(MemStore::new(alloc, 0))?;
    let mut grid = Grid::new(stores);
    end_over(alloc, &mut grid, cap, &names)
}

/// The same over this grid.
fn end_over(
    alloc: Global,
    grid: &mut Grid<MemStore>,
    cap: &Cap,
    names: &Names,
) -> Result<String, Fail> {
    match Cache::new(alloc) {
        Ok(mut cache) => end_in(alloc, grid, &mut cache, cap, names),
        Err(error) => Err(Fail::from(error)),
    }
}

/// The same with this cache.
fn end_in(
    alloc: Global,
    grid: &mut Grid<MemStore>,
    cache: &mut Cache,
    cap: &Cap,
    names: &Names,
) -> Result<String, Fail> {
    match walk(alloc, grid, cache, cap, names) {
        Ok(_) => Err(Fail::from("a child")),
        Err(fault) => words_of(alloc, fault),
    }
}

/// What a fault says, with the name that wasn't found.
fn words_of(alloc: Global, fault: WalkFault) -> Result<String, Fail> {
    match fault {
        WalkFault::NoChild(name) => Ok(format!(in alloc; "no such child {}", name.as_str())?),
        fault => Ok(format!(in alloc; "{fault}")?),
    }
}

#[test]
fn a_walk_says_where_it_stops(rt: HostRuntime) -> Result<(), Fail> {
    let alloc = rt.alloc();
    for (cap, end) in [(SMALL, "no such child b"), (VERIFY, "not a directory")] {
        if end_of(alloc, &parse(alloc, cap)?)?.as_str() != end {
            return Err(Fail::from(end));
        }
    }
    Ok(())
}

#[test]
fn what_no_request_line_holds_is_refused(rt: HostRuntime) -> Result<(), Fail> {
    let alloc = rt.alloc();
    let head = Head {
        method: Bytes::from_slice(alloc, b"GET")?,
        target: Bytes::new(alloc),
        fields: Fields::from_vec(Vec::new(alloc)),
    };
    let without_target = interpret(alloc, &head, Bytes::new(alloc)).err();
    assert!(rt;
        without_target == Some(WebFault::BadTarget)
            && names(alloc, b"c/\xFF").err() == Some(PathFault::NotUtf8)
            && refusal(alloc, &WebFault::NoMemory).is_err()
    );
    Ok(())
}

#[test]
fn a_reply_takes_no_more_room_than_there_is(rt: HostRuntime) -> Result<(), Fail> {
    let reply = Reply {
        status: Status::RangeNotSatisfiable,
        fields: ReplyFields::new(rt.alloc()),
        body: Bytes::from_slice(rt.alloc(), b"hi")?,
    };
    let mut roomy = Vec::with_capacity(rt.alloc(), 200)?;
    render_into(&mut roomy, &reply, false, true)?;
    assert!(rt; roomy.capacity() == 200);
    Ok(())
}
