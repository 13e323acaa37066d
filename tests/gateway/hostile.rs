//! Stores that fail at each of their calls, or lie.

use super::rows::{Row, are_told, holds, with_room};
use gate_core::Gateway;
use octets::fakes::counted_bytes;
use share_store::{FailAt, Liar, MemStore, Store};
use std::alloc::Global;
use std::rc::RcSlice;
use std::test::Fail;

/// The request that puts a file of 56 bytes, and the one that gets it. Its cap is another program's.
const PUT_LETTERS: &[u8] =
    b"PUT /uri HTTP/1.1\r\nHost: g\r\nContent-Length: 56\r\n\r\naaaaaaaaaaaaaaaaaaaaaaaaaaaaaaaaaaaaaaaaaaaaaaaaaaaaaaaa";

const GET_LETTERS: &[u8] =
    b"GET /uri/URI:CHK:xciehu7wkhrkdhseyznarsl6n4:ro65en3n4zxwl3gfinnekkeqado3jxpde7tfaj3sr7als57h4qoa:3:10:56 HTTP/1.1\r\nHost: g\r\n\r\n";

/// A store failed.
const STORE_DOWN: &[u8] =
    b"HTTP/1.1 503 Service Unavailable\r\nContent-Type: text/plain; charset=utf-8\r\nContent-Length: 11\r\n\r\nstore down\n";

/// Too few shares stand.
const NOT_ENOUGH: &[u8] =
    b"HTTP/1.1 410 Gone\r\nContent-Type: text/plain; charset=utf-8\r\nContent-Length: 18\r\n\r\nnot enough shares\n";

/// The file is put and gives its cap, or a store failed.
const STORED: Row<'static> = (
    1,
    PUT_LETTERS,
    b"HTTP/1.1 200 OK\r\nContent-Type: text/plain; charset=utf-8\r\nContent-Length: 95\r\n\r\nURI:CHK:xciehu7wkhrkdhseyznarsl6n4:ro65en3n4zxwl3gfinnekkeqado3jxpde7tfaj3sr7als57h4qoa:3:10:56",
);

const DOWN: Row<'static> = (1, PUT_LETTERS, STORE_DOWN);

/// Another caller's file of 57 bytes is not stored: a store failed.
const OTHER_DOWN: Row<'static> = (
    2,
    b"PUT /uri HTTP/1.1\r\nHost: g\r\nContent-Length: 57\r\n\r\nbbbbbbbbbbbbbbbbbbbbbbbbbbbbbbbbbbbbbbbbbbbbbbbbbbbbbbbbb",
    STORE_DOWN,
);

/// The cap of the file gives its bytes, or none.
const FOUND: Row<'static> = (
    1,
    GET_LETTERS,
    b"HTTP/1.1 200 OK\r\nContent-Type: application/octet-stream\r\nContent-Length: 56\r\n\r\naaaaaaaaaaaaaaaaaaaaaaaaaaaaaaaaaaaaaaaaaaaaaaaaaaaaaaaa",
);

const NOT_FOUND: Row<'static> = (1, GET_LETTERS, NOT_ENOUGH);

/// 3 of 10 on one store, of which this call fails, and those after it where it fails for good.
fn failing(alloc: Global, at: u64, for_good: bool) -> Result<Gateway<FailAt>, Fail> {
    let mut stores = Vec::new(alloc);
    stores.push(FailAt::new(alloc, MemStore::new(alloc, 100_000), at, for_good))?;
    Ok(Gateway::new(alloc, 3, 10, stores, b"")?)
}

/// What is told where the fourth call fails, and where each later one does so too. Where it fails once, this is in the
/// upload of another or in that of caller 1: caller 1 is told of an item that is dropped in the run of its kept items.
const FOURTH_FAILS: &[(bool, &[Row<'static>])] = &[
    (true, &[DOWN, NOT_FOUND]),
    (false, &[OTHER_DOWN, STORED]),
    (false, &[DOWN]),
];

#[test]
fn a_store_that_fails_tells_of_what_is_dropped(rt: HostRuntime) -> Result<(), Fail> {
    for case in FOURTH_FAILS {
        let (for_good, rows) = *case;
        let mut gateway = failing(rt.alloc(), 4, for_good)?;
        gateway.open(1, None)?;
        gateway.open(2, None)?;
        are_told(&mut gateway, rows)?;
    }
    Ok(())
}

/// A row, the rows before it, the reply where a call of the store fails, and how many calls both make where none does.
struct Trial {
    before: &'static [Row<'static>],
    calls_before: u64,
    row: Row<'static>,
    calls: u64,
    refusal: &'static [u8],
}

/// The file of letters is put, by ten calls, and got, by one for the numbers of its shares and three for their bytes.
const TRIALS: &[Trial] = &[
    Trial {
        before: &[],
        calls_before: 0,
        row: STORED,
        calls: 10,
        refusal: STORE_DOWN,
    },
    Trial {
        before: &[STORED],
        calls_before: 10,
        row: FOUND,
        calls: 4,
        refusal: NOT_ENOUGH,
    },
];

#[test]
fn each_failure_of_a_store_is_told(rt: HostRuntime) -> Result<(), Fail> {
    for trial in TRIALS {
        for for_good in [false, true] {
            holds_at_each_failure(rt.alloc(), trial, for_good)?;
        }
    }
    Ok(())
}

/// A trial holds whichever call of its store fails, from the first on until none does, which is after those of its row.
fn holds_at_each_failure(alloc: Global, trial: &Trial, for_good: bool) -> Result<(), Fail> {
    for at in 1..100 {
        if !fails_at(alloc, trial, at, for_good)? {
            return holds(
                at == trial.calls.saturating_add(1),
                "another number of calls",
            );
        }
    }
    holds(false, "no end of calls")
}

/// Whether a call fails in a trial where this one of its row would.
fn fails_at(alloc: Global, trial: &Trial, at: u64, for_good: bool) -> Result<bool, Fail> {
    let call = trial.calls_before.saturating_add(at);
    fails_in(&mut failing(alloc, call, for_good)?, trial, for_good)
}

/// Whether a call fails in a trial. Its reply is told, or its refusal where a call failed; a store that fails once then
/// stores the file of letters and finds it.
fn fails_in(gateway: &mut Gateway<FailAt>, trial: &Trial, for_good: bool) -> Result<bool, Fail> {
    gateway.open(1, None)?;
    are_told(gateway, trial.before)?;
    let (_, request, wanted) = trial.row;
    gateway.bytes(1, request)?;
    let told = gateway.take(1, 1_000)?;
    let has_failed = has_failed(gateway);
    let is_refused = has_failed && told.as_slice() == trial.refusal;
    holds(is_refused || told.as_slice() == wanted, "another reply")?;
    if has_failed && !for_good {
        are_told(gateway, &[STORED, FOUND])?;
    }
    Ok(has_failed)
}

/// Whether the store has counted a failure.
fn has_failed(gateway: &Gateway<FailAt>) -> bool {
    match gateway.servers().first() {
        Some(store) => store.failures() > 0,
        None => false,
    }
}

/// The request that puts 200,000 bytes i modulo 251, up to its body, and how their cap, which is another program's, is
/// answered over a store that lies.
const PUT_BIG: &[u8] = b"PUT /uri HTTP/1.1\r\nHost: g\r\nContent-Length: 200000\r\n\r\n";

const BIG_STORED: &[u8] =
    b"HTTP/1.1 200 OK\r\nContent-Type: text/plain; charset=utf-8\r\nContent-Length: 99\r\n\r\nURI:CHK:cpgmyfu7y4nqyhvkcqfcsmnqvq:cvffjve3vt7bw5r2bn4fpzm22wnb5vsv7pduk635eeclhal7bo5q:3:10:200000";

const BIG_GONE: Row<'static> = (
    1,
    b"GET /uri/URI:CHK:cpgmyfu7y4nqyhvkcqfcsmnqvq:cvffjve3vt7bw5r2bn4fpzm22wnb5vsv7pduk635eeclhal7bo5q:3:10:200000 HTTP/1.1\r\nHost: g\r\n\r\n",
    NOT_ENOUGH,
);

const BIG_CHECKED: Row<'static> = (
    1,
    b"POST /uri/URI:CHK:cpgmyfu7y4nqyhvkcqfcsmnqvq:cvffjve3vt7bw5r2bn4fpzm22wnb5vsv7pduk635eeclhal7bo5q:3:10:200000?t=check&output=JSON&verify=true HTTP/1.1\r\nHost: g\r\n\r\n",
    b"HTTP/1.1 200 OK\r\nContent-Type: application/json\r\nContent-Length: 567\r\n\r\n{\"results\":{\"count-corrupt-shares\":10,\"count-shares-expected\":10,\"count-shares-good\":0,\"count-shares-needed\":3,\"healthy\":false,\"list-corrupt-shares\":[[0,\"qg2arnqdrcwls5l3fr6ulmwa4y\",0],[0,\"qg2arnqdrcwls5l3fr6ulmwa4y\",1],[0,\"qg2arnqdrcwls5l3fr6ulmwa4y\",2],[0,\"qg2arnqdrcwls5l3fr6ulmwa4y\",3],[0,\"qg2arnqdrcwls5l3fr6ulmwa4y\",4],[0,\"qg2arnqdrcwls5l3fr6ulmwa4y\",5],[0,\"qg2arnqdrcwls5l3fr6ulmwa4y\",6],[0,\"qg2arnqdrcwls5l3fr6ulmwa4y\",7],[0,\"qg2arnqdrcwls5l3fr6ulmwa4y\",8],[0,\"qg2arnqdrcwls5l3fr6ulmwa4y\",9]],\"recoverable\":false},\"storage-index\":\"qg2arnqdrcwls5l3fr6ulmwa4y\"}",
);

#[test]
fn a_store_that_lies_gives_no_other_bytes(rt: HostRuntime) -> Result<(), Fail> {
    let alloc = rt.alloc();
    let mut request = Vec::from_slice(alloc, PUT_BIG)?;
    request.extend_from_slice(&counted_bytes(alloc, 200_000)?)?;
    let image = image_of_letters(alloc)?;
    // Shares of another file, whole, cut off, and empty; and what is no share.
    for length in [394, 393, 0] {
        let shares = shares_in(alloc, &image, length)?;
        is_big_refused(alloc, &request, shares)?;
    }
    let no_share = Vec::from_slice(alloc, b"1:1,1:0,")?;
    let mut answers = Vec::new(alloc);
    answers.push(RcSlice::from_vec(no_share)?)?;
    is_big_refused(alloc, &request, answers)
}

/// The image of a gateway that stored the file of letters.
fn image_of_letters(alloc: Global) -> Result<Vec<u8>, Fail> {
    let mut gateway = with_room(alloc, 10_000)?;
    gateway.open(1, None)?;
    are_told(&mut gateway, &[STORED])?;
    let mut image = Vec::new(alloc);
    gateway.image(&mut image)?;
    Ok(image)
}

/// The first bytes, so many, of each share of an image of shares of 394 bytes.
fn shares_in(alloc: Global, image: &[u8], length: usize) -> Result<Vec<RcSlice<u8>>, Fail> {
    let mut shares = Vec::new(alloc);
    // Behind the head each row has 32 bytes before its share's own.
    let rows = image.get(20..).ok_or("no image")?;
    for row in rows.chunks(426) {
        let share = row.get(32..).ok_or("no share")?;
        let front = share.get(..length).ok_or("no share")?;
        let bytes = Vec::from_slice(alloc, front)?;
        shares.push(RcSlice::from_vec(bytes)?)?;
    }
    Ok(shares)
}

/// A store that gives these answers takes the big file, and no other bytes are given for it.
fn is_big_refused(alloc: Global, request: &[u8], answers: Vec<RcSlice<u8>>) -> Result<(), Fail> {
    let mut stores = Vec::new(alloc);
    stores.push(Liar::new(alloc, answers))?;
    let mut gateway = Gateway::new(alloc, 3, 10, stores, b"")?;
    gateway.open(1, None)?;
    let stored: Row<'_> = (1, request, BIG_STORED);
    are_told(&mut gateway, &[stored, BIG_GONE, BIG_CHECKED, BIG_GONE])
}
