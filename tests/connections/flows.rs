//! Flows over streams that give few bytes, block, are interrupted and fail, beside the same bytes brought in one piece.
use crate::connections::stream::Stream;
use gate_core::Gateway;
use gate_flow::{Flow, FlowFault, Step, Want, part_len};
use share_store::MemStore;
use std::alloc::Global;
use std::io::ErrorKind;
use std::test::Fail;

fn gateway(alloc: Global) -> Result<Gateway<MemStore>, Fail> {
    let mut stores = Vec::new(alloc);
    stores.push(MemStore::new(alloc, 1_000_000))?;
    Ok(Gateway::new(alloc, 1, 1, stores, b"")?)
}

/// Calls a flow once, as it wants, and says whether it wanted anything.
fn call(
    flow: &mut Flow,
    stream: &mut Stream<'_>,
    gateway: &mut Gateway<MemStore>,
) -> Result<bool, FlowFault> {
    match flow.want() {
        Want::Read => {
            flow.read_from(stream)?;
        }
        Want::Advance => flow.advance(gateway)?,
        Want::Write => {
            flow.write_to(stream)?;
        }
        Want::Nothing => return Ok(false),
    }
    Ok(true)
}

/// Calls a flow until it wants nothing, or a fault.
fn run(
    flow: &mut Flow,
    stream: &mut Stream<'_>,
    gateway: &mut Gateway<MemStore>,
) -> Result<(), FlowFault> {
    for _ in 0..1_000_000u32 {
        if !call(flow, stream, gateway)? {
            break;
        }
    }
    Ok(())
}

/// Calls a flow under id 7 until it wants nothing, or a fault, and closes it. Tells that fault, what it wanted then, and
/// whether the gateway takes no more bytes of it.
fn close_after(
    alloc: Global,
    stream: &mut Stream<'_>,
) -> Result<(Option<FlowFault>, Want, bool), Fail> {
    match gateway(alloc) {
        Ok(mut one) => open_and_close(alloc, stream, &mut one),
        Err(fault) => Err(fault),
    }
}

/// The same of this gateway.
fn open_and_close(
    alloc: Global,
    stream: &mut Stream<'_>,
    gateway: &mut Gateway<MemStore>,
) -> Result<(Option<FlowFault>, Want, bool), Fail> {
    match Flow::open(alloc, gateway, 7, None) {
        Ok(flow) => Ok(run_and_close(flow, stream, gateway)),
        Err(fault) => Err(Fail::from(fault)),
    }
}

/// The same of this flow.
fn run_and_close(
    mut flow: Flow,
    stream: &mut Stream<'_>,
    gateway: &mut Gateway<MemStore>,
) -> (Option<FlowFault>, Want, bool) {
    let fault = run(&mut flow, stream, gateway).err();
    let want = flow.want();
    flow.close(gateway);
    (fault, want, gateway.closed(7))
}

/// What callers send: literal files, an upload with its length, one in chunks, a request that closes with bytes behind it, and
/// what isn't a request.
const SENT: &[&[u8]] = &[
    b"GET /uri/URI:LIT:mzxw6 HTTP/1.1\r\nHost: g\r\n\r\nGET /uri/URI:LIT:mzxw6ytboi HTTP/1.1\r\nHost: g\r\n\r\nGET /uri/URI:LIT:me HTTP/1.1\r\nHost: g\r\n\r\n",
    b"PUT /uri HTTP/1.1\r\nHost: g\r\nContent-Length: 8\r\n\r\n\n\n\n\n\r\n\r\nGET /uri/URI:LIT:me HTTP/1.1\r\nHost: g\r\n\r\n",
    b"PUT /uri HTTP/1.1\r\nHost: g\r\nTransfer-Encoding: chunked\r\n\r\n5\r\nabc\r\n\r\n3;x\r\n\r\n\n\r\n0\r\nX: y\r\n\r\nGET /uri/URI:LIT:me HTTP/1.1\r\nHost: g\r\n\r\n",
    b"GET /uri/URI:LIT:me HTTP/1.1\r\nHost: g\r\nConnection: close\r\n\r\nGET /uri/URI:LIT:mzxw6 HTTP/1.1\r\nHost: g\r\n\r\n",
    b"GET /uri/URI:LIT:me HTTP/1.1\r\n\r\n",
    b"GET /uri/URI:LIT:me HTTP/1.1\r\nHost: g\r\n",
    b"",
];

/// What a gateway says of bytes that come in one piece.
fn said_by(gateway: &mut Gateway<MemStore>, sent: &[u8]) -> Result<Vec<u8>, Fail> {
    gateway.open(1, None)?;
    gateway.bytes(1, sent)?;
    Ok(gateway.take(1, 100_000)?)
}

fn said(alloc: Global, sent: &[u8]) -> Result<Vec<u8>, Fail> {
    match gateway(alloc) {
        Ok(mut gateway) => said_by(&mut gateway, sent),
        Err(fault) => Err(fault),
    }
}

/// How many bytes a stream gives and takes at a time.
const AT_A_TIME: &[usize] = &[1, 2, 3, 7, 64, 129, 100_000];

/// What streams are told at every other call.
const TOLD: &[Option<ErrorKind>] = &[
    None,
    Some(ErrorKind::WouldBlock),
    Some(ErrorKind::Interrupted),
];

/// Whether a flow over a stream that sends these bytes gives what is wanted, and is over then.
fn is_given(
    alloc: Global,
    sent: &[u8],
    wanted: &[u8],
    at_a_time: usize,
    told: Option<ErrorKind>,
) -> Result<bool, Fail> {
    let mut stream = Stream::new(alloc, sent, at_a_time, told, u32::MAX);
    let closed = close_after(alloc, &mut stream)?;
    Ok(matches!(closed, (None, Want::Nothing, true)) && stream.took.as_slice() == wanted)
}

#[test]
fn flows_give_what_the_gateway_says(rt: HostRuntime) -> Result<(), Fail> {
    let alloc = rt.alloc();
    for sent in SENT {
        let wanted = said(alloc, *sent)?;
        for at_a_time in AT_A_TIME {
            for told in TOLD {
                assert!(rt;
                    is_given(alloc, *sent, &wanted, *at_a_time, *told)?,
                    "{at_a_time} at a time, {told:?}"
                );
            }
        }
    }
    Ok(())
}

/// A flow and its stream.
#[derive(Drop)]
struct Side<'a> {
    flow: Flow,
    stream: Stream<'a>,
}

/// Calls two flows in turn until neither wants anything, or a fault.
fn take_turns(
    first: &mut Side<'_>,
    second: &mut Side<'_>,
    gateway: &mut Gateway<MemStore>,
) -> Result<(), FlowFault> {
    for _ in 0..100_000u32 {
        let a = call(&mut first.flow, &mut first.stream, gateway)?;
        let b = call(&mut second.flow, &mut second.stream, gateway)?;
        if !a && !b {
            break;
        }
    }
    Ok(())
}

/// Whether a flow with this id has ended, and these bytes were written.
fn is_done(side: &Side<'_>, id: u64, wanted: &[u8]) -> bool {
    side.flow.has_ended() && side.flow.id() == id && side.stream.took.as_slice() == wanted
}

/// Whether two flows in turn that send the same bytes, the second one byte at a time, are given what is wanted.
fn are_given_by(
    alloc: Global,
    gateway: &mut Gateway<MemStore>,
    sent: &[u8],
    wanted: &[u8],
    at_a_time: usize,
) -> Result<bool, Fail> {
    let mut first = Side {
        flow: Flow::open(alloc, gateway, 7, None)?,
        stream: Stream::new(alloc, sent, at_a_time, None, u32::MAX),
    };
    let mut second = Side {
        flow: Flow::open(alloc, gateway, 9, Some(b"own"))?,
        stream: Stream::new(alloc, sent, 1, Some(ErrorKind::WouldBlock), u32::MAX),
    };
    take_turns(&mut first, &mut second, gateway)?;
    Ok(is_done(&first, 7, wanted) && is_done(&second, 9, wanted))
}

fn are_given(alloc: Global, sent: &[u8], wanted: &[u8], at_a_time: usize) -> Result<bool, Fail> {
    match gateway(alloc) {
        Ok(mut gateway) => are_given_by(alloc, &mut gateway, sent, wanted, at_a_time),
        Err(fault) => Err(fault),
    }
}

#[test]
fn flows_in_turn_do_not_meet(rt: HostRuntime) -> Result<(), Fail> {
    let alloc = rt.alloc();
    let sent = SENT[0];
    let wanted = said(alloc, sent)?;
    for at_a_time in AT_A_TIME {
        assert!(rt;
            are_given(alloc, sent, &wanted, *at_a_time)?,
            "{at_a_time} at a time"
        );
    }
    Ok(())
}

#[test]
fn flows_stop_where_a_stream_fails(rt: HostRuntime) -> Result<(), Fail> {
    let alloc = rt.alloc();
    let sent = SENT[0];
    let wanted = said(alloc, sent)?;
    for calls in 0..22u32 {
        let mut stream = Stream::new(alloc, sent, 20, None, calls);
        let closed = close_after(alloc, &mut stream)?;
        let is_told = matches!(
            closed,
            (Some(FlowFault::ReadFailed), Want::Read, true)
                | (Some(FlowFault::WriteFailed), Want::Write, true)
        );
        assert!(rt;
            is_told && wanted.starts_with(&stream.took),
            "after {calls} calls"
        );
    }
    Ok(())
}

/// Ids that are opened one after the other, how many bytes their secrets have, and why that is refused.
const OPENED: &[(u64, Option<usize>, Option<FlowFault>)] = &[
    (1, None, None),
    (1, None, Some(FlowFault::Refused)),
    (2, Some(257), Some(FlowFault::Refused)),
    (2, Some(256), None),
    (3, Some(0), None),
];

const LETTERS: &[u8] = &[b's'; 257];

/// The first row of these that is answered otherwise than it says.
fn wrong_row_of(alloc: Global, gateway: &mut Gateway<MemStore>) -> Option<usize> {
    for (row, (id, length, fault)) in OPENED.iter().enumerate() {
        let secret = match length {
            Some(length) => LETTERS.get(..*length),
            None => None,
        };
        if Flow::open(alloc, gateway, *id, secret).err() != *fault {
            return Some(row);
        }
    }
    None
}

fn wrong_row(alloc: Global) -> Result<Option<usize>, Fail> {
    Ok(wrong_row_of(alloc, &mut gateway(alloc)?))
}

#[test]
fn ids_are_opened_once_and_secrets_are_short(rt: HostRuntime) -> Result<(), Fail> {
    assert_eq!(rt; wrong_row(rt.alloc())?, None);
    Ok(())
}

/// How many bytes belong to a body, bytes, and how many of them are brought at once.
const PARTS: &[(usize, &[u8], usize)] = &[
    (0, b"x", 1),
    (0, b"\n\n", 2),
    (0, b"\r\n\r\nGET", 4),
    (0, b"x\n\ny", 3),
    (0, b"GET / HTTP/1.1\r\nHost: g\r\n\r\nGET", 27),
    (5, b"\n\nx\n\nGET", 5),
];

/// Places in heads of 33 bytes each, and how many bytes between them are brought at once: up to the end of the first blank line,
/// of which the last bytes may come first. One that is cut isn't one.
const CUT: &[(usize, usize, usize)] = &[
    (0, 396, 33),
    (1, 396, 32),
    (5, 396, 28),
    (0, 32, 32),
    (31, 396, 2),
    (32, 396, 1),
];

/// How many of these bytes are brought at once, of which so many belong to a body, where there are any.
fn part(of_body: usize, bytes: &[u8]) -> usize {
    if of_body < bytes.len() {
        part_len(of_body, bytes)
    } else {
        0
    }
}

#[test]
fn parts_end_behind_blank_lines(rt: HostRuntime) -> Result<(), Fail> {
    for (of_body, bytes, wanted) in PARTS {
        assert_eq!(rt; part(*of_body, *bytes), *wanted);
    }
    let mut heads = Vec::new(rt.alloc());
    for _ in 0..12u32 {
        heads.extend_from_slice(b"GET / HTTP/1.1\r\nHost: gateway\r\n\r\n")?;
    }
    for (from, to, wanted) in CUT {
        assert_eq!(rt; part(0, heads.get(*from..*to).unwrap_or(b"")), *wanted);
    }
    Ok(())
}
