//! Connections one after the other, over streams and over sockets.
use crate::script_calls::slow::{breaking, interrupted, narrow};
use gate_core::Gateway;
use gate_flow::FlowFault;
use gate_tasks::{MemGateway, make_stores, serve_on, turns};
use std::alloc::Global;
use std::io::{self, BufReader, Read, Write};
use std::net::{Net, Shutdown, TcpListener, TcpStream};
use std::process::Abort;
use std::test::Fail;

fn gateway(alloc: Global) -> Result<MemGateway, Fail> {
    let stores = make_stores(alloc, 5, 1_000_000)?;
    let gateway = Gateway::new(alloc, 3, 10, stores, b"")?;
    Ok(gateway)
}

/// Compares what the turns of a connection come to.
fn serves<R: Read, W: Write>(
    rt: &(impl Abort + AllocGlobal),
    gateway: &mut MemGateway,
    id: u64,
    reader: &mut R,
    writer: &mut W,
    wanted: Result<(), FlowFault>,
) {
    let outcome = turns(rt.alloc(), gateway, id, reader, writer);
    assert!(rt; outcome == wanted);
}

const REQUESTS: &[u8] =
    b"GET /uri/URI:LIT:my HTTP/1.1\r\nHost: g\r\n\r\nGET /uri/URI:LIT: HTTP/1.1\r\nHost: g\r\n\r\n";

const REPLIES: &[u8] =
    b"HTTP/1.1 200 OK\r\nContent-Type: application/octet-stream\r\nContent-Length: 1\r\n\r\nfHTTP/1.1 200 OK\r\nContent-Type: application/octet-stream\r\nContent-Length: 0\r\n\r\n";

/// What is tried over a gateway that has nothing yet.
#[derive(Clone, Copy)]
enum Trial {
    Answers,
    Closes,
    PeerFails,
    Interrupted,
    OverASocket,
    FaultsAreCounted,
}

/// A trial holds. What owns the gateway hands it on and leaves at no other place: all else is dear to prove.
fn is_tried(
    rt: &(impl Abort + AllocGlobal + Eprint + Net<Listener = TcpListener, Stream = TcpStream>),
    trial: Trial,
) -> Result<(), Fail> {
    match gateway(rt.alloc()) {
        Ok(mut gateway) => is_tried_over(rt, &mut gateway, trial),
        Err(fault) => Err(fault),
    }
}

fn is_tried_over(
    rt: &(impl Abort + AllocGlobal + Eprint + Net<Listener = TcpListener, Stream = TcpStream>),
    gateway: &mut MemGateway,
    trial: Trial,
) -> Result<(), Fail> {
    match trial {
        Trial::Answers => answers(rt, gateway),
        Trial::Closes => closes(rt, gateway),
        Trial::PeerFails => ends_where_a_peer_fails(rt, gateway),
        Trial::Interrupted => reads_on(rt, gateway),
        Trial::OverASocket => {
            let clients = [(EXCHANGE, EXCHANGED), (REQUESTS, REPLIES)];
            serves_clients(rt, gateway, 2, &clients, 0)
        }
        Trial::FaultsAreCounted => counts_faults(rt, gateway),
    }
}

#[test]
fn turns_answer_what_they_read(rt: HostRuntime) -> Result<(), Fail> {
    is_tried(&rt, Trial::Answers)
}

fn answers(rt: &(impl Abort + AllocGlobal), gateway: &mut MemGateway) -> Result<(), Fail> {
    let mut reader = REQUESTS;
    let mut written = Vec::new(rt.alloc());
    serves(rt, gateway, 1, &mut reader, &mut written, Ok(()));
    assert!(rt; written.as_slice() == REPLIES);
    assert!(rt; gateway.closed(1));
    // An id is used once.
    let mut reader = REQUESTS;
    serves(
        rt,
        gateway,
        1,
        &mut reader,
        &mut written,
        Err(FlowFault::Refused),
    );
    assert!(rt; written.len() == REPLIES.len());
    Ok(())
}

#[test]
fn turns_end_at_a_request_that_closes(rt: HostRuntime) -> Result<(), Fail> {
    is_tried(&rt, Trial::Closes)
}

fn closes(rt: &(impl Abort + AllocGlobal), gateway: &mut MemGateway) -> Result<(), Fail> {
    let mut reader = BufReader::with_capacity(
        rt.alloc(),
        64,
        b"GET /uri/URI:LIT:my HTTP/1.0\r\n\r\nGET /uri/URI:LIT:my HTTP/1.0\r\n\r\n".as_slice(),
    )?;
    let mut written = Vec::new(rt.alloc());
    serves(rt, gateway, 1, &mut reader, &mut written, Ok(()));
    assert!(rt; written.ends_with(b"Content-Length: 1\r\nConnection: close\r\n\r\nf"));
    Ok(())
}

#[test]
fn turns_end_where_a_peer_fails(rt: HostRuntime) -> Result<(), Fail> {
    is_tried(&rt, Trial::PeerFails)
}

fn ends_where_a_peer_fails(
    rt: &(impl Abort + AllocGlobal),
    gateway: &mut MemGateway,
) -> Result<(), Fail> {
    for count in 0..REQUESTS.len() {
        let id = count as u64;
        let mut reader = breaking(&REQUESTS[..count]);
        let mut written = Vec::new(rt.alloc());
        serves(
            rt,
            gateway,
            id,
            &mut reader,
            &mut written,
            Err(FlowFault::ReadFailed),
        );
        assert!(rt; REPLIES.starts_with(&written));
    }
    for room in 0..REPLIES.len() {
        let id = 1_000 + room as u64;
        let mut reader = REQUESTS;
        let mut writer = narrow(rt.alloc(), room);
        serves(
            rt,
            gateway,
            id,
            &mut reader,
            &mut writer,
            Err(FlowFault::WriteFailed),
        );
        assert!(rt; writer.held.as_slice() == &REPLIES[..room]);
    }
    Ok(())
}

#[test]
fn turns_read_on_after_an_interrupt(rt: HostRuntime) -> Result<(), Fail> {
    is_tried(&rt, Trial::Interrupted)
}

fn reads_on(rt: &(impl Abort + AllocGlobal), gateway: &mut MemGateway) -> Result<(), Fail> {
    let mut slow = interrupted(REQUESTS);
    let mut written = Vec::new(rt.alloc());
    serves(rt, gateway, 1, &mut slow, &mut written, Ok(()));
    assert!(rt; written.as_slice() == REPLIES);
    Ok(())
}

/// A file is put, and its cap, which another program made, asked for.
const EXCHANGE: &[u8] =
    b"PUT /uri HTTP/1.1\r\nHost: g\r\nContent-Length: 56\r\n\r\naaaaaaaaaaaaaaaaaaaaaaaaaaaaaaaaaaaaaaaaaaaaaaaaaaaaaaaaGET /uri/URI:CHK:xciehu7wkhrkdhseyznarsl6n4:ro65en3n4zxwl3gfinnekkeqado3jxpde7tfaj3sr7als57h4qoa:3:10:56 HTTP/1.1\r\nHost: g\r\n\r\n";

const EXCHANGED: &[u8] =
    b"HTTP/1.1 200 OK\r\nContent-Type: text/plain; charset=utf-8\r\nContent-Length: 95\r\n\r\nURI:CHK:xciehu7wkhrkdhseyznarsl6n4:ro65en3n4zxwl3gfinnekkeqado3jxpde7tfaj3sr7als57h4qoa:3:10:56HTTP/1.1 200 OK\r\nContent-Type: application/octet-stream\r\nContent-Length: 56\r\n\r\naaaaaaaaaaaaaaaaaaaaaaaaaaaaaaaaaaaaaaaaaaaaaaaaaaaaaaaa";

/// A client that connected, sent these bytes and ended its side.
fn client(
    rt: &impl Net<Stream = TcpStream>,
    listener: &TcpListener,
    bytes: &[u8],
) -> io::Result<TcpStream> {
    let mut stream = TcpStream::connect(rt, listener.local_addr()?)?;
    stream.write_all(bytes)?;
    stream.shutdown(Shutdown::Write)?;
    Ok(stream)
}

/// Serves so many clients over a socket: what each sends and is given, and how many connections had a fault.
fn serves_clients(
    rt: &(impl Abort + AllocGlobal + Eprint + Net<Listener = TcpListener, Stream = TcpStream>),
    gateway: &mut MemGateway,
    count: u16,
    clients: &[(&[u8], &[u8])],
    faults: u16,
) -> Result<(), Fail> {
    let listener = TcpListener::bind(rt, "127.0.0.1:0")?;
    let mut streams = Vec::new(rt.alloc());
    for (sent, _) in clients {
        streams.push(client(rt, &listener, sent)?)?;
    }
    let outcome = serve_on(rt, &listener, count, gateway);
    assert!(rt; outcome == Ok(faults));
    for (stream, (_, wanted)) in streams.iter_mut().zip(clients) {
        let mut came = Vec::new(rt.alloc());
        stream.read_to_end(&mut came)?;
        assert!(rt; came.as_slice() == *wanted);
    }
    Ok(())
}

#[test]
fn connections_are_served_over_a_socket(rt: HostRuntime) -> Result<(), Fail> {
    is_tried(&rt, Trial::OverASocket)
}

#[test]
fn connections_that_had_a_fault_are_counted(rt: HostRuntime) -> Result<(), Fail> {
    is_tried(&rt, Trial::FaultsAreCounted)
}

fn counts_faults(
    rt: &(impl Abort + AllocGlobal + Eprint + Net<Listener = TcpListener, Stream = TcpStream>),
    gateway: &mut MemGateway,
) -> Result<(), Fail> {
    let mut nothing = b"".as_slice();
    let mut written = Vec::new(rt.alloc());
    // The second id is used before its connection comes.
    serves(rt, gateway, 2, &mut nothing, &mut written, Ok(()));
    let clients = [
        (REQUESTS, REPLIES),
        (b"".as_slice(), b"".as_slice()),
        (REQUESTS, REPLIES),
    ];
    serves_clients(rt, gateway, 3, &clients, 1)
}
