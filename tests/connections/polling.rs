//! Connections over sockets of the loopback, within limits of time and number.
ghost use Rattle.std.specs.Prelude.{option_map};

use gate_control::{Answer, Control, NoControl, text_reply};
use gate_core::Gateway;
use gate_flow::Lobby;
use gate_poll::*;
use http_edge::{Head, Status};
use log::Log;
use mio::net::TcpListener;
use octets::Bytes;
use share_store::MemStore;
use std::alloc::{AllocError, Global};
use std::io::{Read, Write};
use std::net::{Net, Shutdown, SocketAddr, TcpStream};
use std::process::Abort;
use std::test::Fail;
use std::time::{Clock, CpuClock, Duration, Instant};

/// A gateway over one store in memory.
fn gateway(alloc: Global) -> Result<Gateway<MemStore>, Fail> {
    let mut stores = Vec::new(alloc);
    stores.push(MemStore::new(alloc, 8_000_000))?;
    Ok(Gateway::new(alloc, 1, 1, stores, b"")?)
}

/// The same, for a loop to serve.
fn lobby(alloc: Global) -> Result<Lobby<MemStore>, Fail> {
    Ok(Lobby::new(gateway(alloc)?))
}

/// Listens on a port of the loopback that the system chooses.
fn listen(rt: &impl Net) -> Result<TcpListener, Fail> {
    match SocketAddr::parse_ascii(b"127.0.0.1:0") {
        Ok(address) => Ok(TcpListener::bind(rt, address)?),
        Err(_) => Err(Fail::from("no address")),
    }
}

/// One listener, without a secret of its own.
fn only(rt: &impl AllocGlobal, socket: TcpListener) -> Result<Vec<Listener>, Fail> {
    let mut listeners = Vec::new(rt.alloc());
    listeners.push(Listener {
        socket,
        secret: None,
    })?;
    Ok(listeners)
}

/// What a client sends, whether it ends its side, and what it is given.
#[derive(Clone, Copy)]
struct Row {
    sent: &'static [u8],
    ends: bool,
    given: &'static [u8],
}

/// A client that connected and sent these bytes.
fn client(
    rt: &impl Net<Stream = TcpStream>,
    address: SocketAddr,
    sent: &[u8],
    ends: bool,
) -> Result<TcpStream, Fail> {
    let mut stream = TcpStream::connect(rt, address)?;
    stream.write_all(sent)?;
    if ends {
        stream.shutdown(Shutdown::Write)?;
    }
    Ok(stream)
}

/// Serves what came on a listener.
fn counts_on<R: Net<Stream = TcpStream> + Clock + CpuClock + AllocGlobal + Log>(
    rt: &R,
    listener: TcpListener,
    limits: &Limits,
    lobby: &mut Lobby<MemStore>,
) -> Result<Counts, Fail> {
    match serve_on(rt, only(rt, listener)?, None, limits, lobby, &mut NoControl) {
        Ok(counts) => Ok(counts),
        Err(_) => Err(Fail::from("serving ended")),
    }
}

/// Serves these clients, all of which came before, and compares what each was given.
fn serves<R: Net<Stream = TcpStream> + Clock + CpuClock + AllocGlobal + Log + Abort>(
    rt: &R,
    limits: &Limits,
    lobby: &mut Lobby<MemStore>,
    rows: &[Row],
) -> Result<Counts, Fail> {
    let listener = listen(rt)?;
    let address = listener.local_addr()?;
    let mut clients = Vec::new(rt.alloc());
    for row in rows {
        clients.push(client(rt, address, row.sent, row.ends)?)?;
    }
    let mut limits = *limits;
    limits.served = Some(rows.len() as u64);
    let counts = counts_on(rt, listener, &limits, lobby)?;
    for (client, row) in clients.iter_mut().zip(rows) {
        assert!(rt; all_of(rt.alloc(), client)?.as_slice() == row.given);
    }
    Ok(counts)
}

/// What a client is given before its connection ends, in whatever way.
fn all_of(alloc: Global, client: &mut TcpStream) -> Result<Vec<u8>, Fail> {
    let mut given = Vec::new(alloc);
    let _ = client.read_to_end(&mut given);
    Ok(given)
}

const GET: &[u8] = b"GET /uri/URI:LIT:mzxw6 HTTP/1.1\r\nHost: g\r\n\r\n";

const FOO: &[u8] =
    b"HTTP/1.1 200 OK\r\nContent-Type: application/octet-stream\r\nContent-Length: 3\r\n\r\nfoo";

/// Bytes behind a request that closes its connection.
const CLOSES: &[u8] =
    b"GET /uri/URI:LIT:mzxw6 HTTP/1.1\r\nHost: g\r\nConnection: close\r\n\r\nGET /uri/URI:LIT:mzxw6 HTTP/1.1\r\nHost: g\r\n\r\n";

const CLOSED: &[u8] =
    b"HTTP/1.1 200 OK\r\nContent-Type: application/octet-stream\r\nContent-Length: 3\r\nConnection: close\r\n\r\nfoo";

/// What is tried with a loop over a gateway that has nothing yet.
#[derive(Clone, Copy)]
enum Trial {
    Answers,
    Cuts,
    Places,
    FullAddress,
    Stops,
    TwoCaps,
    Token,
    HeadAlone,
    Silent,
}

/// Whether a trial holds. Here and below what owns a gateway or a lobby matches it and hands it on, and leaves at no other
/// place: all else is dear to prove.
fn is_tried<R: Net<Stream = TcpStream> + Clock + CpuClock + AllocGlobal + Log + Abort>(
    rt: &R,
    trial: Trial,
) -> Result<bool, Fail> {
    match lobby(rt.alloc()) {
        Ok(mut many) => is_tried_over(rt, &mut many, trial),
        Err(fault) => Err(fault),
    }
}

fn is_tried_over<R: Net<Stream = TcpStream> + Clock + CpuClock + AllocGlobal + Log + Abort>(
    rt: &R,
    many: &mut Lobby<MemStore>,
    trial: Trial,
) -> Result<bool, Fail> {
    match trial {
        Trial::Answers => are_answered(rt, many),
        Trial::Cuts => are_cut(rt, many),
        Trial::Places => are_placed(rt, many),
        Trial::FullAddress => is_refused(rt, many),
        Trial::Stops => is_stopped(rt, many),
        Trial::TwoCaps => have_two_caps(rt, many),
        Trial::Token => is_stopped_by_the_token(rt, many),
        Trial::HeadAlone => is_head_alone(rt, many),
        Trial::Silent => are_not_waited_for(rt, many),
    }
}

#[test]
fn connections_are_answered(rt: HostRuntime) -> Result<(), Fail> {
    assert!(rt; is_tried(&rt, Trial::Answers)?);
    Ok(())
}

/// Whether three clients are given what they are to be given, and are counted.
fn are_answered<R: Net<Stream = TcpStream> + Clock + CpuClock + AllocGlobal + Log + Abort>(
    rt: &R,
    many: &mut Lobby<MemStore>,
) -> Result<bool, Fail> {
    let limits = Limits::new(2, Duration::from_secs(20));
    let whole = Row {
        sent: GET,
        ends: true,
        given: FOO,
    };
    let closing = Row {
        sent: CLOSES,
        ends: false,
        given: CLOSED,
    };
    let nothing = Row {
        sent: b"",
        ends: true,
        given: b"",
    };
    let rows = [whole, closing, nothing];
    let counts = serves(rt, &limits, many, &rows)?;
    let are_over = counts.open == 0 && counts.opened == 3 && counts.over == 3;
    let is_in = counts.bytes_in == (GET.len() + CLOSES.len()) as u64;
    let is_out = counts.bytes_out == (FOO.len() + CLOSED.len()) as u64;
    Ok(are_over && is_in && is_out)
}

#[test]
fn connections_that_take_too_long_are_cut(rt: HostRuntime) -> Result<(), Fail> {
    assert!(rt; is_tried(&rt, Trial::Cuts)?);
    Ok(())
}

/// Whether three clients that stop are cut.
fn are_cut<R: Net<Stream = TcpStream> + Clock + CpuClock + AllocGlobal + Log + Abort>(
    rt: &R,
    many: &mut Lobby<MemStore>,
) -> Result<bool, Fail> {
    let mut limits = Limits::new(10, Duration::from_millis(300));
    limits.grace = Duration::from_millis(100);
    let silent = Row {
        sent: b"",
        ends: false,
        given: b"",
    };
    let slow_head = Row {
        sent: b"GET /uri/URI",
        ends: false,
        given: b"",
    };
    let idle = Row {
        sent: GET,
        ends: false,
        given: FOO,
    };
    let rows = [silent, slow_head, idle];
    let counts = serves(rt, &limits, many, &rows)?;
    Ok(counts.opened == 3 && counts.late == 3 && counts.over == 0)
}

#[test]
fn newcomers_have_places(rt: HostRuntime) -> Result<(), Fail> {
    assert!(rt; is_tried(&rt, Trial::Places)?);
    Ok(())
}

/// Whether one that sent nothing makes room for a newcomer.
fn are_placed<R: Net<Stream = TcpStream> + Clock + CpuClock + AllocGlobal + Log + Abort>(
    rt: &R,
    many: &mut Lobby<MemStore>,
) -> Result<bool, Fail> {
    let silent = Row {
        sent: b"",
        ends: false,
        given: b"",
    };
    let asking = Row {
        sent: GET,
        ends: true,
        given: FOO,
    };
    let full = Limits::new(1, Duration::from_secs(20));
    let counts = serves(rt, &full, many, &[silent, asking])?;
    Ok(counts.replaced == 1 && counts.over == 1)
}

#[test]
fn newcomers_of_a_full_address_are_refused(rt: HostRuntime) -> Result<(), Fail> {
    assert!(rt; is_tried(&rt, Trial::FullAddress)?);
    Ok(())
}

/// Whether one whose address has all its places is refused where nobody is idle, and nothing is lost.
fn is_refused<R: Net<Stream = TcpStream> + Clock + CpuClock + AllocGlobal + Log>(
    rt: &R,
    many: &mut Lobby<MemStore>,
) -> Result<bool, Fail> {
    let listener = listen(rt)?;
    let address = listener.local_addr()?;
    let sending = client(rt, address, b"GET /uri/URI", false)?;
    let refused = client(rt, address, GET, false)?;
    let mut limits = Limits::new(10, Duration::from_secs(20));
    limits.per_address = Some(1);
    limits.grace = Duration::from_millis(100);
    limits.served = Some(1);
    let counts = counts_on(rt, listener, &limits, many)?;
    drop((sending, refused));
    Ok(counts.opened == 1 && counts.late == 1 && counts.refused == 1 && counts.replaced == 0)
}

/// Stores a file of 4 MiB, and gives the request for it.
fn large_request(alloc: Global, gateway: &mut Gateway<MemStore>) -> Result<Vec<u8>, Fail> {
    gateway.open(1_000_000, None)?;
    gateway.bytes(
        1_000_000,
        b"PUT /uri HTTP/1.1\r\nHost: g\r\nContent-Length: 4194304\r\n\r\n",
    )?;
    let part = vec![in alloc; 7u8; 65_536]?;
    for _ in 0..64u32 {
        gateway.bytes(1_000_000, &part)?;
    }
    let reply = gateway.take(1_000_000, 100_000)?;
    let mut request = Vec::new(alloc);
    request.extend_from_slice(b"GET /uri/")?;
    let cap = reply.as_slice().split(|byte| *byte == b'\n').last();
    request.extend_from_slice(cap.unwrap_or(b""))?;
    request.extend_from_slice(b" HTTP/1.1\r\nHost: g\r\n\r\n")?;
    Ok(request)
}

/// A client that connected and sent these bytes eight times.
fn eager(
    rt: &impl Net<Stream = TcpStream>,
    address: SocketAddr,
    request: &[u8],
) -> Result<TcpStream, Fail> {
    let mut stream = client(rt, address, b"", false)?;
    for _ in 0..8u32 {
        stream.write_all(request)?;
    }
    Ok(stream)
}

#[test]
fn a_reader_that_takes_nothing_is_cut(rt: HostRuntime) -> Result<(), Fail> {
    assert!(rt; is_silent_one_cut(&rt)?);
    Ok(())
}

/// Whether a client is cut that asks a gateway with a file of 4 MiB for it, and takes nothing.
fn is_silent_one_cut<R: Net<Stream = TcpStream> + Clock + CpuClock + AllocGlobal + Log>(
    rt: &R,
) -> Result<bool, Fail> {
    match gateway(rt.alloc()) {
        Ok(many) => is_cut_once_it_is_put(rt, many),
        Err(fault) => Err(fault),
    }
}

/// The same, once the file is put.
fn is_cut_once_it_is_put<R: Net<Stream = TcpStream> + Clock + CpuClock + AllocGlobal + Log>(
    rt: &R,
    mut many: Gateway<MemStore>,
) -> Result<bool, Fail> {
    match large_request(rt.alloc(), &mut many) {
        Ok(request) => is_cut(rt, &mut Lobby::new(many), &request),
        Err(fault) => Err(fault),
    }
}

/// Whether a client is cut that asks for a large file eight times, and takes nothing.
fn is_cut<R: Net<Stream = TcpStream> + Clock + CpuClock + AllocGlobal + Log>(
    rt: &R,
    many: &mut Lobby<MemStore>,
    request: &[u8],
) -> Result<bool, Fail> {
    let listener = listen(rt)?;
    let stream = eager(rt, listener.local_addr()?, request)?;
    let mut limits = Limits::new(10, Duration::from_millis(300));
    limits.served = Some(1);
    let counts = counts_on(rt, listener, &limits, many)?;
    drop(stream);
    Ok(counts.late == 1 && counts.bytes_out > 0 && counts.bytes_out < 8 * 4_194_304)
}

#[test]
fn a_socket_whose_id_was_used_is_refused(rt: HostRuntime) -> Result<(), Fail> {
    assert!(rt; is_used_id_refused(&rt)?);
    Ok(())
}

/// Whether a socket is refused whose id was used before.
fn is_used_id_refused<R: Net<Stream = TcpStream> + Clock + CpuClock + AllocGlobal + Log>(
    rt: &R,
) -> Result<bool, Fail> {
    match with_used_id(rt.alloc()) {
        Ok(many) => is_first_refused(rt, &mut Lobby::new(many)),
        Err(fault) => Err(fault),
    }
}

/// A gateway of which the first id is used.
fn with_used_id(alloc: Global) -> Result<Gateway<MemStore>, Fail> {
    let mut many = match gateway(alloc) {
        Ok(many) => many,
        Err(fault) => return Err(fault),
    };
    match many.open(1, None) {
        Ok(()) => Ok(many),
        Err(fault) => Err(Fail::from(fault)),
    }
}

/// Whether the first of two clients is refused, and the second served.
fn is_first_refused<R: Net<Stream = TcpStream> + Clock + CpuClock + AllocGlobal + Log>(
    rt: &R,
    many: &mut Lobby<MemStore>,
) -> Result<bool, Fail> {
    let listener = listen(rt)?;
    let address = listener.local_addr()?;
    let refused = client(rt, address, b"", false)?;
    let mut served = client(rt, address, GET, true)?;
    let mut limits = Limits::new(10, Duration::from_secs(20));
    limits.served = Some(1);
    let counts = counts_on(rt, listener, &limits, many)?;
    drop(refused);
    let given = all_of(rt.alloc(), &mut served)?;
    Ok(counts.refused == 1 && counts.over == 1 && given.as_slice() == FOO)
}

/// Asks that serving stop, whatever is asked by those who bring the token.
#[derive(Drop)]
struct Stops {
    asked: u32,
    token: Option<&'static [u8]>,
}

impl Stops {
    /// One that was asked nothing, and wants no token.
    fn new() -> Stops {
        Stops {
            asked: 0,
            token: None,
        }
    }
}

impl Control<MemStore> for Stops {
    ghost wanted = { λ stops. option_map (λ token. token.now) stops.token };

    fn token(&self) -> Option<&[u8]> {
        self.token
    }

    fn answer(
        &mut self,
        alloc: Global,
        head: &Head,
        _counts: &Counts,
        _gateway: &Gateway<MemStore>,
    ) -> Result<Answer, AllocError> {
        self.asked = self.asked.saturating_add(1);
        Ok(Answer {
            reply: text_reply(alloc, Status::Ok, head.target.as_slice())?,
            stops: true,
        })
    }
}

/// A request that asks to stop, and what it is answered. It has no Host field, as HTTP/1.0 allows.
const STOP: &[u8] = b"POST /stop HTTP/1.0\r\n\r\n";

/// The same of the gateway, which has no such resource.
const STOP_OF_THE_GATEWAY: &[u8] = b"POST /stop HTTP/1.1\r\nHost: g\r\n\r\n";

const STOPPED: &[u8] =
    b"HTTP/1.1 200 OK\r\nContent-Type: text/plain; charset=utf-8\r\nContent-Length: 5\r\nConnection: close\r\n\r\n/stop";

#[test]
fn a_control_request_stops_the_loop(rt: HostRuntime) -> Result<(), Fail> {
    assert!(rt; is_tried(&rt, Trial::Stops)?);
    Ok(())
}

/// Whether a control request stops the loop, and is answered, where one on the gateway's port is refused, and a silent
/// client is let go.
fn is_stopped<R: Net<Stream = TcpStream> + Clock + CpuClock + AllocGlobal + Log>(
    rt: &R,
    many: &mut Lobby<MemStore>,
) -> Result<bool, Fail> {
    let listener = listen(rt)?;
    let address = listener.local_addr()?;
    let control = listen(rt)?;
    let mut caller = client(rt, control.local_addr()?, STOP, true)?;
    let mut asked = client(rt, address, STOP_OF_THE_GATEWAY, false)?;
    let silent = client(rt, address, b"", false)?;
    let is_counted = are_stopped(rt, listener, control, many)?;
    drop(silent);
    let answer = all_of(rt.alloc(), &mut caller)?;
    let refusal = all_of(rt.alloc(), &mut asked)?;
    Ok(is_counted && answer.as_slice() == STOPPED && refusal.starts_with(b"HTTP/1.1 4"))
}

/// Whether two connections are stopped after one control request.
fn are_stopped<R: Net<Stream = TcpStream> + Clock + CpuClock + AllocGlobal + Log>(
    rt: &R,
    listener: TcpListener,
    control: TcpListener,
    many: &mut Lobby<MemStore>,
) -> Result<bool, Fail> {
    let limits = Limits::new(10, Duration::from_secs(20));
    let mut answers = Stops::new();
    match serve_on(
        rt,
        only(rt, listener)?,
        Some(control),
        &limits,
        many,
        &mut answers,
    ) {
        Ok(counts) => Ok(answers.asked == 1 && counts.opened == 2 && counts.stopped == 2),
        Err(_) => Err(Fail::from("serving ended")),
    }
}

/// A file of 60 bytes, which is too long to stand in its cap.
const PUT: &[u8] =
    b"PUT /uri HTTP/1.1\r\nHost: g\r\nConnection: close\r\nContent-Length: 60\r\n\r\nsixty bytes, which two groups put, each under its own secret";

#[test]
fn equal_files_have_two_caps_at_two_listeners(rt: HostRuntime) -> Result<(), Fail> {
    assert!(rt; is_tried(&rt, Trial::TwoCaps)?);
    Ok(())
}

/// Whether the same upload is answered at a listener without a secret of its own and at one that has one, and otherwise.
fn have_two_caps<R: Net<Stream = TcpStream> + Clock + CpuClock + AllocGlobal + Log>(
    rt: &R,
    many: &mut Lobby<MemStore>,
) -> Result<bool, Fail> {
    let plain = listen(rt)?;
    let apart = listen(rt)?;
    let mut one = client(rt, plain.local_addr()?, PUT, false)?;
    let mut other = client(rt, apart.local_addr()?, PUT, false)?;
    served_all(rt, both(rt, plain, apart)?, 2, many)?;
    let one = all_of(rt.alloc(), &mut one)?;
    let other = all_of(rt.alloc(), &mut other)?;
    let are_stored = one.starts_with(b"HTTP/1.1 200") && other.starts_with(b"HTTP/1.1 200");
    Ok(are_stored && one.as_slice() != other.as_slice())
}

/// Two listeners, of which the second one has a secret of its own.
fn both(
    rt: &impl AllocGlobal,
    plain: TcpListener,
    apart: TcpListener,
) -> Result<Vec<Listener>, Fail> {
    let mut listeners = only(rt, plain)?;
    listeners.push(Listener {
        socket: apart,
        secret: Some(Bytes::from_slice(rt.alloc(), b"own")?),
    })?;
    Ok(listeners)
}

/// Serves so many connections.
fn served_all<R: Net<Stream = TcpStream> + Clock + CpuClock + AllocGlobal + Log>(
    rt: &R,
    listeners: Vec<Listener>,
    count: u64,
    many: &mut Lobby<MemStore>,
) -> Result<(), Fail> {
    let mut limits = Limits::new(10, Duration::from_secs(20));
    limits.served = Some(count);
    match serve_on(rt, listeners, None, &limits, many, &mut NoControl) {
        Ok(_) => Ok(()),
        Err(_) => Err(Fail::from("serving ended")),
    }
}

/// The same request with a part of the token, and with the token.
const STOP_BY_A_PART: &[u8] = b"POST /stop HTTP/1.0\r\nAuthorization: Bearer secre\r\n\r\n";

const STOP_BY_THE_TOKEN: &[u8] = b"POST /stop HTTP/1.0\r\nauthorization: bearer secret\r\n\r\n";

const WITHOUT_THE_TOKEN: &[u8] =
    b"HTTP/1.1 401 Unauthorized\r\nContent-Type: text/plain; charset=utf-8\r\nContent-Length: 51\r\nWWW-Authenticate: Bearer\r\nConnection: close\r\n\r\nrefused: Authorization: Bearer TOKEN is to be sent\n";

#[test]
fn only_the_token_stops_the_loop(rt: HostRuntime) -> Result<(), Fail> {
    assert!(rt; is_tried(&rt, Trial::Token)?);
    Ok(())
}

/// Whether the loop answers nothing but 401 to those who don't bring the token, and is stopped by one who does.
fn is_stopped_by_the_token<R: Net<Stream = TcpStream> + Clock + CpuClock + AllocGlobal + Log>(
    rt: &R,
    many: &mut Lobby<MemStore>,
) -> Result<bool, Fail> {
    let listener = listen(rt)?;
    let control = listen(rt)?;
    let address = control.local_addr()?;
    let mut stranger = client(rt, address, STOP, true)?;
    let mut guesser = client(rt, address, STOP_BY_A_PART, true)?;
    let mut operator = client(rt, address, STOP_BY_THE_TOKEN, true)?;
    let limits = Limits::new(10, Duration::from_secs(20));
    let mut answers = Stops::new();
    answers.token = Some(b"secret".as_slice());
    let Ok(_) = serve_on(
        rt,
        only(rt, listener)?,
        Some(control),
        &limits,
        many,
        &mut answers,
    ) else {
        return Err(Fail::from("serving ended"));
    };
    let to_stranger = all_of(rt.alloc(), &mut stranger)?;
    let to_guesser = all_of(rt.alloc(), &mut guesser)?;
    let to_operator = all_of(rt.alloc(), &mut operator)?;
    Ok(
        answers.asked == 1
            && to_stranger.as_slice() == WITHOUT_THE_TOKEN
            && to_guesser.as_slice() == WITHOUT_THE_TOKEN
            && to_operator.as_slice() == STOPPED,
    )
}

/// A request for a head alone, and what it is answered.
const HEAD: &[u8] = b"HEAD /stop HTTP/1.0\r\n\r\n";

const HEAD_ALONE: &[u8] =
    b"HTTP/1.1 200 OK\r\nContent-Type: text/plain; charset=utf-8\r\nContent-Length: 5\r\nConnection: close\r\n\r\n";

#[test]
fn a_control_request_for_a_head_gets_no_body(rt: HostRuntime) -> Result<(), Fail> {
    assert!(rt; is_tried(&rt, Trial::HeadAlone)?);
    Ok(())
}

/// Whether a control request for a head gets no body.
fn is_head_alone<R: Net<Stream = TcpStream> + Clock + CpuClock + AllocGlobal + Log + Abort>(
    rt: &R,
    many: &mut Lobby<MemStore>,
) -> Result<bool, Fail> {
    Ok(answer_past(rt, 0, HEAD, many)?.as_slice() == HEAD_ALONE)
}

#[test]
fn silent_control_connections_delay_nobody(rt: HostRuntime) -> Result<(), Fail> {
    assert!(rt; is_tried(&rt, Trial::Silent)?);
    Ok(())
}

/// Whether a control request is answered within five seconds behind a hundred connections that send nothing.
fn are_not_waited_for<R: Net<Stream = TcpStream> + Clock + CpuClock + AllocGlobal + Log + Abort>(
    rt: &R,
    many: &mut Lobby<MemStore>,
) -> Result<bool, Fail> {
    let began = Instant::now(rt)?;
    let answer = answer_past(rt, 100, STOP, many)?;
    let is_soon = Instant::now(rt)?.duration_since(began) < Duration::from_secs(5);
    Ok(is_soon && answer.as_slice() == STOPPED)
}

/// What a control request is answered behind so many connections that send nothing. It stops the loop, which waits for none
/// of them.
fn answer_past<R: Net<Stream = TcpStream> + Clock + CpuClock + AllocGlobal + Log>(
    rt: &R,
    count: u32,
    request: &[u8],
    many: &mut Lobby<MemStore>,
) -> Result<Vec<u8>, Fail> {
    let listener = listen(rt)?;
    let control = listen(rt)?;
    let address = control.local_addr()?;
    let mut silent = Vec::new(rt.alloc());
    for _ in 0..count {
        silent.push(client(rt, address, b"", false)?)?;
    }
    let mut caller = client(rt, address, request, true)?;
    let limits = Limits::new(10, Duration::from_secs(20));
    let mut answers = Stops::new();
    if serve_on(
        rt,
        only(rt, listener)?,
        Some(control),
        &limits,
        many,
        &mut answers,
    )
    .is_err()
    {
        return Err(Fail::from("serving ended"));
    }
    drop(silent);
    all_of(rt.alloc(), &mut caller)
}

/// So many milliseconds after another time.
fn after(begin: Instant, millis: u64) -> Result<Instant, Fail> {
    match begin.checked_add(Duration::from_millis(millis)) {
        Some(time) => Ok(time),
        None => Err(Fail::from("no time")),
    }
}

#[test]
fn bytes_of_a_request_count_from_the_first_one(rt: HostRuntime) -> Result<(), Fail> {
    let begin = Instant::now(&rt)?;
    let limits = Limits::new(10, Duration::from_secs(60));
    let mut pace = Pace::new(begin);
    assert!(rt; !pace.is_late(after(begin, 60_000)?, &limits));
    assert!(rt; pace.is_late(after(begin, 60_001)?, &limits));
    pace.moves(after(begin, 59_000)?, 1, &limits);
    assert!(rt; !pace.is_late(after(begin, 69_000)?, &limits));
    assert!(rt; pace.is_late(after(begin, 69_001)?, &limits));
    pace.moves(after(begin, 60_000)?, 2047, &limits);
    assert!(rt; !pace.is_late(after(begin, 71_000)?, &limits));
    assert!(rt; pace.is_late(after(begin, 71_001)?, &limits));
    Ok(())
}

#[test]
fn bytes_of_a_request_that_came_fast_allow_for_no_slow_ones(rt: HostRuntime) -> Result<(), Fail> {
    let begin = Instant::now(&rt)?;
    let limits = Limits::new(10, Duration::from_secs(60));
    let mut pace = Pace::new(begin);
    pace.moves(begin, 16_000_000, &limits);
    pace.moves(after(begin, 59_000)?, 1, &limits);
    assert!(rt; !pace.is_late(after(begin, 118_000)?, &limits));
    // A minute after the first byte the count begins anew: a byte now and then isn't enough.
    pace.moves(after(begin, 118_000)?, 1, &limits);
    pace.moves(after(begin, 177_000)?, 1, &limits);
    assert!(rt; !pace.is_late(after(begin, 178_000)?, &limits));
    assert!(rt; pace.is_late(after(begin, 178_001)?, &limits));
    // Bytes at the rate that is asked for are.
    pace.moves(after(begin, 178_000)?, 65_536, &limits);
    assert!(rt; !pace.is_late(after(begin, 178_001)?, &limits));
    Ok(())
}

#[test]
fn bytes_of_a_reply_count_once_a_write_blocked(rt: HostRuntime) -> Result<(), Fail> {
    let begin = Instant::now(&rt)?;
    let limits = Limits::new(10, Duration::from_secs(60));
    let mut pace = Pace::new(begin);
    pace.turns(begin, Way::Takes);
    pace.moves(begin, 10_000_000, &limits);
    pace.blocks(after(begin, 1000)?, &limits);
    pace.moves(after(begin, 31_000)?, 2048, &limits);
    pace.blocks(after(begin, 31_000)?, &limits);
    assert!(rt; !pace.is_late(after(begin, 63_000)?, &limits));
    assert!(rt; pace.is_late(after(begin, 63_001)?, &limits));
    // After a minute the count begins anew.
    pace.moves(after(begin, 61_000)?, 1_000_000, &limits);
    pace.blocks(after(begin, 61_000)?, &limits);
    pace.moves(after(begin, 101_000)?, 1024, &limits);
    assert!(rt; !pace.is_late(after(begin, 122_000)?, &limits));
    assert!(rt; pace.is_late(after(begin, 122_001)?, &limits));
    Ok(())
}
