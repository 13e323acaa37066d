//! Connections that are forgotten.

use super::rows::{holds, with_room};
use gate_core::{Gateway, GatewayFault};
use share_store::MemStore;
use std::test::Fail;

/// A request for a file of three bytes, which stand in its cap, and its reply.
const GET_FOO: &[u8] = b"GET /uri/URI:LIT:mzxw6 HTTP/1.1\r\nHost: g\r\n\r\n";

const FOO: &[u8] =
    b"HTTP/1.1 200 OK\r\nContent-Type: application/octet-stream\r\nContent-Length: 3\r\n\r\nfoo";

/// How many connections come and go.
const MANY: u64 = 2_000;

#[test]
fn connections_are_forgotten(rt: HostRuntime) -> Result<(), Fail> {
    let mut gateway = with_room(rt.alloc(), 0)?;
    many_are_served(&mut gateway)?;
    many_are_forgotten(&mut gateway)?;
    some_go_on(&mut gateway)?;
    the_greatest_is_forgotten(&mut gateway)
}

/// Many connections are opened and ask, and then each is told and ends.
fn many_are_served(gateway: &mut Gateway<MemStore>) -> Result<(), Fail> {
    for id in 0..MANY {
        begin(gateway, id)?;
    }
    for id in 0..MANY {
        is_told(gateway, id)?;
        gateway.end(id)?;
    }
    Ok(())
}

/// They are forgotten in another order. Then all are gone, and the next id is not.
fn many_are_forgotten(gateway: &mut Gateway<MemStore>) -> Result<(), Fail> {
    for id in 0..MANY {
        gateway.forget(id * 77 % MANY)?;
    }
    for id in 0..MANY {
        is_gone(gateway, id)?;
    }
    begin(gateway, MANY)?;
    is_told(gateway, MANY)
}

/// What goes on isn't forgotten, nor what was never opened, and what was refused changes nothing; what ended is forgotten
/// with what waits for it, also twice, and changes nothing of another.
fn some_go_on(gateway: &mut Gateway<MemStore>) -> Result<(), Fail> {
    for id in 3_001..3_004 {
        begin(gateway, id)?;
    }
    gateway.end(3_001)?;
    gateway.end(3_002)?;
    let is_open = matches!(gateway.forget(3_003), Err(GatewayFault::StillOpen));
    let is_unknown = matches!(gateway.forget(3_004), Err(GatewayFault::NotOpen));
    holds(is_open && is_unknown, "forgotten")?;
    is_told(gateway, 3_001)?;
    gateway.forget(3_002)?;
    is_gone(gateway, 3_002)?;
    gateway.forget(3_002)?;
    is_gone(gateway, 3_002)?;
    is_told(gateway, 3_003)
}

fn the_greatest_is_forgotten(gateway: &mut Gateway<MemStore>) -> Result<(), Fail> {
    gateway.open(u64::MAX, None)?;
    gateway.end(u64::MAX)?;
    gateway.forget(u64::MAX)?;
    is_gone(gateway, u64::MAX)
}

/// A connection is opened, to which nothing waits, and asks.
fn begin(gateway: &mut Gateway<MemStore>, id: u64) -> Result<(), Fail> {
    gateway.open(id, None)?;
    let is_new = !gateway.waiting(id) && !gateway.closed(id);
    holds(is_new, "not new")?;
    Ok(gateway.bytes(id, GET_FOO)?)
}

/// The file waits for a connection, and is taken.
fn is_told(gateway: &mut Gateway<MemStore>, id: u64) -> Result<(), Fail> {
    holds(gateway.waiting(id), "nothing waits")?;
    let told = gateway.take(id, 1_000)?;
    holds(told.as_slice() == FOO, "another reply")
}

/// An id is used and ended, and nothing waits.
fn is_gone(gateway: &mut Gateway<MemStore>, id: u64) -> Result<(), Fail> {
    let is_ended = matches!(gateway.bytes(id, GET_FOO), Err(GatewayFault::NotOpen))
        && matches!(gateway.end(id), Err(GatewayFault::NotOpen));
    let is_known = matches!(gateway.open(id, None), Err(GatewayFault::Known));
    let is_quiet = !gateway.waiting(id) && gateway.closed(id);
    holds(is_ended && is_known && is_quiet, "not gone")?;
    let told = gateway.take(id, 1_000)?;
    holds(told.is_empty(), "something waits")
}
