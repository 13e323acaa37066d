//! A desk, over bytes as a server sends them (RESP2).
use ask_desk::{Desk, DeskFault};
use octets::Bytes;
use resp::{Item, Reply};
use std::alloc::Global;
use std::test::Fail;

/// What a server says to `GET`, `EXISTS`, `GET` of nothing, and a command that it doesn't know.
const REPLIES: &[u8] = b"$5\r\nab\r\nc\r\n:1\r\n$-1\r\n-ERR unknown command\r\n$0\r\n\r\n";

/// Asks, and gives the ticket.
fn ask(alloc: Global, desk: &mut Desk, owner: u64, command: &[u8], most: u32) -> Result<u64, Fail> {
    Ok(desk.ask(owner, Bytes::from_slice(alloc, command)?, most)?)
}

/// Writes all that is to be written, so many bytes at a time, and gives what was written.
fn write_all(alloc: Global, desk: &mut Desk, most: usize) -> Result<Vec<u8>, Fail> {
    let mut written = Vec::new(alloc);
    for _ in 0..10_000 {
        let next = desk.unwritten();
        let count = next.len().min(most);
        written.extend_from_slice(&next[..count])?;
        if count == 0 {
            break;
        }
        desk.wrote(count).or(Err("refused"))?;
    }
    Ok(written)
}

/// Hears all of these bytes, and gives the owners whose replies came.
fn hear_all(
    alloc: Global,
    desk: &mut Desk,
    bytes: &[u8],
) -> Result<Result<Vec<u64>, DeskFault>, Fail> {
    let mut owners = Vec::new(alloc);
    let mut rest = bytes;
    while !rest.is_empty() {
        let heard = match desk.hear(rest) {
            Ok(heard) => heard,
            Err(fault) => return Ok(Err(fault)),
        };
        rest = &rest[heard.count..];
        if let Some(owner) = heard.owner {
            owners.push(owner)?;
        }
    }
    Ok(Ok(owners))
}

/// The bytes of the bulk string that came, or what stands for another reply.
fn bulk_of(desk: &Desk, owner: u64, ticket: u64) -> &[u8] {
    match desk.reply(owner, ticket) {
        Some(Reply::One(Item::Bulk(bytes))) => bytes.as_slice(),
        Some(Reply::One(Item::Null)) => b"(null)",
        Some(Reply::One(Item::Integer(_))) => b"(integer)",
        Some(Reply::One(Item::Error(_))) => b"(error)",
        Some(_) => b"(another)",
        None => b"(none)",
    }
}

#[test]
fn replies_are_cut_wherever_they_break(rt: HostRuntime) -> Result<(), Fail> {
    let alloc = rt.alloc();
    for cut in 0..REPLIES.len() {
        let mut desk = Desk::new(alloc);
        for owner in 0..5 {
            let _ticket = ask(alloc, &mut desk, owner, b"command", 5)?;
        }
        let written = write_all(alloc, &mut desk, 3)?;
        assert_eq!(rt;
            written.as_slice(),
            b"commandcommandcommandcommandcommand".as_slice()
        );
        let first = hear_all(alloc, &mut desk, &REPLIES[..cut])?.or(Err("a fault"))?;
        let second = hear_all(alloc, &mut desk, &REPLIES[cut..])?.or(Err("a fault"))?;
        assert_eq!(rt; first.len() + second.len(), 5);
        let wanted: [&[u8]; 5] = [b"ab\r\nc", b"(integer)", b"(null)", b"(error)", b""];
        for owner in 0..5 {
            assert_eq!(rt; bulk_of(&desk, owner, owner), wanted[owner as usize]);
            assert_eq!(rt;
                bulk_of(&desk, owner, owner),
                wanted[owner as usize],
                "it stays"
            );
            assert!(rt; desk.reply(owner + 1, owner).is_none());
        }
    }
    Ok(())
}

#[test]
fn what_is_forsaken_is_neither_told_nor_kept(rt: HostRuntime) -> Result<(), Fail> {
    let alloc = rt.alloc();
    let mut desk = Desk::new(alloc);
    let first = ask(alloc, &mut desk, 1, b"one.", 9)?;
    let second = ask(alloc, &mut desk, 2, b"two.", 9)?;
    let third = ask(alloc, &mut desk, 1, b"more", 9)?;
    desk.wrote(1).or(Err("refused"))?;
    desk.forsake(1);
    // one byte of it was written, so the others are too
    assert_eq!(rt;
        write_all(alloc, &mut desk, 100)?.as_slice(),
        b"ne.two.".as_slice()
    );
    let owners = hear_all(alloc, &mut desk, b"$3\r\nabc\r\n$3\r\ndef\r\n")?.or(Err("a fault"))?;
    assert_eq!(rt; owners.as_slice(), [2].as_slice());
    assert_eq!(rt; bulk_of(&desk, 1, first), b"(none)".as_slice());
    assert_eq!(rt; bulk_of(&desk, 1, third), b"(none)".as_slice());
    assert_eq!(rt; bulk_of(&desk, 2, second), b"def".as_slice());
    desk.forsake(2);
    assert_eq!(rt; bulk_of(&desk, 2, second), b"(none)".as_slice());
    Ok(())
}

#[test]
fn a_reply_that_is_forsaken_while_it_comes_is_skipped(rt: HostRuntime) -> Result<(), Fail> {
    let alloc = rt.alloc();
    let mut desk = Desk::new(alloc);
    let _first = ask(alloc, &mut desk, 1, b"one.", 9)?;
    let second = ask(alloc, &mut desk, 2, b"two.", 9)?;
    let _written = write_all(alloc, &mut desk, 100)?;
    let _none = hear_all(alloc, &mut desk, b"$5\r\nab")?.or(Err("a fault"))?;
    desk.forsake(1);
    let owners = hear_all(alloc, &mut desk, b"cde\r\n:1\r\n")?.or(Err("a fault"))?;
    assert_eq!(rt; owners.as_slice(), [2].as_slice());
    assert_eq!(rt; bulk_of(&desk, 2, second), b"(integer)".as_slice());
    Ok(())
}

#[test]
fn what_is_no_reply_ends_the_connection(rt: HostRuntime) -> Result<(), Fail> {
    let alloc = rt.alloc();
    let wanted: [(&[u8], DeskFault); 6] = [
        (b"$4\r\n", DeskFault::TooLong),
        (b"$3\r\nabcd", DeskFault::NoReply),
        (b"$3\r\nabc\rx", DeskFault::NoReply),
        (b"ok\r\n", DeskFault::NoReply),
        (b"*1\r\n:1\r\n", DeskFault::NoReply),
        (b":1\r\n:", DeskFault::Unasked),
    ];
    for (bytes, fault) in wanted {
        let mut desk = Desk::new(alloc);
        let ticket = ask(alloc, &mut desk, 1, b"one", 3)?;
        let _written = write_all(alloc, &mut desk, 100)?;
        assert_eq!(rt; hear_all(alloc, &mut desk, bytes)?.err(), Some(fault));
        assert!(rt; desk.is_over());
        assert_eq!(rt;
            desk.reply(1, ticket).is_some(),
            fault == DeskFault::Unasked
        );
    }
    let mut desk = Desk::new(alloc);
    let _ticket = ask(alloc, &mut desk, 1, b"one", 3)?;
    desk.wrote(2).or(Err("refused"))?;
    assert_eq!(rt;
        hear_all(alloc, &mut desk, b"+OK\r\n")?.err(),
        Some(DeskFault::Unasked)
    );
    Ok(())
}

#[test]
fn what_was_told_is_told_again(rt: HostRuntime) -> Result<(), Fail> {
    let alloc = rt.alloc();
    let mut desk = Desk::new(alloc);
    let first = ask(alloc, &mut desk, 1, b"one.", 9)?;
    let second = ask(alloc, &mut desk, 2, b"two.", 9)?;
    let third = ask(alloc, &mut desk, 3, b"more", 9)?;
    desk.wrote(4).or(Err("refused"))?;
    desk.wrote(2).or(Err("refused"))?;
    let _none = hear_all(alloc, &mut desk, b"$1\r\na\r\n")?.or(Err("a fault"))?;
    for asked in desk.end() {
        let _done = desk.again(asked)?;
    }
    assert_eq!(rt;
        write_all(alloc, &mut desk, 100)?.as_slice(),
        b"moretwo.".as_slice()
    );
    let owners = hear_all(alloc, &mut desk, b"$1\r\nb\r\n$1\r\nc\r\n")?.or(Err("a fault"))?;
    assert_eq!(rt; owners.as_slice(), [3, 2].as_slice());
    assert_eq!(rt; bulk_of(&desk, 1, first), b"a".as_slice());
    assert_eq!(rt; bulk_of(&desk, 2, second), b"c".as_slice());
    assert_eq!(rt; bulk_of(&desk, 3, third), b"b".as_slice());
    Ok(())
}

#[test]
fn a_long_reply_comes_in_many_pieces(rt: HostRuntime) -> Result<(), Fail> {
    let alloc = rt.alloc();
    let mut desk = Desk::new(alloc);
    let ticket = ask(alloc, &mut desk, 1, b"one", 4_000_000)?;
    let _written = write_all(alloc, &mut desk, 100)?;
    let _none = hear_all(alloc, &mut desk, b"$4000000\r\n")?.or(Err("a fault"))?;
    let piece = [7u8; 100];
    for _ in 0..40_000 {
        let _none = hear_all(alloc, &mut desk, &piece)?.or(Err("a fault"))?;
    }
    let owners = hear_all(alloc, &mut desk, b"\r\n")?.or(Err("a fault"))?;
    assert_eq!(rt; owners.as_slice(), [1].as_slice());
    assert_eq!(rt; bulk_of(&desk, 1, ticket).len(), 4_000_000);
    Ok(())
}
