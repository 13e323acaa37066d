//! Stores over one server in memory, one after the other: the server goes from one to the next with what it keeps.
use crate::shelves::in_memory::INDEX;
use crate::lines::{NoAnswer, fixed};
use folder_shelf::StoreSettings;
use octets::Bytes;
use redis_store::{Link, LinkFault, RedisStore, Server, ServerFault};
use resp::{Element, Item, Limits, Reply, read_reply};
use share_store::{Store, StoreFault};
use std::alloc::{AllocError, Global};
use std::rc::RcSlice;

/// How many bytes a share has, at most.
const LONGEST: u32 = 32768;

/// How large a command may be.
const COMMANDS: Limits = Limits {
    line: 64,
    bulk: LONGEST,
    elements: 8,
};

/// How many bytes the server gives at once.
const AT_ONCE: usize = 7;

/// A name, and what stands under it.
#[derive(Drop)]
struct Kept {
    name: Bytes,
    content: Bytes,
}

/// A server that keeps what stands under names. A call of its link fails, the first or a later one: commands that
/// can't be written are done all the same where it is told so.
#[derive(Drop)]
struct KeepingServer {
    alloc: Global,
    kept: Vec<Kept>,
    waiting: Vec<u8>,
    given: usize,
    left: u64,
    is_done: bool,
    clock: u64,
}

/// The words of the command that stands at the front, and how long it is.
fn words_of(alloc: Global, bytes: &[u8]) -> Result<(Vec<Bytes>, usize), AllocError> {
    match read_reply(alloc, COMMANDS, bytes) {
        Ok(Some((reply, len))) => Ok((words_in(alloc, &reply)?, len)),
        Ok(None) => Ok((Vec::new(alloc), bytes.len())),
        Err(_fault) => Ok((Vec::new(alloc), bytes.len())),
    }
}

/// The bulk strings with which an array begins.
fn words_in(alloc: Global, reply: &Reply) -> Result<Vec<Bytes>, AllocError> {
    let mut words = Vec::new(alloc);
    let Reply::Several(elements) = reply else {
        return Ok(words);
    };
    for element in elements.as_slice() {
        let Element::One(Item::Bulk(word)) = element else {
            return Ok(words);
        };
        words.push(Bytes::from_slice(alloc, word.as_slice())?)?;
    }
    Ok(words)
}

impl KeepingServer {
    /// With nothing in it. The call of this number fails, from 1, and none for 0.
    fn new(alloc: Global, left: u64, is_done: bool) -> KeepingServer {
        KeepingServer {
            alloc,
            kept: Vec::new(alloc),
            waiting: Vec::new(alloc),
            given: 0,
            left,
            is_done,
            clock: 0,
        }
    }

    /// Counts a call, and says whether it fails.
    fn fails(&mut self) -> bool {
        if self.left == 0 {
            return false;
        }
        self.left -= 1;
        self.left == 0
    }

    /// What stands under a name.
    fn found(&self, name: &[u8]) -> Option<&Bytes> {
        for one in &self.kept {
            if one.name.as_slice() == name {
                return Some(&one.content);
            }
        }
        None
    }

    /// Says one or none.
    fn say(&mut self, one: bool) -> Result<(), AllocError> {
        self.waiting
            .extend_from_slice(if one { b":1\r\n" } else { b":0\r\n" })
    }

    /// Says what stands under a name.
    fn give(&mut self, name: &[u8]) -> Result<(), AllocError> {
        let mut answer = Vec::new(self.alloc);
        match self.found(name) {
            None => answer.extend_from_slice(b"$-1\r\n")?,
            Some(content) => {
                let len = content.len();
                let line = format!(in self.alloc; "${len}\r\n")?;
                answer.extend_from_slice(line.as_bytes())?;
                answer.extend_from_slice(content.as_slice())?;
                answer.extend_from_slice(b"\r\n")?;
            }
        }
        self.waiting.extend_from_slice(&answer)
    }

    /// Puts what is to stand under a name where nothing does, and says whether it did.
    fn put(&mut self, name: &[u8], content: &[u8]) -> Result<(), AllocError> {
        let stood = self.found(name).is_some();
        if !stood {
            let name = Bytes::from_slice(self.alloc, name)?;
            let content = Bytes::from_slice(self.alloc, content)?;
            self.kept.push(Kept { name, content })?;
        }
        self.say(!stood)
    }

    /// Puts what is to stand under a name, whatever does.
    fn replace(&mut self, name: &[u8], content: &[u8]) -> Result<(), AllocError> {
        self.kept.retain(|one| one.name.as_slice() != name);
        let name = Bytes::from_slice(self.alloc, name)?;
        let content = Bytes::from_slice(self.alloc, content)?;
        self.kept.push(Kept { name, content })?;
        self.waiting.extend_from_slice(b"+OK\r\n")
    }

    /// Does what a command says, and puts the answer behind those before it.
    fn obey(&mut self, words: &[Bytes]) -> Result<(), AllocError> {
        match words {
            [verb, name, content] if verb.as_slice() == b"SETNX".as_slice() => {
                self.put(name.as_slice(), content.as_slice())
            }
            [verb, name, content] if verb.as_slice() == b"SET".as_slice() => {
                self.replace(name.as_slice(), content.as_slice())
            }
            [verb, name] if verb.as_slice() == b"EXISTS".as_slice() => {
                let stands = self.found(name.as_slice()).is_some();
                self.say(stands)
            }
            [verb, name] if verb.as_slice() == b"DEL".as_slice() => {
                let before = self.kept.len();
                self.kept
                    .retain(|one| one.name.as_slice() != name.as_slice());
                let gone = self.kept.len() < before;
                self.say(gone)
            }
            [verb, name] if verb.as_slice() == b"GET".as_slice() => self.give(name.as_slice()),
            _ => self.waiting.extend_from_slice(b"-ERR\r\n"),
        }
    }

    /// Does what commands say, one after the other.
    fn obey_each(&mut self, parts: &[&[u8]]) -> Result<(), AllocError> {
        self.waiting.clear();
        self.given = 0;
        let mut all = Vec::new(self.alloc);
        for part in parts {
            all.extend_from_slice(part)?;
        }
        let mut at = 0;
        for _ in 0..1000u32 {
            let Some(rest) = all.get(at..) else {
                return Ok(());
            };
            if rest.is_empty() {
                return Ok(());
            }
            let (words, len) = words_of(self.alloc, rest)?;
            at = at.saturating_add(len);
            self.obey(&words)?;
        }
        Ok(())
    }
}

impl Link for KeepingServer {
    fn connect(&mut self) -> Result<(), LinkFault> {
        self.waiting.clear();
        self.given = 0;
        if self.fails() {
            return Err(LinkFault::Ended);
        }
        Ok(())
    }

    fn write_all(&mut self, parts: &[&[u8]]) -> Result<(), LinkFault> {
        let fails = self.fails();
        if fails && !self.is_done {
            return Err(LinkFault::Ended);
        }
        let obeyed = self.obey_each(parts);
        if fails || obeyed.is_err() {
            return Err(LinkFault::Ended);
        }
        Ok(())
    }

    fn read(&mut self, room: &mut [u8]) -> Result<usize, LinkFault> {
        if self.fails() {
            return Err(LinkFault::Ended);
        }
        let Some(rest) = self.waiting.get(self.given..) else {
            return Ok(0);
        };
        let count = AT_ONCE.min(room.len()).min(rest.len());
        room[..count].copy_from_slice(&rest[..count]);
        self.given = self.given.saturating_add(count);
        Ok(count)
    }

    fn give_time(&mut self) {}

    fn close(&mut self) {}

    /// An hour has gone by each time.
    fn seconds(&mut self) -> u64 {
        self.clock = self.clock.saturating_add(3600);
        self.clock
    }
}

/// A store of these settings over a server.
fn store_over(
    alloc: Global,
    server: KeepingServer,
    settings: StoreSettings,
) -> Result<RedisStore<KeepingServer>, AllocError> {
    let known = Server {
        grid: Bytes::from_slice(alloc, b"wozhinnam:g:")?,
        settings,
        password: None,
        longest: LONGEST,
    };
    RedisStore::new(alloc, server, known)
}

/// The settings of the grid of most stores.
fn of_grid() -> StoreSettings {
    StoreSettings::new(3, 5, 3, 10, b"secret")
}

/// Puts a share of these bytes.
fn put(
    alloc: Global,
    store: &mut RedisStore<KeepingServer>,
    number: u16,
    bytes: &[u8],
) -> Result<Result<bool, StoreFault>, AllocError> {
    let share = RcSlice::from_vec(Vec::from_slice(alloc, bytes)?).map_err(|_| AllocError)?;
    if share.as_slice().is_empty() {
        return Err(AllocError);
    }
    Ok(store.put(INDEX, number, share))
}

/// Whether a store gives these bytes.
fn gives(
    store: &mut RedisStore<KeepingServer>,
    number: u16,
    bytes: &[u8],
) -> Result<bool, AllocError> {
    match store.get(INDEX, number)? {
        Some(share) => Ok(share.as_slice() == bytes),
        None => Ok(false),
    }
}

/// What one store put the next one finds: its numbers, both shares, one of them long, that they are kept, that other bytes
/// are put in the stead of one, and that one is lost once.
pub(super) fn left_to_another(alloc: Global) -> Result<String, NoAnswer> {
    let long = vec![in alloc; 7; 20000]?;
    let mut one = store_over(alloc, KeepingServer::new(alloc, 0, false), of_grid())?;
    let seven = put(alloc, &mut one, 7, b"seven")?;
    let two = put(alloc, &mut one, 2, &long)?;
    let ten = put(alloc, &mut one, 10, b"ten")?;
    let mut other = store_over(alloc, one.into_link(), of_grid())?;
    let numbers = other.numbers(INDEX)?;
    let again = (put(alloc, &mut other, 7, b"seven")?, put(alloc, &mut other, 2, &long)?);
    let kept = gives(&mut other, 7, b"seven")? && gives(&mut other, 2, &long)?;
    let another = put(alloc, &mut other, 7, b"another")?;
    let replaced = gives(&mut other, 7, b"another")?;
    let lost = (other.lose(INDEX, 2), other.lose(INDEX, 2));
    let numbers = numbers.as_slice();
    Ok(format!(in alloc; "{seven:?} {two:?} {ten:?} {numbers:?} {again:?} {kept} {another:?} {replaced} {lost:?}")?)
}

/// What stores of other settings are told over the server that another one left, and that none is used: of another
/// place, with another number of shares, under another secret, and then of the first settings again.
pub(super) fn of_another(alloc: Global) -> Result<String, NoAnswer> {
    let mut one = store_over(alloc, KeepingServer::new(alloc, 0, false), of_grid())?;
    let first = put(alloc, &mut one, 0, b"zero")?;
    let mut server = one.into_link();
    let mut answers = format!(in alloc; "{first:?}")?;
    let strangers = [
        StoreSettings::new(4, 5, 3, 10, b"secret"),
        StoreSettings::new(3, 5, 3, 9, b"secret"),
        StoreSettings::new(3, 5, 3, 10, b"Secret"),
        of_grid(),
    ];
    for settings in strangers {
        let mut store = store_over(alloc, server, settings)?;
        let reached: Result<(), ServerFault> = store.reach();
        let put = put(alloc, &mut store, 1, b"one")?;
        let found = gives(&mut store, 0, b"zero")?;
        let answer = format!(in alloc; "; {reached:?} {put:?} {found}")?;
        answers.push_str(&answer)?;
        server = store.into_link();
    }
    Ok(answers)
}

/// Whether what stands after some puts, of which a call of the link fails, is what was put, or for one that was refused
/// that or nothing, and whether each is put when it is tried again.
fn holds(alloc: Global, at: u64, is_done: bool) -> Result<bool, AllocError> {
    let shares: [&[u8]; 3] = [b"zero", b"one", b"two"];
    let mut one = store_over(alloc, KeepingServer::new(alloc, at, is_done), of_grid())?;
    let mut answered = [false; 3];
    for number in 0..3u16 {
        answered[number as usize] = put(alloc, &mut one, number, shares[number as usize])?.is_ok();
    }
    let mut server = one.into_link();
    server.left = 0;
    let mut other = store_over(alloc, server, of_grid())?;
    for number in 0..3u16 {
        let bytes = shares[number as usize];
        let found = gives(&mut other, number, bytes)?;
        let stands = other.has(INDEX, number)?;
        if stands != found || (answered[number as usize] && !found) {
            return Ok(false);
        }
        if put(alloc, &mut other, number, bytes)? != Ok(!found) {
            return Ok(false);
        }
    }
    Ok(true)
}

/// `ok` where [`holds`] is true whichever of the first so many calls of the link fails, or the first call for which it
/// isn't.
pub(super) fn whichever_fails(
    alloc: Global,
    calls: u64,
    is_done: bool,
) -> Result<String, NoAnswer> {
    for at in 0..calls {
        if !holds(alloc, at, is_done)? {
            return Ok(format!(in alloc; "not at {at}")?);
        }
    }
    fixed(alloc, "ok")
}
