//! Stores on servers of the tests' own, and the texts that say whose a server is.
use crate::shelves::store_calls::call;
use crate::shelves::texts::add;
use crate::lines::{Case, NoAnswer, debug, done, fixed};
use folder_shelf::StoreSettings;
use octets::Bytes;
use redis_store::{RedisStore, Server, check_grid, grid_text, read_grid};
use std::alloc::{AllocError, Global};

/// A server in memory that one store leaves to the next.
mod kept;
/// A server that answers what it was told to.
mod played;

pub use played::Played;

/// What a store has to know of a server that is at the second place of two, of 2 of 3 shares. No bytes are no password.
fn server(alloc: Global, password: Vec<u8>) -> Result<Server, AllocError> {
    let password = match password.is_empty() {
        true => None,
        false => Some(Bytes::from_vec(password)),
    };
    Ok(Server {
        grid: Bytes::from_slice(alloc, b"g:")?,
        settings: StoreSettings::new(1, 2, 2, 3, b"secret"),
        password,
        longest: 6,
    })
}

/// The settings that stand from a place on: the server's place, three numbers of the grid, and the secret.
fn settings_at(alloc: Global, case: &Case<'_>, at: usize) -> Result<StoreSettings, NoAnswer> {
    let place = case.small(at)?;
    let servers = case.small(at.saturating_add(1))?;
    let needed = case.small(at.saturating_add(2))?;
    let made = case.small(at.saturating_add(3))?;
    let secret = case.bytes(alloc, at.saturating_add(4))?;
    Ok(StoreSettings::new(place, servers, needed, made, &secret))
}

/// A store on a server of a case: how many bytes it gives at once and the password stand at places 2 and 3, and its
/// replies from there on.
fn made(alloc: Global, case: &Case<'_>) -> Result<RedisStore<Played>, NoAnswer> {
    let server = server(alloc, case.bytes(alloc, 3)?)?;
    let link = Played::new(alloc, case.number(2)?, case, 4)?;
    Ok(RedisStore::new(alloc, link, server)?)
}

/// The answer to a case of a store on a server, or of a text.
pub fn answer(
    alloc: Global,
    held: &mut Option<RedisStore<Played>>,
    case: &Case<'_>,
) -> Result<String, NoAnswer> {
    match case.word(1)? {
        "new" => {
            *held = Some(made(alloc, case)?);
            fixed(alloc, "ok")
        }
        "told" => told(alloc, held.take()),
        "text" => text(alloc, case),
        "reads-text" => reads_text(alloc, case),
        "strange" => strange(alloc, case),
        "left-to-another" => kept::left_to_another(alloc),
        "of-another" => kept::of_another(alloc),
        "whichever-fails" => {
            kept::whichever_fails(alloc, case.number(2)?, case.word(3)? == "done")
        }
        _ => match held {
            Some(store) => asked(alloc, store, case),
            None => Err(NoAnswer::Question),
        },
    }
}

/// The text of settings in hexadecimal digits.
fn text(alloc: Global, case: &Case<'_>) -> Result<String, NoAnswer> {
    let settings = settings_at(alloc, case, 2)?;
    let text = grid_text(alloc, &settings)?;
    Ok(hex::encode(alloc, text.as_slice())?)
}

/// Whether settings are read of a text.
fn reads_text(alloc: Global, case: &Case<'_>) -> Result<String, NoAnswer> {
    let text = case.bytes(alloc, 2)?;
    let settings = settings_at(alloc, case, 3)?;
    let read = read_grid(alloc, &text)?;
    debug(alloc, &(read == Some(settings)))
}

/// Why a text is none of settings, `ok` where it is.
fn strange(alloc: Global, case: &Case<'_>) -> Result<String, NoAnswer> {
    let text = case.bytes(alloc, 2)?;
    let settings = settings_at(alloc, case, 3)?;
    done(alloc, check_grid(alloc, &text, &settings))
}

/// The answers of the store: to calls of any store, to `reach`, and to `fault`, in which it failed last.
fn asked(
    alloc: Global,
    store: &mut RedisStore<Played>,
    case: &Case<'_>,
) -> Result<String, NoAnswer> {
    let mut answers = String::new(alloc);
    for at in 1..case.len() {
        if case.word(at)? == "fault" {
            add(&mut answers, &debug(alloc, &store.last_fault())?)?;
        } else if case.word(at)? == "reach" {
            add(&mut answers, &done(alloc, store.reach())?)?;
        } else if let Some(answer) = call(alloc, store, case, at)? {
            add(&mut answers, &answer)?;
        }
    }
    Ok(answers)
}

/// What the server was told, whose store is taken from the bench.
fn told(alloc: Global, held: Option<RedisStore<Played>>) -> Result<String, NoAnswer> {
    match held {
        Some(store) => store.into_link().into_told(alloc),
        None => Err(NoAnswer::Question),
    }
}
