//! What a store of objects is asked, and what its replies say.
use crate::formats::words::{joined, said, truth};
use crate::lines::{Case, NoAnswer, shown};
use octets::Bytes;
use s3_requests::{
    KnownCode, ObjectAsk, ObjectFault, ObjectReply, ObjectSite, answer_of, code_in, is_asked_again,
    is_bucket, is_prefix, keep_first, object_name, put_head, settings_name, settings_step,
};
use s3_sign::{Signer, UtcTime, is_visible};
use std::alloc::Global;

/// Answers questions whose first word is `object` and whose second is `bucket`, `prefix`, `name`, `head`, `reply`,
/// `settings` or `code`.
pub fn answer(alloc: Global, case: &Case<'_>) -> Result<String, NoAnswer> {
    match case.word(1)? {
        "bucket" => said(alloc, truth(is_bucket(&case.bytes(alloc, 2)?))),
        "prefix" => said(alloc, truth(is_prefix(&case.bytes(alloc, 2)?))),
        "name" => Ok(shown(alloc, &name_at(alloc, &site_at(alloc, case, 2)?, case, 5)?)?),
        "head" => head(alloc, case),
        "reply" => reply(alloc, case),
        "settings" => settings(alloc, case),
        "code" => code(alloc, case),
        _ => Err(NoAnswer::Question),
    }
}

/// The host, the bucket and the prefix at a place and behind it; the prefix is `none` where there is none.
fn site_at(alloc: Global, case: &Case<'_>, at: usize) -> Result<ObjectSite, NoAnswer> {
    let host = Bytes::from_vec(case.bytes(alloc, at)?);
    let bucket = Bytes::from_vec(case.bytes(alloc, at + 1)?);
    let prefix = match case.word(at + 2)? {
        "none" => None,
        _ => Some(Bytes::from_vec(case.bytes(alloc, at + 2)?)),
    };
    Ok(ObjectSite {
        host,
        bucket,
        prefix,
    })
}

/// The name of the share of the index and the number at a place and behind it, or of the settings where the index is
/// `grid`.
fn name_at(
    alloc: Global,
    site: &ObjectSite,
    case: &Case<'_>,
    at: usize,
) -> Result<Vec<u8>, NoAnswer> {
    if case.word(at)? == "grid" {
        return Ok(settings_name(alloc, site)?);
    }
    match <[u8; 16]>::try_from(case.bytes(alloc, at)?.as_slice()) {
        Ok(index) => Ok(object_name(alloc, site, &index, case.small(at + 1)?)?),
        Err(_) => Err(NoAnswer::Word(at)),
    }
}

/// What is asked, as the word at a place has it, of a body of so many bytes.
fn asked_at(case: &Case<'_>, at: usize, bytes: u64) -> Result<ObjectAsk, NoAnswer> {
    match case.word(at)? {
        "get" => Ok(ObjectAsk::Get),
        "head" => Ok(ObjectAsk::Head),
        "delete" => Ok(ObjectAsk::Delete),
        "once" => Ok(ObjectAsk::PutOnce(bytes)),
        "over" => Ok(ObjectAsk::PutOver(bytes)),
        _ => Err(NoAnswer::Word(at)),
    }
}

/// The head of an id, a secret, a region, a second, what is asked, how many bytes, a site, and an index and a number or
/// `grid`.
fn head(alloc: Global, case: &Case<'_>) -> Result<String, NoAnswer> {
    let id = Bytes::from_vec(case.bytes(alloc, 2)?);
    let secret = Bytes::from_vec(case.bytes(alloc, 3)?);
    let region = Bytes::from_vec(case.bytes(alloc, 4)?);
    let site = site_at(alloc, case, 8)?;
    if !is_visible(id.as_slice()) || !is_visible(region.as_slice()) || !site.is_site() {
        return Err(NoAnswer::Word(2));
    }
    let Ok(time) = UtcTime::from_unix_seconds(case.number(5)?) else {
        return Err(NoAnswer::Word(5));
    };
    let asked = asked_at(case, 6, case.number(7)?)?;
    let name = name_at(alloc, &site, case, 11)?;
    let mut signer = Signer::new(id, secret, region);
    let mut out = Vec::from_slice(alloc, b"before ")?;
    put_head(alloc, &mut out, &mut signer, &site, &name, asked, &time)?;
    Ok(shown(alloc, &out)?)
}

/// The status at a place, and the code behind it.
fn reply_at(alloc: Global, case: &Case<'_>, at: usize) -> Result<ObjectReply, NoAnswer> {
    Ok(ObjectReply {
        status: case.small(at)?,
        code: KnownCode::read(&case.bytes(alloc, at + 1)?),
    })
}

/// A fault, and what it brings.
fn fault_words(alloc: Global, fault: ObjectFault) -> Result<String, NoAnswer> {
    let name = format!(in alloc; "{fault:?}")?;
    joined(
        alloc,
        &[
            &name,
            if fault.rests() { "rests" } else { "goes on" },
            if fault.keeps_lane() { "stays" } else { "let go" },
            if fault.is_counted() { "counted" } else { "not counted" },
            if fault.ends_start() { "ends" } else { "starts" },
        ],
    )
}

/// What a reply answers to what was asked, or what is wrong with it.
fn reply(alloc: Global, case: &Case<'_>) -> Result<String, NoAnswer> {
    let (asked, reply) = (asked_at(case, 2, 1)?, reply_at(alloc, case, 3)?);
    if is_asked_again(asked, reply) {
        return joined(alloc, &["again,", &said_of(alloc, asked, reply)?]);
    }
    said_of(alloc, asked, reply)
}

/// The same, where it isn't asked again.
fn said_of(alloc: Global, asked: ObjectAsk, reply: ObjectReply) -> Result<String, NoAnswer> {
    match answer_of(asked, reply) {
        Ok(answer) => Ok(format!(in alloc; "{answer:?}")?),
        Err(fault) => fault_words(alloc, fault),
    }
}

/// What comes next where the settings were asked for, of a grid that is `new` or `old`.
fn settings(alloc: Global, case: &Case<'_>) -> Result<String, NoAnswer> {
    match settings_step(reply_at(alloc, case, 3)?, case.word(2)? == "new") {
        Ok(step) => Ok(format!(in alloc; "{step:?}")?),
        Err(fault) => fault_words(alloc, fault),
    }
}

/// The code in a body that comes as so many pieces.
fn code(alloc: Global, case: &Case<'_>) -> Result<String, NoAnswer> {
    let mut kept = Vec::new(alloc);
    for at in 2..case.len() {
        keep_first(&mut kept, &case.bytes(alloc, at)?)?;
    }
    match code_in(&kept) {
        Some(code) => Ok(shown(alloc, code)?),
        None => said(alloc, "none"),
    }
}
