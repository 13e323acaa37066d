//! Codes by a key, and signatures of requests to stores of objects.
use crate::formats::words::in_hex;
use crate::lines::{Case, NoAnswer, shown};
use hmac_sha256::hmac;
use octets::Bytes;
use s3_sign::{
    Method, ObjectRequest, Signer, UtcTime, canonical_request, is_visible, signing_key,
    string_to_sign,
};
use std::alloc::Global;

/// Answers questions whose first word is `hmac`.
pub fn code(alloc: Global, case: &Case<'_>) -> Result<String, NoAnswer> {
    let (key, message) = (case.bytes(alloc, 1)?, case.bytes(alloc, 2)?);
    Ok(in_hex(alloc, &hmac(&key, &message))?)
}

/// Answers questions whose first word is `s3` and whose second is `time`, `key`, `plain`, `canonical`, `string`,
/// `authorization` or `head`.
pub fn answer(alloc: Global, case: &Case<'_>) -> Result<String, NoAnswer> {
    match case.word(1)? {
        "time" => written(alloc, case),
        "key" => key_of_day(alloc, case),
        "plain" => plain(alloc, case),
        _ => asked(alloc, case),
    }
}

/// The second at a place, if there is such a one.
fn second(case: &Case<'_>, at: usize) -> Result<UtcTime, NoAnswer> {
    match UtcTime::from_unix_seconds(case.number(at)?) {
        Ok(time) => Ok(time),
        Err(_) => Err(NoAnswer::Word(at)),
    }
}

/// A second as it is written.
fn written(alloc: Global, case: &Case<'_>) -> Result<String, NoAnswer> {
    match UtcTime::from_unix_seconds(case.number(2)?) {
        Ok(time) => Ok(shown(alloc, &time.text())?),
        Err(fault) => Ok(format!(in alloc; "{fault}")?),
    }
}

/// The key of a day.
fn key_of_day(alloc: Global, case: &Case<'_>) -> Result<String, NoAnswer> {
    let (secret, region) = (case.bytes(alloc, 2)?, case.bytes(alloc, 3)?);
    let key = signing_key(alloc, &secret, &second(case, 4)?.day_text(), &region)?;
    Ok(in_hex(alloc, &key)?)
}

/// Whether a host and a path can be signed.
fn plain(alloc: Global, case: &Case<'_>) -> Result<String, NoAnswer> {
    let (host, path) = (case.bytes(alloc, 2)?, case.bytes(alloc, 3)?);
    let request = ObjectRequest {
        method: Method::Get,
        host: &host,
        path: &path,
        content_length: None,
        once: false,
    };
    Ok(format!(in alloc; "{}", request.is_plain())?)
}

/// The method at a place.
fn method(case: &Case<'_>, at: usize) -> Result<Method, NoAnswer> {
    match case.word(at)? {
        "GET" => Ok(Method::Get),
        "HEAD" => Ok(Method::Head),
        "PUT" => Ok(Method::Put),
        "DELETE" => Ok(Method::Delete),
        _ => Err(NoAnswer::Word(at)),
    }
}

/// The length at a place, `-` where there is none.
fn length(case: &Case<'_>, at: usize) -> Result<Option<u64>, NoAnswer> {
    match case.word(at)? {
        "-" => Ok(None),
        _ => Ok(Some(case.number(at)?)),
    }
}

/// What is made of an id, a secret, a region, a second, a method, a host, a path, a length and a condition.
fn asked(alloc: Global, case: &Case<'_>) -> Result<String, NoAnswer> {
    let (host, path) = (case.bytes(alloc, 7)?, case.bytes(alloc, 8)?);
    let request = ObjectRequest {
        method: method(case, 6)?,
        host: &host,
        path: &path,
        content_length: length(case, 9)?,
        once: case.word(10)? == "once",
    };
    let time = second(case, 5)?;
    if !request.is_plain() {
        return Err(NoAnswer::Word(8));
    }
    let text = match case.word(1)? {
        "canonical" => canonical_request(alloc, &request, &time)?,
        "string" => string_to_sign(alloc, &case.bytes(alloc, 4)?, &request, &time)?,
        "authorization" => signer(alloc, case)?.authorization(alloc, &request, &time)?,
        "head" => signer(alloc, case)?.signed_head(alloc, &request, &time)?,
        _ => return Err(NoAnswer::Question),
    };
    Ok(shown(alloc, &text)?)
}

/// Who signs: an id, a secret and a region.
fn signer(alloc: Global, case: &Case<'_>) -> Result<Signer, NoAnswer> {
    let id = Bytes::from_vec(case.bytes(alloc, 2)?);
    let secret = Bytes::from_vec(case.bytes(alloc, 3)?);
    let region = Bytes::from_vec(case.bytes(alloc, 4)?);
    if !is_visible(id.as_slice()) || !is_visible(region.as_slice()) {
        return Err(NoAnswer::Word(2));
    }
    Ok(Signer::new(id, secret, region))
}
