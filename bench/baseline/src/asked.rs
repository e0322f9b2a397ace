//! The baseline's reading of requests, by `httparse` and `form_urlencoded`: each refusal of bytes that spell no request, in the
//! register's order.

use super::*;
use httparse::{Header, Status, EMPTY_HEADER};
use std::borrow::Cow;

const HEAD_LIMIT: usize = 16_384;
const BODY_LIMIT: usize = 1_048_576;

pub enum Request<'a> {
    Lodge(&'a str, String, &'a [u8]), Withdraw(&'a str), Filings, File(&'a str), Published,
    Snapshot(String, String, Option<String>), Chains(Node, Option<String>), Day(String), Enrol(String, &'a str),
}
pub struct Asking<'a> { pub token: &'a str, pub request: Request<'a> }
struct Head<'a> { method: &'a str, target: &'a str, fields: [Header<'a>; 64], count: usize, body: usize }
enum Path<'a> { Filing(&'a str), Filings, File(&'a str), Published, Snapshot, Chains, Day, Agents }

/// How much of a request has come: no head ends in so many bytes, or it is whole with so many.
#[derive(Clone, Copy)] pub enum Progress { Searched(usize), Needs(usize) }
impl Progress {
    pub fn wanted(self, count: usize) -> usize { (match self { Progress::Searched(_) => HEAD_LIMIT, Progress::Needs(all) => all }).saturating_sub(count) }
    pub fn after(self, bytes: &[u8]) -> Progress {
        let Progress::Searched(searched) = self else { return self };
        match head_end(bytes, searched.saturating_sub(2)) {
            Some(end) => Progress::Needs(head(&bytes[..end]).map_or(end, |head| end + head.body)),
            None if bytes.len() < HEAD_LIMIT => Progress::Searched(bytes.len()),
            None => Progress::Needs(HEAD_LIMIT),
        }
    }
}

fn head_end(bytes: &[u8], from: usize) -> Option<usize> {
    (from..bytes.len()).find_map(|at| match &bytes[at..] { [b'\n', b'\n', ..] => Some(at + 2), [b'\n', b'\r', b'\n', ..] => Some(at + 3), _ => None })
}
fn values<'h, 'a>(fields: &'h [Header<'a>], name: &'h str) -> impl Iterator<Item = &'a [u8]> + 'h {
    fields.iter().filter(move |field| field.name.eq_ignore_ascii_case(name)).map(|field| field.value)
}
fn only<'a>(fields: &[Header<'a>], name: &str) -> Option<&'a [u8]> {
    let mut found = values(fields, name);
    let first = found.next()?;
    found.next().is_none().then_some(first)
}
fn body_length(fields: &[Header]) -> Result<usize, Refusal> {
    if values(fields, "transfer-encoding").next().is_some() { return Err(no(400, "BadLength")); }
    let value = match (values(fields, "content-length").count(), only(fields, "content-length")) { (0, _) => return Ok(0), (_, None) => return Err(no(400, "BadLength")), (_, Some(value)) => value };
    if value.is_empty() || !value.iter().all(u8::is_ascii_digit) { return Err(no(400, "BadLength")); }
    let length = value.iter().fold(0, |length, digit| (length * 10 + usize::from(digit - b'0')).min(BODY_LIMIT + 1));
    if length > BODY_LIMIT { Err(no(413, "BodyTooLarge")) } else { Ok(length) }
}
fn head(bytes: &[u8]) -> Result<Head<'_>, Refusal> {
    if bytes.iter().filter(|b| **b == b'\n').count() > 66 { return Err(no(431, "HeadTooLarge")); }
    let mut fields = [EMPTY_HEADER; 64];
    let mut request = httparse::Request::new(&mut fields);
    if !matches!(request.parse(bytes), Ok(Status::Complete(all)) if all == bytes.len()) { return Err(no(400, "BadHead")); }
    let (method, target, count) = (request.method.unwrap_or(""), request.path.unwrap_or(""), request.headers.len());
    // (the version of Debian takes an @ in a method)
    if method.contains('@') { return Err(no(400, "BadHead")); }
    let body = body_length(&fields[..count])?;
    Ok(Head { method, target, fields, count, body })
}
fn path(text: &str) -> Option<Path<'_>> {
    Some(match text {
        "/filings" => Path::Filings, "/published" => Path::Published, "/snapshot" => Path::Snapshot, "/chains" => Path::Chains, "/day" => Path::Day, "/agents" => Path::Agents,
        _ => match text.strip_prefix("/filings/")?.split_once('/') {
            None if text.len() > "/filings/".len() => Path::Filing(&text["/filings/".len()..]),
            Some((key, "file")) if !key.is_empty() => Path::File(key),
            _ => return None,
        },
    })
}
fn allowed(path: &Path) -> &'static [&'static str] {
    match path { Path::Filing(_) => &["DELETE", "PUT"], Path::Day | Path::Agents => &["POST"], _ => &["GET"] }
}

fn bad<T>(name: &'static str) -> Result<T, Refusal> { Err(Refusal { field: Some(name), ..no(400, "BadQuery") }) }
pub fn is_token(text: &[u8]) -> bool { (16..=64).contains(&text.len()) && text.iter().all(|b| (0x21..=0x7E).contains(b)) }
fn is_key(text: &str) -> bool { (1..=64).contains(&text.len()) && text.bytes().all(|b| b.is_ascii_alphanumeric() || b"._-".contains(&b)) }
fn is_agent(text: &str) -> bool { (1..=32).contains(&text.len()) && text.bytes().all(|b| matches!(b, b'a'..=b'z' | b'0'..=b'9' | b'-')) }
fn token<'a>(fields: &[Header<'a>]) -> Option<&'a str> {
    let value = only(fields, "authorization")?;
    let rest = value.get(..7).filter(|word| word.eq_ignore_ascii_case(b"bearer ")).map(|_| &value[7..])?;
    let token = &rest[rest.iter().position(|b| *b != b' ').unwrap_or(rest.len())..];
    if is_token(token) { std::str::from_utf8(token).ok() } else { None }
}

struct Query<'a>(Vec<(Cow<'a, str>, Cow<'a, str>)>);
impl Query<'_> {
    fn count(&self, name: &str) -> usize { self.0.iter().filter(|(other, _)| other == name).count() }
    fn one(&self, name: &'static str, fits: impl Fn(&str) -> bool) -> Result<String, Refusal> {
        if self.count(name) != 1 { return bad(name); }
        match self.0.iter().find(|(other, _)| other == name) { Some((_, value)) if fits(value) => Ok(value.to_string()), _ => bad(name) }
    }
    fn day(&self, name: &'static str) -> Result<String, Refusal> { self.one(name, |text| read::day(text).is_some()).map(|mut text| { text.truncate(10); text }) }
    fn day_if(&self, name: &'static str) -> Result<Option<String>, Refusal> { if self.count(name) == 0 { Ok(None) } else { self.day(name).map(Some) } }
    fn agent(&self, name: &'static str) -> Result<String, Refusal> { self.one(name, is_agent) }
    fn ident(&self, name: &'static str) -> Result<String, Refusal> { self.one(name, read::is_ident) }
}
fn request<'a>(method: &str, path: Path<'a>, query: &[u8], body: &'a [u8]) -> Result<Request<'a>, Refusal> {
    let query = Query(form_urlencoded::parse(query).collect());
    let key = |key: &'a str| if is_key(key) { Ok(key) } else { bad("key") };
    Ok(match path {
        Path::Filing(text) if method == "PUT" => Request::Lodge(key(text)?, query.day("due")?, body),
        Path::Filing(text) => Request::Withdraw(key(text)?),
        Path::Filings => Request::Filings,
        Path::File(text) => Request::File(key(text)?),
        Path::Published => Request::Published,
        Path::Snapshot => Request::Snapshot(query.agent("agent")?, query.ident("declaration")?, query.day_if("date")?),
        Path::Chains => Request::Chains((query.agent("agent")?, query.ident("declaration")?, query.ident("record")?), query.day_if("date")?),
        Path::Day => Request::Day(query.day("date")?),
        Path::Agents => Request::Enrol(query.agent("name")?, std::str::from_utf8(body).ok().filter(|text| is_token(text.as_bytes())).map_or(bad("token"), Ok)?),
    })
}
/// What an input spells: a request with a token, or why there is none.
pub fn spelled(input: &[u8]) -> Result<Asking<'_>, Refusal> {
    let Some(end) = head_end(&input[..input.len().min(HEAD_LIMIT)], 0) else { return Err(if input.len() < HEAD_LIMIT { no(400, "CutShort") } else { no(431, "HeadTooLarge") }) };
    let Head { method, target, fields, count, body } = head(&input[..end])?;
    let Some(body) = input.get(end..end + body) else { return Err(no(400, "CutShort")) };
    let (text, query) = target.split_once('?').unwrap_or((target, ""));
    let Some(path) = path(text) else { return Err(no(404, "NoPath")) };
    if !allowed(&path).contains(&method) { return Err(Refusal { allow: allowed(&path), ..no(405, "WrongMethod") }); }
    let Some(token) = token(&fields[..count]) else { return Err(no(401, "NoToken")) };
    Ok(Asking { token, request: request(method, path, query.as_bytes(), body)? })
}
