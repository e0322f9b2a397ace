//! The baseline's reading of files of BODS 0.4, by `serde_json`: each fault of a file that the register refuses, in its order.

use super::*;

/// A fault's name, and the member that it is about.
pub type Fault = (&'static str, Option<&'static str>);
const ENTITIES: [&str; 7] = ["registeredEntity", "legalEntity", "arrangement", "anonymousEntity", "unknownEntity", "state", "stateBody"];
const PERSONS: [&str; 3] = ["knownPerson", "anonymousPerson", "unknownPerson"];
const INTERESTS: [&str; 3] = ["shareholding", "votingRights", "appointmentOfBoard"];
pub const TYPES: [&str; 3] = ["entity", "person", "relationship"];
pub const STATUSES: [&str; 3] = ["new", "updated", "closed"];

/// The word that a text is, of these.
pub fn worded(text: &str, words: &[&'static str]) -> Option<&'static str> { words.iter().find(|word| **word == text).copied() }
fn word(text: Option<&str>, words: &[&'static str], other: &'static str) -> &'static str { text.and_then(|text| worded(text, words)).unwrap_or(other) }
fn bad<T>(field: &'static str) -> Result<T, Fault> { Err(("Bad", Some(field))) }

fn member<'a>(object: &'a Value, name: &str) -> Option<&'a Value> { object.get(name).filter(|value| !value.is_null()) }
fn text_at<'a>(object: &'a Value, name: &str) -> Option<&'a str> { member(object, name)?.as_str() }
fn copied_at(object: &Value, name: &str) -> Option<String> { text_at(object, name).map(str::to_string) }
fn needed<'a, T>(object: &'a Value, field: &'static str, read: impl Fn(&'a Value) -> Option<T>) -> Result<T, Fault> {
    match member(object, field) { Some(value) => read(value).ok_or(("Bad", Some(field))), None => Err(("Missing", Some(field))) }
}
pub fn is_ident(text: &str) -> bool { (1..=255).contains(&text.len()) && text.bytes().all(|b| b >= 0x20 && b != 0x7F) }
fn ident(value: &Value) -> Option<String> { value.as_str().filter(|text| is_ident(text)).map(str::to_string) }
fn items<'a>(object: &'a Value, field: &'static str) -> Result<&'a [Value], Fault> {
    match member(object, field).map(Value::as_array) {
        None => Ok(&[]),
        Some(None) => bad(field),
        Some(Some(list)) if list.len() > 100 => Err(("TooLong", Some(field))),
        Some(Some(list)) => Ok(list),
    }
}

fn pair(bytes: &[u8]) -> Option<u32> { bytes.iter().all(u8::is_ascii_digit).then(|| u32::from(bytes[0] - b'0') * 10 + u32::from(bytes[1] - b'0')) }
fn year(bytes: &[u8]) -> Option<u32> { Some(pair(&bytes[..2])? * 100 + pair(&bytes[2..4])?) }
fn days_in(year: u32, month: u32) -> u32 {
    match month { 2 if year % 4 == 0 && (year % 100 != 0 || year % 400 == 0) => 29, 2 => 28, 4 | 6 | 9 | 11 => 30, _ => 31 }
}
/// The day that a text names, as its first ten bytes.
pub fn day(text: &str) -> Option<&str> {
    let bytes = text.as_bytes();
    if bytes.len() < 10 || bytes[4] != b'-' || bytes[7] != b'-' || bytes.get(10).is_some_and(|b| *b != b'T') { return None; }
    let (year, month, day) = (year(bytes)?, pair(&bytes[5..7])?, pair(&bytes[8..10])?);
    ((1..=12).contains(&month) && (1..=days_in(year, month)).contains(&day)).then(|| &text[..10])
}
/// The first or the last day of the day, month or year that a text names.
fn end_of_period(text: &str, is_last: bool) -> Option<String> {
    if let Some(day) = day(text) { return Some(day.to_string()); }
    let bytes = text.as_bytes();
    let month = match bytes.len() { 7 if bytes[4] == b'-' => pair(&bytes[5..7])?, 4 if is_last => 12, 4 => 1, _ => return None };
    let year = year(bytes)?;
    let day = if is_last { days_in(year, month) } else { 1 };
    (1..=12).contains(&month).then(|| format!("{year:04}-{month:02}-{day:02}"))
}

fn percent(value: &Value, field: &'static str) -> Result<u64, Fault> {
    let Value::Number(number) = value else { return bad(field) };
    if number.is_f64() { return Err(("Fraction", None)); }
    number.as_u64().filter(|n| *n <= 100).ok_or(("ShareRange", None))
}
fn percent_at(share: &Value, field: &'static str) -> Result<Option<u64>, Fault> { member(share, field).map(|value| percent(value, field)).transpose() }
enum Exclusive { Absent, Flag(bool), Percent(u64) }
fn exclusive_at(share: &Value, field: &'static str) -> Result<Exclusive, Fault> {
    Ok(match member(share, field) { None => Exclusive::Absent, Some(Value::Bool(flag)) => Exclusive::Flag(*flag), Some(value) => Exclusive::Percent(percent(value, field)?) })
}
/// An end of a range, and whether it is open: of two bounds the one that leaves less, by `is_tighter`.
fn end(bound: Option<u64>, exclusive: Exclusive, outermost: u64, is_tighter: impl Fn(u64, u64) -> bool) -> (u64, bool) {
    match (bound, exclusive) {
        (None, Exclusive::Percent(open)) => (open, true),
        (None, _) => (outermost, false),
        (Some(bound), Exclusive::Percent(open)) if is_tighter(open, bound) => (open, true),
        (Some(bound), Exclusive::Flag(is_open)) => (bound, is_open),
        (Some(bound), _) => (bound, false),
    }
}
fn share(value: &Value) -> Result<Share, Fault> {
    if !value.is_object() { return bad("share"); }
    let (exact, minimum, maximum) = (percent_at(value, "exact")?, percent_at(value, "minimum")?, percent_at(value, "maximum")?);
    let (above, below) = (exclusive_at(value, "exclusiveMinimum")?, exclusive_at(value, "exclusiveMaximum")?);
    let ((low, low_open), (high, high_open)) = match exact {
        Some(exact) => ((exact, false), (exact, false)),
        None => (end(minimum, above, 0, |open, bound| bound <= open), end(maximum, below, 100, |open, bound| open <= bound)),
    };
    if low < high || low == high && !low_open && !high_open { Ok(Share { high, high_open, low, low_open }) } else { Err(("EmptyShare", None)) }
}
fn interest(value: &Value) -> Result<Interest, Fault> {
    if !value.is_object() { return bad("interests"); }
    let kind = word(text_at(value, "type"), &INTERESTS, "other");
    let share = if kind == "other" { None } else { member(value, "share").map(share).transpose()? };
    let period = |name, is_last| text_at(value, name).and_then(|text| end_of_period(text, is_last));
    let directness = word(text_at(value, "directOrIndirect"), &["direct", "indirect"], "unknown");
    Ok(Interest { directness, share, kind, starts: period("startDate", false), ends: period("endDate", true) })
}
fn identifier(item: &Value) -> Option<Identifier> {
    let filled = |name| copied_at(item, name).filter(|text| !text.is_empty());
    Some(Identifier { scheme: filled("scheme")?, id: filled("id")? })
}
fn details(kind: &str, value: &Value) -> Result<Details, Fault> {
    let end = |value: &Value| if value.is_object() { Some(None) } else { ident(value).map(Some) };
    Ok(match kind {
        "entity" => {
            let kind = word(member(value, "entityType").and_then(|kind| text_at(kind, "type")), &ENTITIES, "other");
            let identifiers = items(value, "identifiers")?.iter().filter_map(identifier).collect();
            Details::Entity { identifiers, kind, name: copied_at(value, "name") }
        }
        "person" => {
            let name = member(value, "names").and_then(Value::as_array).and_then(|names| copied_at(names.first()?, "fullName"));
            Details::Person { kind: word(text_at(value, "personType"), &PERSONS, "other"), name }
        }
        _ => {
            let (subject, interested_party) = (needed(value, "subject", end)?, needed(value, "interestedParty", end)?);
            let interests = items(value, "interests")?.iter().map(interest).collect::<Result<_, _>>()?;
            Details::Relationship { interested_party, interests, subject }
        }
    })
}
fn statement(value: &Value) -> Result<Statement, Fault> {
    if !value.is_object() { return bad("statement"); }
    let id = needed(value, "statementId", ident)?;
    let date = needed(value, "statementDate", |value| Some(day(value.as_str()?)?.to_string()))?;
    let (declaration, record) = (needed(value, "declarationSubject", ident)?, needed(value, "recordId", ident)?);
    let kind = needed(value, "recordType", |value| worded(value.as_str()?, &TYPES))?;
    let status = match member(value, "recordStatus") {
        Some(status) => status.as_str().and_then(|text| worded(text, &STATUSES)).ok_or(("Bad", Some("recordStatus")))?,
        None => "",
    };
    let details = details(kind, needed(value, "recordDetails", |value| value.is_object().then_some(value))?)?;
    Ok(Statement { id, date, declaration, record, status, kind, details })
}
/// The statements of a file, or why it isn't read.
pub fn read(body: &[u8]) -> Result<Vec<Statement>, Refusal> {
    let file = serde_json::from_slice::<Value>(body).map_err(|_| no(422, "NotJson"))?;
    let Value::Array(list) = &file else { return Err(no(422, "NotAList")) };
    if list.is_empty() { return Err(no(422, "NoStatements")); }
    if list.len() > 1_000 { return Err(no(422, "TooMany")); }
    let refusal = |place, (name, field)| Refusal { place: Some(place), field, ..no(422, name) };
    (1..).zip(list).map(|(place, value)| statement(value).map_err(|fault| refusal(place, fault))).collect()
}
