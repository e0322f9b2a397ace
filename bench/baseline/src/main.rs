//! The baseline: a register in memory with hash maps, `serde_json` and `httparse`, with no proofs. It checks and refuses what the
//! register does, and tells the same replies. Usage: baseline exchange REQUEST.. for a run over files of requests; baseline check FILE;
//! baseline serve PORT CONNECTIONS REQUEST.. serves the register that these requests leave (`serve.rs`). With the feature `file`,
//! baseline file PATH REQUEST.. keeps the register in a file, and baseline serve-file PATH PORT CONNECTIONS serves it (`file.rs`).

use serde::Serialize;
use serde_json::Value;
use std::{collections::{BTreeMap, BTreeSet, HashMap, HashSet}, env, fs, io::{self, Write}};
mod asked;
#[cfg(feature = "file")] mod file;
mod read;
mod serve;
use asked::Request;

#[derive(Serialize)] #[serde(rename_all = "camelCase")]
struct Share { high: u64, high_open: bool, low: u64, low_open: bool }
#[derive(Serialize)]
struct Interest {
    directness: &'static str, share: Option<Share>, #[serde(rename = "type")] kind: &'static str,
    #[serde(skip)] starts: Option<String>, #[serde(skip)] ends: Option<String>,
}
#[derive(Serialize)] struct Identifier { id: String, scheme: String }
#[derive(Serialize)] #[serde(untagged)]
enum Details {
    Entity { identifiers: Vec<Identifier>, kind: &'static str, name: Option<String> },
    Person { kind: &'static str, name: Option<String> },
    #[serde(rename_all = "camelCase")]
    Relationship { interested_party: Option<String>, interests: Vec<Interest>, subject: Option<String> },
}
struct Statement { id: String, date: String, declaration: String, record: String, status: &'static str, kind: &'static str, details: Details }
struct Filing { key: String, due: String, withdrawn: bool, bytes: Vec<u8>, statements: Vec<Statement> }
const FILINGS_LIMIT: usize = 999; // of an agent, withdrawn ones included
type Series = (String, String); // declaration and record
type Node = (String, String, String); // agent, declaration and record

#[derive(Default)]
struct Agent {
    filings: Vec<Filing>, keys: HashMap<String, usize>, ids: HashSet<String>,
    series: HashMap<Series, Vec<(usize, usize)>>, // live statements by filing and place
    records: HashMap<String, Vec<String>>, // the declarations of each record
    declarations: HashMap<String, BTreeSet<String>>, // the records of each declaration
    into: HashMap<Series, BTreeSet<String>>, // the relationships that had a record as subject
}
struct Register {
    day: String, registrar: String, tokens: HashMap<String, String>, agents: BTreeMap<String, Agent>,
    signs: HashMap<(String, String), BTreeSet<Node>>, // the entities that had an identifier
}
/// A refusal: its status and name, the statement's place and the member or name that it is about, and the methods that a path has.
#[derive(Clone, Copy)] struct Refusal { status: u16, name: &'static str, place: Option<usize>, field: Option<&'static str>, allow: &'static [&'static str] }
fn no(status: u16, name: &'static str) -> Refusal { Refusal { status, name, place: None, field: None, allow: &[] } }
enum Reply { Yes(u16, Vec<u8>), No(Refusal) }
use Reply::{No, Yes};
#[derive(Serialize)] struct Refused {
    #[serde(skip_serializing_if = "Option::is_none")] field: Option<&'static str>, #[serde(skip_serializing_if = "Option::is_none")] place: Option<usize>,
    refusal: &'static str,
}
#[derive(Serialize)] struct Line<'a> { due: &'a str, filing: usize, #[serde(skip_serializing_if = "Option::is_none")] key: Option<&'a str>, state: &'a str }
#[derive(Serialize)] struct Shown<'a> {
    date: &'a str, #[serde(skip_serializing_if = "Option::is_none")] declaration: Option<&'a str>,
    #[serde(skip_serializing_if = "Option::is_none")] details: Option<&'a Details>,
    id: &'a str, record: &'a str, status: &'a str, #[serde(rename = "type")] kind: &'a str,
}
#[derive(Serialize)] struct Outward<'a> { agent: &'a str, due: &'a str, statements: Vec<Shown<'a>> }
#[derive(Serialize)] struct Snapshot<'a> { date: &'a str, records: Vec<Shown<'a>> }
#[derive(Serialize)] struct Person<'a> { agent: &'a str, declaration: &'a str, links: usize, name: Option<&'a str>, record: &'a str }
#[derive(Serialize)] struct Chains<'a> { agent: &'a str, date: &'a str, declaration: &'a str, persons: Vec<Person<'a>>, record: &'a str }

fn json<T: Serialize>(status: u16, value: &T) -> Reply { Yes(status, serde_json::to_vec(value).unwrap()) }
impl Statement {
    fn series(&self) -> Series { (self.declaration.clone(), self.record.clone()) }
    fn shown<'a>(&'a self, declaration: Option<&'a str>, details: Option<&'a Details>) -> Shown<'a> {
        Shown { date: &self.date, declaration, details, id: &self.id, record: &self.record, status: self.status, kind: self.kind }
    }
}
impl Filing {
    fn state(&self, day: &str) -> &'static str {
        if self.withdrawn { "withdrawn" } else if self.due.as_str() <= day { "published" } else { "draft" }
    }
    fn line(&self, number: usize, day: &str, with_key: bool) -> Line<'_> {
        Line { due: &self.due, filing: number, key: with_key.then_some(self.key.as_str()), state: self.state(day) }
    }
}
/// What is known of a record's last live statement: its type, status and date, and when its filing is due.
type Last = (&'static str, &'static str, String, String);
/// Settles the statements of a file after those that are there, or tells the place and the rule that is broken.
fn settle(due: &str, statements: &mut [Statement], has_id: impl Fn(&str) -> bool, last_of: impl Fn(&Series) -> Option<Last>) -> Result<(), Refusal> {
    let at = |i, name| Err(Refusal { place: Some(i + 1), ..no(422, name) });
    let mut ids = HashSet::new();
    let mut last: HashMap<Series, Last> = HashMap::new();
    for (i, new) in statements.iter_mut().enumerate() {
        if has_id(&new.id) || !ids.insert(new.id.clone()) { return at(i, "StatementTwice"); }
        let series = new.series();
        let before = last.get(&series).cloned().or_else(|| last_of(&series));
        let rules = match &before {
            Some((kind, status, date, day)) => [(*kind != new.kind, "TypeChanged"), (new.status == "new", "RecordExists"), (*status == "closed", "RecordClosed"),
                (new.date < *date, "DateBack"), (due < day.as_str(), "DueBeforeRecord")],
            None => [(new.status == "updated" || new.status == "closed", "RecordUnknown"); 5],
        };
        if let Some((_, rule)) = rules.into_iter().find(|(broken, _)| *broken) { return at(i, rule); }
        if new.status.is_empty() { new.status = if before.is_some() { "updated" } else { "new" }; }
        last.insert(series, (new.kind, new.status, new.date.clone(), due.to_string()));
    }
    Ok(())
}
impl Agent {
    fn last(&self, series: &Series) -> Option<Last> {
        let (f, p) = *self.series.get(series)?.last()?;
        let s = &self.filings[f].statements[p];
        Some((s.kind, s.status, s.date.clone(), self.filings[f].due.clone()))
    }
}
fn is_counting(i: &Interest, date: &str) -> bool {
    let is_on = i.starts.as_ref().map_or(true, |day| day.as_str() <= date) && i.ends.as_ref().map_or(true, |day| date <= day.as_str());
    is_on && i.kind != "other" && i.directness != "indirect"
}
fn is_some(i: &Interest) -> bool { i.share.as_ref().map_or(true, |s| s.high > 0) }
fn is_most(s: &Share) -> bool { s.low > 50 || s.low == 50 && s.low_open }
fn is_holding(interests: &[Interest], date: &str) -> bool { interests.iter().any(|i| is_counting(i, date) && is_some(i)) }
fn is_stake(interests: &[Interest], date: &str) -> bool {
    let held = interests.iter().any(|i| is_counting(i, date) && i.kind != "appointmentOfBoard" && is_some(i));
    interests.iter().any(|i| is_counting(i, date) && (i.kind == "votingRights" && i.share.as_ref().is_some_and(is_most)
        || i.kind == "appointmentOfBoard" && held && i.share.as_ref().map_or(true, is_most)))
}
impl Register {
    fn new(day: &str) -> Register {
        Register { day: day.to_string(), registrar: "registrar-token-0001".to_string(), tokens: HashMap::new(), agents: BTreeMap::new(), signs: HashMap::new() }
    }
    fn latest(&self, viewer: &str, (agent, declaration, record): &Node, date: &str) -> Option<&Statement> {
        let own = self.agents.get(agent)?;
        let seen = own.series.get(&(declaration.clone(), record.clone()))?.iter().rev().filter(|(f, _)| agent == viewer || own.filings[*f].due <= self.day);
        seen.map(|(f, p)| &own.filings[*f].statements[*p]).find(|s| s.date.as_str() <= date).filter(|s| s.status != "closed")
    }
    /// The place of the filing that is lodged, and whether it is fresh.
    fn lodge(&mut self, name: &str, key: &str, due: &str, body: &[u8]) -> Result<(usize, bool), Refusal> {
        let agent = self.agents.get_mut(name).unwrap();
        if let Some(&at) = agent.keys.get(key) {
            let filing = &agent.filings[at];
            return if filing.due == due && filing.bytes == body { Ok((at, false)) } else { Err(no(409, "KeyReused")) };
        }
        if agent.filings.len() >= FILINGS_LIMIT { return Err(no(409, "FilingsFull")); }
        if due < self.day.as_str() { return Err(no(422, "DuePast")); }
        let mut statements = read::read(body)?;
        settle(due, &mut statements, |id| agent.ids.contains(id), |series| agent.last(series))?;
        let at = agent.filings.len();
        for (i, s) in statements.iter().enumerate() {
            agent.ids.insert(s.id.clone());
            agent.series.entry(s.series()).or_default().push((at, i));
            if agent.declarations.entry(s.declaration.clone()).or_default().insert(s.record.clone()) {
                agent.records.entry(s.record.clone()).or_default().push(s.declaration.clone());
            }
            match &s.details {
                Details::Entity { identifiers, .. } => for i in identifiers {
                    self.signs.entry((i.scheme.clone(), i.id.clone())).or_default().insert((name.to_string(), s.declaration.clone(), s.record.clone()));
                },
                Details::Relationship { subject: Some(subject), .. } => { agent.into.entry((s.declaration.clone(), subject.clone())).or_default().insert(s.record.clone()); }
                _ => {}
            }
        }
        agent.keys.insert(key.to_string(), at);
        agent.filings.push(Filing { key: key.to_string(), due: due.to_string(), withdrawn: false, bytes: body.to_vec(), statements });
        Ok((at, true))
    }
    fn withdraw(&mut self, name: &str, key: &str) -> Reply {
        let agent = self.agents.get_mut(name).unwrap();
        let Some(&at) = agent.keys.get(key) else { return No(no(404, "NoSuchFiling")) };
        if agent.filings[at].state(&self.day) == "published" { return No(no(409, "Published")); }
        if agent.filings[at].statements.iter().any(|s| agent.series[&s.series()].last().unwrap().0 > at) { return No(no(409, "HasSuccessor")); }
        for s in std::mem::take(&mut agent.filings[at].statements) {
            agent.ids.remove(&s.id);
            if let Some(places) = agent.series.get_mut(&s.series()) { places.retain(|(f, _)| *f != at); }
        }
        agent.filings[at].withdrawn = true;
        json(200, &agent.filings[at].line(at + 1, &self.day, false))
    }
    fn published(&self) -> Reply {
        json(200, &self.agents.iter().flat_map(|(agent, own)| own.filings.iter().filter(|f| f.state(&self.day) == "published").map(move |f| Outward {
            agent, due: &f.due, statements: f.statements.iter().map(|s| s.shown(Some(&s.declaration), None)).collect() })).collect::<Vec<_>>())
    }
    fn snapshot(&self, viewer: &str, agent: &str, declaration: &str, date: &str) -> Reply {
        let records = self.agents.get(agent).and_then(|own| own.declarations.get(declaration)).into_iter().flatten();
        let records = records.filter_map(|r| self.latest(viewer, &(agent.to_string(), declaration.to_string(), r.clone()), date))
            .map(|s| s.shown(None, Some(&s.details))).collect();
        json(200, &Snapshot { date, records })
    }
    /// The open entities with the node's record in another declaration, or with one of its identifiers.
    fn aliases(&self, viewer: &str, node: &Node, date: &str) -> Vec<Node> {
        let Some(Statement { details: Details::Entity { identifiers, .. }, .. }) = self.latest(viewer, node, date) else { return Vec::new() };
        let has = |other: &Node, sign: &Identifier| matches!(self.latest(viewer, other, date), Some(Statement { details: Details::Entity { identifiers, .. }, .. })
            if identifiers.iter().any(|i| i.id == sign.id && i.scheme == sign.scheme));
        let alike = identifiers.iter().flat_map(|sign| self.signs.get(&(sign.scheme.clone(), sign.id.clone())).into_iter().flatten().filter(move |n| has(n, sign)));
        let named = self.agents[&node.0].records[&node.2].iter().map(|d| (node.0.clone(), d.clone(), node.2.clone()))
            .filter(|n| matches!(self.latest(viewer, n, date), Some(s) if s.kind == "entity"));
        alike.cloned().chain(named).collect()
    }
    fn chains(&self, viewer: &str, entity: Node, date: &str) -> Reply {
        if !matches!(self.latest(viewer, &entity, date), Some(s) if s.kind == "entity") { return No(no(404, "NoEntity")); }
        let (mut seen, mut persons, mut wave, mut links) = (HashSet::new(), BTreeMap::new(), vec![entity.clone()], 0);
        while !wave.is_empty() {
            let is_first = links == 0;
            links += 1;
            let mut class: Vec<Node> = wave.into_iter().filter(|n| seen.insert((is_first, n.clone()))).collect();
            let mut at = 0;
            while at < class.len() {
                let more: Vec<Node> = self.aliases(viewer, &class[at], date).into_iter().filter(|n| seen.insert((is_first, n.clone()))).collect();
                class.extend(more);
                at += 1;
            }
            wave = Vec::new();
            for node in &class {
                for record in self.agents[&node.0].into.get(&(node.1.clone(), node.2.clone())).into_iter().flatten() {
                    let Some(Statement { details: Details::Relationship { subject, interested_party: Some(party), interests }, .. }) = self.latest(viewer, &(node.0.clone(), node.1.clone(), record.clone()), date) else { continue };
                    let counts = if is_first { is_holding(interests, date) } else { is_stake(interests, date) };
                    if subject.as_ref() != Some(&node.2) || !counts { continue; }
                    let party = (node.0.clone(), node.1.clone(), party.clone());
                    match self.latest(viewer, &party, date).map(|s| &s.details) {
                        Some(Details::Person { name, .. }) => { persons.entry(party).or_insert((links, name.as_deref())); }
                        Some(Details::Entity { kind, .. }) if *kind == "registeredEntity" || *kind == "legalEntity" => wave.push(party),
                        _ => {}
                    }
                }
            }
        }
        let persons = persons.iter().map(|((agent, declaration, record), (links, name))| Person { agent, declaration, links: *links, name: *name, record }).collect();
        json(200, &Chains { agent: &entity.0, date, declaration: &entity.1, persons, record: &entity.2 })
    }
    fn answer_agent(&mut self, name: &str, request: Request) -> Reply {
        let own = &self.agents[name];
        match request {
            Request::Lodge(key, due, body) => match self.lodge(name, key, &due, body) {
                Ok((at, is_fresh)) => json(if is_fresh { 201 } else { 200 }, &self.agents[name].filings[at].line(at + 1, &self.day, false)),
                Err(refusal) => No(refusal),
            },
            Request::Withdraw(key) => self.withdraw(name, key),
            Request::Filings => json(200, &own.filings.iter().enumerate().map(|(i, f)| f.line(i + 1, &self.day, true)).collect::<Vec<_>>()),
            Request::File(key) => own.keys.get(key).map_or(No(no(404, "NoSuchFiling")), |&at| Yes(200, own.filings[at].bytes.clone())),
            Request::Published => self.published(),
            Request::Snapshot(agent, declaration, date) => self.snapshot(name, &agent, &declaration, date.as_ref().unwrap_or(&self.day)),
            Request::Chains(entity, date) => self.chains(name, entity, date.as_ref().unwrap_or(&self.day)),
            Request::Day(_) | Request::Enrol(..) => No(no(403, "NotRegistrar")),
        }
    }
    fn answer_registrar(&mut self, request: Request) -> Reply {
        match request {
            Request::Day(date) if date < self.day => No(no(409, "DayBack")),
            Request::Day(date) => { self.day = date; json(200, &HashMap::from([("day", &self.day)])) }
            Request::Enrol(name, _) if self.agents.contains_key(&name) => No(no(409, "NameTaken")),
            Request::Enrol(_, token) if self.tokens.contains_key(token) || token == self.registrar => No(no(409, "TokenTaken")),
            Request::Enrol(name, token) => {
                self.agents.insert(name.clone(), Agent::default());
                self.tokens.insert(token.to_string(), name.clone());
                json(201, &HashMap::from([("agent", name)]))
            }
            _ => No(no(403, "NotAgent")),
        }
    }
    fn answer(&mut self, input: &[u8]) -> Reply {
        let asking = match asked::spelled(input) { Ok(asking) => asking, Err(refusal) => return No(refusal) };
        if asking.token == self.registrar { return self.answer_registrar(asking.request); }
        match self.tokens.get(asking.token).cloned() { Some(name) => self.answer_agent(&name, asking.request), None => No(no(401, "NoAgent")) }
    }
}
fn phrase(status: u16) -> &'static str {
    match status {
        200 => "OK", 201 => "Created", 400 => "Bad Request", 401 => "Unauthorized", 403 => "Forbidden", 404 => "Not Found", 405 => "Method Not Allowed",
        409 => "Conflict", 413 => "Payload Too Large", 422 => "Unprocessable Entity", _ => "Request Header Fields Too Large",
    }
}
fn bytes_of(reply: Reply) -> Vec<u8> {
    let (status, body, own) = match reply {
        Yes(status, body) => (status, body, String::new()),
        No(Refusal { status, name, place, field, allow }) => {
            let own = match status { 401 => "WWW-Authenticate: Bearer\r\n".to_string(), 405 => format!("Allow: {}\r\n", allow.join(", ")), _ => String::new() };
            (status, serde_json::to_vec(&Refused { field, place, refusal: name }).unwrap(), own)
        }
    };
    let mut out = Vec::with_capacity(body.len() + 192);
    write!(out, "HTTP/1.1 {status} {}\r\nContent-Type: application/json\r\nContent-Length: {}\r\n{own}Connection: close\r\n\r\n", phrase(status), body.len()).unwrap();
    out.extend(body);
    out
}
/// What `bor check` prints of a file: its lodging in a new register, and what is published then.
fn check(path: &str) -> io::Result<String> {
    let body = fs::read(path)?;
    if body.len() > 1_048_576 { return Ok("refused BodyTooLarge\n".to_string()); }
    let mut register = Register::new("2000-01-01");
    register.agents.insert("check".to_string(), Agent::default());
    Ok(match register.lodge("check", "check", "2000-01-01", &body) {
        Ok((at, _)) => {
            let filing = &register.agents["check"].filings[at];
            let lines = (1..).zip(&filing.statements).map(|(place, s)| format!("{place}\t{}\t{}\t{}\t{}\n", s.kind, s.status, s.declaration, s.record));
            format!("filing {} {}\n{}", at + 1, filing.state(&register.day), lines.collect::<String>())
        }
        Err(Refusal { name, place, field, .. }) => {
            let (place, field) = (place.map_or(String::new(), |place| format!(" at {place}")), field.map_or(String::new(), |field| format!(" in {field}")));
            format!("refused {name}{place}{field}\n")
        }
    })
}
const DAY: &str = "2024-02-01";
/// Answers the requests in these files, and writes the replies.
fn exchange(files: &[String]) -> io::Result<()> {
    let inputs = files.iter().map(fs::read).collect::<io::Result<Vec<_>>>()?;
    let mut register = Register::new(DAY);
    let replies = inputs.iter().fold(Vec::new(), |mut all, input| { all.extend(bytes_of(register.answer(input))); all });
    io::stdout().write_all(&replies)
}
/// Serves so many connections of a port, after the requests in these files.
fn serve_after(port: &str, connections: &str, files: &[String]) -> io::Result<()> {
    let mut register = Register::new(DAY);
    for file in files { register.answer(&fs::read(file)?); }
    serve::serve(port.parse().unwrap_or(0), connections.parse().unwrap_or(0), |input| bytes_of(register.answer(input)))
}
fn main() -> io::Result<()> {
    let words: Vec<String> = env::args().collect();
    match words[1].as_str() {
        #[cfg(feature = "file")] "file" => file::answer_all(&words[2], &words[3..]),
        #[cfg(feature = "file")] "serve-file" => file::serve(&words[2], &words[3], &words[4]),
        "exchange" => exchange(&words[2..]),
        "serve" => serve_after(&words[2], &words[3], &words[4..]),
        "check" => io::stdout().write_all(check(&words[2])?.as_bytes()),
        other => Err(io::Error::other(format!("no command {other}"))),
    }
}
