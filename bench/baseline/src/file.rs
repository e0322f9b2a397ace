//! The baseline over a file: lodgings into the tables of a register that is there, through SQLite's own library in C, each in one
//! transaction that is flushed; lists of filings and files from them. Each statement of SQL is prepared once. It refuses what the
//! register does, but answers no other request.

use super::*;
use std::{ffi::{c_char, c_int, c_void, CString}, ops::Range, ptr, slice};

type Handle = *mut c_void;
#[link(name = "sqlite3")]
extern "C" {
    fn sqlite3_open(path: *const c_char, db: *mut Handle) -> c_int;
    fn sqlite3_close(db: Handle) -> c_int;
    fn sqlite3_prepare_v2(db: Handle, text: *const u8, size: c_int, made: *mut Handle, rest: Handle) -> c_int;
    fn sqlite3_bind_text(query: Handle, at: c_int, bytes: *const u8, size: c_int, free: Handle) -> c_int;
    fn sqlite3_bind_blob(query: Handle, at: c_int, bytes: *const u8, size: c_int, free: Handle) -> c_int;
    fn sqlite3_bind_int64(query: Handle, at: c_int, number: i64) -> c_int;
    fn sqlite3_bind_null(query: Handle, at: c_int) -> c_int;
    fn sqlite3_step(query: Handle) -> c_int;
    fn sqlite3_reset(query: Handle) -> c_int;
    fn sqlite3_finalize(query: Handle) -> c_int;
    fn sqlite3_column_int64(query: Handle, at: c_int) -> i64;
    fn sqlite3_column_text(query: Handle, at: c_int) -> *const u8;
    fn sqlite3_column_blob(query: Handle, at: c_int) -> *const u8;
    fn sqlite3_column_bytes(query: Handle, at: c_int) -> c_int;
}
const ROW: c_int = 100;
const DONE: c_int = 101;

enum Cell<'a> { Text(&'a str), Bytes(&'a [u8]), Number(i64), Null }
use Cell::{Bytes, Null, Number, Text};
fn maybe(text: &Option<String>) -> Cell<'_> { text.as_ref().map_or(Null, |text| Text(text)) }

struct Query(Handle);
impl Query {
    fn new(db: Handle, text: &str) -> Query {
        let mut made = ptr::null_mut();
        let status = unsafe { sqlite3_prepare_v2(db, text.as_ptr(), text.len() as c_int, &mut made, ptr::null_mut()) };
        assert_eq!(status, 0, "{text}");
        Query(made)
    }
    fn bind(&self, cells: &[Cell]) {
        for (at, cell) in (1..).zip(cells) {
            unsafe { match cell {
                Text(text) => sqlite3_bind_text(self.0, at, text.as_ptr(), text.len() as c_int, ptr::null_mut()),
                Bytes(bytes) => sqlite3_bind_blob(self.0, at, bytes.as_ptr(), bytes.len() as c_int, ptr::null_mut()),
                Number(number) => sqlite3_bind_int64(self.0, at, *number),
                Null => sqlite3_bind_null(self.0, at),
            } };
        }
    }
    /// Goes on to the next row, if there is one.
    fn next(&self) -> bool {
        let status = unsafe { sqlite3_step(self.0) };
        assert!(status == ROW || status == DONE, "SQLite tells {status}");
        status == ROW
    }
    /// Runs it, and tells what each row has.
    fn all<T>(&self, cells: &[Cell], told: impl Fn(&Query) -> T) -> Vec<T> {
        self.bind(cells);
        let mut found = Vec::new();
        while self.next() { found.push(told(self)); }
        unsafe { sqlite3_reset(self.0) };
        found
    }
    /// Runs it, and tells what the first row has, if there is one.
    fn first<T>(&self, cells: &[Cell], told: impl Fn(&Query) -> T) -> Option<T> {
        self.bind(cells);
        let told = self.next().then(|| told(self));
        unsafe { sqlite3_reset(self.0) };
        told
    }
    fn run(&self, cells: &[Cell]) { self.first(cells, |_| ()); }
    fn number(&self, at: c_int) -> i64 { unsafe { sqlite3_column_int64(self.0, at) } }
    fn text(&self, at: c_int) -> String {
        let bytes = unsafe { slice::from_raw_parts(sqlite3_column_text(self.0, at), sqlite3_column_bytes(self.0, at) as usize) };
        String::from_utf8_lossy(bytes).to_string()
    }
    fn blob(&self, at: c_int) -> Vec<u8> {
        unsafe { slice::from_raw_parts(sqlite3_column_blob(self.0, at), sqlite3_column_bytes(self.0, at) as usize) }.to_vec()
    }
}

// Days since 1970-01-01, and back.
fn number(day: &str) -> i64 {
    let part = |at: Range<usize>| day[at].parse::<i64>().unwrap_or(0);
    let (month, day) = (part(5..7), part(8..10));
    let year = part(0..4) - i64::from(month <= 2);
    let (era, of_era) = (year.div_euclid(400), year.rem_euclid(400));
    era * 146_097 + of_era * 365 + of_era / 4 - of_era / 100 + (153 * ((month + 9) % 12) + 2) / 5 + day - 719_469
}
fn text_of(number: i64) -> String {
    let (era, day) = ((number + 719_468).div_euclid(146_097), (number + 719_468).rem_euclid(146_097));
    let year = (day - day / 1_460 + day / 36_524 - day / 146_096) / 365;
    let rest = day - (365 * year + year / 4 - year / 100);
    let month = (5 * rest + 2) / 153;
    let (day, month) = (rest - (153 * month + 2) / 5 + 1, (month + 2) % 12 + 1);
    format!("{:04}-{month:02}-{day:02}", year + era * 400 + i64::from(month <= 2))
}

struct Db {
    db: Handle, begin: Query, commit: Query, agent: Query, day: Query, line: Query, count: Query, id: Query, last: Query,
    filing: Query, statement: Query, interest: Query, identifier: Query, period: Query, registrar: Query, lines: Query, bytes: Query,
}
impl Db {
    fn open(path: &str) -> Db {
        let (mut db, path) = (ptr::null_mut(), CString::new(path).unwrap());
        assert_eq!(unsafe { sqlite3_open(path.as_ptr(), &mut db) }, 0);
        for text in ["PRAGMA locking_mode = EXCLUSIVE", "PRAGMA journal_mode = WAL", "PRAGMA synchronous = FULL", "PRAGMA foreign_keys = ON"] {
            let query = Query::new(db, text);
            query.run(&[]);
            unsafe { sqlite3_finalize(query.0) };
        }
        let query = |text| Query::new(db, text);
        Db {
            db, begin: query("BEGIN IMMEDIATE"), commit: query("COMMIT"),
            agent: query("SELECT name FROM agent WHERE token = ?1"), day: query("SELECT day FROM register WHERE one = 1"),
            line: query("SELECT number, due, withdrawn, bytes = ?3 FROM filing WHERE agent = ?1 AND lodge_key = ?2"),
            count: query("SELECT number FROM filing WHERE agent = ?1 ORDER BY number DESC LIMIT 1"),
            id: query("SELECT 1 FROM statement WHERE agent = ?1 AND id = ?2"),
            last: query("SELECT kind, status, day, (SELECT due FROM filing WHERE filing.agent = statement.agent AND number = filing) FROM statement
                WHERE agent = ?1 AND declaration = ?2 AND rec = ?3 ORDER BY filing DESC, place DESC LIMIT 1"),
            filing: query("INSERT INTO filing (agent, number, lodge_key, due, withdrawn, bytes) VALUES (?1, ?2, ?3, ?4, 0, ?5)"),
            statement: query("INSERT INTO statement (agent, filing, place, id, day, declaration, rec, kind, status, sub_kind, name, subject, party)
                VALUES (?1, ?2, ?3, ?4, ?5, ?6, ?7, ?8, ?9, ?10, ?11, ?12, ?13)"),
            interest: query("INSERT INTO interest (agent, filing, place, item, kind, directness, low, low_open, high, high_open)
                VALUES (?1, ?2, ?3, ?4, ?5, ?6, ?7, ?8, ?9, ?10)"),
            identifier: query("INSERT INTO identifier (agent, filing, place, item, scheme, id) VALUES (?1, ?2, ?3, ?4, ?5, ?6)"),
            period: query("INSERT INTO period (agent, filing, place, item, starts, ends) VALUES (?1, ?2, ?3, ?4, ?5, ?6)"),
            registrar: query("SELECT 1 FROM register WHERE registrar = ?1"),
            lines: query("SELECT number, lodge_key, due, withdrawn FROM filing WHERE agent = ?1 ORDER BY agent, number"),
            bytes: query("SELECT bytes FROM filing WHERE agent = ?1 AND lodge_key = ?2"),
        }
    }
    fn close(self) {
        let asked = [self.begin, self.commit, self.agent, self.day, self.line, self.count, self.id, self.last, self.lines, self.bytes, self.registrar];
        let added = [self.filing, self.statement, self.interest, self.identifier, self.period];
        for query in asked.into_iter().chain(added) { unsafe { sqlite3_finalize(query.0) }; }
        assert_eq!(unsafe { sqlite3_close(self.db) }, 0);
    }
    fn last_of(&self, agent: &str, (declaration, record): &Series) -> Option<Last> {
        let word = |text: String, words| read::worded(&text, words).unwrap_or("");
        let told = |row: &Query| (word(row.text(0), &read::TYPES), word(row.text(1), &read::STATUSES), text_of(row.number(2)), text_of(row.number(3)));
        self.last.first(&[Text(agent), Text(declaration), Text(record)], told)
    }
    fn add(&self, agent: &str, filing: i64, place: i64, s: &Statement) {
        let (sub_kind, name, subject, party) = match &s.details {
            Details::Entity { kind, name, .. } | Details::Person { kind, name } => (Text(kind), name, &None, &None),
            Details::Relationship { subject, interested_party, .. } => (Null, &None, subject, interested_party),
        };
        self.statement.run(&[Text(agent), Number(filing), Number(place), Text(&s.id), Number(number(&s.date)), Text(&s.declaration), Text(&s.record),
            Text(&s.kind), Text(&s.status), sub_kind, maybe(name), maybe(subject), maybe(party)]);
        let at = |item| [Text(agent), Number(filing), Number(place), Number(item)];
        match &s.details {
            Details::Entity { identifiers, .. } => for (item, it) in (1..).zip(identifiers) {
                self.identifier.run(&at(item).into_iter().chain([Text(&it.scheme), Text(&it.id)]).collect::<Vec<_>>());
            },
            Details::Relationship { interests, .. } => for (item, it) in (1..).zip(interests) {
                let share = it.share.as_ref().map_or([Null, Null, Null, Null], |s| [s.low, s.low_open.into(), s.high, s.high_open.into()].map(|n: u64| Number(n as i64)));
                self.interest.run(&at(item).into_iter().chain([Text(it.kind), Text(it.directness)]).chain(share).collect::<Vec<_>>());
                let day = |day: &Option<String>| day.as_ref().map_or(Null, |day| Number(number(day)));
                if it.starts.is_some() || it.ends.is_some() { self.period.run(&at(item).into_iter().chain([day(&it.starts), day(&it.ends)]).collect::<Vec<_>>()); }
            },
            _ => {}
        }
    }
    fn today(&self) -> String { self.day.first(&[], |row| row.number(0)).map_or(String::new(), text_of) }
    fn filings(&self, agent: &str) -> Reply {
        let day = self.today();
        let filing = |row: &Query| Filing { key: row.text(1), due: text_of(row.number(2)), withdrawn: row.number(3) == 1, bytes: Vec::new(), statements: Vec::new() };
        let rows = self.lines.all(&[Text(agent)], |row| (row.number(0) as usize, filing(row)));
        json(200, &rows.iter().map(|(number, filing)| filing.line(*number, &day, true)).collect::<Vec<_>>())
    }
    fn lodge(&self, agent: &str, key: &str, due: &str, body: &[u8]) -> Reply {
        let day = self.today();
        let line = |status, filing| json(status, &Line { due, filing, key: None, state: if due <= day.as_str() { "published" } else { "draft" } });
        if let Some((number, same)) = self.line.first(&[Text(agent), Text(key), Bytes(body)], |row| (row.number(0), row.number(3) == 1 && row.number(1) == number(due))) {
            return if same { line(200, number as usize) } else { No(no(409, "KeyReused")) };
        }
        let count = self.count.first(&[Text(agent)], |row| row.number(0)).unwrap_or(0);
        if count as usize >= FILINGS_LIMIT { return No(no(409, "FilingsFull")); }
        if due < day.as_str() { return No(no(422, "DuePast")); }
        let mut statements = match read::read(body) { Ok(statements) => statements, Err(refusal) => return No(refusal) };
        let has_id = |id: &str| self.id.first(&[Text(agent), Text(id)], |_| ()).is_some();
        if let Err(refusal) = settle(due, &mut statements, has_id, |series| self.last_of(agent, series)) { return No(refusal); }
        self.begin.run(&[]);
        self.filing.run(&[Text(agent), Number(count + 1), Text(key), Number(number(due)), Bytes(body)]);
        for (place, s) in (1..).zip(&statements) { self.add(agent, count + 1, place, s); }
        self.commit.run(&[]);
        line(201, count as usize + 1)
    }
    fn answer(&self, input: &[u8]) -> Reply {
        let asking = match asked::spelled(input) { Ok(asking) => asking, Err(refusal) => return No(refusal) };
        let agent = self.agent.first(&[Text(asking.token)], |row| row.text(0));
        match (agent, asking.request) {
            (Some(agent), Request::Lodge(key, due, body)) => self.lodge(&agent, key, &due, body),
            (Some(agent), Request::Filings) => self.filings(&agent),
            (Some(agent), Request::File(key)) => self.bytes.first(&[Text(&agent), Text(key)], |row| row.blob(0)).map_or(No(no(404, "NoSuchFiling")), |bytes| Yes(200, bytes)),
            (Some(_), _) => No(no(404, "NoPath")),
            _ if self.registrar.first(&[Text(asking.token)], |_| ()).is_some() => No(no(403, "NotAgent")),
            _ => No(no(401, "NoAgent")),
        }
    }
}
/// Answers the requests in these files, over the register in a file, and writes the replies.
pub fn answer_all(path: &str, files: &[String]) -> io::Result<()> {
    let db = Db::open(path);
    let mut replies = Vec::new();
    for file in files { replies.extend(bytes_of(db.answer(&fs::read(file)?))); }
    db.close();
    io::stdout().write_all(&replies)
}
/// Serves so many connections of a port over the register in a file.
pub fn serve(path: &str, port: &str, connections: &str) -> io::Result<()> {
    let db = Db::open(path);
    serve::serve(port.parse().unwrap_or(0), connections.parse().unwrap_or(0), |input| bytes_of(db.answer(input)))?;
    db.close();
    Ok(())
}
