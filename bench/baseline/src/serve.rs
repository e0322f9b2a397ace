//! The baseline's server: many clients at once on one thread, by `epoll`, of each one request and its reply. It keeps the limits of
//! `bor serve`: 256 clients, ten seconds for a request, ten without a byte of its reply taken, 16,384 bytes of that a second in all,
//! one second and 16,777,216 bytes for what comes behind it.

use crate::asked::Progress;
use std::{io::{self, ErrorKind, Read, Write}, net::{Shutdown, TcpListener, TcpStream}, os::fd::AsRawFd, time::{Duration, Instant}};

const PLACES: usize = 256;
const PART: usize = 16_384;
const REST: usize = 16_777_216;
const PATIENCE: Duration = Duration::from_secs(10);
const FLOOR: u32 = 16_384;
const READABLE: u32 = 0x1;
const WRITABLE: u32 = 0x4;
const EDGE: u32 = 1 << 31;

#[repr(C, packed)] #[derive(Clone, Copy)] struct Event { events: u32, number: u64 }
extern "C" {
    fn epoll_create1(flags: i32) -> i32;
    fn epoll_ctl(epoll: i32, what: i32, file: i32, event: *mut Event) -> i32;
    fn epoll_wait(epoll: i32, events: *mut Event, most: i32, milliseconds: i32) -> i32;
}
fn told(status: i32) -> io::Result<i32> { if status < 0 { Err(io::Error::last_os_error()) } else { Ok(status) } }

enum Phase { Reading(Vec<u8>, Progress), Writing(Vec<u8>, usize, Instant), Draining(usize, bool) }
struct Client { stream: TcpStream, phase: Phase, until: Instant, idle: Instant }
struct Server<A> { epoll: i32, listener: TcpListener, clients: Vec<Option<Client>>, left: usize, part: Vec<u8>, answer: A }

/// Whether a reply may be written before its request is read to its end.
fn may_be_unread(reply: &[u8]) -> bool { matches!(&reply[9..12], b"400" | b"413" | b"431") }

impl Client {
    /// Reads, answers and writes until nothing more can be read or written; false once it is over.
    fn go_on(&mut self, now: Instant, part: &mut [u8], answer: &mut impl FnMut(&[u8]) -> Vec<u8>) -> bool {
        loop {
            match self.step(now, part, answer) {
                Ok(true) => self.idle = now,
                Ok(false) => return false,
                Err(error) if error.kind() == ErrorKind::Interrupted => {}
                Err(error) => return error.kind() == ErrorKind::WouldBlock,
            }
        }
    }
    fn step(&mut self, now: Instant, part: &mut [u8], answer: &mut impl FnMut(&[u8]) -> Vec<u8>) -> io::Result<bool> {
        match &mut self.phase {
            Phase::Reading(request, progress) => {
                let room = progress.wanted(request.len()).min(PART);
                let count = self.stream.read(&mut part[..room])?;
                request.extend_from_slice(&part[..count]);
                *progress = progress.after(request);
                if count > 0 && progress.wanted(request.len()) > 0 { return Ok(true); }
                let (reply, now) = (answer(request), Instant::now());
                (self.phase, self.until) = (Phase::Writing(reply, 0, now), now + PATIENCE);
            }
            Phase::Writing(reply, sent, since) => {
                let count = self.stream.write(&reply[*sent..])?;
                *sent += count;
                self.until = (Instant::now() + PATIENCE).min(*since + PATIENCE + Duration::from_secs(*sent as u64) / FLOOR);
                if count == 0 || *sent < reply.len() { return Ok(count > 0); }
                self.stream.shutdown(Shutdown::Write)?;
                (self.phase, self.until) = (Phase::Draining(REST, may_be_unread(reply)), now + PATIENCE / 10);
            }
            Phase::Draining(left, is_waited_for) => {
                let room = PART.min(*left);
                match self.stream.read(&mut part[..room]) {
                    Ok(count) => { *left -= count; return Ok(count > 0); }
                    Err(error) if *is_waited_for => return Err(error),
                    Err(_) => return Ok(false),
                }
            }
        }
        Ok(true)
    }
}

impl<A: FnMut(&[u8]) -> Vec<u8>> Server<A> {
    fn watch(&self, file: i32, number: usize, events: u32) -> io::Result<()> {
        told(unsafe { epoll_ctl(self.epoll, 1, file, &mut Event { events, number: number as u64 }) }).map(|_| ())
    }
    /// A free place; where there is none, that of the client that was idle for the longest.
    fn place(&mut self) -> usize {
        if let Some(free) = self.clients.iter().position(Option::is_none) { return free; }
        let idle = |at: &usize| self.clients[*at].as_ref().map(|client| client.idle);
        if self.clients.len() == PLACES { return (0..PLACES).min_by_key(idle).unwrap_or(0); }
        self.clients.push(None);
        self.clients.len() - 1
    }
    fn let_in(&mut self, now: Instant) -> io::Result<()> {
        while self.left > 0 {
            let accepted = self.listener.accept();
            if matches!(&accepted, Err(error) if error.kind() == ErrorKind::WouldBlock) { return Ok(()); }
            self.left -= 1;
            let Ok((stream, _)) = accepted else { continue };
            stream.set_nonblocking(true)?;
            let place = self.place();
            self.watch(stream.as_raw_fd(), place, READABLE | WRITABLE | EDGE)?;
            self.clients[place] = Some(Client { stream, phase: Phase::Reading(Vec::new(), Progress::Searched(0)), until: now + PATIENCE, idle: now });
        }
        Ok(())
    }
    /// Gives up whose time is over, and tells when the next one's is, in milliseconds.
    fn give_up(&mut self, now: Instant) -> i32 {
        for client in &mut self.clients { if client.as_ref().is_some_and(|client| client.until <= now) { *client = None; } }
        let now = Instant::now();
        self.clients.iter().flatten().map(|client| client.until.saturating_duration_since(now).as_millis() as i32 + 1).min().unwrap_or(-1)
    }
    fn run(&mut self) -> io::Result<()> {
        let mut events = [Event { events: 0, number: 0 }; PLACES];
        let mut wait = -1;
        while self.left > 0 || self.clients.iter().any(Option::is_some) {
            let count = match told(unsafe { epoll_wait(self.epoll, events.as_mut_ptr(), PLACES as i32, wait) }) {
                Err(error) if error.kind() == ErrorKind::Interrupted => continue,
                count => count?,
            };
            let now = Instant::now();
            for event in &events[..count as usize] {
                let number = event.number as usize;
                if number == PLACES { self.let_in(now)?; continue; }
                let is_over = self.clients[number].as_mut().is_some_and(|client| !client.go_on(now, &mut self.part, &mut self.answer));
                if is_over { self.clients[number] = None; }
            }
            wait = self.give_up(now);
        }
        Ok(())
    }
}
/// Serves so many connections of a port of 127.0.0.1, and tells first where it listens.
pub fn serve(port: u16, connections: usize, answer: impl FnMut(&[u8]) -> Vec<u8>) -> io::Result<()> {
    let listener = TcpListener::bind(("127.0.0.1", port))?;
    listener.set_nonblocking(true)?;
    let epoll = told(unsafe { epoll_create1(0) })?;
    let mut server = Server { epoll, listener, clients: Vec::new(), left: connections, part: vec![0; PART], answer };
    server.watch(server.listener.as_raw_fd(), PLACES, READABLE | EDGE)?;
    println!("listening {}", server.listener.local_addr()?);
    server.run()
}
