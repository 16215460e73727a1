//! The house: it listens on 127.0.0.1, hands each connection to a thread, of which there are only so many, and keeps the table behind
//! its lock.
//!
//! Nothing is stored, and no thread holds back the end: Ctrl-C (SIGINT, which is left as it is) ends the process with all of them.

pub mod dice;
pub mod events;
pub mod http;
pub mod line;
pub mod routes;
pub mod table;
pub mod times;

use http::{Reply, Request, Status};
use routes::Said;
use std::env;
use std::io::{self, ErrorKind, Read, Write};
use std::net::{Ipv4Addr, TcpListener, TcpStream};
use std::process::ExitCode;
use std::sync::atomic::{AtomicUsize, Ordering};
use std::sync::{Arc, Condvar, Mutex, MutexGuard, PoisonError};
use std::thread;
use std::time::{Duration, Instant};
use table::{Other, Table};

/// How many connections there may be; a page has one for its events, and others for a moment.
const CONNECTIONS: usize = 64;
/// How long a request may take to come.
const REQUEST: Duration = Duration::from_secs(5);
/// How long a reply may take to go.
const REPLY: Duration = Duration::from_secs(5);
/// A thread's stack: a question at the proved bound of depth takes 38,624 bytes at most.
const STACK: usize = 512 * 1024;

pub struct House {
    table: Mutex<Table>,
    news: Condvar,
    hint: Mutex<()>,
    connections: AtomicUsize,
}

impl House {
    pub fn new(seed: u64, other: Option<Other>) -> Self {
        Self {
            table: Mutex::new(Table::new(seed, other)),
            news: Condvar::new(),
            hint: Mutex::new(()),
            connections: AtomicUsize::new(0),
        }
    }

    /// The table's lock. Nobody leaves the table half changed, so it is good even if a thread ended while it held the lock.
    pub fn table(&self) -> MutexGuard<'_, Table> {
        self.table.lock().unwrap_or_else(PoisonError::into_inner)
    }

    /// Wakes the threads that write to the pages.
    pub fn changed(&self) {
        self.news.notify_all();
    }

    /// Held by whoever asks for a hint; none where somebody does.
    pub fn hint(&self) -> Option<MutexGuard<'_, ()>> {
        self.hint.try_lock().ok()
    }

    /// Takes connections until the process ends.
    pub fn listen(self: &Arc<Self>, listener: &TcpListener) {
        for stream in listener.incoming() {
            match stream {
                Ok(stream) => self.welcome(stream),
                // There may be no descriptor left: it is better to wait than to spin.
                Err(_) => thread::sleep(Duration::from_millis(50)),
            }
        }
    }

    /// Hands a connection to a thread of its own, or says that there are too many.
    fn welcome(self: &Arc<Self>, mut stream: TcpStream) {
        let place = Place::take(self);
        let _ = stream.set_nodelay(true);
        let _ = stream.set_write_timeout(Some(REPLY));
        let Some(place) = place else {
            let _ = stream.write_all(&Reply::bare(Status::Busy).to_bytes());
            return;
        };
        let serve = move || {
            // A connection that breaks is over; nobody is left to be told.
            let _ = place.0.serve(stream);
        };
        // Where no thread can be had, the connection is dropped, and its place with it.
        let _ = thread::Builder::new().stack_size(STACK).spawn(serve);
    }

    /// One connection: a request, and its reply or its events.
    fn serve(&self, mut stream: TcpStream) -> io::Result<()> {
        let request = match read(&mut stream)? {
            Ok(request) => request,
            Err(status) => return stream.write_all(&Reply::bare(status).to_bytes()),
        };
        match routes::answer(self, &request) {
            Said::Reply(reply) => stream.write_all(&reply.to_bytes()),
            Said::Events(number, greeting) => {
                let done = self.show(&mut stream, number, &greeting);
                self.table().leave(number);
                self.changed();
                done
            }
        }
    }

    /// Writes a page its events until it has gone.
    fn show(&self, stream: &mut TcpStream, number: u32, greeting: &str) -> io::Result<()> {
        stream.write_all(&http::stream_front())?;
        stream.write_all(greeting.as_bytes())?;
        let mut table = self.table();
        while let Some((text, rest)) = table.events(number, Instant::now()) {
            if text.is_empty() {
                let (woken, waited) = self
                    .news
                    .wait_timeout(table, rest)
                    .unwrap_or_else(PoisonError::into_inner);
                table = woken;
                if !waited.timed_out() || rest < Duration::from_secs(1) {
                    continue;
                }
            }
            drop(table);
            // A comment is a sign to nobody but to the connection.
            let text = if text.is_empty() { ":\n\n" } else { &text };
            stream.write_all(text.as_bytes())?;
            table = self.table();
        }
        Ok(())
    }
}

/// A place among the connections, free again when it is dropped.
struct Place(Arc<House>);

impl Place {
    fn take(house: &Arc<House>) -> Option<Self> {
        let place = Self(Arc::clone(house));
        let before = house.connections.fetch_add(1, Ordering::Relaxed);
        // Dropped again where there are too many.
        (before < CONNECTIONS).then_some(place)
    }
}

impl Drop for Place {
    fn drop(&mut self) {
        self.0.connections.fetch_sub(1, Ordering::Relaxed);
    }
}

/// Reads a request, in the time that it may take.
fn read(stream: &mut TcpStream) -> io::Result<Result<Request, Status>> {
    let end = Instant::now() + REQUEST;
    let (mut bytes, mut part) = (Vec::new(), [0; 1024]);
    loop {
        match http::parse(&bytes) {
            Ok(None) => {}
            Ok(Some(request)) => return Ok(Ok(request)),
            Err(status) => return Ok(Err(status)),
        }
        let left = end.saturating_duration_since(Instant::now());
        if left.is_zero() {
            return Ok(Err(Status::TooSlow));
        }
        stream.set_read_timeout(Some(left))?;
        match stream.read(&mut part) {
            Ok(0) => return Ok(Err(Status::BadRequest)),
            Ok(count) => bytes.extend_from_slice(part.get(..count).unwrap_or_default()),
            Err(error) if error.kind() == ErrorKind::Interrupted => {}
            Err(error) if matches!(error.kind(), ErrorKind::WouldBlock | ErrorKind::TimedOut) => {}
            Err(error) => return Err(error),
        }
    }
}

/// The program: `table [PORT] [SEED]`, with another referee beside this one or without.
pub fn main(other: Option<Other>) -> ExitCode {
    match arguments(env::args().skip(1)) {
        Some((port, seed)) => serve(port, seed, other),
        None => {
            eprintln!(
                "usage: table [PORT] [SEED]\n\nPORT 0, the default, is any that is free; SEED, 1 if not said, is the poor line's."
            );
            ExitCode::from(2)
        }
    }
}

fn arguments(mut words: impl Iterator<Item = String>) -> Option<(u16, u64)> {
    let port = words.next().map_or(Some(0), |word| word.parse().ok())?;
    let seed = words.next().map_or(Some(1), |word| word.parse().ok())?;
    words.next().is_none().then_some((port, seed))
}

/// Says where the table is, and serves until the process ends.
pub fn serve(port: u16, seed: u64, other: Option<Other>) -> ExitCode {
    let bound = TcpListener::bind((Ipv4Addr::LOCALHOST, port));
    let (address, listener) =
        match bound.and_then(|listener| Ok((listener.local_addr()?, listener))) {
            Ok(bound) => bound,
            Err(error) => {
                eprintln!("table: 127.0.0.1, port {port}: {error}");
                return ExitCode::FAILURE;
            }
        };
    let places = format!(
        "A table: http://{address}/\n  Black     http://{address}/?seat=black\n  White     http://{address}/?seat=white\n  \
         spectator http://{address}/?seat=watch\nCtrl-C ends it.\n"
    );
    // Who does not read it can't be told.
    let mut out = io::stdout();
    let _ = out.write_all(places.as_bytes()).and_then(|()| out.flush());
    Arc::new(House::new(seed, other)).listen(&listener);
    ExitCode::SUCCESS
}
