//! A connector in plain Rust, over std alone: a pool of threads, each of which accepts a connection,
//! answers its one request, and asks the next peer over a connection of its own. Its book, its messages
//! and its packets are those of the other baselines.
//!
//!     serve PORT BOB_PORT WORKERS JOURNAL

#[path = "parts/book.rs"]
#[allow(dead_code)]
mod book;
#[path = "parts/config.rs"]
mod config;
#[path = "parts/credits.rs"]
#[allow(dead_code)]
mod credits;
#[path = "parts/entries.rs"]
#[allow(dead_code)]
mod entries;
#[path = "parts/holds.rs"]
#[allow(dead_code)]
mod holds;
#[path = "parts/http_messages.rs"]
#[allow(dead_code)]
mod messages;
#[path = "parts/journal.rs"]
#[allow(dead_code)]
mod journal;
#[path = "parts/packets.rs"]
#[allow(dead_code)]
mod packets;
#[path = "parts/sha256.rs"]
mod sha256;
#[path = "parts/tallies.rs"]
#[allow(dead_code)]
mod tallies;
#[path = "parts/worker.rs"]
#[allow(dead_code)]
mod worker;

use book::Book;
use config::lending;
use messages::{Fields, ROOM, Request, Source, read_request, write_response};
use packets::Octets;
use std::collections::HashMap;
use std::io::{Read, Write};
use std::net::{SocketAddr, TcpListener, TcpStream};
use std::sync::{Arc, Mutex};
use std::thread;
use std::time::{Duration, SystemTime, UNIX_EPOCH};
use worker::{Clock, LinkFault, Uplink, Worker};

// How long a request may take to come, and its response to go.
const ALLOWANCE: Duration = Duration::from_secs(10);

// ---- links

struct SystemClock;

impl Clock for SystemClock {
    fn now(&mut self) -> i64 {
        let since = SystemTime::now().duration_since(UNIX_EPOCH).expect("a time after 1970");
        i64::try_from(since.as_millis()).expect("milliseconds")
    }
}

struct PeerLink {
    place: SocketAddr,
    request: Vec<u8>,
    response: Vec<u8>,
}

impl PeerLink {
    fn new(place: SocketAddr) -> PeerLink {
        PeerLink { place, request: Vec::new(), response: vec![0; ROOM] }
    }

    fn put_request(&mut self, packet: &[u8]) {
        self.request.clear();
        write!(
            self.request,
            "POST /ilp HTTP/1.1\r\nHost: {}\r\nContent-Type: application/octet-stream\r\nContent-Length: {}\r\nAuthorization: Bearer to-bob\r\nConnection: close\r\n\r\n",
            self.place,
            packet.len()
        )
        .expect("memory");
        self.request.extend_from_slice(packet);
    }

    // All that the peer sends.
    fn exchange(&mut self, deadline: i64) -> std::io::Result<usize> {
        let left = u64::try_from(deadline - SystemClock.now()).unwrap_or(0).max(1);
        let left = Duration::from_millis(left);
        let mut stream = TcpStream::connect_timeout(&self.place, left.min(Duration::from_secs(1)))?;
        stream.set_nodelay(true)?;
        stream.set_write_timeout(Some(left))?;
        stream.set_read_timeout(Some(left))?;
        stream.write_all(&self.request)?;
        let mut filled = 0;
        while body_of(&self.response[..filled]).is_none() {
            let count = stream.read(&mut self.response[filled..])?;
            if count == 0 {
                break;
            }
            filled += count;
        }
        Ok(filled)
    }
}

// The body of a whole response with the status 200.
fn body_of(response: &[u8]) -> Option<&[u8]> {
    let head = response.windows(4).position(|four| four == b"\r\n\r\n")?;
    let text = std::str::from_utf8(&response[..head]).ok()?;
    let mut lines = text.split("\r\n");
    if lines.next()?.split(' ').nth(1)? != "200" {
        return None;
    }
    for line in lines {
        let (name, value) = line.split_once(':')?;
        if name.eq_ignore_ascii_case("content-length") {
            let length: usize = value.trim().parse().ok()?;
            return response.get(head + 4..head + 4 + length);
        }
    }
    None
}

impl Uplink for PeerLink {
    fn send(
        &mut self,
        _to: u32,
        packet: &[u8],
        deadline: i64,
        reply: &mut Octets,
    ) -> Result<(), LinkFault> {
        self.put_request(packet);
        let filled = self.exchange(deadline).map_err(|_| LinkFault)?;
        let body = body_of(&self.response[..filled]).ok_or(LinkFault)?;
        reply.reserve(body.len());
        reply.append(body);
        Ok(())
    }
}

// ---- a server

struct Desk {
    tokens: HashMap<Vec<u8>, u32>,
    book: Mutex<Book>,
}

impl Desk {
    fn new(journal: u32) -> Desk {
        let mut config = lending();
        config.journal = journal;
        let tokens = [(b"a-token".to_vec(), 0), (b"b-token".to_vec(), 1)].into();
        Desk { tokens, book: Mutex::new(Book::new(config)) }
    }

    // The peer whose token the one Authorization field shows.
    fn sender_of(&self, headers: &Fields) -> Option<u32> {
        let values = headers.get(b"authorization".as_slice())?;
        let [value] = values.as_slice() else { return None };
        let (scheme, token) = value.split_at_checked(b"bearer ".len())?;
        if !scheme.eq_ignore_ascii_case(b"bearer ") {
            return None;
        }
        self.tokens.get(token).copied()
    }
}

struct Incoming(TcpStream);

impl Source for Incoming {
    fn pull(&mut self, room: &mut [u8]) -> usize {
        self.0.read(room).unwrap_or(0)
    }
}

fn serve(desk: &Desk, worker: &mut Worker<SystemClock, PeerLink>, request: &Request<'_>) -> u16 {
    if request.path != b"/ilp" {
        return 404;
    }
    let Some(peer) = desk.sender_of(&request.headers) else {
        return 401;
    };
    match worker.forward(&desk.book, peer, request.body) {
        Ok(()) => 200,
        Err(_) => 400,
    }
}

fn answer(
    desk: &Desk,
    worker: &mut Worker<SystemClock, PeerLink>,
    stream: TcpStream,
    buffer: &mut [u8],
    response: &mut Vec<u8>,
) -> std::io::Result<()> {
    stream.set_nodelay(true)?;
    stream.set_read_timeout(Some(ALLOWANCE))?;
    stream.set_write_timeout(Some(ALLOWANCE))?;
    let mut incoming = Incoming(stream);
    let status = match read_request(&mut incoming, buffer) {
        Ok(request) => serve(desk, worker, &request),
        Err(_) => 400,
    };
    response.clear();
    if status == 200 {
        write_response(response, worker.reply());
    } else {
        write!(response, "HTTP/1.1 {status} \r\nContent-Length: 0\r\nConnection: close\r\n\r\n")?;
    }
    incoming.0.write_all(response)
}

fn main() {
    let numbers: Vec<u32> =
        std::env::args().skip(1).map(|word| word.parse().expect("a number")).collect();
    let [port, bob, workers, journal] = numbers[..] else {
        panic!("usage: serve PORT BOB_PORT WORKERS JOURNAL");
    };
    let place = |port: u32| SocketAddr::from(([127, 0, 0, 1], port as u16));
    let listener = Arc::new(TcpListener::bind(place(port)).expect("a port"));
    let desk = Arc::new(Desk::new(journal));
    let threads: Vec<_> = (0..workers)
        .map(|actor| {
            let (listener, desk) = (listener.clone(), desk.clone());
            thread::spawn(move || {
                let mut worker = Worker::new(actor, SystemClock, PeerLink::new(place(bob)));
                let (mut buffer, mut response) = (vec![0; ROOM], Vec::new());
                for stream in listener.incoming().flatten() {
                    let _ = answer(&desk, &mut worker, stream, &mut buffer, &mut response);
                }
            })
        })
        .collect();
    for thread in threads {
        thread.join().expect("a thread");
    }
}
