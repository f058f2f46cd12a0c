//! The work of `main.rt.in` in plain Rust, over std alone: the same steps in the same order, round one
//! `Mutex`. Prints what the Rattle program does.

#[path = "parts/book.rs"]
mod book;
#[path = "parts/config.rs"]
mod config;
#[path = "parts/credits.rs"]
mod credits;
#[path = "parts/entries.rs"]
mod entries;
#[path = "parts/holds.rs"]
mod holds;
#[path = "parts/http_messages.rs"]
mod messages;
#[path = "parts/journal.rs"]
mod journal;
#[path = "parts/packets.rs"]
#[allow(dead_code)]
mod packets;
#[path = "parts/sha256.rs"]
mod sha256;
#[path = "parts/tallies.rs"]
mod tallies;
#[path = "parts/worker.rs"]
mod worker;

use book::{Book, Outcome, PeerReply};
use config::lending;
use messages::{Examined, Fault, Fields, Pieces, ROOM, Request, look_at, read_request, write_response};
use packets::{Octets, Packet, Prepare, read, write_prepare};
use sha256::sha256;
use std::collections::HashMap;
use std::hint::black_box;
use std::io::Read;
use std::sync::Mutex;
use std::time::Instant;
use worker::{FULFILL, Fulfilling, NEW_YEAR, Still, Worker};

// How many packets a desk takes.
const PACKETS: u32 = 16;

// More octets than a message here has.
const WHOLE: usize = 1024;

// The SHA-256 digest of 32 zero octets.
const CONDITION: [u8; 32] =
    *b"\x66\x68\x7a\xad\xf8\x62\xbd\x77\x6c\x8f\xc1\x8b\x8e\x9f\x8e\x20\x08\x97\x14\x85\x6e\xe2\x33\xb3\x90\x2a\x59\x1d\x0d\x5f\x29\x25";

// A request whose body is a Prepare of 100 to test.bob without data, which expires 30 seconds after
// the new year. The amount's last two octets stand at 90.
const REQUEST: [u8; 151] =
    *b"POST /ilp HTTP/1.1\r\nHost: h\r\nAuthorization: Bearer a-token\r\nContent-Length: 69\r\n\r\n\x0c\x43\0\0\0\0\0\0\0\x6420250101000030000\x66\x68\x7a\xad\xf8\x62\xbd\x77\x6c\x8f\xc1\x8b\x8e\x9f\x8e\x20\x08\x97\x14\x85\x6e\xe2\x33\xb3\x90\x2a\x59\x1d\x0d\x5f\x29\x25\x08test.bob\0";

const ALICE: u32 = 0;

// ---- a server

// What requests are looked up in, which needs no lock.
struct Endpoint {
    path: Vec<u8>,
    tokens: HashMap<Vec<u8>, u32>,
}

impl Endpoint {
    fn new() -> Endpoint {
        let tokens = [(b"a-token".to_vec(), 0), (b"b-token".to_vec(), 1)].into();
        Endpoint { path: b"/ilp".to_vec(), tokens }
    }

    // The peer whose token the one Authorization field shows.
    fn sender_of(&self, headers: &Fields) -> Option<u32> {
        let values = headers.get(b"authorization".as_slice())?;
        let [value] = values.as_slice() else { return None };
        let (scheme, token) = value.split_at_checked(b"bearer ".len())?;
        if !scheme.eq_ignore_ascii_case(b"bearer ") {
            return None;
        }
        self.tokens.get(token).copied()
    }
}

struct Desk {
    endpoint: Endpoint,
    book: Mutex<Book>,
}

impl Desk {
    fn new() -> Desk {
        Desk { endpoint: Endpoint::new(), book: Mutex::new(Book::new(lending())) }
    }
}

type Wired = Worker<Still, Fulfilling>;

#[derive(Clone, Copy, PartialEq, Eq)]
enum Handled {
    Done(u16),
    Fault,
}

fn answer_connection(
    worker: &mut Wired,
    desk: &Desk,
    source: &mut Pieces,
    sink: &mut Vec<u8>,
    buffer: &mut [u8],
) -> Handled {
    let status = match read_request(source, buffer) {
        Ok(request) => serve(worker, desk, &request),
        Err(Fault::TooManyReads) => return Handled::Fault,
        Err(Fault::BadRequest) => 400,
        Err(Fault::MethodNotAllowed) => 405,
        Err(Fault::LengthRequired) => 411,
        Err(Fault::ContentTooLarge) => 413,
        Err(Fault::FieldsTooLarge) => 431,
    };
    if status == 200 {
        write_response(sink, worker.reply());
    } else {
        write_refusal(sink, status);
    }
    Handled::Done(status)
}

// The status by which a request is answered, whose packet is forwarded if it carries one.
fn serve(worker: &mut Wired, desk: &Desk, request: &Request<'_>) -> u16 {
    if request.path != desk.endpoint.path {
        return 404;
    }
    let Some(peer) = desk.endpoint.sender_of(&request.headers) else {
        return 401;
    };
    match worker.forward(&desk.book, peer, request.body) {
        Ok(()) => 200,
        Err(_) => 400,
    }
}

fn write_refusal(out: &mut Vec<u8>, status: u16) {
    out.extend_from_slice(b"HTTP/1.1 ");
    out.extend_from_slice(status.to_string().as_bytes());
    out.extend_from_slice(b" \r\nContent-Length: 0\r\nConnection: close\r\n\r\n");
}

// ---- turns

struct Done {
    nanoseconds: u128,
    sum: u64,
}

struct Room {
    buffer: Vec<u8>,
    sink: Vec<u8>,
    outgoing: Octets,
}

fn amount_of(turn: u32) -> u16 {
    100 + (turn % 1_000) as u16
}

fn request_of(turn: u32) -> [u8; 151] {
    let mut request = REQUEST;
    request[90..92].copy_from_slice(&amount_of(turn).to_be_bytes());
    black_box(request)
}

fn octet_of(octets: &[u8], turn: u32) -> u64 {
    let front = octets.len().min(turn as usize % WHOLE);
    u64::from(octets[..front].last().copied().unwrap_or(0))
}

// ---- parts that need no desk

fn look_at_one(turn: u32) -> u64 {
    let request = request_of(turn);
    match look_at(&request) {
        Examined::Whole => u64::from(amount_of(turn)),
        Examined::Unfinished | Examined::Refused => panic!("no request"),
    }
}

fn read_one(room: &mut Room, turn: u32) -> u64 {
    let octets = request_of(turn);
    let mut source = Pieces { rest: &octets, piece: WHOLE };
    let Ok(request) = read_request(&mut source, &mut room.buffer) else { panic!("no request") };
    let fields: usize = request.headers.values().map(Vec::len).sum();
    fields as u64 + octet_of(request.body, turn)
}

fn find_one(endpoint: &Endpoint, room: &mut Room, turn: u32) -> u64 {
    let octets = request_of(turn);
    let mut source = Pieces { rest: &octets, piece: WHOLE };
    let Ok(request) = read_request(&mut source, &mut room.buffer) else { panic!("no request") };
    assert!(request.path == endpoint.path);
    let sender = endpoint.sender_of(&request.headers).expect("a sender");
    u64::from(sender) + octet_of(request.body, turn)
}

fn pass_one(room: &mut Room, turn: u32) -> u64 {
    let request = request_of(turn);
    let Ok(Packet::Prepare(prepare)) = read(&request[82..]) else { panic!("no Prepare") };
    room.outgoing.clear();
    write_prepare(&mut room.outgoing, &prepare);
    let fulfill = black_box(FULFILL);
    let Ok(Packet::Fulfill(fulfill)) = read(&fulfill) else { panic!("no Fulfill") };
    u64::from(fulfill.preimage[31]) + octet_of(room.outgoing.as_slice(), turn)
}

fn digest_one(turn: u32) -> u64 {
    let mut preimage = [0; 32];
    preimage[0..2].copy_from_slice(&amount_of(turn).to_be_bytes());
    let one = sha256(black_box(&preimage));
    preimage[2] = 1;
    let other = sha256(black_box(&preimage));
    u64::from(one[31]) + u64::from(other[31])
}

fn respond_one(room: &mut Room, turn: u32) -> u64 {
    let mut fulfill = FULFILL;
    fulfill[32..34].copy_from_slice(&amount_of(turn).to_be_bytes());
    room.sink.clear();
    write_response(&mut room.sink, black_box(&fulfill));
    octet_of(&room.sink, turn)
}

fn run_part(room: &mut Room, turns: u32, part: impl Fn(&mut Room, u32) -> u64) -> Done {
    let begun = Instant::now();
    let mut sum = 0u64;
    for turn in 0..turns {
        sum = sum.wrapping_add(part(room, turn));
    }
    Done { nanoseconds: begun.elapsed().as_nanos(), sum }
}

// ---- turns at a desk

fn lock_all(desk: &Desk, _room: &mut Room, turns: u32) -> Done {
    let begun = Instant::now();
    let mut sum = 0u64;
    for turn in 0..turns {
        drop(black_box(desk.book.lock().unwrap()));
        drop(black_box(desk.book.lock().unwrap()));
        sum = sum.wrapping_add(u64::from(amount_of(turn)));
    }
    Done { nanoseconds: begun.elapsed().as_nanos(), sum }
}

fn book_all(desk: &Desk, _room: &mut Room, turns: u32) -> Done {
    let begun = Instant::now();
    let mut sum = 0u64;
    for turn in 0..turns {
        let amount = u64::from(amount_of(turn));
        if book_one(desk, amount) {
            sum = sum.wrapping_add(amount);
        }
    }
    Done { nanoseconds: begun.elapsed().as_nanos(), sum }
}

fn book_one(desk: &Desk, amount: u64) -> bool {
    let prepare = black_box(Prepare {
        amount,
        expires: NEW_YEAR + 30_000,
        condition: &CONDITION,
        destination: b"test.bob",
        payload: b"",
    });
    let Ok(held) = desk.book.lock().unwrap().hold(0, ALICE, &prepare, NEW_YEAR) else {
        return false;
    };
    let reply = PeerReply::Fulfill(black_box([0; 32]));
    let outcome = desk.book.lock().unwrap().answer(0, held.number, reply, NEW_YEAR);
    matches!(outcome, Ok(Outcome::Fulfilled { .. }))
}

fn forward_all(desk: &Desk, _room: &mut Room, turns: u32) -> Done {
    let mut worker = Worker::new(0, Still, Fulfilling);
    let begun = Instant::now();
    let mut sum = 0u64;
    for turn in 0..turns {
        let request = request_of(turn);
        assert!(worker.forward(&desk.book, ALICE, &request[82..]).is_ok());
        let reply = u64::from(worker.reply()[0]);
        sum = sum.wrapping_add(reply + octet_of(worker.reply(), turn));
    }
    let nanoseconds = begun.elapsed().as_nanos();
    assert_eq!(worker.entries, 2 * turns);
    Done { nanoseconds, sum }
}

fn answer_all(desk: &Desk, room: &mut Room, turns: u32) -> Done {
    let mut worker = Worker::new(0, Still, Fulfilling);
    let begun = Instant::now();
    let mut sum = 0u64;
    for turn in 0..turns {
        let request = request_of(turn);
        let mut source = Pieces { rest: &request, piece: WHOLE };
        room.sink.clear();
        let handled =
            answer_connection(&mut worker, desk, &mut source, &mut room.sink, &mut room.buffer);
        assert!(handled == Handled::Done(200));
        sum = sum.wrapping_add(octet_of(&room.sink, turn));
    }
    let nanoseconds = begun.elapsed().as_nanos();
    assert_eq!(worker.entries, 2 * turns);
    Done { nanoseconds, sum }
}

// ---- desks

fn run_desks(
    room: &mut Room,
    turns: u32,
    desks: u32,
    work: impl Fn(&Desk, &mut Room, u32) -> Done,
) -> Done {
    let mut whole = Done { nanoseconds: 0, sum: 0 };
    let mut left = turns;
    for _desk in 0..desks {
        let now = left.min(PACKETS);
        let desk = black_box(Desk::new());
        let done = work(&desk, room, now);
        whole.nanoseconds += done.nanoseconds;
        whole.sum = whole.sum.wrapping_add(done.sum);
        left -= now;
    }
    assert_eq!(left, 0);
    whole
}

// ---- rows

fn main() {
    let mut text = String::new();
    std::io::stdin().read_to_string(&mut text).expect("standard input");
    for line in text.lines() {
        let words: Vec<&str> = line.split(' ').collect();
        let [name, turns, desks] = words[..] else { continue };
        let turns: u32 = black_box(turns.parse().expect("turns"));
        let desks: u32 = desks.parse().expect("desks");
        let mut room =
            Room { buffer: vec![0; ROOM], sink: Vec::new(), outgoing: Octets::with_capacity(0) };
        let endpoint = black_box(Endpoint::new());
        let done = match name {
            "head" => run_part(&mut room, turns, |_, turn| look_at_one(turn)),
            "request" => run_part(&mut room, turns, read_one),
            "request_and_sender" => {
                run_part(&mut room, turns, |room, turn| find_one(&endpoint, room, turn))
            }
            "packet" => run_part(&mut room, turns, pass_one),
            "digests" => run_part(&mut room, turns, |_, turn| digest_one(turn)),
            "response" => run_part(&mut room, turns, respond_one),
            "locks" => run_desks(&mut room, turns, desks, lock_all),
            "book" => run_desks(&mut room, turns, desks, book_all),
            "forward" => run_desks(&mut room, turns, desks, forward_all),
            "answer" => run_desks(&mut room, turns, desks, answer_all),
            _ => continue,
        };
        println!("{name} {turns} {} {}", done.nanoseconds, done.sum);
    }
}
