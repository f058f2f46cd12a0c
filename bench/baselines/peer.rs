//! A peer that fulfills each packet that it is posted, after a delay. Any number of answers wait at once.
//!
//!     peer PORT DELAY_MS THREADS
//!
//! So many threads accept connections and read their requests. Behind each of them another sends the
//! answers, which are due in the order in which the requests came, since all wait equally long. A GET is
//! answered at once by how many packets were answered so far.

use std::io::{Read, Write};
use std::net::{TcpListener, TcpStream};
use std::os::fd::AsRawFd;
use std::sync::Arc;
use std::sync::atomic::{AtomicU64, Ordering};
use std::sync::mpsc::{Receiver, Sender, channel};
use std::thread;
use std::time::{Duration, Instant};

const RESPONSE: &[u8] = b"HTTP/1.1 200 OK\r\nContent-Type: application/octet-stream\r\n\
Content-Length: 35\r\nConnection: close\r\n\r\n\
\x0d\x21\0\0\0\0\0\0\0\0\0\0\0\0\0\0\0\0\0\0\0\0\0\0\0\0\0\0\0\0\0\0\0\0\0";

// The octets of a packet for test.bob without data.
const PACKET: usize = 69;

// How many connections may wait to be accepted. Where std listens they are 128.
const BACKLOG: i32 = 4096;

// How many packets were answered.
static ANSWERED: AtomicU64 = AtomicU64::new(0);

unsafe extern "C" {
    fn listen(socket: i32, backlog: i32) -> i32;
}

// A connection whose request has come, and when it is answered.
struct Waiting {
    stream: TcpStream,
    due: Instant,
}

fn read_request(stream: &mut TcpStream) -> std::io::Result<bool> {
    stream.set_nodelay(true)?;
    let (mut room, mut filled) = ([0; 4096], 0);
    while !is_whole(&room[..filled]) {
        if room[..filled].starts_with(b"GET ") {
            tell_count(stream)?;
            return Ok(false);
        }
        match stream.read(&mut room[filled..])? {
            0 => return Ok(false),
            count => filled += count,
        }
    }
    Ok(true)
}

fn tell_count(stream: &mut TcpStream) -> std::io::Result<()> {
    let count = ANSWERED.load(Ordering::SeqCst).to_string();
    write!(stream, "HTTP/1.1 200 OK\r\nContent-Length: {}\r\nConnection: close\r\n\r\n{count}", count.len())
}

fn answer(stream: &mut TcpStream) {
    if stream.write_all(RESPONSE).is_ok() {
        ANSWERED.fetch_add(1, Ordering::SeqCst);
    }
}

fn is_whole(octets: &[u8]) -> bool {
    match octets.windows(4).position(|four| four == b"\r\n\r\n") {
        Some(head) => octets.len() >= head + 4 + PACKET,
        None => false,
    }
}

// Answers at once where there is no delay, and else hands the connection on.
fn read_all(listener: &TcpListener, delay: Duration, waiting: &Sender<Waiting>) {
    for mut stream in listener.incoming().flatten() {
        if !matches!(read_request(&mut stream), Ok(true)) {
            continue;
        }
        if delay.is_zero() {
            answer(&mut stream);
        } else {
            let due = Instant::now() + delay;
            waiting.send(Waiting { stream, due }).expect("a thread that answers");
        }
    }
}

fn answer_all(waiting: &Receiver<Waiting>) {
    for Waiting { mut stream, due } in waiting {
        thread::sleep(due.saturating_duration_since(Instant::now()));
        answer(&mut stream);
    }
}

fn main() {
    let numbers: Vec<u64> =
        std::env::args().skip(1).map(|word| word.parse().expect("a number")).collect();
    let [port, delay, threads] = numbers[..] else {
        panic!("usage: peer PORT DELAY_MS THREADS");
    };
    let listener = Arc::new(TcpListener::bind(("127.0.0.1", port as u16)).expect("a port"));
    // SAFETY: the socket listens already, and keeps its descriptor.
    assert_eq!(unsafe { listen(listener.as_raw_fd(), BACKLOG) }, 0);
    let delay = Duration::from_millis(delay);
    let mut running = Vec::new();
    for _ in 0..threads {
        let listener = listener.clone();
        let (sender, receiver) = channel();
        running.push(thread::spawn(move || read_all(&listener, delay, &sender)));
        running.push(thread::spawn(move || answer_all(&receiver)));
    }
    for thread in running {
        thread.join().expect("a thread");
    }
}
