//! A server in plain Rust, over std alone, with so many threads: each accepts a connection, reads its one request,
//! appends that many octets to a file, waits until the disk has them, and answers. Whoever comes first while nobody
//! syncs does it for all who wait by then.
//!
//!     appending PORT THREADS FILE OCTETS

use std::fs::File;
use std::io::{Read, Write};
use std::net::{TcpListener, TcpStream};
use std::sync::{Arc, Condvar, Mutex};
use std::thread;
use std::time::Duration;

const RESPONSE: &[u8] = b"HTTP/1.1 200 OK\r\nContent-Type: application/octet-stream\r\n\
Content-Length: 35\r\nConnection: close\r\n\r\n\
\x0d\x21\0\0\0\0\0\0\0\0\0\0\0\0\0\0\0\0\0\0\0\0\0\0\0\0\0\0\0\0\0\0\0\0\0";

// The octets of a packet for test.bob without data.
const PACKET: usize = 69;

const ALLOWANCE: Duration = Duration::from_secs(10);

// ---- the file

#[derive(Default)]
struct Lines {
    // What nobody has written yet.
    unwritten: Vec<u8>,
    // How many lines were given, and how many of them the disk has.
    given: u64,
    kept: u64,
    is_syncing: bool,
}

struct Log {
    file: File,
    lines: Mutex<Lines>,
    changed: Condvar,
}

impl Log {
    // Comes back once the disk has the line.
    fn keep(&self, line: &[u8]) {
        let mut lines = self.lines.lock().expect("a lock");
        lines.unwritten.extend_from_slice(line);
        lines.given += 1;
        let mine = lines.given;
        while lines.kept < mine {
            if lines.is_syncing {
                lines = self.changed.wait(lines).expect("a lock");
                continue;
            }
            let (octets, upto) = (std::mem::take(&mut lines.unwritten), lines.given);
            lines.is_syncing = true;
            drop(lines);
            if let Err(error) = self.write(&octets) {
                eprintln!("the file can't be written: {error}");
                std::process::exit(1);
            }
            lines = self.lines.lock().expect("a lock");
            lines.is_syncing = false;
            lines.kept = upto;
            self.changed.notify_all();
        }
    }

    fn write(&self, octets: &[u8]) -> std::io::Result<()> {
        (&self.file).write_all(octets)?;
        self.file.sync_data()
    }
}

// ---- a server

fn is_whole(octets: &[u8]) -> bool {
    match octets.windows(4).position(|four| four == b"\r\n\r\n") {
        Some(head) => octets.len() >= head + 4 + PACKET,
        None => false,
    }
}

fn answer(stream: TcpStream, log: &Log, line: &[u8]) -> std::io::Result<()> {
    let mut stream = stream;
    stream.set_nodelay(true)?;
    stream.set_read_timeout(Some(ALLOWANCE))?;
    let (mut room, mut filled) = ([0; 4096], 0);
    while !is_whole(&room[..filled]) {
        match stream.read(&mut room[filled..])? {
            0 => return Ok(()),
            count => filled += count,
        }
    }
    log.keep(line);
    stream.write_all(RESPONSE)
}

fn main() {
    let words: Vec<String> = std::env::args().skip(1).collect();
    let [port, threads, path, octets] = &words[..] else {
        panic!("usage: appending PORT THREADS FILE OCTETS");
    };
    let number = |word: &String| word.parse::<usize>().expect("a number");
    let listener = TcpListener::bind(("127.0.0.1", number(port) as u16)).expect("a port");
    let mut line = vec![b'x'; number(octets) - 1];
    line.push(b'\n');
    let log = Log {
        file: File::create(path).expect("a file"),
        lines: Mutex::default(),
        changed: Condvar::new(),
    };
    let shared = Arc::new((listener, log, line));
    let threads: Vec<_> = (0..number(threads))
        .map(|_| {
            let shared = shared.clone();
            thread::spawn(move || {
                let (listener, log, line) = &*shared;
                for stream in listener.incoming().flatten() {
                    let _ = answer(stream, log, line);
                }
            })
        })
        .collect();
    for thread in threads {
        thread.join().expect("a thread");
    }
}
