//! The work of `main.rt.in` in plain Rust over std alone.
#[path = "parts/http_messages.rs"]
mod messages;

use messages::{Fault, Pieces, ROOM, Request, read_request, write_response};
use std::hint::black_box;
use std::io::Read;
use std::time::Instant;

const OUT: usize = 1024;

// ---- rows

fn letter(turn: u32) -> u8 {
    b'a' + (turn % 26) as u8
}

fn last(octets: &[u8]) -> u8 {
    octets.last().copied().unwrap_or(0)
}

fn weight(outcome: Result<Request, Fault>) -> u64 {
    match outcome {
        Ok(found) => {
            let values: usize = found.headers.values().map(Vec::len).sum();
            u64::from(last(found.path) ^ last(found.body)) + values as u64
        }
        Err(_) => 1000,
    }
}

fn read_requests(octets: &mut [u8], place: usize, piece: usize, turns: u32) -> u64 {
    let mut buffer = vec![0; ROOM];
    let mut sum = 0u64;
    for turn in 0..turns {
        octets[place] = letter(turn);
        let mut source = Pieces { rest: octets, piece: piece.max(1) };
        sum = sum.wrapping_add(weight(read_request(&mut source, &mut buffer)));
    }
    sum
}

fn write_responses(octets: &mut [u8], place: usize, turns: u32) -> u64 {
    let mut out = Vec::new();
    let mut sum = 0u64;
    for turn in 0..turns {
        octets[place] = letter(turn);
        out.clear();
        write_response(&mut out, octets);
        let front = out.len().min(turn as usize % OUT);
        sum = sum.wrapping_add(u64::from(last(&out[..front])));
    }
    sum
}

fn main() {
    let mut text = String::new();
    std::io::stdin().read_to_string(&mut text).expect("standard input");
    for line in text.lines() {
        let words: Vec<&str> = line.split(' ').collect();
        let [name, turns, place, piece, hex] = words[..] else { continue };
        let turns: u32 = black_box(turns.parse().expect("turns"));
        let place: usize = place.parse().expect("a place");
        let piece: usize = piece.parse().expect("a piece");
        let mut octets: Vec<u8> = (0..hex.len() / 2)
            .map(|k| u8::from_str_radix(&hex[2 * k..2 * k + 2], 16).expect("hex"))
            .collect();
        let start = Instant::now();
        let sum = if name.starts_with("write_") {
            write_responses(&mut octets, place, turns)
        } else {
            read_requests(&mut octets, place, piece, turns)
        };
        let nanoseconds = start.elapsed().as_nanos();
        println!("{name} {turns} {nanoseconds} {sum}");
    }
}
