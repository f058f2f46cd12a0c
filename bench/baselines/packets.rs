//! The work of `main.rt.in` in plain Rust: the same checks in the same order, over std alone.

#[path = "parts/sha256.rs"]
mod sha256;

use sha256::sha256;
use std::hint::black_box;
use std::io::Read;
use std::time::Instant;

include!("parts/packets.rs");

// ---- the rows

// What each turn writes into its input: a letter, another than the turn before.
fn letter(turn: u32) -> u8 {
    b'a' + (turn % 26) as u8
}

// A number that rests on each field.
fn weight(outcome: Result<Packet<'_>, Fault>) -> u64 {
    match outcome {
        Ok(Packet::Prepare(found)) => {
            let octets = found.condition[31] ^ last(found.destination) ^ last(found.payload);
            found.amount ^ found.expires as u64 ^ u64::from(octets)
        }
        Ok(Packet::Fulfill(found)) => u64::from(found.preimage[0] ^ last(found.payload)),
        Ok(Packet::Reject(found)) => {
            let octets = last(found.triggered_by) ^ last(found.message) ^ last(found.payload);
            u64::from(found.code[0] ^ octets)
        }
        Err(_) => 1000,
    }
}

fn last(octets: &[u8]) -> u8 {
    octets.last().copied().unwrap_or(0)
}

fn read_packets(octets: &mut [u8], place: usize, turns: u32) -> u64 {
    let mut sum = 0u64;
    for turn in 0..turns {
        if let Some(octet) = octets.get_mut(place) {
            *octet = letter(turn);
        }
        sum = sum.wrapping_add(weight(read(black_box(octets))));
    }
    sum
}

fn copy_packets(octets: &mut [u8], place: usize, out: &mut Octets, turns: u32) -> u64 {
    let mut sum = 0u64;
    for turn in 0..turns {
        if let Some(octet) = octets.get_mut(place) {
            *octet = letter(turn);
        }
        out.clear();
        if let Ok(packet) = read(black_box(octets)) {
            write(out, &packet);
        }
        let front = out.as_slice().len().min(turn as usize % 32_768);
        sum = sum.wrapping_add(u64::from(last(&black_box(out.as_slice())[..front])));
    }
    sum
}

fn append_blocks(block: &mut [u8], place: usize, turns: u32) -> u64 {
    let mut out = Vec::with_capacity(block.len());
    let mut sum = 0u64;
    for turn in 0..turns {
        if let Some(octet) = block.get_mut(place) {
            *octet = letter(turn);
        }
        out.clear();
        out.extend_from_slice(black_box(&*block));
        let front = out.len().min(turn as usize % 32_768);
        sum = sum.wrapping_add(u64::from(last(&black_box(&out)[..front])));
    }
    sum
}

fn digest_messages(message: &mut [u8], place: usize, turns: u32) -> u64 {
    let mut sum = 0u64;
    for turn in 0..turns {
        if let Some(octet) = message.get_mut(place) {
            *octet = letter(turn);
        }
        sum = sum.wrapping_add(u64::from(sha256(black_box(message))[31]));
    }
    sum
}

fn decoded(hex: &str) -> Vec<u8> {
    let digit = |digit: u8| (digit as char).to_digit(16).expect("a digit") as u8;
    hex.as_bytes().chunks(2).map(|pair| digit(pair[0]) * 16 + digit(pair[1])).collect()
}

fn main() {
    let mut text = String::new();
    std::io::stdin().read_to_string(&mut text).expect("standard input");
    for line in text.lines() {
        let [name, turns, place, hex] = line.split(' ').collect::<Vec<_>>()[..] else {
            panic!("a line")
        };
        let (turns, place) = (turns.parse().expect("turns"), place.parse().expect("a place"));
        let mut octets = decoded(hex);
        let mut out = Octets::with_capacity(32_768);
        let start = Instant::now();
        let sum = if name.starts_with("read_and_write_") {
            copy_packets(&mut octets, place, &mut out, turns)
        } else if name.starts_with("append_") {
            append_blocks(&mut octets, place, turns)
        } else if name.starts_with("sha256_") {
            digest_messages(&mut octets, place, turns)
        } else {
            read_packets(&mut octets, place, turns)
        };
        println!("{name} {turns} {} {sum}", start.elapsed().as_nanos());
    }
}
