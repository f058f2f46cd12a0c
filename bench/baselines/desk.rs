//! The same forwards in plain Rust, over std alone: the same steps in the same order round one
//! `Mutex`. Prints what the Rattle program does.

#[path = "parts/book.rs"]
mod book;
#[path = "parts/config.rs"]
mod config;
#[path = "parts/credits.rs"]
mod credits;
#[path = "parts/entries.rs"]
mod entries;
#[path = "parts/holds.rs"]
mod holds;
#[path = "parts/journal.rs"]
mod journal;
#[path = "parts/packets.rs"]
#[allow(dead_code)]
mod packets;
#[path = "parts/sha256.rs"]
mod sha256;
#[path = "parts/tallies.rs"]
mod tallies;
#[path = "parts/worker.rs"]
mod worker;

use book::{Book, Outcome, PeerReply};
use config::lending;
use packets::Prepare;
use std::hint::black_box;
use std::sync::{Barrier, Mutex};
use std::thread;
use std::time::Instant;
use worker::{Fulfilling, NEW_YEAR, Still, Worker};

// How many packets each desk takes, and how many desks a row has.
const PACKETS: u32 = 256;

const DESKS: u32 = 40;

// The SHA-256 digest of 32 zero octets.
const CONDITION: [u8; 32] =
    *b"\x66\x68\x7a\xad\xf8\x62\xbd\x77\x6c\x8f\xc1\x8b\x8e\x9f\x8e\x20\x08\x97\x14\x85\x6e\xe2\x33\xb3\x90\x2a\x59\x1d\x0d\x5f\x29\x25";

// A Prepare to test.bob without data, which expires 30 seconds after the new year.
const PREPARE: [u8; 69] =
    *b"\x0c\x43\0\0\0\0\0\0\0\x6420250101000030000\x66\x68\x7a\xad\xf8\x62\xbd\x77\x6c\x8f\xc1\x8b\x8e\x9f\x8e\x20\x08\x97\x14\x85\x6e\xe2\x33\xb3\x90\x2a\x59\x1d\x0d\x5f\x29\x25\x08test.bob\0";

const ALICE: u32 = 0;

// ---- one thread

#[derive(Clone, Copy)]
enum Work {
    Forward,
    Book,
}

// What a thread's packets took, and the sum of their amounts.
struct Done {
    nanoseconds: u128,
    sum: u64,
}

fn amount_of(actor: u32, turn: u32) -> u64 {
    u64::from(actor) * 1_000 + u64::from(turn % 1_000)
}

fn forward_all(desk: &Mutex<Book>, start: &Barrier, actor: u32, packets: u32) -> Done {
    let mut worker = Worker::new(actor, Still, Fulfilling);
    start.wait();
    let mut packet = PREPARE;
    let begun = Instant::now();
    let mut sum = 0u64;
    for turn in 0..packets {
        let amount = amount_of(actor, turn);
        packet[2..10].copy_from_slice(&amount.to_be_bytes());
        if worker.forward(desk, ALICE, black_box(packet.as_slice())).is_err() {
            break;
        }
        if worker.reply().first() == Some(&13) {
            sum = sum.wrapping_add(amount);
        }
    }
    let nanoseconds = begun.elapsed().as_nanos();
    assert_eq!(worker.entries, 2 * packets);
    Done { nanoseconds, sum }
}

fn book_all(desk: &Mutex<Book>, start: &Barrier, actor: u32, packets: u32) -> Done {
    start.wait();
    let begun = Instant::now();
    let mut sum = 0u64;
    for turn in 0..packets {
        let amount = amount_of(actor, turn);
        if book_one(desk, actor, amount) {
            sum = sum.wrapping_add(amount);
        }
    }
    Done { nanoseconds: begun.elapsed().as_nanos(), sum }
}

fn book_one(desk: &Mutex<Book>, actor: u32, amount: u64) -> bool {
    let prepare = black_box(Prepare {
        amount,
        expires: NEW_YEAR + 30_000,
        condition: &CONDITION,
        destination: b"test.bob",
        payload: b"",
    });
    let held = desk.lock().unwrap().hold(actor, ALICE, &prepare, NEW_YEAR);
    let Ok(held) = held else {
        return false;
    };
    let reply = PeerReply::Fulfill(black_box([0; 32]));
    let outcome = desk.lock().unwrap().answer(actor, held.number, reply, NEW_YEAR);
    matches!(outcome, Ok(Outcome::Fulfilled { .. }))
}

// ---- one desk

fn run_desk(workers: u32, work: Work) -> Done {
    let desk = Mutex::new(Book::new(black_box(lending())));
    let start = Barrier::new(workers as usize);
    let packets = PACKETS / workers;
    let mut whole = Done { nanoseconds: 0, sum: 0 };
    thread::scope(|scope| {
        let threads: Vec<_> = (0..workers)
            .map(|actor| {
                let (desk, start) = (&desk, &start);
                scope.spawn(move || match work {
                    Work::Forward => forward_all(desk, start, actor, packets),
                    Work::Book => book_all(desk, start, actor, packets),
                })
            })
            .collect();
        for thread in threads {
            let done = thread.join().unwrap();
            whole.nanoseconds = whole.nanoseconds.max(done.nanoseconds);
            whole.sum = whole.sum.wrapping_add(done.sum);
        }
    });
    whole
}

// ---- rows

fn run_row(name: &str, workers: u32, work: Work) {
    let mut nanoseconds = 0u128;
    let mut sum = 0u64;
    let mut turns = 0u64;
    for _desk in 0..DESKS {
        let done = run_desk(workers, work);
        nanoseconds = nanoseconds.wrapping_add(done.nanoseconds);
        sum = sum.wrapping_add(done.sum);
        turns = turns.wrapping_add(u64::from(PACKETS));
    }
    println!("{name} {turns} {nanoseconds} {sum}");
}

fn main() {
    run_row("in_lock", 1, Work::Book);
    run_row("forward_1", 1, Work::Forward);
    run_row("forward_2", 2, Work::Forward);
    run_row("forward_4", 4, Work::Forward);
    run_row("forward_8", 8, Work::Forward);
}
