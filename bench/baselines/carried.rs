//! The same in plain Rust, over std alone: the same text, read with the same checks, the same rules in
//! the same order and the same tables, and SHA-256 as FIPS 180-4 has it, without instructions for it.
//! Prints what the Rattle program does.

#[path = "parts/book.rs"]
mod book;
#[path = "parts/carrying.rs"]
mod carrying;
#[path = "parts/config.rs"]
mod config;
#[path = "parts/credits.rs"]
mod credits;
#[path = "parts/entries.rs"]
mod entries;
#[path = "parts/holds.rs"]
mod holds;
#[path = "parts/journal.rs"]
mod journal;
#[path = "parts/journal_text.rs"]
mod journal_text;
#[path = "parts/packets.rs"]
#[allow(dead_code)]
mod packets;
#[path = "parts/sha256.rs"]
mod sha256;
#[path = "parts/tallies.rs"]
mod tallies;

use book::{Book, Held, PeerReply};
use config::{Config, Levels, lending};
use credits::Quantity;
use packets::Prepare;
use sha256::sha256;
use std::hint::black_box;
use std::time::Instant;

// 2025-01-01T00:00:00Z.
const NEW_YEAR: i64 = 1_735_689_600_000;

// As by default, an outgoing packet expires so much sooner.
const WINDOW_MS: i64 = 1_000;

// How long a hold may last by default, in milliseconds.
const MOST_HOLD_MS: u64 = 30_000;

// How long those last that the sweep takes: some sixteen of them are open at a time.
const LEFT_MS: i64 = 1_000;

// The most entries that a turn books.
const MOST_OF_A_TURN: u32 = 3;

// The settings of `LENDING` in the Rattle program.
fn config() -> Config {
    let mut config = lending();
    config.journal = 16_777_216;
    for peer in &mut config.peers {
        peer.fee_ppm = 100;
        peer.levels = Some(Levels { threshold: 1, settle_to: 0, settle_max: u64::MAX });
    }
    config
}

// ---- turns

// How most of the payments end.
#[derive(Clone, Copy)]
enum Mostly {
    Fulfilled,
    Released,
}

impl Mostly {
    fn parse(word: &str) -> Option<Mostly> {
        match word {
            "fulfilled" => Some(Mostly::Fulfilled),
            "released" => Some(Mostly::Released),
            _ => None,
        }
    }
}

// What a turn books beside the sweep.
enum Event {
    Payment(Mostly),
    Left,
    Credit,
    Settlement,
}

#[derive(Clone, Copy)]
struct Turn {
    number: u32,
    state: u64,
}

impl Turn {
    fn of(number: u32) -> Turn {
        Turn { number, state: u64::from(number).wrapping_mul(6_364_136_223_846_793_005) }
    }

    fn event(&self, mostly: Mostly) -> Event {
        match self.number % 64 {
            0 => Event::Credit,
            32 => Event::Settlement,
            16 => Event::Left,
            8 | 24 | 40 => Event::Payment(Mostly::Released),
            _ => Event::Payment(mostly),
        }
    }

    fn peer(&self) -> u32 {
        ((self.state >> 60) % 2) as u32
    }

    fn amount(&self) -> u64 {
        (self.state >> 40) % 100_000 + 2
    }

    fn preimage(&self) -> [u8; 32] {
        let mut preimage = [0x5a; 32];
        preimage[..8].copy_from_slice(&self.state.to_be_bytes());
        preimage
    }

    fn lasting(&self) -> i64 {
        ((self.state >> 20) % MOST_HOLD_MS) as i64 + 1
    }

    fn now(&self) -> i64 {
        NEW_YEAR + i64::from(self.number)
    }
}

fn hold(book: &mut Book, turn: Turn, lasting: i64) -> Option<Held> {
    let condition = sha256(&turn.preimage());
    let from = turn.peer();
    let destination: &[u8] = if from == 0 { b"test.bob" } else { b"test.alice" };
    let now = turn.now();
    let prepare = Prepare {
        amount: turn.amount(),
        expires: now + WINDOW_MS + lasting,
        condition: &condition,
        destination,
        payload: b"",
    };
    book.hold(0, from, &prepare, now).ok()
}

fn pay(book: &mut Book, turn: Turn, end: Mostly) {
    let Some(held) = hold(book, turn, turn.lasting()) else { return };
    let reply = match end {
        Mostly::Fulfilled => PeerReply::Fulfill(turn.preimage()),
        Mostly::Released => PeerReply::Reject(*b"F99"),
    };
    let _ = book.answer(0, held.number, reply, turn.now());
}

fn credit(book: &mut Book, turn: Turn) {
    let mut key = [b'-'; 36];
    key[..8].copy_from_slice(&turn.state.to_be_bytes());
    let quantity = Quantity { amount: u128::from(turn.amount()) * 10_000_000, scale: 9 };
    let _ = book.credit(0, turn.peer(), key.to_vec(), &quantity, turn.now());
}

fn settle(book: &mut Book, turn: Turn) {
    if let Ok(asked) = book.ask(0, turn.peer(), turn.now()) {
        let accepted = turn.number % 128 == 32;
        let _ = book.settle_close(0, asked.number, accepted, turn.now());
    }
}

fn work(book: &mut Book, turn: Turn, mostly: Mostly) {
    book.expire_one(0, turn.now());
    match turn.event(mostly) {
        Event::Payment(end) => pay(book, turn, end),
        Event::Left => {
            hold(book, turn, LEFT_MS);
        }
        Event::Credit => credit(book, turn),
        Event::Settlement => settle(book, turn),
    }
}

// ---- books

// A book of so many entries. The last of them are credits, which are one entry each.
fn book_of(entries: u32, mostly: Mostly) -> Book {
    let mut book = Book::new(config());
    for number in 0..entries {
        let left = entries - book.len();
        let turn = Turn::of(number);
        if left >= MOST_OF_A_TURN {
            work(&mut book, turn, mostly);
        } else if left > 0 {
            credit(&mut book, turn);
        }
    }
    assert_eq!(book.len(), entries);
    book
}

// Half of the holds that are open then have come to their deadlines.
fn end_of(book: &Book) -> i64 {
    book.journal.last().map_or(NEW_YEAR, |entry| entry.moment) + LEFT_MS / 2
}

fn sum_of(book: &Book) -> i128 {
    let sums = book.sums(0);
    let mut sum = i128::from(book.len()) ^ (i128::from(book.tallies.base()) << 32);
    for peer in 0..2 {
        sum = sum.wrapping_mul(31).wrapping_add(book.balance(peer));
        sum = sum.wrapping_mul(31).wrapping_add(i128::from(book.open_holds(peer)));
    }
    sum = sum.wrapping_mul(31).wrapping_add(sums.settled ^ sums.held);
    sum.wrapping_mul(31).wrapping_add(sums.fees ^ sums.bought ^ sums.sold)
}

fn text_of(book: &Book) -> Vec<u8> {
    let mut sink = Vec::new();
    book.save(&mut sink).expect("memory");
    sink
}

fn sum_of_octets(octets: &[u8]) -> i128 {
    i128::from(octets.iter().fold(0u64, |sum, octet| {
        sum.wrapping_mul(31).wrapping_add(u64::from(*octet))
    }))
}

// ---- rows

struct Done {
    nanoseconds: u128,
    sum: i128,
}

// What a line of input asks for: how many entries the journal has, how many are made in all where it has
// fewer, and how most of its payments end.
struct Row<'a> {
    name: &'a str,
    entries: u32,
    whole: u32,
    mostly: Mostly,
}

impl<'a> Row<'a> {
    fn parse(line: &'a str) -> Option<Row<'a>> {
        let mut words = line.split(' ');
        Some(Row {
            name: words.next()?,
            entries: words.next()?.parse().ok()?,
            whole: words.next()?.parse().ok()?,
            mostly: Mostly::parse(words.next()?)?,
        })
    }
}

fn time_save(book: &Book, sink: &mut Vec<u8>) -> Done {
    sink.clear();
    let begun = Instant::now();
    black_box(book).save(black_box(sink)).expect("memory");
    let nanoseconds = begun.elapsed().as_nanos();
    Done { nanoseconds, sum: sink.len() as i128 }
}

fn time_carry_over(book: &Book, text: &[u8]) -> Done {
    let now = end_of(book);
    let begun = Instant::now();
    let carried = Book::carry_over(black_box(config()), black_box(text), now);
    let nanoseconds = begun.elapsed().as_nanos();
    Done { nanoseconds, sum: sum_of(&black_box(carried).expect("a lawful journal")) }
}

fn time_book(row: &Row) -> Done {
    let book = book_of(row.entries, row.mostly);
    let mut sink = text_of(&book);
    let sum = sum_of_octets(&sink);
    let done = if row.name.starts_with("save") {
        time_save(&book, &mut sink)
    } else {
        time_carry_over(&book, &sink)
    };
    Done { nanoseconds: done.nanoseconds, sum: done.sum.wrapping_mul(31).wrapping_add(sum) }
}

// A second book has the entries that are left of the whole. So rows with shorter journals differ by
// nothing but what is timed.
fn run_row(row: &Row) -> Done {
    let done = time_book(row);
    let rest = book_of(row.whole.saturating_sub(row.entries), row.mostly);
    let sum = sum_of_octets(&text_of(&rest));
    Done { nanoseconds: done.nanoseconds, sum: done.sum.wrapping_mul(31).wrapping_add(sum) }
}

fn main() {
    for line in std::io::stdin().lines().map_while(Result::ok) {
        if let Some(row) = Row::parse(&line) {
            let Done { nanoseconds, sum } = run_row(&row);
            println!("{} {} {nanoseconds} {sum}", row.name, row.entries);
        }
    }
}
