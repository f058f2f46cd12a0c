//! The same turns in plain Rust, over std alone: the same tables, and the same checks in the same
//! order. Prints what the Rattle program does.

#[path = "parts/book.rs"]
mod book;
#[path = "parts/config.rs"]
mod config;
#[path = "parts/credits.rs"]
mod credits;
#[path = "parts/entries.rs"]
mod entries;
#[path = "parts/holds.rs"]
mod holds;
#[path = "parts/journal.rs"]
mod journal;
#[path = "parts/packets.rs"]
#[allow(dead_code)]
mod packets;
#[path = "parts/sha256.rs"]
mod sha256;
#[path = "parts/tallies.rs"]
mod tallies;

use book::{Book, Held, Outcome, PeerReply};
use config::{Config, Levels, lending};
use credits::Quantity;
use packets::Prepare;
use sha256::sha256;
use std::hint::black_box;
use std::time::Instant;

// 2025-01-01T00:00:00Z.
const NEW_YEAR: i64 = 1_735_689_600_000;

// How many preimages take turns.
const SECRETS: usize = 8;

// How long a hold may last, in milliseconds.
const HOUR_MS: i64 = 3_600_000;

// As by default, an outgoing packet expires so much sooner.
const WINDOW_MS: i64 = 1_000;

// The settings of `CONFIG` in the Rattle program.
fn config() -> Config {
    let mut config = lending();
    config.journal = 16_777_216;
    config.max_hold_ms = HOUR_MS as u32;
    for peer in &mut config.peers {
        peer.levels = Some(Levels { threshold: 1, settle_to: 0, settle_max: u64::MAX });
    }
    config
}

// ---- turns

#[derive(Clone, Copy)]
enum Work {
    Fulfill,
    Release,
    Expire,
    Credit,
    Settle,
}

impl Work {
    fn parse(word: &str) -> Option<Work> {
        match word {
            "fulfill" | "newest" | "oldest" => Some(Work::Fulfill),
            "release" => Some(Work::Release),
            "expire" => Some(Work::Expire),
            "credit" => Some(Work::Credit),
            "settle" => Some(Work::Settle),
            _ => None,
        }
    }

    fn entries(self) -> u32 {
        match self {
            Work::Credit => 1,
            _ => 2,
        }
    }
}

#[derive(Clone, Copy)]
struct Turn {
    number: u32,
    state: u64,
}

impl Turn {
    fn of(number: u32) -> Turn {
        Turn { number, state: u64::from(number).wrapping_mul(6_364_136_223_846_793_005) }
    }

    fn peer(&self) -> u32 {
        ((self.state >> 60) % 2) as u32
    }

    fn amount(&self) -> u64 {
        (self.state >> 40) % 100_000
    }

    fn preimage(&self) -> [u8; 32] {
        [(self.state >> 61) as u8; 32]
    }

    fn lasting(&self) -> i64 {
        ((self.state >> 20) % HOUR_MS as u64) as i64 + 1
    }

    fn now(&self) -> i64 {
        NEW_YEAR + i64::from(self.number)
    }
}

struct Turns {
    conditions: [[u8; 32]; SECRETS],
    made: u32,
}

impl Turns {
    fn new() -> Turns {
        Turns { conditions: std::array::from_fn(|secret| sha256(&[secret as u8; 32])), made: 0 }
    }

    fn next(&mut self) -> Turn {
        self.made = self.made.wrapping_add(1);
        Turn::of(self.made)
    }

    fn hold(&self, book: &mut Book, turn: Turn, lasting: i64) -> Option<Held> {
        let from = turn.peer();
        let destination: &[u8] = if from == 0 { b"test.bob" } else { b"test.alice" };
        let now = turn.now();
        let prepare = black_box(Prepare {
            amount: turn.amount(),
            expires: now + WINDOW_MS + lasting,
            condition: &self.conditions[(turn.state >> 61) as usize],
            destination,
            payload: b"",
        });
        book.hold(0, from, &prepare, now).ok()
    }

    fn hold_often(&mut self, book: &mut Book, open: u32) {
        for _ in 0..open {
            let turn = self.next();
            self.hold(book, turn, turn.lasting());
        }
    }

    fn work(&mut self, book: &mut Book, work: Work) -> u64 {
        let turn = self.next();
        match work {
            Work::Fulfill => self.pay(book, turn, PeerReply::Fulfill(turn.preimage())),
            Work::Release => self.pay(book, turn, PeerReply::Reject(*b"F99")),
            Work::Expire => self.expire(book, turn),
            Work::Credit => credit(book, turn),
            Work::Settle => settle(book, turn),
        }
    }

    fn work_often(&mut self, book: &mut Book, work: Work, turns: u32) -> u64 {
        (0..turns).fold(0u64, |sum, _| sum.wrapping_add(self.work(book, work)))
    }

    fn pay(&self, book: &mut Book, turn: Turn, reply: PeerReply) -> u64 {
        match self.hold(book, turn, turn.lasting()) {
            Some(held) => held.out ^ answer(book, held.number, reply, turn.now()),
            None => 1,
        }
    }

    fn expire(&self, book: &mut Book, turn: Turn) -> u64 {
        let Some(held) = self.hold(book, turn, 1) else {
            return 1;
        };
        match book.expire_one(0, held.deadline) {
            Some(number) => held.out ^ u64::from(number),
            None => 2,
        }
    }

    // Fulfills the hold of an earlier turn beside a new one.
    fn pay_older(&mut self, book: &mut Book, older: u32, number: u32) -> u64 {
        let turn = self.next();
        let Some(held) = self.hold(book, turn, turn.lasting()) else {
            return 1;
        };
        let reply = PeerReply::Fulfill(Turn::of(older).preimage());
        held.out ^ answer(book, number, reply, turn.now())
    }

    // Fulfills the oldest hold each time, where the last turns made so many.
    fn pay_oldest_often(&mut self, book: &mut Book, open: u32, turns: u32) -> u64 {
        let older = self.made.wrapping_sub(open).wrapping_add(1);
        let first = book.len().wrapping_sub(open);
        let mut sum = 0u64;
        for place in 0..turns {
            let number = number_of(first, open, place);
            sum = sum.wrapping_add(self.pay_older(book, older.wrapping_add(place), number));
        }
        sum
    }
}

// The number of a hold by its place: so many follow on each other, and then each follows on an answer.
fn number_of(first: u32, open: u32, place: u32) -> u32 {
    first.wrapping_add(place).wrapping_add(place.saturating_sub(open))
}

fn answer(book: &mut Book, number: u32, reply: PeerReply, now: i64) -> u64 {
    match book.answer(0, number, black_box(reply), now) {
        Ok(Outcome::Fulfilled { entry }) => u64::from(entry),
        Ok(Outcome::Released { entry, .. }) => u64::from(entry) ^ 1,
        Err(_) => 3,
    }
}

fn credit(book: &mut Book, turn: Turn) -> u64 {
    let mut key = [b'-'; 36];
    key[..8].copy_from_slice(&turn.state.to_be_bytes());
    let amount = u128::from(turn.amount()) * 10_000_000;
    let quantity = black_box(Quantity { amount, scale: 9 });
    match book.credit(0, turn.peer(), key.to_vec(), &quantity, turn.now()) {
        Ok(kept) => kept.amount ^ u64::from(kept.number),
        Err(_) => 1,
    }
}

fn settle(book: &mut Book, turn: Turn) -> u64 {
    let Ok(asked) = book.ask(0, black_box(turn.peer()), turn.now()) else {
        return 1;
    };
    match book.settle_close(0, asked.number, black_box(false), turn.now()) {
        Ok(entry) => asked.amount ^ u64::from(entry),
        Err(_) => 2,
    }
}

// Makes the connector owe each peer something, so that a settlement to it is due.
fn fund(book: &mut Book) {
    for peer in 0..2 {
        let quantity = Quantity { amount: 1_000_000, scale: 2 };
        let _ = book.credit(0, peer, b"first".to_vec(), &quantity, NEW_YEAR);
    }
}

// A number that rests on all that a book tells without its entries.
fn sum_of(book: &Book) -> i128 {
    let sums = book.sums(0);
    let mut sum = i128::from(book.len());
    for peer in 0..2 {
        sum = sum.wrapping_mul(31).wrapping_add(book.balance(peer));
        sum = sum.wrapping_mul(31).wrapping_add(i128::from(book.open_holds(peer)));
    }
    sum = sum.wrapping_mul(31).wrapping_add(sums.settled ^ sums.held);
    sum.wrapping_mul(31).wrapping_add(sums.fees ^ sums.bought ^ sums.sold)
}

// A book of so many entries, or one fewer.
fn book_with(turns: &mut Turns, work: Work, entries: u32) -> Book {
    let mut book = Book::new(black_box(config()));
    fund(&mut book);
    let left = entries.saturating_sub(book.len());
    turns.work_often(&mut book, work, left / work.entries());
    book
}

// ---- rows

// What a line of input asks for: how many turns in all, over how many books, at most how many over
// each, how many entries stand before, and how many holds are open then.
#[derive(Clone, Copy)]
struct Row<'a> {
    name: &'a str,
    work: Work,
    turns: u32,
    books: u32,
    each: u32,
    before: u32,
    open: u32,
}

impl<'a> Row<'a> {
    fn parse(line: &'a str) -> Option<Row<'a>> {
        let (name, rest) = line.split_once(' ')?;
        let mut numbers = rest.split(' ').map_while(|word| word.parse().ok());
        Some(Row {
            name,
            work: Work::parse(name.split_once('_')?.0)?,
            turns: numbers.next()?,
            books: numbers.next()?,
            each: numbers.next()?,
            before: numbers.next()?,
            open: numbers.next()?,
        })
    }

    // What makes the entries that stand before: beside open holds what takes least time.
    fn filler(&self) -> Work {
        if self.open > 0 { Work::Release } else { self.work }
    }
}

struct Done {
    nanoseconds: u128,
    sum: i128,
}

// Times so many turns of a row over one more book.
fn run_book(turns: &mut Turns, row: Row, count: u32) -> Done {
    // so that all books are filled alike, however many turns came before
    turns.made = 0;
    let mut book = book_with(turns, row.filler(), row.before);
    turns.hold_often(&mut book, row.open);
    let before = book.len();
    assert_eq!(before, row.before + row.open);
    let begun = Instant::now();
    let sum = if row.name.starts_with("oldest") {
        turns.pay_oldest_often(&mut book, row.open, count)
    } else {
        turns.work_often(&mut book, row.work, count)
    };
    let nanoseconds = begun.elapsed().as_nanos();
    assert_eq!(book.len(), before + count * row.work.entries());
    Done { nanoseconds, sum: i128::from(sum).wrapping_add(sum_of(&book)) }
}

// All books are made, whether or not turns are left for them.
fn run_row(row: Row) -> Done {
    let mut turns = Turns::new();
    let mut left = row.turns;
    let mut whole = Done { nanoseconds: 0, sum: 0 };
    for _book in 0..row.books {
        let count = left.min(row.each);
        let done = run_book(&mut turns, row, count);
        whole.nanoseconds += done.nanoseconds;
        whole.sum = whole.sum.wrapping_add(done.sum);
        left -= count;
    }
    assert_eq!(left, 0);
    whole
}

fn main() {
    for line in std::io::stdin().lines().map_while(Result::ok) {
        if let Some(row) = Row::parse(&line) {
            let Done { nanoseconds, sum } = run_row(row);
            println!("{} {} {nanoseconds} {sum}", row.name, row.turns);
        }
    }
}
