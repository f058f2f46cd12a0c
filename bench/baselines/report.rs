//! The same snapshots and reports in plain Rust, over std alone: each number of a snapshot is read from
//! the tallies, which are kept entry by entry as the book keeps them. Entries are put into the journal
//! as the book would book them, and are not checked. Prints what the Rattle program does.

#[path = "parts/entries.rs"]
mod entries;
#[path = "parts/journal.rs"]
mod journal;
#[path = "parts/tallies.rs"]
mod tallies;

use entries::{Cause, Entry, Hold, What};
use journal::Journal;
use std::hint::black_box;
use std::io::Read;
use std::time::Instant;
use tallies::{Sums, Tallies};

// ---- the book

struct Peer {
    name: String,
    asset: u32,
    least: i64,
}

struct Config {
    peers: Vec<Peer>,
    // Code and scale.
    assets: Vec<(String, u8)>,
}

// So many peers in one asset, each of which may owe all that there is.
fn lending(peers: u32) -> Config {
    let peer = |place| Peer { name: format!("p{place}"), asset: 0, least: i64::MIN };
    Config { peers: (0..peers).map(peer).collect(), assets: vec![("USD".to_string(), 2)] }
}

struct Book {
    config: Config,
    journal: Journal,
    tallies: Tallies,
}

impl Book {
    fn new(config: Config) -> Book {
        let assets = config.peers.iter().map(|peer| peer.asset).collect();
        let tallies = Tallies::new(assets, config.assets.len(), 0);
        Book { config, journal: Journal::new(65_536), tallies }
    }

    fn push(&mut self, entry: Entry) {
        self.journal.reserve(1);
        self.tallies.apply(&self.journal, &entry.what);
        self.journal.push(entry);
    }
}

// ---- filling it

// 2025-01-01T00:00:00Z.
const NEW_YEAR: i64 = 1_735_689_600_000;

// What the Rattle program's book books of a turn.
fn pay(book: &mut Book, turn: u32, peers: u32) {
    let others = peers.saturating_sub(1).max(1);
    let from = turn.wrapping_mul(7) % peers.max(1);
    let to = from.wrapping_add(1).wrapping_add(turn % others) % peers.max(1);
    let moment = NEW_YEAR + i64::from(turn);
    let amount = u64::from(turn % 1_000) + 1;
    let number = book.journal.len();
    let hold = Hold {
        from,
        to,
        amount,
        fee: 0,
        out: amount,
        deadline: moment + 29_000,
        condition: [0; 32],
    };
    book.push(Entry { moment, actor: 0, what: What::Hold(hold) });
    let what = match turn % 16 {
        5 => return,
        11 => What::Released { hold: number, cause: Cause::Peer(*b"F99") },
        _ => What::Fulfilled { hold: number, preimage: [0; 32] },
    };
    book.push(Entry { moment, actor: 0, what });
}

// A book of so many entries, or one more.
fn book_of(peers: u32, entries: u32) -> Book {
    let mut book = Book::new(lending(peers));
    for turn in 0..entries {
        if book.journal.len() < entries {
            pay(&mut book, turn, peers);
        }
    }
    book
}

// ---- the report

struct PeerAccount {
    name: String,
    #[allow(dead_code)]
    asset: u32,
    #[allow(dead_code)]
    least: i64,
    balance: i128,
    open_holds: u32,
}

struct AssetBooks {
    name: String,
    sums: Sums,
}

struct Snapshot {
    peers: Vec<PeerAccount>,
    assets: Vec<AssetBooks>,
    entries: u32,
    fulfilled: u32,
}

impl Snapshot {
    fn of(book: &Book) -> Snapshot {
        let fulfilled = book.tallies.fulfilled();
        let mut peers = Vec::new();
        for (place, peer) in book.config.peers.iter().enumerate() {
            peers.push(PeerAccount {
                name: peer.name.clone(),
                asset: peer.asset,
                least: peer.least,
                balance: book.tallies.balance(place as u32),
                open_holds: book.tallies.open_holds(place as u32),
            });
        }
        let mut assets = Vec::new();
        for (place, (code, scale)) in book.config.assets.iter().enumerate() {
            assets.push(AssetBooks {
                name: format!("{code}/{scale}"),
                sums: book.tallies.sums(place as u32),
            });
        }
        Snapshot { peers, assets, entries: book.journal.len(), fulfilled }
    }
}

// Appends the lines of a report, each of which is put together first.
fn print(snapshot: &Snapshot, sink: &mut Vec<u8>) {
    for peer in &snapshot.peers {
        put_line(sink, "balance", &peer.name, peer.balance);
    }
    for peer in &snapshot.peers {
        put_line(sink, "open", &peer.name, i128::from(peer.open_holds));
    }
    for asset in &snapshot.assets {
        let sums = asset.sums;
        put_line(sink, "held", &asset.name, sums.held);
        put_line(sink, "fees", &asset.name, sums.fees);
        put_line(sink, "bought", &asset.name, sums.bought);
        put_line(sink, "sold", &asset.name, sums.sold);
        put_line(sink, "settled", &asset.name, sums.settled);
    }
    put_line(sink, "entries", "", i128::from(snapshot.entries));
    put_line(sink, "fulfilled", "", i128::from(snapshot.fulfilled));
}

fn put_line(sink: &mut Vec<u8>, label: &str, name: &str, number: i128) {
    let mut digits = [0u8; 40];
    let start = put_number(&mut digits, number);
    let number = &digits[start..];
    let mut line = [b'\n'; 61];
    line[..60].fill(b' ');
    line[..label.len()].copy_from_slice(label.as_bytes());
    line[10..10 + name.len()].copy_from_slice(name.as_bytes());
    line[60 - number.len()..60].copy_from_slice(number);
    sink.extend_from_slice(&line);
}

// Writes a number from the end on, and says where it begins. Numbers of 64 bits, which most are, are
// divided as such.
fn put_number(digits: &mut [u8; 40], number: i128) -> usize {
    let mut left = number.unsigned_abs();
    let mut place = digits.len();
    while left > u128::from(u64::MAX) {
        place -= 1;
        digits[place] = b'0' + (left % 10) as u8;
        left /= 10;
    }
    let mut left = left as u64;
    loop {
        place -= 1;
        digits[place] = b'0' + (left % 10) as u8;
        left /= 10;
        if left == 0 {
            break;
        }
    }
    if number < 0 {
        place -= 1;
        digits[place] = b'-';
    }
    place
}

// ---- turns

// A number that rests on all that a snapshot tells.
fn sum_of(snapshot: &Snapshot) -> i128 {
    let mut sum = i128::from(snapshot.entries) ^ i128::from(snapshot.fulfilled);
    for peer in &snapshot.peers {
        sum = sum.wrapping_mul(31).wrapping_add(peer.balance ^ i128::from(peer.open_holds));
        sum = sum.wrapping_add(peer.name.len() as i128);
    }
    for asset in &snapshot.assets {
        let sums = asset.sums;
        sum = sum.wrapping_mul(31).wrapping_add(sums.settled ^ sums.held);
        sum = sum.wrapping_mul(31).wrapping_add(sums.fees ^ sums.bought ^ sums.sold);
        sum = sum.wrapping_add(asset.name.len() as i128);
    }
    sum
}

fn snapshot_often(book: &Book, turns: u32) -> (u128, i128) {
    let begun = Instant::now();
    let mut sum = 0i128;
    for turn in 0..turns {
        let snapshot = Snapshot::of(black_box(book));
        sum = sum.wrapping_add(sum_of(&snapshot) ^ i128::from(turn));
    }
    (begun.elapsed().as_nanos(), sum)
}

fn octet_of(octets: &[u8], turn: u32) -> i128 {
    let place = turn.wrapping_mul(67) as usize % octets.len().max(1);
    i128::from(octets.get(place).copied().unwrap_or(0))
}

fn sum_of_octets(octets: &[u8]) -> i128 {
    octets.iter().fold(0i128, |sum, octet| sum.wrapping_mul(31).wrapping_add(i128::from(*octet)))
}

fn print_often(book: &Book, turns: u32) -> (u128, i128) {
    let snapshot = Snapshot::of(book);
    let mut sink = Vec::new();
    print(&snapshot, &mut sink);
    let mut sum = sum_of_octets(&sink);
    let begun = Instant::now();
    for turn in 0..turns {
        sink.clear();
        print(black_box(&snapshot), &mut sink);
        sum = sum.wrapping_add(octet_of(black_box(&sink), turn));
    }
    (begun.elapsed().as_nanos(), sum)
}

fn main() {
    let mut text = String::new();
    std::io::stdin().read_to_string(&mut text).unwrap();
    for line in text.lines() {
        let words: Vec<&str> = line.split(' ').collect();
        let [name, turns, peers, entries] = words[..] else { continue };
        let turns: u32 = turns.parse().unwrap();
        let book = book_of(peers.parse().unwrap(), entries.parse().unwrap());
        let (nanoseconds, sum) = if name.starts_with("snapshot") {
            snapshot_often(&book, turns)
        } else {
            print_often(&book, turns)
        };
        println!("{name} {turns} {nanoseconds} {sum}");
    }
}
