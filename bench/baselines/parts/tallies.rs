//! What the entries of a journal come to, kept entry by entry: for each peer, for each asset and in
//! all.

// Not each program uses all.
#![allow(dead_code)]

use crate::entries::{Ask, Hold, What};
use crate::journal::Journal;

// How many settlements to one peer may be open at once.
pub const MOST_OPEN: usize = 4;

#[derive(Clone, Copy, Default)]
struct PeerRow {
    balance: i128,
    open_holds: u32,
}

// The numbers of the open settlements to a peer, in the order in which they were asked for.
#[derive(Clone, Copy, Default)]
struct OpenAsks {
    numbers: [u32; MOST_OPEN],
    count: usize,
}

// The totals are of the open and the fulfilled holds since the base.
#[derive(Clone, Copy, Default)]
struct AssetRow {
    held: u128,
    taken: u128,
    fees: u128,
    sold: u128,
    settled: i128,
    total_in: u128,
    total_out: u128,
}

// What the books of an asset come to.
#[derive(Clone, Copy)]
pub struct Sums {
    pub settled: i128,
    pub held: i128,
    pub fees: i128,
    pub bought: i128,
    pub sold: i128,
}

pub struct Tallies {
    base: u32,
    // Each peer's asset.
    assets: Vec<u32>,
    peers: Vec<PeerRow>,
    asks: Vec<OpenAsks>,
    sums: Vec<AssetRow>,
    open_count: u32,
    fulfilled: u32,
}

impl OpenAsks {
    fn numbers(&self) -> &[u32] {
        &self.numbers[..self.count]
    }

    // There is room for it.
    fn push(&mut self, number: u32) {
        self.numbers[self.count] = number;
        self.count += 1;
    }

    // The others move up, in their order.
    fn remove(&mut self, closed: u32) {
        let mut kept = 0;
        for place in 0..self.count {
            let number = self.numbers[place];
            if number != closed {
                self.numbers[kept] = number;
                kept += 1;
            }
        }
        self.count = kept;
    }
}

impl Tallies {
    pub fn new(assets: Vec<u32>, asset_count: usize, base: u32) -> Tallies {
        let peers = vec![PeerRow::default(); assets.len()];
        let asks = vec![OpenAsks::default(); assets.len()];
        let sums = vec![AssetRow::default(); asset_count];
        Tallies { base, assets, peers, asks, sums, open_count: 0, fulfilled: 0 }
    }

    pub fn base(&self) -> u32 {
        self.base
    }

    // All entries lie below both bases.
    pub fn set_base(&mut self, base: u32) {
        self.base = base;
    }

    pub fn balance(&self, peer: u32) -> i128 {
        self.peers.get(peer as usize).map_or(0, |row| row.balance)
    }

    pub fn open_holds(&self, peer: u32) -> u32 {
        self.peers.get(peer as usize).map_or(0, |row| row.open_holds)
    }

    // The numbers of the open settlements to the peer.
    pub fn open_asks(&self, peer: u32) -> &[u32] {
        self.asks.get(peer as usize).map_or(&[], OpenAsks::numbers)
    }

    pub fn total_in(&self, asset: u32) -> u128 {
        self.sums.get(asset as usize).map_or(0, |row| row.total_in)
    }

    pub fn total_out(&self, asset: u32) -> u128 {
        self.sums.get(asset as usize).map_or(0, |row| row.total_out)
    }

    pub fn sums(&self, asset: u32) -> Sums {
        let row = self.sums.get(asset as usize).copied().unwrap_or_default();
        Sums {
            settled: row.settled,
            held: row.held as i128,
            fees: row.fees as i128,
            bought: row.taken as i128 - row.fees as i128,
            sold: row.sold as i128,
        }
    }

    pub fn open_count(&self) -> u32 {
        self.open_count
    }

    pub fn fulfilled(&self) -> u32 {
        self.fulfilled
    }

    // Adds an entry that comes next in the journal, and is not in it yet.
    pub fn apply(&mut self, journal: &Journal, what: &What) {
        match what {
            What::Hold(hold) => self.add_hold(journal.len(), hold),
            What::Fulfilled { hold, .. } => {
                if let Some(hold) = journal.hold(*hold) {
                    self.fulfill(hold);
                }
            }
            What::Released { hold: number, .. } => {
                if let Some(hold) = journal.hold(*number) {
                    self.release(*number, hold);
                }
            }
            What::Credited(credited) => self.pay_in(credited.peer, credited.credited),
            What::Asked(ask) => self.add_ask(journal.len(), ask),
            What::Confirmed { ask: number } => {
                if let Some(ask) = journal.ask(*number) {
                    self.close_ask(*number, ask);
                }
            }
            What::Undone { ask: number } => {
                if let Some(ask) = journal.ask(*number) {
                    self.pay_in(ask.peer, ask.amount);
                    self.close_ask(*number, ask);
                }
            }
        }
    }

    fn add_hold(&mut self, number: u32, hold: &Hold) {
        let peer = &mut self.peers[hold.from as usize];
        peer.balance -= i128::from(hold.amount);
        peer.open_holds += 1;
        let counted = self.base <= number;
        let from = self.asset_of(hold.from);
        from.held += u128::from(hold.amount);
        if counted {
            from.total_in += u128::from(hold.amount);
            self.asset_of(hold.to).total_out += u128::from(hold.out);
        }
        self.open_count += 1;
    }

    fn fulfill(&mut self, hold: &Hold) {
        self.peers[hold.from as usize].open_holds -= 1;
        self.peers[hold.to as usize].balance += i128::from(hold.out);
        let from = self.asset_of(hold.from);
        from.held -= u128::from(hold.amount);
        from.taken += u128::from(hold.amount);
        from.fees += u128::from(hold.fee);
        self.asset_of(hold.to).sold += u128::from(hold.out);
        self.open_count -= 1;
        self.fulfilled += 1;
    }

    fn release(&mut self, number: u32, hold: &Hold) {
        let peer = &mut self.peers[hold.from as usize];
        peer.balance += i128::from(hold.amount);
        peer.open_holds -= 1;
        let counted = self.base <= number;
        let from = self.asset_of(hold.from);
        from.held -= u128::from(hold.amount);
        if counted {
            from.total_in -= u128::from(hold.amount);
            self.asset_of(hold.to).total_out -= u128::from(hold.out);
        }
        self.open_count -= 1;
    }

    fn add_ask(&mut self, number: u32, ask: &Ask) {
        self.peers[ask.peer as usize].balance -= i128::from(ask.amount);
        self.asks[ask.peer as usize].push(number);
        self.asset_of(ask.peer).settled -= i128::from(ask.amount);
        self.open_count += 1;
    }

    fn close_ask(&mut self, number: u32, ask: &Ask) {
        self.asks[ask.peer as usize].remove(number);
        self.open_count -= 1;
    }

    fn pay_in(&mut self, peer: u32, amount: u64) {
        self.peers[peer as usize].balance += i128::from(amount);
        self.asset_of(peer).settled += i128::from(amount);
    }

    fn asset_of(&mut self, peer: u32) -> &mut AssetRow {
        &mut self.sums[self.assets[peer as usize] as usize]
    }
}
