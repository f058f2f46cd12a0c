//! The book in plain Rust: a journal in pages, and beside it the same tables as the book's, so that
//! no call goes over the entries.

// A book has more calls, kinds of answers and refusals than each program uses.
#![allow(dead_code)]

use crate::config::{Config, Levels};
use crate::credits::{KeyTable, Quantity, credited};
use crate::entries::{Ask, Cause, Credited, Entry, Hold, What};
use crate::holds::HoldTable;
use crate::journal::Journal;
use crate::packets::Prepare;
use crate::sha256::sha256;
use crate::tallies::{MOST_OPEN, Sums, Tallies};

pub struct Book {
    pub config: Config,
    pub journal: Journal,
    pub tallies: Tallies,
    pub holds: HoldTable,
    pub keys: KeyTable,
}

// ---- what calls are told, and what they answer

pub struct Held {
    pub number: u32,
    pub to: u32,
    pub out: u64,
    pub deadline: i64,
}

pub enum HoldFault {
    AmountTooLarge { max: u64 },
    NoRoute,
    BackToSender,
    Expired,
    TooShort,
    Quote,
    Full,
    TotalFull,
    BelowLeast { balance: i128 },
}

pub enum PeerReply {
    Fulfill([u8; 32]),
    BadFulfill,
    Reject([u8; 3]),
    NoReply,
}

pub enum Outcome {
    Fulfilled { entry: u32 },
    Released { entry: u32, cause: Cause },
}

pub struct NotOpen {
    pub closer: Option<u32>,
}

pub struct Kept {
    pub number: u32,
    pub amount: u64,
    pub fresh: bool,
}

pub enum CreditFault {
    TooLarge,
    KeyTaken { kept: u32 },
    Full,
}

pub struct Asked {
    pub number: u32,
    pub amount: u64,
}

pub enum AskFault {
    StillOpen { number: u32, amount: u64 },
    NotDue { balance: i128 },
    Full,
}

// ---- the book

impl Book {
    pub fn new(config: Config) -> Book {
        let assets = config.peers.iter().map(|peer| peer.asset).collect();
        Book {
            journal: Journal::new(config.journal),
            tallies: Tallies::new(assets, config.scales.len(), 0),
            holds: HoldTable::default(),
            keys: KeyTable::new(config.peers.len()),
            config,
        }
    }

    pub fn len(&self) -> u32 {
        self.journal.len()
    }

    pub fn balance(&self, peer: u32) -> i128 {
        self.tallies.balance(peer)
    }

    pub fn open_holds(&self, peer: u32) -> u32 {
        self.tallies.open_holds(peer)
    }

    pub fn sums(&self, asset: u32) -> Sums {
        self.tallies.sums(asset)
    }

    // Of the years 1970 to 9999, and never before the last entry's.
    pub fn moment_at(&self, now: i64) -> i64 {
        let last = self.journal.last().map_or(0, |entry| entry.moment);
        now.min(253_402_300_799_999).max(0).max(last)
    }

    pub fn has_room(&self, more: u32) -> bool {
        u64::from(self.len()) + u64::from(self.tallies.open_count()) + u64::from(more)
            <= u64::from(self.config.journal)
    }

    // Books an entry that ends nothing, with room for whatever ends what it opens and what is open.
    fn append(&mut self, entry: Entry, opened: u32) -> u32 {
        let number = self.len();
        self.journal.reserve((self.tallies.open_count() + opened + 1) as usize);
        match &entry.what {
            What::Hold(hold) => self.holds.insert(number, hold.deadline),
            What::Credited(credited) => self.keys.keep(credited.peer, &credited.key, number),
            _ => {}
        }
        self.tallies.apply(&self.journal, &entry.what);
        self.journal.push(entry);
        number
    }

    // Books the entry that ends what is open, for which there is room.
    fn close(&mut self, entry: Entry) -> u32 {
        let number = self.len();
        self.tallies.apply(&self.journal, &entry.what);
        self.journal.push(entry);
        number
    }
}

// ---- holds

impl Book {
    pub fn hold(
        &mut self,
        actor: u32,
        from: u32,
        prepare: &Prepare<'_>,
        now: i64,
    ) -> Result<Held, HoldFault> {
        let route = self.config.route(prepare.destination);
        let moment = self.moment_at(now);
        let hold = self.hold_terms(from, prepare, route, moment)?;
        self.book_hold(actor, hold, moment)
    }

    fn hold_terms(
        &self,
        from: u32,
        prepare: &Prepare<'_>,
        route: Option<u32>,
        moment: i64,
    ) -> Result<Hold, HoldFault> {
        let max = self.config.peer(from).max_packet;
        if prepare.amount > max {
            return Err(HoldFault::AmountTooLarge { max });
        }
        let to = route.ok_or(HoldFault::NoRoute)?;
        if to == from {
            return Err(HoldFault::BackToSender);
        }
        if prepare.expires <= moment {
            return Err(HoldFault::Expired);
        }
        let latest = prepare.expires - i64::from(self.config.window_ms);
        if latest <= moment {
            return Err(HoldFault::TooShort);
        }
        let (fee, out) = self.config.quote(from, prepare.amount).ok_or(HoldFault::Quote)?;
        Ok(Hold {
            from,
            to,
            amount: prepare.amount,
            fee,
            out,
            deadline: latest.min(moment + i64::from(self.config.max_hold_ms)),
            condition: *prepare.condition,
        })
    }

    fn book_hold(&mut self, actor: u32, hold: Hold, moment: i64) -> Result<Held, HoldFault> {
        if !self.has_room(2) {
            return Err(HoldFault::Full);
        }
        if !self.has_total(&hold) {
            return Err(HoldFault::TotalFull);
        }
        let balance = self.balance(hold.from);
        let least = self.config.peer(hold.from).least;
        if balance - i128::from(hold.amount) < i128::from(least) {
            return Err(HoldFault::BelowLeast { balance });
        }
        let number = self.append(Entry { moment, actor, what: What::Hold(hold) }, 1);
        Ok(Held { number, to: hold.to, out: hold.out, deadline: hold.deadline })
    }

    fn has_total(&self, hold: &Hold) -> bool {
        let most = u128::from(u64::MAX);
        let from = self.config.peer(hold.from).asset;
        let to = self.config.peer(hold.to).asset;
        let paid = self.tallies.total_in(from) + u128::from(hold.amount);
        let got = self.tallies.total_out(to) + u128::from(hold.out);
        paid <= most && got <= most
    }

    pub fn answer(
        &mut self,
        actor: u32,
        number: u32,
        reply: PeerReply,
        now: i64,
    ) -> Result<Outcome, NotOpen> {
        let Some(hold) = self.open_hold(number) else {
            return Err(NotOpen { closer: self.journal.answer_of(number) });
        };
        let moment = self.moment_at(now);
        let deadline = hold.deadline;
        match verdict(&hold, moment, reply) {
            Ok(preimage) => {
                let what = What::Fulfilled { hold: number, preimage };
                self.holds.take(number, deadline);
                Ok(Outcome::Fulfilled { entry: self.close(Entry { moment, actor, what }) })
            }
            Err(cause) => {
                let what = What::Released { hold: number, cause };
                self.holds.take(number, deadline);
                Ok(Outcome::Released { entry: self.close(Entry { moment, actor, what }), cause })
            }
        }
    }

    pub fn expire_one(&mut self, actor: u32, now: i64) -> Option<u32> {
        let number = self.holds.earliest()?;
        let deadline = self.journal.hold(number)?.deadline;
        let moment = self.moment_at(now);
        if moment < deadline {
            return None;
        }
        let what = What::Released { hold: number, cause: Cause::Late };
        self.holds.take(number, deadline);
        self.close(Entry { moment, actor, what });
        Some(number)
    }

    pub fn open_hold(&self, number: u32) -> Option<Hold> {
        let hold = self.journal.hold(number)?;
        if self.journal.answer_of(number).is_some() { None } else { Some(*hold) }
    }
}

// The preimage that fulfills a hold, or the cause of its release.
fn verdict(hold: &Hold, moment: i64, reply: PeerReply) -> Result<[u8; 32], Cause> {
    if hold.deadline <= moment {
        return Err(Cause::Late);
    }
    let preimage = match reply {
        PeerReply::Fulfill(preimage) => preimage,
        PeerReply::BadFulfill => return Err(Cause::WrongPreimage),
        PeerReply::Reject(code) => return Err(Cause::Peer(code)),
        PeerReply::NoReply => return Err(Cause::NoReply),
    };
    if sha256(&preimage) != hold.condition {
        return Err(Cause::WrongPreimage);
    }
    Ok(preimage)
}

// ---- settlements

impl Book {
    pub fn credit(
        &mut self,
        actor: u32,
        peer: u32,
        key: Vec<u8>,
        quantity: &Quantity,
        now: i64,
    ) -> Result<Kept, CreditFault> {
        let scale = self.config.scale(peer);
        let amount = credited(quantity, scale).ok_or(CreditFault::TooLarge)?;
        if let Some(number) = self.keys.find(peer, &key) {
            return self.kept(number, quantity);
        }
        if !self.has_room(1) {
            return Err(CreditFault::Full);
        }
        let moment = self.moment_at(now);
        let (named, scale) = (quantity.amount, quantity.scale);
        let what = What::Credited(Credited { peer, key, named, scale, credited: amount });
        let number = self.append(Entry { moment, actor, what }, 0);
        Ok(Kept { number, amount, fresh: true })
    }

    // What is answered where a credit is kept under the key.
    fn kept(&self, number: u32, quantity: &Quantity) -> Result<Kept, CreditFault> {
        match self.journal.credit(number) {
            Some(kept) if kept.named == quantity.amount && kept.scale == quantity.scale => {
                Ok(Kept { number, amount: kept.credited, fresh: false })
            }
            _ => Err(CreditFault::KeyTaken { kept: number }),
        }
    }

    pub fn ask(&mut self, actor: u32, peer: u32, now: i64) -> Result<Asked, AskFault> {
        let balance = self.balance(peer);
        if let Some(fault) = self.still_open(peer) {
            return Err(fault);
        }
        let levels = self.config.peer(peer).levels;
        let amount = due_amount(balance, levels).ok_or(AskFault::NotDue { balance })?;
        if !self.has_room(2) {
            return Err(AskFault::Full);
        }
        let moment = self.moment_at(now);
        let what = What::Asked(Ask { peer, amount });
        let number = self.append(Entry { moment, actor, what }, 1);
        Ok(Asked { number, amount })
    }

    // Where as many settlements to the peer are open as may be, the first of them.
    fn still_open(&self, peer: u32) -> Option<AskFault> {
        let open = self.tallies.open_asks(peer);
        if open.len() < MOST_OPEN {
            return None;
        }
        let number = *open.first()?;
        let amount = self.journal.ask(number)?.amount;
        Some(AskFault::StillOpen { number, amount })
    }

    pub fn settle_close(
        &mut self,
        actor: u32,
        number: u32,
        accepted: bool,
        now: i64,
    ) -> Result<u32, NotOpen> {
        let closer = self.journal.closing_of(number);
        if self.journal.ask(number).is_none() || closer.is_some() {
            return Err(NotOpen { closer });
        }
        let moment = self.moment_at(now);
        let ask = number;
        let what = if accepted { What::Confirmed { ask } } else { What::Undone { ask } };
        Ok(self.close(Entry { moment, actor, what }))
    }
}

// What is asked for, where the balance is at the peer's threshold or above it.
pub fn due_amount(balance: i128, levels: Option<Levels>) -> Option<u64> {
    let levels = levels?;
    if balance < i128::from(levels.threshold) {
        return None;
    }
    let above = u64::try_from(balance - i128::from(levels.settle_to)).unwrap_or(u64::MAX);
    Some(above.min(levels.settle_max))
}
