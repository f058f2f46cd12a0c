//! A book that is carried over from the text of its journal, as in `ilp_book`: its entries are judged
//! and taken up one by one.

// No program tells which rule is broken where.
#![allow(dead_code)]

use crate::book::{Book, due_amount};
use crate::config::Config;
use crate::credits::{Quantity, credited};
use crate::entries::{Ask, Cause, Credited, Entry, Hold, What};
use crate::journal_text::{BadLine, JournalText, put_journal};
use crate::sha256::sha256;
use crate::tallies::MOST_OPEN;
use std::io::{self, Write};

// 9999-12-31T23:59:59.999Z.
const LAST_OF_ALL: i64 = 253_402_300_799_999;

// No journal has an entry of this number.
const BEHIND_ALL: u32 = u32::MAX;

// The rule that an entry breaks.
#[derive(Clone, Copy, Debug)]
pub enum BrokenRule {
    Moment,
    Peer,
    MaxPacket,
    Quote,
    Deadline,
    NoOpenHold,
    Preimage,
    Lateness,
    Credited,
    KeyTaken,
    StillOpen,
    NotDue,
    NoOpenAsk,
    Room,
    Least,
}

#[derive(Clone, Copy, Debug)]
pub enum CarryFault {
    BadJournalText { line: u64 },
    Unlawful { entry: u32, rule: BrokenRule },
}

impl From<BadLine> for CarryFault {
    fn from(bad: BadLine) -> CarryFault {
        CarryFault::BadJournalText { line: bad.line }
    }
}

impl Book {
    pub fn save<W: Write>(&self, sink: &mut W) -> io::Result<()> {
        put_journal(&self.config, &self.journal, sink)
    }

    pub fn carry_over(config: Config, text: &[u8], now: i64) -> Result<Book, CarryFault> {
        let mut book = Book::new(config);
        book.tallies.set_base(BEHIND_ALL);
        book.take_up_text(text)?;
        book.end_holds(now);
        book.tallies.set_base(book.len());
        Ok(book)
    }

    // A bad line behind an unlawful entry is what is told.
    fn take_up_text(&mut self, text: &[u8]) -> Result<(), CarryFault> {
        let mut lines = JournalText::begin(text)?;
        let mut lawful = Ok(());
        while let Some(entry) = lines.next(&self.config)? {
            if lawful.is_ok() {
                lawful = self.take_up(entry);
            }
        }
        lawful
    }

    fn take_up(&mut self, entry: Entry) -> Result<(), CarryFault> {
        if let Err(rule) = self.judge(&entry) {
            return Err(CarryFault::Unlawful { entry: self.len(), rule });
        }
        self.push(entry);
        Ok(())
    }

    fn push(&mut self, entry: Entry) {
        let number = self.len();
        self.journal.reserve(self.tallies.open_count() as usize + 2);
        match &entry.what {
            What::Hold(hold) => self.holds.insert(number, hold.deadline),
            What::Fulfilled { hold, .. } | What::Released { hold, .. } => {
                if let Some(ended) = self.journal.hold(*hold) {
                    self.holds.take(*hold, ended.deadline);
                }
            }
            What::Credited(credited) => self.keys.keep(credited.peer, &credited.key, number),
            _ => {}
        }
        self.tallies.apply(&self.journal, &entry.what);
        self.journal.push(entry);
    }

    // Ends what is open: as late where the deadline has come.
    fn end_holds(&mut self, now: i64) {
        let moment = self.moment_at(now);
        for number in self.holds.numbers() {
            let Some(hold) = self.open_hold(number) else { continue };
            let cause = if hold.deadline <= moment { Cause::Late } else { Cause::Restart };
            let what = What::Released { hold: number, cause };
            self.push(Entry { moment, actor: 0, what });
        }
    }
}

// ---- whether an entry may come next

impl Book {
    fn judge(&self, entry: &Entry) -> Result<(), BrokenRule> {
        self.judge_moment(entry.moment)?;
        self.judge_rule(entry)?;
        self.judge_limits(&entry.what)
    }

    fn judge_moment(&self, moment: i64) -> Result<(), BrokenRule> {
        let last = self.journal.last().map_or(0, |entry| entry.moment);
        if moment < last || moment > LAST_OF_ALL {
            return Err(BrokenRule::Moment);
        }
        Ok(())
    }

    fn judge_rule(&self, entry: &Entry) -> Result<(), BrokenRule> {
        match &entry.what {
            What::Hold(hold) => self.judge_terms(entry.moment, hold),
            What::Fulfilled { hold, preimage } => {
                self.judge_fulfilled(entry.moment, *hold, preimage)
            }
            What::Released { hold, cause } => self.judge_released(entry.moment, *hold, *cause),
            What::Credited(credited) => self.judge_credited(credited),
            What::Asked(ask) => self.judge_asked(ask),
            What::Confirmed { ask } | What::Undone { ask } => self.judge_closing(*ask),
        }
    }

    fn judge_terms(&self, moment: i64, hold: &Hold) -> Result<(), BrokenRule> {
        if hold.from == hold.to {
            return Err(BrokenRule::Peer);
        }
        if hold.amount > self.config.peer(hold.from).max_packet {
            return Err(BrokenRule::MaxPacket);
        }
        if self.config.quote(hold.from, hold.amount) != Some((hold.fee, hold.out)) {
            return Err(BrokenRule::Quote);
        }
        let latest = moment + i64::from(self.config.max_hold_ms);
        if hold.deadline <= moment || hold.deadline > latest {
            return Err(BrokenRule::Deadline);
        }
        Ok(())
    }

    fn judge_fulfilled(
        &self,
        moment: i64,
        number: u32,
        preimage: &[u8; 32],
    ) -> Result<(), BrokenRule> {
        let hold = self.open_hold(number).ok_or(BrokenRule::NoOpenHold)?;
        if hold.deadline <= moment {
            return Err(BrokenRule::Lateness);
        }
        if sha256(preimage) != hold.condition {
            return Err(BrokenRule::Preimage);
        }
        Ok(())
    }

    fn judge_released(&self, moment: i64, number: u32, cause: Cause) -> Result<(), BrokenRule> {
        let hold = self.open_hold(number).ok_or(BrokenRule::NoOpenHold)?;
        if matches!(cause, Cause::Late) != (hold.deadline <= moment) {
            return Err(BrokenRule::Lateness);
        }
        Ok(())
    }

    fn judge_credited(&self, credit: &Credited) -> Result<(), BrokenRule> {
        let quantity = Quantity { amount: credit.named, scale: credit.scale };
        if credited(&quantity, self.config.scale(credit.peer)) != Some(credit.credited) {
            return Err(BrokenRule::Credited);
        }
        if self.keys.find(credit.peer, &credit.key).is_some() {
            return Err(BrokenRule::KeyTaken);
        }
        Ok(())
    }

    fn judge_asked(&self, ask: &Ask) -> Result<(), BrokenRule> {
        if self.tallies.open_asks(ask.peer).len() >= MOST_OPEN {
            return Err(BrokenRule::StillOpen);
        }
        let levels = self.config.peer(ask.peer).levels;
        if due_amount(self.balance(ask.peer), levels) != Some(ask.amount) {
            return Err(BrokenRule::NotDue);
        }
        Ok(())
    }

    fn judge_closing(&self, number: u32) -> Result<(), BrokenRule> {
        if self.journal.ask(number).is_none() || self.journal.closing_of(number).is_some() {
            return Err(BrokenRule::NoOpenAsk);
        }
        Ok(())
    }

    fn judge_limits(&self, what: &What) -> Result<(), BrokenRule> {
        match what {
            What::Hold(hold) => {
                self.judge_room(2)?;
                self.judge_balance(hold)
            }
            What::Credited(_) => self.judge_room(1),
            What::Asked(_) => self.judge_room(2),
            _ => Ok(()),
        }
    }

    fn judge_room(&self, more: u32) -> Result<(), BrokenRule> {
        if self.has_room(more) { Ok(()) } else { Err(BrokenRule::Room) }
    }

    fn judge_balance(&self, hold: &Hold) -> Result<(), BrokenRule> {
        let least = self.config.peer(hold.from).least;
        if self.balance(hold.from) - i128::from(hold.amount) < i128::from(least) {
            return Err(BrokenRule::Least);
        }
        Ok(())
    }
}
