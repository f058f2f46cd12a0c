//! A journal in pages of 256 entries, each beside the number of the entry that closed it, as in
//! `ilp_journal`.

// Not each program uses all.
#![allow(dead_code)]

use crate::entries::{Ask, Credited, Entry, Hold, What, ended};

// How many entries a page has room for.
const ROOM: usize = 256;

struct Slot {
    entry: Entry,
    closer: Option<u32>,
}

pub struct Journal {
    pages: Vec<Vec<Slot>>,
    len: u32,
}

impl Journal {
    pub fn new(limit: u32) -> Journal {
        Journal { pages: Vec::with_capacity((limit as usize).div_ceil(ROOM)), len: 0 }
    }

    pub fn len(&self) -> u32 {
        self.len
    }

    pub fn reserve(&mut self, additional: usize) {
        let spare = ROOM * self.pages.len() - self.len as usize;
        if additional > spare {
            for _page in 0..(additional - spare).div_ceil(ROOM) {
                self.pages.push(Vec::with_capacity(ROOM));
            }
        }
    }

    // Room is there.
    pub fn push(&mut self, entry: Entry) {
        let number = self.len;
        if let Some(ended) = ended(&entry.what) {
            self.close(ended, number);
        }
        self.pages[number as usize / ROOM].push(Slot { entry, closer: None });
        self.len += 1;
    }

    fn close(&mut self, ended: u32, closer: u32) {
        let slot = &mut self.pages[ended as usize / ROOM][ended as usize % ROOM];
        slot.closer = slot.closer.or(Some(closer));
    }

    fn slot(&self, number: u32) -> Option<&Slot> {
        self.pages.get(number as usize / ROOM)?.get(number as usize % ROOM)
    }

    pub fn get(&self, number: u32) -> Option<&Entry> {
        Some(&self.slot(number)?.entry)
    }

    pub fn last(&self) -> Option<&Entry> {
        Some(&self.slot(self.len.checked_sub(1)?)?.entry)
    }

    pub fn hold(&self, number: u32) -> Option<&Hold> {
        match &self.slot(number)?.entry.what {
            What::Hold(hold) => Some(hold),
            _ => None,
        }
    }

    pub fn ask(&self, number: u32) -> Option<&Ask> {
        match &self.slot(number)?.entry.what {
            What::Asked(ask) => Some(ask),
            _ => None,
        }
    }

    pub fn credit(&self, number: u32) -> Option<&Credited> {
        match &self.slot(number)?.entry.what {
            What::Credited(credited) => Some(credited),
            _ => None,
        }
    }

    // The number of the entry that answered the hold.
    pub fn answer_of(&self, hold: u32) -> Option<u32> {
        let slot = self.slot(hold)?;
        match slot.entry.what {
            What::Hold(_) => slot.closer,
            _ => None,
        }
    }

    // The number of the entry that closed the settlement.
    pub fn closing_of(&self, ask: u32) -> Option<u32> {
        let slot = self.slot(ask)?;
        match slot.entry.what {
            What::Asked(_) => slot.closer,
            _ => None,
        }
    }
}
