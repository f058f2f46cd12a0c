//! The open holds by their deadlines.

// Not each program uses all.
#![allow(dead_code)]

use std::collections::BTreeSet;

#[derive(Default)]
pub struct HoldTable {
    holds: BTreeSet<(i64, u32)>,
}

impl HoldTable {
    pub fn insert(&mut self, number: u32, deadline: i64) {
        self.holds.insert((deadline, number));
    }

    pub fn take(&mut self, number: u32, deadline: i64) {
        self.holds.remove(&(deadline, number));
    }

    // Their numbers, from the least on.
    pub fn numbers(&self) -> Vec<u32> {
        let mut numbers: Vec<u32> = self.holds.iter().map(|(_, number)| *number).collect();
        numbers.sort_unstable();
        numbers
    }

    // The number of the one of least deadline, and of several the first.
    pub fn earliest(&self) -> Option<u32> {
        self.holds.first().map(|(_, number)| *number)
    }
}
