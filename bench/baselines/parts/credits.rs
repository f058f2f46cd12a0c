//! Settlements from peers: what a quantity comes to, and which credit is kept under a key.

use std::collections::HashMap;

// This times 10 to the power of minus `scale`.
pub struct Quantity {
    pub amount: u128,
    pub scale: u8,
}

// What a quantity comes to at a scale, rounded down.
pub fn credited(quantity: &Quantity, scale: u8) -> Option<u64> {
    if quantity.scale <= scale {
        let amount = u64::try_from(quantity.amount).ok()?;
        let places = u32::from(scale - quantity.scale);
        if amount == 0 {
            return Some(0);
        }
        if places > 19 {
            return None;
        }
        amount.checked_mul(10u64.pow(places))
    } else {
        let places = u32::from(quantity.scale - scale);
        if places > 38 {
            return Some(0);
        }
        u64::try_from(quantity.amount / 10u128.pow(places)).ok()
    }
}

// The numbers of the credits, by the keys of each peer.
pub struct KeyTable {
    peers: Vec<HashMap<Vec<u8>, u32>>,
}

impl KeyTable {
    pub fn new(peers: usize) -> KeyTable {
        KeyTable { peers: vec![HashMap::new(); peers] }
    }

    pub fn find(&self, peer: u32, key: &[u8]) -> Option<u32> {
        self.peers[peer as usize].get(key).copied()
    }

    pub fn keep(&mut self, peer: u32, key: &[u8], number: u32) {
        self.peers[peer as usize].insert(key.to_vec(), number);
    }
}
