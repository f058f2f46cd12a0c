//! What a book is configured to do.

// Not each program uses all.
#![allow(dead_code)]

use std::collections::HashMap;

pub struct Peer {
    pub name: String,
    pub asset: u32,
    pub least: i64,
    pub fee_ppm: u32,
    pub max_packet: u64,
    pub levels: Option<Levels>,
}

#[derive(Clone, Copy)]
pub struct Levels {
    pub threshold: i64,
    pub settle_to: i64,
    pub settle_max: u64,
}

pub struct Config {
    pub peers: Vec<Peer>,
    // The places of the peers by their names.
    pub names: HashMap<Vec<u8>, u32>,
    // The scale of each asset.
    pub scales: Vec<u8>,
    pub routes: HashMap<Vec<u8>, u32>,
    pub longest: usize,
    pub journal: u32,
    pub window_ms: u32,
    pub max_hold_ms: u32,
}

// Two peers in one asset, each of which may owe all that there is; the rest as by default.
pub fn lending() -> Config {
    let peer = |name: &str| Peer {
        name: name.to_string(),
        asset: 0,
        least: i64::MIN,
        fee_ppm: 0,
        max_packet: u64::MAX,
        levels: None,
    };
    let routes: HashMap<Vec<u8>, u32> =
        [(b"test.alice".to_vec(), 0), (b"test.bob".to_vec(), 1)].into();
    Config {
        peers: vec![peer("alice"), peer("bob")],
        names: [(b"alice".to_vec(), 0), (b"bob".to_vec(), 1)].into(),
        scales: vec![2],
        longest: routes.keys().map(Vec::len).max().unwrap_or(0),
        routes,
        journal: 65_536,
        window_ms: 1_000,
        max_hold_ms: 30_000,
    }
}

impl Config {
    pub fn peer(&self, peer: u32) -> &Peer {
        &self.peers[peer as usize]
    }

    pub fn peer_by_name(&self, name: &[u8]) -> Option<u32> {
        self.names.get(name).copied()
    }

    pub fn scale(&self, peer: u32) -> u8 {
        self.scales[self.peer(peer).asset as usize]
    }

    // The peer of the longest prefix that matches.
    pub fn route(&self, destination: &[u8]) -> Option<u32> {
        if destination.starts_with(b"peer.") {
            return None;
        }
        if let Some(peer) = self.routes.get(destination) {
            return Some(*peer);
        }
        let places = destination.len().min(self.longest.saturating_add(1));
        for place in (0..places).rev() {
            if destination[place] == b'.' {
                if let Some(peer) = self.routes.get(&destination[..place]) {
                    return Some(*peer);
                }
            }
        }
        self.routes.get(b"".as_slice()).copied()
    }

    // The fee and the amount out. Only one asset is there, so it is worth itself.
    pub fn quote(&self, from: u32, amount: u64) -> Option<(u64, u64)> {
        let ppm = self.peer(from).fee_ppm;
        let fee = ((u128::from(amount) * u128::from(ppm) + 999_999) / 1_000_000) as u64;
        let out = amount - fee;
        if amount > 0 && out == 0 { None } else { Some((fee, out)) }
    }
}
