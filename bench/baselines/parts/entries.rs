//! What a journal consists of, as in the book.

// Not each program uses all.
#![allow(dead_code)]

pub struct Entry {
    pub moment: i64,
    pub actor: u32,
    pub what: What,
}

pub enum What {
    Hold(Hold),
    Fulfilled { hold: u32, preimage: [u8; 32] },
    Released { hold: u32, cause: Cause },
    Credited(Credited),
    Asked(Ask),
    Confirmed { ask: u32 },
    Undone { ask: u32 },
}

#[derive(Clone, Copy)]
pub struct Hold {
    pub from: u32,
    pub to: u32,
    pub amount: u64,
    pub fee: u64,
    pub out: u64,
    pub deadline: i64,
    pub condition: [u8; 32],
}

pub struct Credited {
    pub peer: u32,
    pub key: Vec<u8>,
    pub named: u128,
    pub scale: u8,
    pub credited: u64,
}

#[derive(Clone, Copy)]
pub struct Ask {
    pub peer: u32,
    pub amount: u64,
}

#[derive(Clone, Copy)]
pub enum Cause {
    Late,
    WrongPreimage,
    NoReply,
    Peer([u8; 3]),
    Restart,
}

// The number of the hold that an entry answers, or of the settlement that it closes.
pub fn ended(what: &What) -> Option<u32> {
    match what {
        What::Fulfilled { hold, .. } | What::Released { hold, .. } => Some(*hold),
        What::Confirmed { ask } | What::Undone { ask } => Some(*ask),
        _ => None,
    }
}
