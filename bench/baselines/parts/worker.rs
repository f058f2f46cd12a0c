//! A worker in plain Rust, which forwards packets as `ilp_workers` does, and links in memory whose peer
//! fulfills at once.

use crate::book::{Book, Held, Outcome, PeerReply};
use crate::entries::Cause;
use crate::packets::{Octets, Packet, Prepare, read, write_prepare};
use crate::sha256::sha256;
use std::sync::Mutex;

// 2025-01-01T00:00:00Z.
pub const NEW_YEAR: i64 = 1_735_689_600_000;

// A Fulfill of 32 zero octets without data.
pub const FULFILL: [u8; 35] =
    *b"\x0d\x21\0\0\0\0\0\0\0\0\0\0\0\0\0\0\0\0\0\0\0\0\0\0\0\0\0\0\0\0\0\0\0\0\0";

// ---- links

pub struct LinkFault;

pub trait Clock {
    fn now(&mut self) -> i64;
}

pub trait Uplink {
    fn send(
        &mut self,
        to: u32,
        packet: &[u8],
        deadline: i64,
        reply: &mut Octets,
    ) -> Result<(), LinkFault>;
}

pub struct Still;

impl Clock for Still {
    fn now(&mut self) -> i64 {
        NEW_YEAR
    }
}

pub struct Fulfilling;

impl Uplink for Fulfilling {
    fn send(
        &mut self,
        _to: u32,
        _packet: &[u8],
        _deadline: i64,
        reply: &mut Octets,
    ) -> Result<(), LinkFault> {
        reply.reserve(FULFILL.len());
        reply.append(&FULFILL);
        Ok(())
    }
}

// ---- a worker

// How a hold ended, as its worker keeps it.
#[allow(dead_code)]
struct Record {
    number: u32,
    hold: u32,
    from: u32,
    to: u32,
    amount: u64,
    out: u64,
    condition: [u8; 32],
    verdict: Verdict,
}

#[derive(Clone, Copy)]
enum Verdict {
    Fulfilled,
    Released(Cause),
}

// What the sender is told: the reply that came, or a Reject of the connector's own, which these
// forwards never come to.
#[derive(Clone, Copy)]
enum Told {
    Passed,
    Rejected,
}

struct ReplyEffect {
    answer: PeerReply,
    verdict: Verdict,
    told: Told,
}

pub struct BadPacket;

pub struct Worker<C: Clock, U: Uplink> {
    actor: u32,
    pub entries: u32,
    records: Vec<Record>,
    clock: C,
    uplink: U,
    outgoing: Octets,
    incoming: Octets,
    rejected: Octets,
    told: Told,
}

impl<C: Clock, U: Uplink> Worker<C, U> {
    pub fn new(actor: u32, clock: C, uplink: U) -> Worker<C, U> {
        Worker {
            actor,
            entries: 0,
            records: Vec::new(),
            clock,
            uplink,
            outgoing: Octets::with_capacity(0),
            incoming: Octets::with_capacity(0),
            rejected: Octets::with_capacity(1_067),
            told: Told::Passed,
        }
    }

    pub fn reply(&self) -> &[u8] {
        match self.told {
            Told::Passed => self.incoming.as_slice(),
            Told::Rejected => self.rejected.as_slice(),
        }
    }

    pub fn forward(&mut self, desk: &Mutex<Book>, from: u32, octets: &[u8]) -> Result<(), BadPacket> {
        let Ok(Packet::Prepare(packet)) = read(octets) else {
            return Err(BadPacket);
        };
        self.told = self.pass_on(desk, from, &packet, octets.len());
        Ok(())
    }

    fn pass_on(
        &mut self,
        desk: &Mutex<Book>,
        from: u32,
        packet: &Prepare<'_>,
        len: usize,
    ) -> Told {
        self.records.reserve(1);
        self.outgoing.clear();
        self.outgoing.reserve(len);
        let now = self.clock.now();
        let Ok(held) = desk.lock().unwrap().hold(self.actor, from, packet, now) else {
            return Told::Rejected;
        };
        self.entries += 1;
        let effect = self.send_on(packet, &held);
        self.end(desk, from, packet, &held, effect)
    }

    fn send_on(&mut self, packet: &Prepare<'_>, held: &Held) -> ReplyEffect {
        let onward = Prepare {
            amount: held.out,
            expires: held.deadline,
            condition: packet.condition,
            destination: packet.destination,
            payload: packet.payload,
        };
        write_prepare(&mut self.outgoing, &onward);
        self.incoming.clear();
        let came = self.uplink.send(
            held.to,
            self.outgoing.as_slice(),
            held.deadline,
            &mut self.incoming,
        );
        effect_by(packet.condition, came, self.incoming.as_slice())
    }

    fn end(
        &mut self,
        desk: &Mutex<Book>,
        from: u32,
        packet: &Prepare<'_>,
        held: &Held,
        effect: ReplyEffect,
    ) -> Told {
        let later = self.clock.now();
        let outcome = desk.lock().unwrap().answer(self.actor, held.number, effect.answer, later);
        let (number, verdict) = match outcome {
            Ok(Outcome::Fulfilled { entry }) => (entry, Verdict::Fulfilled),
            Ok(Outcome::Released { entry, cause }) => (entry, Verdict::Released(cause)),
            Err(_) => return Told::Rejected,
        };
        self.entries += 1;
        if !are_same(&verdict, &effect.verdict) {
            return Told::Rejected;
        }
        self.records.push(Record {
            number,
            hold: held.number,
            from,
            to: held.to,
            amount: packet.amount,
            out: held.out,
            condition: *packet.condition,
            verdict,
        });
        effect.told
    }
}

fn are_same(one: &Verdict, other: &Verdict) -> bool {
    match (one, other) {
        (Verdict::Fulfilled, Verdict::Fulfilled) => true,
        (Verdict::Released(one), Verdict::Released(other)) => match (one, other) {
            (Cause::Late, Cause::Late) => true,
            (Cause::WrongPreimage, Cause::WrongPreimage) => true,
            (Cause::NoReply, Cause::NoReply) => true,
            (Cause::Peer(one), Cause::Peer(other)) => one == other,
            _ => false,
        },
        _ => false,
    }
}

fn effect_by(condition: &[u8; 32], came: Result<(), LinkFault>, reply: &[u8]) -> ReplyEffect {
    if came.is_ok() {
        match read(reply) {
            Ok(Packet::Fulfill(fulfill)) => {
                return effect_by_fulfill(condition, fulfill.preimage);
            }
            Ok(Packet::Reject(reject)) => {
                return ReplyEffect {
                    answer: PeerReply::Reject(*reject.code),
                    verdict: Verdict::Released(Cause::Peer(*reject.code)),
                    told: Told::Passed,
                };
            }
            Ok(Packet::Prepare(_)) | Err(_) => {}
        }
    }
    ReplyEffect {
        answer: PeerReply::NoReply,
        verdict: Verdict::Released(Cause::NoReply),
        told: Told::Rejected,
    }
}

fn effect_by_fulfill(condition: &[u8; 32], preimage: &[u8; 32]) -> ReplyEffect {
    if sha256(preimage) == *condition {
        ReplyEffect {
            answer: PeerReply::Fulfill(*preimage),
            verdict: Verdict::Fulfilled,
            told: Told::Passed,
        }
    } else {
        ReplyEffect {
            answer: PeerReply::BadFulfill,
            verdict: Verdict::Released(Cause::WrongPreimage),
            told: Told::Rejected,
        }
    }
}
