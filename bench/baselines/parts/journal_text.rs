//! A journal as a text, written and read, as in `ilp_journal_text`.

use crate::config::Config;
use crate::entries::{Ask, Cause, Credited, Entry, Hold, What};
use crate::journal::Journal;
use std::io::{self, Write};

const FIRST_LINE: &[u8] = b"ilp-journal 1\n";

const DIGITS: &[u8; 16] = b"0123456789abcdef";

// The most octets of a key.
const LONGEST_KEY: usize = 128;

// ---- writing

// Writes the text, of which each write has a line.
pub fn put_journal<W: Write>(config: &Config, journal: &Journal, sink: &mut W) -> io::Result<()> {
    sink.write_all(FIRST_LINE)?;
    let mut line = Vec::new();
    for entry in (0..journal.len()).filter_map(|number| journal.get(number)) {
        line.clear();
        put_entry(&mut line, config, entry);
        sink.write_all(&line)?;
    }
    writeln!(sink, "end {}", journal.len())
}

fn put_entry(line: &mut Vec<u8>, config: &Config, entry: &Entry) {
    put_digits(line, entry.moment as u128);
    put_number(line, u64::from(entry.actor));
    match &entry.what {
        What::Hold(hold) => put_hold(line, config, hold),
        What::Fulfilled { hold, preimage } => {
            put_word(line, "fulfilled");
            put_number(line, u64::from(*hold));
            put_hexadecimal(line, preimage);
        }
        What::Released { hold, cause } => {
            put_word(line, "released");
            put_number(line, u64::from(*hold));
            put_cause(line, cause);
        }
        What::Credited(credited) => put_credited(line, config, credited),
        What::Asked(ask) => {
            put_word(line, "asked");
            put_word(line, &config.peer(ask.peer).name);
            put_number(line, ask.amount);
        }
        What::Confirmed { ask } => {
            put_word(line, "confirmed");
            put_number(line, u64::from(*ask));
        }
        What::Undone { ask } => {
            put_word(line, "undone");
            put_number(line, u64::from(*ask));
        }
    }
    line.push(b'\n');
}

fn put_hold(line: &mut Vec<u8>, config: &Config, hold: &Hold) {
    put_word(line, "hold");
    put_word(line, &config.peer(hold.from).name);
    put_word(line, &config.peer(hold.to).name);
    put_number(line, hold.amount);
    put_number(line, hold.fee);
    put_number(line, hold.out);
    put_number(line, hold.deadline as u64);
    put_hexadecimal(line, &hold.condition);
}

fn put_credited(line: &mut Vec<u8>, config: &Config, credited: &Credited) {
    put_word(line, "credited");
    put_word(line, &config.peer(credited.peer).name);
    put_hexadecimal(line, &credited.key);
    line.push(b' ');
    put_digits(line, credited.named);
    put_number(line, u64::from(credited.scale));
    put_number(line, credited.credited);
}

fn put_cause(line: &mut Vec<u8>, cause: &Cause) {
    match cause {
        Cause::Late => put_word(line, "Late"),
        Cause::WrongPreimage => put_word(line, "WrongPreimage"),
        Cause::NoReply => put_word(line, "NoReply"),
        Cause::Restart => put_word(line, "Restart"),
        Cause::Peer(code) => {
            put_word(line, "Peer");
            put_hexadecimal(line, code);
        }
    }
}

fn put_word(line: &mut Vec<u8>, word: &str) {
    line.push(b' ');
    line.extend_from_slice(word.as_bytes());
}

fn put_number(line: &mut Vec<u8>, number: u64) {
    line.push(b' ');
    put_digits(line, u128::from(number));
}

// Numbers of 64 bits, which most are, are divided as such.
fn put_digits(line: &mut Vec<u8>, number: u128) {
    let mut digits = [0; 39];
    let mut place = digits.len();
    let mut left = number;
    while left > u128::from(u64::MAX) {
        place -= 1;
        digits[place] = b'0' + (left % 10) as u8;
        left /= 10;
    }
    let mut left = left as u64;
    loop {
        place -= 1;
        digits[place] = b'0' + (left % 10) as u8;
        left /= 10;
        if left == 0 {
            break;
        }
    }
    line.extend_from_slice(&digits[place..]);
}

fn put_hexadecimal(line: &mut Vec<u8>, octets: &[u8]) {
    line.push(b' ');
    let start = line.len();
    line.resize(start + 2 * octets.len(), 0);
    for (pair, octet) in line[start..].chunks_exact_mut(2).zip(octets) {
        pair[0] = DIGITS[usize::from(octet >> 4)];
        pair[1] = DIGITS[usize::from(octet & 15)];
    }
}

// ---- reading

// The first line, counted from 1, that the text of a journal does not have there.
pub struct BadLine {
    pub line: u64,
}

// A text as far as it is not read yet.
pub struct JournalText<'a> {
    rest: &'a [u8],
    count: u64,
}

impl<'a> JournalText<'a> {
    pub fn begin(text: &'a [u8]) -> Result<JournalText<'a>, BadLine> {
        match text.strip_prefix(FIRST_LINE) {
            Some(rest) => Ok(JournalText { rest, count: 0 }),
            None => Err(BadLine { line: 1 }),
        }
    }

    // The next entry, and `None` where the text ends with its last line.
    pub fn next(&mut self, config: &Config) -> Result<Option<Entry>, BadLine> {
        let bad = BadLine { line: self.count + 2 };
        let Some(end) = self.rest.iter().position(|octet| *octet == b'\n') else {
            return Err(bad);
        };
        let (line, rest) = (&self.rest[..end], &self.rest[end + 1..]);
        if let Some(count) = line.strip_prefix(b"end ") {
            if number_in(count) != Some(self.count) {
                return Err(bad);
            }
            return if rest.is_empty() { Ok(None) } else { Err(BadLine { line: self.count + 3 }) };
        }
        let entry = entry_in(config, line).ok_or(bad)?;
        self.rest = rest;
        self.count += 1;
        Ok(Some(entry))
    }
}

fn entry_in(config: &Config, line: &[u8]) -> Option<Entry> {
    let mut fields = line.split(|octet| *octet == b' ');
    let entry = Entry {
        moment: moment_in(fields.next()?)?,
        actor: short_in(fields.next()?)?,
        what: what_in(config, &mut fields)?,
    };
    match fields.next() {
        None => Some(entry),
        Some(_) => None,
    }
}

fn what_in<'a>(config: &Config, fields: &mut impl Iterator<Item = &'a [u8]>) -> Option<What> {
    Some(match fields.next()? {
        b"hold" => What::Hold(Hold {
            from: config.peer_by_name(fields.next()?)?,
            to: config.peer_by_name(fields.next()?)?,
            amount: number_in(fields.next()?)?,
            fee: number_in(fields.next()?)?,
            out: number_in(fields.next()?)?,
            deadline: moment_in(fields.next()?)?,
            condition: octets_in(fields.next()?)?,
        }),
        b"fulfilled" => What::Fulfilled {
            hold: short_in(fields.next()?)?,
            preimage: octets_in(fields.next()?)?,
        },
        b"released" => What::Released { hold: short_in(fields.next()?)?, cause: cause_in(fields)? },
        b"credited" => What::Credited(Credited {
            peer: config.peer_by_name(fields.next()?)?,
            key: key_in(fields.next()?)?,
            named: wide_in(fields.next()?)?,
            scale: u8::try_from(number_in(fields.next()?)?).ok()?,
            credited: number_in(fields.next()?)?,
        }),
        b"asked" => What::Asked(Ask {
            peer: config.peer_by_name(fields.next()?)?,
            amount: number_in(fields.next()?)?,
        }),
        b"confirmed" => What::Confirmed { ask: short_in(fields.next()?)? },
        b"undone" => What::Undone { ask: short_in(fields.next()?)? },
        _ => return None,
    })
}

fn cause_in<'a>(fields: &mut impl Iterator<Item = &'a [u8]>) -> Option<Cause> {
    match fields.next()? {
        b"Late" => Some(Cause::Late),
        b"WrongPreimage" => Some(Cause::WrongPreimage),
        b"NoReply" => Some(Cause::NoReply),
        b"Restart" => Some(Cause::Restart),
        b"Peer" => Some(Cause::Peer(octets_in(fields.next()?)?)),
        _ => None,
    }
}

// ---- fields

// A number, which has one spelling: there is no sign, and no zero in front.
fn number_in(field: &[u8]) -> Option<u64> {
    if field.is_empty() || (field.len() > 1 && field[0] == b'0') {
        return None;
    }
    field.iter().try_fold(0u64, |number, octet| {
        let digit = decimal_digit(*octet)?;
        number.checked_mul(10)?.checked_add(u64::from(digit))
    })
}

fn wide_in(field: &[u8]) -> Option<u128> {
    if field.is_empty() || (field.len() > 1 && field[0] == b'0') {
        return None;
    }
    field.iter().try_fold(0u128, |number, octet| {
        let digit = decimal_digit(*octet)?;
        number.checked_mul(10)?.checked_add(u128::from(digit))
    })
}

fn short_in(field: &[u8]) -> Option<u32> {
    u32::try_from(number_in(field)?).ok()
}

fn moment_in(field: &[u8]) -> Option<i64> {
    i64::try_from(number_in(field)?).ok()
}

fn octets_in<const N: usize>(field: &[u8]) -> Option<[u8; N]> {
    let mut octets = [0; N];
    decode(field, &mut octets)?;
    Some(octets)
}

fn key_in(field: &[u8]) -> Option<Vec<u8>> {
    if field.is_empty() || field.len() > 2 * LONGEST_KEY {
        return None;
    }
    let mut octets = vec![0; field.len() / 2];
    decode(field, &mut octets)?;
    Some(octets)
}

fn decode(field: &[u8], octets: &mut [u8]) -> Option<()> {
    if field.len() != 2 * octets.len() {
        return None;
    }
    for (octet, pair) in octets.iter_mut().zip(field.chunks_exact(2)) {
        *octet = (hexadecimal_digit(pair[0])? << 4) | hexadecimal_digit(pair[1])?;
    }
    Some(())
}

fn decimal_digit(octet: u8) -> Option<u8> {
    match octet {
        b'0'..=b'9' => Some(octet - b'0'),
        _ => None,
    }
}

fn hexadecimal_digit(octet: u8) -> Option<u8> {
    match octet {
        b'0'..=b'9' => Some(octet - b'0'),
        b'a'..=b'f' => Some(octet - b'a' + 10),
        _ => None,
    }
}
