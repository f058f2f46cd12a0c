// Packets in plain Rust, read and written as `ilp_packet` does. The program `packets.rs` includes this
// file, since a module of its own would cost it calls that are not inlined; the others have it as a
// module.

#[derive(Clone, Copy, PartialEq, Eq)]
pub enum Fault {
    Truncated,
    BadPrefix,
    TooLong,
    UnknownType,
    Trailing,
    BadExpiry,
    BadAddress,
    FieldTooLong,
}

pub enum Packet<'a> {
    Prepare(Prepare<'a>),
    Fulfill(Fulfill<'a>),
    Reject(Reject<'a>),
}

pub struct Prepare<'a> {
    pub amount: u64,
    pub expires: i64,
    pub condition: &'a [u8; 32],
    pub destination: &'a [u8],
    pub payload: &'a [u8],
}

pub struct Fulfill<'a> {
    pub preimage: &'a [u8; 32],
    pub payload: &'a [u8],
}

pub struct Reject<'a> {
    pub code: &'a [u8; 3],
    pub triggered_by: &'a [u8],
    pub message: &'a [u8],
    pub payload: &'a [u8],
}

// ---- reading

type Field<'a, T> = Result<(T, &'a [u8]), Fault>;

pub fn read(input: &[u8]) -> Result<Packet<'_>, Fault> {
    match input {
        [] => Err(Fault::Truncated),
        [12, rest @ ..] => Ok(Packet::Prepare(read_prepare(read_content(rest)?)?)),
        [13, rest @ ..] => Ok(Packet::Fulfill(read_fulfill(read_content(rest)?)?)),
        [14, rest @ ..] => Ok(Packet::Reject(read_reject(read_content(rest)?)?)),
        [_, ..] => Err(Fault::UnknownType),
    }
}

fn read_content(input: &[u8]) -> Result<&[u8], Fault> {
    let (content, rest) = take_string(input)?;
    take_last(content, rest)
}

fn read_prepare(content: &[u8]) -> Result<Prepare<'_>, Fault> {
    let (amount, rest) = take_chunk::<8>(content)?;
    let (text, rest) = take_chunk::<17>(rest)?;
    let expires = expiry_read(text).ok_or(Fault::BadExpiry)?;
    let (condition, rest) = take_chunk::<32>(rest)?;
    let (destination, rest) = take_string(rest)?;
    if !is_address(destination) {
        return Err(Fault::BadAddress);
    }
    let payload = read_payload(rest)?;
    Ok(Prepare {
        amount: u64::from_be_bytes(*amount),
        expires,
        condition,
        destination,
        payload,
    })
}

fn read_fulfill(content: &[u8]) -> Result<Fulfill<'_>, Fault> {
    let (preimage, rest) = take_chunk::<32>(content)?;
    let payload = read_payload(rest)?;
    Ok(Fulfill { preimage, payload })
}

fn read_reject(content: &[u8]) -> Result<Reject<'_>, Fault> {
    let (code, rest) = take_chunk::<3>(content)?;
    let (triggered_by, rest) = take_string_within(1_023, rest)?;
    let (message, rest) = take_string_within(8_191, rest)?;
    let payload = read_payload(rest)?;
    Ok(Reject {
        code,
        triggered_by,
        message,
        payload,
    })
}

fn read_payload(input: &[u8]) -> Result<&[u8], Fault> {
    let (payload, rest) = take_string_within(32_767, input)?;
    take_last(payload, rest)
}

fn take_chunk<const N: usize>(input: &[u8]) -> Field<'_, &[u8; N]> {
    input.split_first_chunk::<N>().ok_or(Fault::Truncated)
}

fn take_string_within(limit: usize, input: &[u8]) -> Field<'_, &[u8]> {
    let (content, rest) = take_string(input)?;
    if content.len() > limit {
        return Err(Fault::FieldTooLong);
    }
    Ok((content, rest))
}

fn take_string(input: &[u8]) -> Field<'_, &[u8]> {
    let (len, rest) = read_len(input)?;
    if rest.len() < len {
        return Err(Fault::Truncated);
    }
    Ok(rest.split_at(len))
}

fn read_len(input: &[u8]) -> Field<'_, usize> {
    match input {
        [] => Err(Fault::Truncated),
        [first, rest @ ..] if *first < 0x80 => Ok((usize::from(*first), rest)),
        [0x80, ..] => Err(Fault::BadPrefix),
        [0x81, low, _rest @ ..] if *low < 0x80 => Err(Fault::BadPrefix),
        [0x81, low, rest @ ..] => Ok((usize::from(*low), rest)),
        [0x82, 0, _, ..] => Err(Fault::BadPrefix),
        [0x82, high, low, rest @ ..] => Ok((usize::from(*high) * 256 + usize::from(*low), rest)),
        [0x81 | 0x82, ..] => Err(Fault::Truncated),
        _ => Err(Fault::TooLong),
    }
}

fn take_last<'a>(value: &'a [u8], rest: &[u8]) -> Result<&'a [u8], Fault> {
    if rest.is_empty() { Ok(value) } else { Err(Fault::Trailing) }
}

// ---- addresses

fn is_address(octets: &[u8]) -> bool {
    if octets.len() > 1023 {
        return false;
    }
    match octets.iter().position(|octet| *octet == b'.') {
        None => false,
        Some(dot) => is_scheme(&octets[..dot]) && are_segments(&octets[dot + 1..]),
    }
}

fn is_scheme(text: &[u8]) -> bool {
    matches!(
        text,
        b"g" | b"private"
            | b"example"
            | b"peer"
            | b"self"
            | b"test"
            | b"test1"
            | b"test2"
            | b"test3"
            | b"local"
    )
}

fn are_segments(octets: &[u8]) -> bool {
    let mut passed = true;
    let mut before = b'.';
    for octet in octets {
        passed &= is_segment_octet(*octet) | (*octet == b'.') & (before != b'.');
        before = *octet;
    }
    passed && before != b'.'
}

fn is_segment_octet(octet: u8) -> bool {
    matches!(octet, b'A'..=b'Z' | b'a'..=b'z' | b'0'..=b'9' | b'_' | b'~' | b'-')
}

// ---- expiries

fn expiry_read(text: &[u8; 17]) -> Option<i64> {
    if !text.iter().fold(true, |passed, octet| passed & octet.is_ascii_digit()) {
        return None;
    }
    let pair = |place: usize| u32::from(text[place] - b'0') * 10 + u32::from(text[place + 1] - b'0');
    let (hour, minute, second) = (pair(8), pair(10), pair(12));
    if hour > 23 || minute > 59 || second > 59 {
        return None;
    }
    let day = day_number(pair(0) * 100 + pair(2), pair(4), pair(6))?;
    let millisecond = u32::from(text[14] - b'0') * 100 + pair(15);
    let time = ((hour * 60 + minute) * 60 + second) * 1000 + millisecond;
    Some(day * 86_400_000 + i64::from(time))
}

// The number of days from 1970-01-01 to a date, where the calendar has it.
fn day_number(year: u32, month: u32, day: u32) -> Option<i64> {
    if !(1..=12).contains(&month) || day < 1 || day > 28 && day > days_in_month(year, month) {
        return None;
    }
    // Years are counted from March, so that the leap day is the last.
    let (years, months) = if month > 2 { (year + 400, month - 3) } else { (year + 399, month + 9) };
    let of_years = years * 365 + years / 4 - years / 100 + years / 400;
    Some(i64::from(of_years + (153 * months + 2) / 5 + day) - 865_566)
}

fn days_in_month(year: u32, month: u32) -> u32 {
    match month {
        4 | 6 | 9 | 11 => 30,
        2 if year % 4 == 0 && (year % 100 != 0 || year % 400 == 0) => 29,
        2 => 28,
        _ => 31,
    }
}

// ---- writing

// Octets, and behind them room that is filled already: what is appended is written over it.
pub struct Octets {
    row: Vec<u8>,
    len: usize,
}

impl Octets {
    pub fn with_capacity(capacity: usize) -> Octets {
        Octets { row: vec![0; capacity], len: 0 }
    }

    pub fn clear(&mut self) {
        self.len = 0;
    }

    pub fn as_slice(&self) -> &[u8] {
        &self.row[..self.len]
    }

    pub fn reserve(&mut self, additional: usize) {
        if self.row.len() - self.len < additional {
            self.row.resize(self.len + additional, 0);
        }
    }

    pub fn append(&mut self, octets: &[u8]) {
        let end = self.len + octets.len();
        self.row[self.len..end].copy_from_slice(octets);
        self.len = end;
    }
}

pub fn write(out: &mut Octets, packet: &Packet<'_>) {
    match packet {
        Packet::Prepare(found) => write_prepare(out, found),
        Packet::Fulfill(found) => write_fulfill(out, found),
        Packet::Reject(found) => write_reject(out, found),
    }
}

pub fn write_prepare(out: &mut Octets, packet: &Prepare<'_>) {
    let expiry = expiry_write(packet.expires);
    begin(out, 12, 57 + octets_len(packet.destination) + octets_len(packet.payload));
    out.append(&packet.amount.to_be_bytes());
    out.append(&expiry);
    out.append(packet.condition);
    write_string(out, packet.destination);
    write_string(out, packet.payload);
}

fn write_fulfill(out: &mut Octets, packet: &Fulfill<'_>) {
    begin(out, 13, 32 + octets_len(packet.payload));
    out.append(packet.preimage);
    write_string(out, packet.payload);
}

fn write_reject(out: &mut Octets, packet: &Reject<'_>) {
    let fields = [packet.triggered_by, packet.message, packet.payload];
    begin(out, 14, 3 + fields.into_iter().map(octets_len).sum::<usize>());
    out.append(packet.code);
    for field in fields {
        write_string(out, field);
    }
}

// Makes room for the packet, and appends its type and the prefix of its content.
fn begin(out: &mut Octets, number: u8, len: usize) {
    out.reserve(1 + prefix_len(len) + len);
    out.append(&[number]);
    write_prefix(out, len);
}

fn write_string(out: &mut Octets, content: &[u8]) {
    write_prefix(out, content.len());
    out.append(content);
}

fn octets_len(content: &[u8]) -> usize {
    prefix_len(content.len()) + content.len()
}

fn prefix_len(len: usize) -> usize {
    match len {
        0..0x80 => 1,
        0x80..0x100 => 2,
        _ => 3,
    }
}

fn write_prefix(out: &mut Octets, len: usize) {
    let [high, low] = (len as u16).to_be_bytes();
    match prefix_len(len) {
        1 => out.append(&[low]),
        2 => out.append(&[0x81, low]),
        _ => out.append(&[0x82, high, low]),
    }
}

fn expiry_write(moment: i64) -> [u8; 17] {
    let (year, month, day) = date_with_number(moment.div_euclid(86_400_000));
    let time = moment.rem_euclid(86_400_000) as u32;
    let (second, millisecond) = (time / 1000, time % 1000);
    let pairs = [
        year / 100, year % 100, month, day, second / 3600, second / 60 % 60, second % 60,
    ];
    let mut text = [b'0'; 17];
    for (place, pair) in pairs.into_iter().enumerate() {
        text[2 * place] += (pair / 10) as u8;
        text[2 * place + 1] += (pair % 10) as u8;
    }
    text[14] += (millisecond / 100) as u8;
    text[15] += (millisecond / 10 % 10) as u8;
    text[16] += (millisecond % 10) as u8;
    text
}

// The date so many days after 1970-01-01, in the years 0 to 9999.
fn date_with_number(number: i64) -> (u32, u32, u32) {
    // Days are counted from the first of March of the year -400.
    let number = (number + 865_565) as u32;
    let (era, of_era) = (number / 146_097, number % 146_097);
    let year = (of_era - of_era / 1460 + of_era / 36_524 - of_era / 146_096) / 365;
    let of_year = of_era - (365 * year + year / 4 - year / 100);
    let months = (5 * of_year + 2) / 153;
    let day = of_year - (153 * months + 2) / 5 + 1;
    let (month, more) = if months < 10 { (months + 3, 0) } else { (months - 9, 1) };
    (era * 400 + year + more - 400, month, day)
}
