//! Messages in plain Rust: the parsing of heads is written out by hand, with the tests of octets and the
//! spans of fields that `httparse` makes, and the fields are kept in a map of names in lower case to
//! values, owned. A head that is not whole is parsed from its beginning again at each read, as
//! `ilp_http` does.
use std::collections::HashMap;
use std::hash::{BuildHasherDefault, Hasher};

const HEAD_LIMIT: usize = 16_384;
const FIELD_LIMIT: usize = 64;
const BODY_LIMIT: usize = 65_536;
pub const ROOM: usize = 81_921;
const MOST_READS: usize = 4_096;

#[allow(dead_code)]
pub enum Fault {
    BadRequest,
    MethodNotAllowed,
    LengthRequired,
    ContentTooLarge,
    FieldsTooLarge,
    TooManyReads,
}

// ---- octets

const fn token_octets() -> [bool; 256] {
    let mut table = [false; 256];
    let mut k = 0;
    while k < 256 {
        let octet = k as u8;
        table[k] = octet.is_ascii_alphanumeric()
            || matches!(octet, b'!' | b'#' | b'$' | b'%' | b'&' | b'\'' | b'*' | b'+' | b'-' | b'.')
            || matches!(octet, b'^' | b'_' | b'`' | b'|' | b'~');
        k += 1;
    }
    table
}

static TOKEN: [bool; 256] = token_octets();

fn is_target(octet: u8) -> bool {
    octet > b' ' && octet != 0x7f
}

fn is_value(octet: u8) -> bool {
    ((octet >= b' ') & (octet != 0x7f)) | (octet == b'\t')
}

// ---- heads

#[derive(Clone, Copy, Default)]
struct Span {
    start: usize,
    end: usize,
}

impl Span {
    fn of(self, octets: &[u8]) -> &[u8] {
        &octets[self.start..self.end]
    }
}

#[derive(Clone, Copy, Default)]
struct FieldSpan {
    name: Span,
    value: Span,
}

struct Head {
    method: Span,
    path: Span,
    fields: usize,
    len: usize,
}

enum Short {
    Partial,
    Bad,
    TooMany,
}

struct Cursor<'a> {
    octets: &'a [u8],
    place: usize,
}

impl<'a> Cursor<'a> {
    fn peek(&self) -> Result<u8, Short> {
        self.octets.get(self.place).copied().ok_or(Short::Partial)
    }

    fn run(&mut self, belongs: impl Fn(u8) -> bool) -> Span {
        let start = self.place;
        let count = self.octets[start..].iter().position(|octet| !belongs(*octet));
        self.place = count.map_or(self.octets.len(), |count| start + count);
        Span { start, end: self.place }
    }

    // Sixteen octets a step while all of them belong, which is vector code, and then one by one.
    fn value_run(&mut self) -> Span {
        let start = self.place;
        for chunk in self.octets[start..].chunks_exact(16) {
            if !chunk.iter().fold(true, |all, octet| all & is_value(*octet)) {
                break;
            }
            self.place += 16;
        }
        self.run(is_value);
        Span { start, end: self.place }
    }

    fn expect(&mut self, text: &[u8]) -> Result<(), Short> {
        for octet in text {
            if self.peek()? != *octet {
                return Err(Short::Bad);
            }
            self.place += 1;
        }
        Ok(())
    }

    fn line_end(&mut self) -> Result<(), Short> {
        if self.peek()? == b'\r' {
            self.place += 1;
        }
        self.expect(b"\n")
    }

    fn some(&mut self, belongs: impl Fn(u8) -> bool, after: u8) -> Result<Span, Short> {
        let span = self.run(belongs);
        if self.peek()? != after || span.start == span.end {
            return Err(Short::Bad);
        }
        self.place += 1;
        Ok(span)
    }

    fn field(&mut self) -> Result<FieldSpan, Short> {
        let name = self.some(|octet| TOKEN[octet as usize], b':')?;
        self.run(|octet| octet == b' ' || octet == b'\t');
        let mut value = self.value_run();
        self.line_end()?;
        while value.end > value.start && matches!(self.octets[value.end - 1], b' ' | b'\t') {
            value.end -= 1;
        }
        Ok(FieldSpan { name, value })
    }
}

fn parse_head(octets: &[u8], spans: &mut [FieldSpan]) -> Result<Head, Short> {
    let mut cursor = Cursor { octets, place: 0 };
    while matches!(cursor.peek()?, b'\r' | b'\n') {
        cursor.line_end()?;
    }
    let method = cursor.some(|octet| TOKEN[octet as usize], b' ')?;
    let path = cursor.some(is_target, b' ')?;
    cursor.expect(b"HTTP/1.")?;
    if !matches!(cursor.peek()?, b'0' | b'1') {
        return Err(Short::Bad);
    }
    cursor.place += 1;
    cursor.line_end()?;
    let mut fields = 0;
    while !matches!(cursor.peek()?, b'\r' | b'\n') {
        if fields == spans.len() {
            return Err(Short::TooMany);
        }
        spans[fields] = cursor.field()?;
        fields += 1;
    }
    cursor.line_end()?;
    Ok(Head { method, path, fields, len: cursor.place })
}

// ---- requests

struct Layout {
    head: Head,
    body: usize,
}

enum Finding {
    Whole(Layout),
    Unfinished(usize),
    Refused(Fault),
}

fn announced(octets: &[u8], spans: &[FieldSpan], head: &Head) -> Result<usize, Fault> {
    if head.method.of(octets) != b"POST" {
        return Err(Fault::MethodNotAllowed);
    }
    let named = |name: &'static [u8]| {
        spans.iter().filter(move |span| span.name.of(octets).eq_ignore_ascii_case(name))
    };
    if named(b"transfer-encoding").next().is_some() {
        return Err(Fault::LengthRequired);
    }
    let mut lengths = named(b"content-length");
    let Some(found) = lengths.next() else { return Err(Fault::LengthRequired) };
    let text = found.value.of(octets);
    if lengths.next().is_some() || text.is_empty() {
        return Err(Fault::BadRequest);
    }
    let mut value = 0usize;
    for octet in text {
        if !octet.is_ascii_digit() {
            return Err(Fault::BadRequest);
        }
        value = (value * 10 + usize::from(octet - b'0')).min(BODY_LIMIT + 1);
    }
    if value > BODY_LIMIT { Err(Fault::ContentTooLarge) } else { Ok(value) }
}

fn examine(octets: &[u8], spans: &mut [FieldSpan]) -> Finding {
    let front = &octets[..octets.len().min(HEAD_LIMIT)];
    match parse_head(front, spans) {
        Ok(head) => match announced(front, &spans[..head.fields], &head) {
            Ok(body) if octets.len() - head.len < body => Finding::Unfinished(head.len + body),
            Ok(body) => Finding::Whole(Layout { head, body }),
            Err(fault) => Finding::Refused(fault),
        },
        Err(Short::Partial) if octets.len() < HEAD_LIMIT => Finding::Unfinished(octets.len() + 1),
        Err(Short::Partial | Short::TooMany) => Finding::Refused(Fault::FieldsTooLarge),
        Err(Short::Bad) => Finding::Refused(Fault::BadRequest),
    }
}

// What octets that have come so far are.
#[allow(dead_code)]
pub enum Examined {
    Whole,
    Unfinished,
    Refused,
}

#[allow(dead_code)]
pub fn look_at(octets: &[u8]) -> Examined {
    let mut spans = [FieldSpan::default(); FIELD_LIMIT];
    match examine(octets, &mut spans) {
        Finding::Whole(_) => Examined::Whole,
        Finding::Unfinished(_) => Examined::Unfinished,
        Finding::Refused(_) => Examined::Refused,
    }
}

// Where octets come from; 0 where no more do.
pub trait Source {
    fn pull(&mut self, room: &mut [u8]) -> usize;
}

pub struct Pieces<'a> {
    pub rest: &'a [u8],
    pub piece: usize,
}

impl Source for Pieces<'_> {
    fn pull(&mut self, room: &mut [u8]) -> usize {
        let count = room.len().min(self.piece).min(self.rest.len());
        let (now, rest) = self.rest.split_at(count);
        room[..count].copy_from_slice(now);
        self.rest = rest;
        count
    }
}

// FNV-1a, as the Rattle program's map has while no bucket is crowded.
pub struct Fnv(u64);

impl Default for Fnv {
    fn default() -> Fnv {
        Fnv(0xcbf2_9ce4_8422_2325)
    }
}

impl Hasher for Fnv {
    fn write(&mut self, octets: &[u8]) {
        for octet in octets {
            self.0 = (self.0 ^ u64::from(*octet)).wrapping_mul(0x100_0000_01b3);
        }
    }

    fn finish(&self) -> u64 {
        self.0
    }
}

pub type Fields = HashMap<Box<[u8]>, Vec<Box<[u8]>>, BuildHasherDefault<Fnv>>;

pub struct Request<'b> {
    pub path: &'b [u8],
    pub headers: Fields,
    pub body: &'b [u8],
}

pub fn read_request<'b, S: Source>(
    source: &mut S,
    buffer: &'b mut [u8],
) -> Result<Request<'b>, Fault> {
    let mut spans = [FieldSpan::default(); FIELD_LIMIT];
    let (mut filled, mut needed, mut reads) = (0, 0, 0);
    let layout = loop {
        if needed <= filled {
            match examine(&buffer[..filled], &mut spans) {
                Finding::Whole(layout) => break layout,
                Finding::Unfinished(least) => needed = least,
                Finding::Refused(fault) => return Err(fault),
            }
        }
        if reads == MOST_READS {
            return Err(Fault::TooManyReads);
        }
        reads += 1;
        match source.pull(&mut buffer[filled..]) {
            0 => return Err(Fault::BadRequest),
            count => filled += count,
        }
    };
    let octets: &'b [u8] = &buffer[..filled];
    let mut headers = Fields::default();
    for span in &spans[..layout.head.fields] {
        let name = span.name.of(octets).to_ascii_lowercase().into_boxed_slice();
        headers.entry(name).or_default().push(span.value.of(octets).into());
    }
    let start = layout.head.len;
    Ok(Request { path: layout.head.path.of(octets), headers, body: &octets[start..start + layout.body] })
}

// ---- responses

fn put_decimal(out: &mut Vec<u8>, number: usize) {
    let mut digits = [0; 20];
    let (mut start, mut rest) = (digits.len(), number);
    loop {
        start -= 1;
        digits[start] = b'0' + (rest % 10) as u8;
        rest /= 10;
        if rest == 0 {
            break;
        }
    }
    out.extend_from_slice(&digits[start..]);
}

pub fn write_response(out: &mut Vec<u8>, body: &[u8]) {
    out.extend_from_slice(b"HTTP/1.1 200 OK\r\n");
    if !body.is_empty() {
        out.extend_from_slice(b"Content-Type: application/octet-stream\r\n");
    }
    out.extend_from_slice(b"Content-Length: ");
    put_decimal(out, body.len());
    out.extend_from_slice(b"\r\nConnection: close\r\n\r\n");
    out.extend_from_slice(body);
}
