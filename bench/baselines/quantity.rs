//! The work of `main.rt.in` in plain Rust over std alone. In the rows `read_..` a general reader of
//! JSON makes a tree on the heap, in which the two members are looked up, as the Rattle program does;
//! in the rows `read_against_lean_..` a reader for this object alone keeps nothing but the two.
use std::borrow::Cow;
use std::collections::BTreeMap;
use std::hint::black_box;
use std::io::Read;
use std::time::Instant;

const ROOM: usize = 64;
const MOST_DIGITS: usize = 38;
const MOST_DEPTH: usize = 127;

enum Fault {
    NotJson,
    BadAmount,
    BadScale,
}

struct Quantity {
    amount: u128,
    scale: u8,
}

// ---- JSON

#[allow(dead_code)]
#[derive(Clone, Copy)]
enum Number {
    Whole(u64),
    Signed(i64),
    Float(f64),
}

#[allow(dead_code)]
enum Value {
    Null,
    Bool(bool),
    Number(Number),
    Text(String),
    Array(Vec<Value>),
    Object(BTreeMap<String, Value>),
}

struct Reader<'a> {
    text: &'a str,
    place: usize,
}

impl<'a> Reader<'a> {
    fn peek(&self) -> Option<u8> {
        self.text.as_bytes().get(self.place).copied()
    }

    fn skip_blanks(&mut self) {
        while let Some(b' ' | b'\t' | b'\n' | b'\r') = self.peek() {
            self.place += 1;
        }
    }

    fn eat(&mut self, octet: u8) -> bool {
        let found = self.peek() == Some(octet);
        self.place += usize::from(found);
        found
    }

    fn word(&mut self, word: &str) -> Option<()> {
        let rest = &self.text.as_bytes()[self.place..];
        self.place += word.len();
        rest.starts_with(word.as_bytes()).then_some(())
    }

    // A text behind its first quote: a slice of the input, where nothing in it is escaped.
    fn string(&mut self) -> Option<Cow<'a, str>> {
        let start = self.place;
        loop {
            match self.peek()? {
                b'"' => {
                    self.place += 1;
                    return Some(Cow::Borrowed(&self.text[start..self.place - 1]));
                }
                b'\\' => return self.escaped(start),
                0..0x20 => return None,
                _ => self.place += 1,
            }
        }
    }

    fn escaped(&mut self, start: usize) -> Option<Cow<'a, str>> {
        let mut text = String::from(&self.text[start..self.place]);
        let mut from = self.place;
        loop {
            match self.peek()? {
                b'"' => {
                    text.push_str(&self.text[from..self.place]);
                    self.place += 1;
                    return Some(Cow::Owned(text));
                }
                b'\\' => {
                    text.push_str(&self.text[from..self.place]);
                    self.place += 1;
                    text.push(self.escape()?);
                    from = self.place;
                }
                0..0x20 => return None,
                _ => self.place += 1,
            }
        }
    }

    fn escape(&mut self) -> Option<char> {
        let octet = self.peek()?;
        self.place += 1;
        Some(match octet {
            b'"' | b'\\' | b'/' => octet as char,
            b'b' => '\x08',
            b'f' => '\x0c',
            b'n' => '\n',
            b'r' => '\r',
            b't' => '\t',
            b'u' => {
                let high = self.four()?;
                if !(0xd800..0xdc00).contains(&high) {
                    return char::from_u32(high);
                }
                self.word("\\u")?;
                let low = self.four()?.checked_sub(0xdc00)?;
                return char::from_u32(0x10000 + ((high - 0xd800) << 10) + low);
            }
            _ => return None,
        })
    }

    fn four(&mut self) -> Option<u32> {
        let digits = self.text.as_bytes().get(self.place..self.place + 4)?;
        self.place += 4;
        digits.iter().try_fold(0, |sum, digit| Some(sum * 16 + (*digit as char).to_digit(16)?))
    }

    fn digits(&mut self) -> Option<()> {
        let start = self.place;
        while let Some(b'0'..=b'9') = self.peek() {
            self.place += 1;
        }
        (start < self.place).then_some(())
    }

    fn number(&mut self) -> Option<Number> {
        let start = self.place;
        let signed = self.eat(b'-');
        if !self.eat(b'0') {
            self.digits()?;
        }
        let end = self.place;
        if self.eat(b'.') {
            self.digits()?;
        }
        if self.eat(b'e') || self.eat(b'E') {
            let _sign = self.eat(b'+') || self.eat(b'-');
            self.digits()?;
        }
        let text = &self.text[start..self.place];
        if end == self.place {
            if !signed && let Ok(whole) = text.parse() {
                return Some(Number::Whole(whole));
            }
            if signed && text != "-0" && let Ok(whole) = text.parse() {
                return Some(Number::Signed(whole));
            }
        }
        text.parse().ok().filter(|float: &f64| float.is_finite()).map(Number::Float)
    }

    // The value here, with what is blank around it.
    fn value(&mut self, depth: usize) -> Option<Value> {
        self.skip_blanks();
        let value = match self.peek()? {
            b'"' => {
                self.place += 1;
                Value::Text(self.string()?.into_owned())
            }
            b'{' => Value::Object(self.object(depth.checked_sub(1)?)?),
            b'[' => Value::Array(self.array(depth.checked_sub(1)?)?),
            b'n' => self.word("null").map(|()| Value::Null)?,
            b't' => self.word("true").map(|()| Value::Bool(true))?,
            b'f' => self.word("false").map(|()| Value::Bool(false))?,
            _ => Value::Number(self.number()?),
        };
        self.skip_blanks();
        Some(value)
    }

    fn object(&mut self, depth: usize) -> Option<BTreeMap<String, Value>> {
        let mut members = BTreeMap::new();
        let mut name = self.first_name(b'{', b'}')?;
        while let Some(found) = name {
            let value = self.value(depth)?;
            members.insert(found.into_owned(), value);
            name = self.next_name()?;
        }
        Some(members)
    }

    fn array(&mut self, depth: usize) -> Option<Vec<Value>> {
        let mut items = Vec::new();
        self.place += 1;
        self.skip_blanks();
        if self.eat(b']') {
            return Some(items);
        }
        loop {
            items.push(self.value(depth)?);
            if self.eat(b']') {
                return Some(items);
            }
            self.eat(b',').then_some(())?;
        }
    }

    // The first name of an object, or none where it has no member.
    fn first_name(&mut self, open: u8, close: u8) -> Option<Option<Cow<'a, str>>> {
        self.eat(open).then_some(())?;
        self.skip_blanks();
        if self.eat(close) {
            return Some(None);
        }
        self.name().map(Some)
    }

    // The name after a member, or none where the object ends.
    fn next_name(&mut self) -> Option<Option<Cow<'a, str>>> {
        if self.eat(b'}') {
            return Some(None);
        }
        self.eat(b',').then_some(())?;
        self.skip_blanks();
        self.name().map(Some)
    }

    fn name(&mut self) -> Option<Cow<'a, str>> {
        self.eat(b'"').then_some(())?;
        let name = self.string()?;
        self.skip_blanks();
        self.eat(b':').then_some(name)
    }

    // ---- the same, where only the two members of a quantity are kept

    fn seen(&mut self) -> Option<Seen<'a>> {
        self.skip_blanks();
        let seen = match self.peek()? {
            b'"' => {
                self.place += 1;
                Seen::Text(self.string()?)
            }
            b'{' | b'[' | b'n' | b't' | b'f' => {
                self.skip(MOST_DEPTH - 1)?;
                Seen::Other
            }
            _ => match self.number()? {
                Number::Whole(whole) => Seen::Whole(whole),
                _ => Seen::Other,
            },
        };
        self.skip_blanks();
        Some(seen)
    }

    fn skip(&mut self, depth: usize) -> Option<()> {
        self.skip_blanks();
        match self.peek()? {
            b'"' => {
                self.place += 1;
                self.string()?;
            }
            b'{' => {
                let depth = depth.checked_sub(1)?;
                let mut name = self.first_name(b'{', b'}')?;
                while name.is_some() {
                    self.skip(depth)?;
                    name = self.next_name()?;
                }
            }
            b'[' => self.skip_items(depth.checked_sub(1)?)?,
            b'n' => self.word("null")?,
            b't' => self.word("true")?,
            b'f' => self.word("false")?,
            _ => {
                self.number()?;
            }
        }
        self.skip_blanks();
        Some(())
    }

    fn skip_items(&mut self, depth: usize) -> Option<()> {
        self.place += 1;
        self.skip_blanks();
        if self.eat(b']') {
            return Some(());
        }
        loop {
            self.skip(depth)?;
            if self.eat(b']') {
                return Some(());
            }
            self.eat(b',').then_some(())?;
        }
    }

    fn members(&mut self) -> Option<(Option<Seen<'a>>, Option<Seen<'a>>)> {
        let (mut amount, mut scale) = (None, None);
        self.skip_blanks();
        let mut name = self.first_name(b'{', b'}')?;
        while let Some(found) = name {
            let value = self.seen()?;
            match &*found {
                "amount" => amount = Some(value),
                "scale" => scale = Some(value),
                _ => {}
            }
            name = self.next_name()?;
        }
        self.skip_blanks();
        self.peek().is_none().then_some((amount, scale))
    }
}

enum Seen<'a> {
    Text(Cow<'a, str>),
    Whole(u64),
    Other,
}

// ---- quantities

fn amount_of_text(text: &str) -> Option<u128> {
    let digits = text.as_bytes();
    let is_amount = 1 <= digits.len() && digits.len() <= MOST_DIGITS;
    if !is_amount || !digits.iter().all(|digit| digit.is_ascii_digit()) {
        return None;
    }
    text.parse().ok()
}

fn amount_of(value: &Value) -> Option<u128> {
    match value {
        Value::Text(text) => amount_of_text(text),
        Value::Number(Number::Whole(whole)) => Some(u128::from(*whole)),
        _ => None,
    }
}

fn scale_of(value: &Value) -> Option<u8> {
    match value {
        Value::Number(Number::Whole(whole)) => u8::try_from(*whole).ok(),
        _ => None,
    }
}

#[inline(never)]
fn read(octets: &[u8]) -> Result<Quantity, Fault> {
    let text = std::str::from_utf8(octets).map_err(|_| Fault::NotJson)?;
    let mut reader = Reader { text, place: 0 };
    let value = reader.value(MOST_DEPTH).ok_or(Fault::NotJson)?;
    if reader.peek().is_some() {
        return Err(Fault::NotJson);
    }
    let Value::Object(members) = value else {
        return Err(Fault::NotJson);
    };
    let amount = members.get("amount").and_then(amount_of).ok_or(Fault::BadAmount)?;
    let scale = members.get("scale").and_then(scale_of).ok_or(Fault::BadScale)?;
    Ok(Quantity { amount, scale })
}

#[inline(never)]
fn read_lean(octets: &[u8]) -> Result<Quantity, Fault> {
    let text = std::str::from_utf8(octets).map_err(|_| Fault::NotJson)?;
    let mut reader = Reader { text, place: 0 };
    let (amount, scale) = reader.members().ok_or(Fault::NotJson)?;
    let amount = match amount {
        Some(Seen::Text(text)) => amount_of_text(&text).ok_or(Fault::BadAmount)?,
        Some(Seen::Whole(whole)) => u128::from(whole),
        _ => return Err(Fault::BadAmount),
    };
    let Some(Seen::Whole(scale)) = scale else {
        return Err(Fault::BadScale);
    };
    let scale = u8::try_from(scale).map_err(|_| Fault::BadScale)?;
    Ok(Quantity { amount, scale })
}

fn credited(quantity: &Quantity, scale: u8) -> Option<u64> {
    if quantity.scale <= scale {
        let amount = u64::try_from(quantity.amount).ok()?;
        let places = u32::from(scale - quantity.scale);
        if amount == 0 {
            return Some(0);
        }
        if places > 19 {
            return None;
        }
        amount.checked_mul(10u64.pow(places))
    } else {
        let places = u32::from(quantity.scale - scale);
        if places > 38 {
            return Some(0);
        }
        u64::try_from(quantity.amount / 10u128.pow(places)).ok()
    }
}

// Prints into a line from its end to its start, as the Rattle program does.
struct Line {
    octets: [u8; ROOM],
    start: usize,
}

impl Line {
    fn put(&mut self, text: &[u8]) {
        let start = self.start - text.len();
        self.octets[start..self.start].copy_from_slice(text);
        self.start = start;
    }

    fn put_decimal(&mut self, number: u64) {
        let mut rest = number;
        while rest >= 10 {
            self.put(&[b'0' + (rest % 10) as u8]);
            rest /= 10;
        }
        self.put(&[b'0' + rest as u8]);
    }
}

fn print(amount: u64, scale: u8, out: &mut Vec<u8>) {
    let mut line = Line { octets: [0; ROOM], start: ROOM };
    line.put(b"}");
    line.put_decimal(u64::from(scale));
    line.put(b"\",\"scale\":");
    line.put_decimal(amount);
    line.put(b"{\"amount\":\"");
    out.extend_from_slice(&line.octets[line.start..]);
}

// ---- rows

fn digit(turn: u32) -> u8 {
    b'0' + (turn % 10) as u8
}

fn weight(outcome: Result<Quantity, Fault>) -> u64 {
    match outcome {
        Ok(found) => found.amount as u64 ^ u64::from(found.scale),
        Err(Fault::NotJson | Fault::BadAmount | Fault::BadScale) => 1000,
    }
}

fn read_quantities(
    octets: &mut [u8],
    place: usize,
    turns: u32,
    read: impl Fn(&[u8]) -> Result<Quantity, Fault>,
) -> u64 {
    let mut sum = 0u64;
    for turn in 0..turns {
        if place < octets.len() {
            octets[place] = digit(turn);
        }
        sum = sum.wrapping_add(weight(read(octets)));
    }
    sum
}

fn next(state: u64) -> u64 {
    state.wrapping_mul(6_364_136_223_846_793_005).wrapping_add(1_442_695_040_888_963_407)
}

fn scales(state: u64) -> (u8, u8) {
    (((state >> 58) % 9) as u8, 9 + ((state >> 52) % 9) as u8)
}

fn credit_up(turns: u32) -> u64 {
    let (mut sum, mut state) = (0u64, 1u64);
    for _ in 0..turns {
        state = next(state);
        let (coarse, fine) = scales(state);
        let quantity = Quantity { amount: u128::from(state >> 40), scale: coarse };
        sum = sum.wrapping_add(credited(&quantity, fine).unwrap_or(1));
    }
    sum
}

fn credit_down(turns: u32) -> u64 {
    let (mut sum, mut state) = (0u64, 1u64);
    for _ in 0..turns {
        state = next(state);
        let (coarse, fine) = scales(state);
        let amount = u128::from(state >> 8) * u128::from(state % 1024);
        let quantity = Quantity { amount, scale: fine };
        sum = sum.wrapping_add(credited(&quantity, coarse).unwrap_or(1));
    }
    sum
}

fn print_quantities(out: &mut Vec<u8>, turns: u32) -> u64 {
    let (mut sum, mut state) = (0u64, 1u64);
    for turn in 0..turns {
        state = next(state);
        out.clear();
        print(state >> (state % 61), (state >> 56) as u8, out);
        let front = out.len().min(turn as usize % ROOM);
        sum = sum.wrapping_add(u64::from(out[..front].last().copied().unwrap_or(0)));
    }
    sum
}

fn main() {
    let mut text = String::new();
    std::io::stdin().read_to_string(&mut text).expect("standard input");
    for line in text.lines() {
        let words: Vec<&str> = line.split(' ').collect();
        let [name, turns, place, hex] = words[..] else { continue };
        let turns: u32 = black_box(turns.parse().expect("turns"));
        let place: usize = place.parse().expect("a place");
        let mut octets: Vec<u8> = (0..hex.len() / 2)
            .map(|k| u8::from_str_radix(&hex[2 * k..2 * k + 2], 16).expect("hex"))
            .collect();
        let mut out = Vec::with_capacity(ROOM);
        let start = Instant::now();
        let sum = if name.starts_with("read_against_lean_") {
            read_quantities(&mut octets, place, turns, read_lean)
        } else if name.starts_with("read_") {
            read_quantities(&mut octets, place, turns, read)
        } else if name.starts_with("print") {
            print_quantities(&mut out, turns)
        } else if name.starts_with("credited_up") {
            credit_up(turns)
        } else {
            credit_down(turns)
        };
        let nanoseconds = start.elapsed().as_nanos();
        println!("{name} {turns} {nanoseconds} {sum}");
    }
}
