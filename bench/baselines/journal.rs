//! The same journals in plain Rust, in pages of 256 entries; and in one `Vec`, whose rows begin with
//! `vec_`. Prints what the Rattle program does.
use std::hint::black_box;
use std::time::Instant;

const LOOKUPS: u32 = 10_000_000;

const ROOM: usize = 256;

#[allow(dead_code)]
#[derive(Clone, Copy)]
struct Hold {
    from: u32,
    to: u32,
    amount: u64,
    fee: u64,
    out: u64,
    deadline: i64,
    condition: [u8; 32],
}

#[allow(dead_code)]
struct Credited {
    peer: u32,
    key: Vec<u8>,
    named: u128,
    scale: u8,
    credited: u64,
}

#[allow(dead_code)]
enum Cause {
    Late,
    NoReply,
    WrongPreimage,
    Peer([u8; 3]),
}

#[allow(dead_code)]
enum What {
    Hold(Hold),
    Fulfilled { hold: u32, preimage: [u8; 32] },
    Released { hold: u32, cause: Cause },
    Credited(Credited),
    Asked { peer: u32, amount: u64 },
    Confirmed { ask: u32 },
    Undone { ask: u32 },
}

#[allow(dead_code)]
struct Entry {
    moment: i64,
    actor: u32,
    what: What,
}

struct Slot {
    entry: Entry,
    closer: Option<u32>,
}

impl What {
    fn ended(&self) -> Option<u32> {
        match self {
            What::Fulfilled { hold, .. } | What::Released { hold, .. } => Some(*hold),
            What::Confirmed { ask } | What::Undone { ask } => Some(*ask),
            _ => None,
        }
    }
}

const HOLD: Hold = Hold {
    from: 1,
    to: 2,
    amount: 1_000,
    fee: 13,
    out: 987,
    deadline: 1_735_689_629_000,
    condition: [7; 32],
};

trait Journal {
    const PREFIX: &'static str;
    fn new(limit: u32) -> Self;
    fn len(&self) -> u32;
    fn limit(&self) -> u32;
    fn reserve_one(&mut self);
    fn slot(&self, number: u32) -> Option<&Slot>;
    fn slot_mut(&mut self, number: u32) -> Option<&mut Slot>;
    fn add(&mut self, slot: Slot);

    fn push(&mut self, entry: Entry) {
        let number = self.len();
        if let Some(ended) = entry.what.ended() {
            if let Some(slot) = self.slot_mut(ended) {
                slot.closer = slot.closer.or(Some(number));
            }
        }
        self.add(Slot { entry, closer: None });
    }

    fn hold(&self, number: u32) -> Option<Hold> {
        match &self.slot(number)?.entry.what {
            What::Hold(hold) => Some(*hold),
            _ => None,
        }
    }

    fn answer_of(&self, hold: u32) -> Option<u32> {
        let slot = self.slot(hold)?;
        match slot.entry.what {
            What::Hold(_) => slot.closer,
            _ => None,
        }
    }
}

struct Paged {
    pages: Vec<Vec<Slot>>,
    len: u32,
    limit: u32,
}

impl Journal for Paged {
    const PREFIX: &'static str = "";

    fn new(limit: u32) -> Paged {
        Paged { pages: Vec::with_capacity((limit as usize).div_ceil(ROOM)), len: 0, limit }
    }

    fn len(&self) -> u32 {
        self.len
    }

    fn limit(&self) -> u32 {
        self.limit
    }

    fn reserve_one(&mut self) {
        if self.pages.len() * ROOM == self.len as usize {
            self.pages.push(Vec::with_capacity(ROOM));
        }
    }

    fn slot(&self, number: u32) -> Option<&Slot> {
        let number = number as usize;
        self.pages.get(number / ROOM)?.get(number % ROOM)
    }

    fn slot_mut(&mut self, number: u32) -> Option<&mut Slot> {
        let number = number as usize;
        self.pages.get_mut(number / ROOM)?.get_mut(number % ROOM)
    }

    fn add(&mut self, slot: Slot) {
        self.pages[self.len as usize / ROOM].push(slot);
        self.len += 1;
    }
}

struct Flat {
    slots: Vec<Slot>,
    limit: u32,
}

impl Journal for Flat {
    const PREFIX: &'static str = "vec_";

    fn new(limit: u32) -> Flat {
        Flat { slots: Vec::new(), limit }
    }

    fn len(&self) -> u32 {
        self.slots.len() as u32
    }

    fn limit(&self) -> u32 {
        self.limit
    }

    fn reserve_one(&mut self) {
        self.slots.reserve(1);
    }

    fn slot(&self, number: u32) -> Option<&Slot> {
        self.slots.get(number as usize)
    }

    fn slot_mut(&mut self, number: u32) -> Option<&mut Slot> {
        self.slots.get_mut(number as usize)
    }

    fn add(&mut self, slot: Slot) {
        self.slots.push(slot);
    }
}

fn append_hold<J: Journal>(journal: &mut J, number: u32) -> u32 {
    journal.reserve_one();
    if journal.len() < journal.limit() {
        journal.push(Entry { moment: i64::from(number), actor: number, what: What::Hold(HOLD) });
    }
    journal.len()
}

fn append_answer<J: Journal>(journal: &mut J, hold: u32) -> u32 {
    journal.reserve_one();
    if journal.len() < journal.limit() && journal.hold(hold).is_some() {
        let what = What::Fulfilled { hold, preimage: [0; 32] };
        journal.push(Entry { moment: i64::from(hold), actor: hold, what });
    }
    journal.len()
}

fn fill<J: Journal>(journal: &mut J, holds: u32) -> u64 {
    let mut sum: u64 = 0;
    for number in 0..holds {
        sum = sum.wrapping_add(u64::from(append_hold(journal, number)));
    }
    for hold in 0..holds {
        sum = sum.wrapping_add(u64::from(append_answer(journal, hold)));
    }
    sum
}

fn next(state: u64) -> u64 {
    state.wrapping_mul(6_364_136_223_846_793_005).wrapping_add(1_442_695_040_888_963_407)
}

fn number_of(state: u64, count: u32) -> u32 {
    ((u128::from(state >> 32) * u128::from(count)) >> 32) as u32
}

fn actor_of<J: Journal>(journal: &J, number: u32) -> u64 {
    match journal.slot(number) {
        Some(slot) => u64::from(slot.entry.actor),
        None => 1,
    }
}

fn get_in_order<J: Journal>(journal: &J) -> u64 {
    let len = journal.len();
    let mut sum: u64 = 0;
    let mut number = 0;
    for _ in 0..LOOKUPS {
        sum = sum.wrapping_add(actor_of(journal, number));
        number = if number < len { number + 1 } else { 0 };
    }
    sum
}

fn get_at_random<J: Journal>(journal: &J) -> u64 {
    let len = journal.len();
    let mut sum: u64 = 0;
    let mut state: u64 = 1;
    for _ in 0..LOOKUPS {
        state = next(state);
        sum = sum.wrapping_add(actor_of(journal, number_of(state, len)));
    }
    sum
}

fn answers_at_random<J: Journal>(journal: &J) -> u64 {
    let holds = journal.len() / 2;
    let mut sum: u64 = 0;
    let mut state: u64 = 1;
    for _ in 0..LOOKUPS {
        state = next(state);
        let answer = journal.answer_of(number_of(state, holds));
        sum = sum.wrapping_add(u64::from(answer.unwrap_or(1)));
    }
    sum
}

fn run_rows<J: Journal>(entries: u32, journals: u32) {
    let prefix = J::PREFIX;
    let mut sum: u64 = 0;
    let mut nanoseconds: u128 = 0;
    let mut last = None;
    for _ in 0..journals {
        drop(last.take());
        let mut journal = J::new(entries);
        let start = Instant::now();
        sum = sum.wrapping_add(fill(&mut journal, entries / 2));
        nanoseconds += start.elapsed().as_nanos();
        last = Some(black_box(journal));
    }
    let journal = last.expect("a journal");
    let turns = u64::from(journals) * u64::from(entries);
    println!("{prefix}append_{entries} {turns} {nanoseconds} {sum}");
    let start = Instant::now();
    let sum = get_in_order(&journal);
    println!("{prefix}get_in_order_{entries} {LOOKUPS} {} {sum}", start.elapsed().as_nanos());
    let start = Instant::now();
    let sum = get_at_random(&journal);
    println!("{prefix}get_at_random_{entries} {LOOKUPS} {} {sum}", start.elapsed().as_nanos());
    let start = Instant::now();
    let sum = answers_at_random(&journal);
    println!("{prefix}answer_of_{entries} {LOOKUPS} {} {sum}", start.elapsed().as_nanos());
}

fn run_longest<J: Journal>(entries: u32) {
    let prefix = J::PREFIX;
    let mut journal = J::new(entries);
    let mut longest = 0;
    for number in 0..entries {
        let start = Instant::now();
        append_hold(&mut journal, number);
        longest = longest.max(start.elapsed().as_nanos());
    }
    println!("{prefix}longest_append_{entries} 1 {longest} {}", journal.len());
    black_box(journal);
}

fn run<J: Journal>() {
    run_rows::<J>(10_000, 200);
    run_rows::<J>(1_000_000, 4);
    run_rows::<J>(16_000_000, 1);
    run_longest::<J>(16_000_000);
}

fn main() {
    run::<Paged>();
    run::<Flat>();
}
