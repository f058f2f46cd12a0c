//! The same quotes in plain Rust: the same checks in the same order, over u128. No product wraps,
//! since the power of ten that both scales share is left out. Prints what the Rattle program does.
use std::hint::black_box;
use std::time::Instant;

const ASSETS: usize = 64;

struct Asset {
    code: String,
    scale: u8,
}

#[derive(Clone, Copy)]
struct Placed {
    from: usize,
    to: usize,
    p: u32,
    q: u32,
}

struct AssetTable {
    assets: Vec<Asset>,
    prices: Vec<Placed>,
    index: Vec<Option<usize>>,
}

struct Quote {
    fee: u64,
    net: u64,
    out: u64,
}

enum QuoteFault {
    NoPrice,
    OutTooLarge,
    RoundsToNothing,
}

impl AssetTable {
    fn quote(&self, from: u32, to: u32, ppm: u32, amount: u64) -> Result<Quote, QuoteFault> {
        let s = self.assets[from as usize].scale;
        let t = self.assets[to as usize].scale;
        let (p, q) = if from == to {
            (1, 1)
        } else {
            match self.index[from as usize * self.assets.len() + to as usize] {
                Some(place) => (self.prices[place].p, self.prices[place].q),
                None => return Err(QuoteFault::NoPrice),
            }
        };
        let fee = ((u128::from(amount) * u128::from(ppm) + 999_999) / 1_000_000) as u64;
        let net = amount - fee;
        let priced = u128::from(net) * u128::from(p);
        let power = u128::from(10u64.pow(u32::from(s.abs_diff(t))));
        let out = if s <= t {
            priced * power / u128::from(q)
        } else {
            priced / (u128::from(q) * power)
        };
        if out > u128::from(u64::MAX) {
            return Err(QuoteFault::OutTooLarge);
        }
        if amount > 0 && out == 0 {
            return Err(QuoteFault::RoundsToNothing);
        }
        Ok(Quote { fee, net, out: out as u64 })
    }
}

fn table() -> AssetTable {
    let assets: Vec<Asset> = (0..ASSETS)
        .map(|place| Asset { code: format!("A{place}"), scale: (place % 10) as u8 })
        .collect();
    let mut prices = Vec::new();
    let mut index = vec![None; ASSETS * ASSETS];
    for from in 0..ASSETS {
        for to in 0..ASSETS {
            if from == to {
                continue;
            }
            index[from * ASSETS + to] = Some(prices.len());
            prices.push(Placed { from, to, p: from as u32 * 1_000 + 1, q: to as u32 * 999 + 7 });
        }
    }
    AssetTable { assets, prices, index }
}

fn main() {
    let text = std::io::read_to_string(std::io::stdin()).expect("standard input");
    let turns: u32 = text.trim_end().rsplit(' ').next().expect("a word").parse().expect("turns");
    let table = black_box(table());
    let mut sum: u64 = 0;
    let mut state: u64 = 1;
    let start = Instant::now();
    for _ in 0..turns {
        state = state.wrapping_mul(6_364_136_223_846_793_005).wrapping_add(1_442_695_040_888_963_407);
        let from = (state >> 58) as u32;
        let to = ((state >> 52) % 64) as u32;
        let amount = state >> 24;
        sum = match table.quote(from, to, ((state >> 40) % 1_000_000) as u32, amount) {
            Ok(quote) => sum.wrapping_add(quote.out ^ quote.fee ^ quote.net),
            Err(QuoteFault::NoPrice) => sum.wrapping_add(1),
            Err(QuoteFault::OutTooLarge) => sum.wrapping_add(2),
            Err(QuoteFault::RoundsToNothing) => sum.wrapping_add(3),
        };
    }
    let spent = start.elapsed().as_nanos();
    println!("quote {turns} {spent} {sum}");
    let codes: usize = table.assets.iter().map(|asset| asset.code.len()).sum();
    let places: usize = table.prices.iter().map(|price| price.from ^ price.to).sum();
    black_box((codes, places));
}
