//! The work that is timed, the same for both engines.

use crate::chance::Chance;
use crate::{journals, sheets};

const BIDDERS: usize = 32;
const PATHS: usize = 16;
const SHEET_BYTES: usize = 16_384;

/// A line of a journal, and the states on which it is made.
pub struct Work {
    pub proved: tra::Journal,
    pub peer: journals::Journal,
    pub line: Vec<u8>,
}

impl Work {
    fn new(line: String) -> Work {
        Work { proved: tra::Journal::new(), peer: journals::Journal::new(), line: line.into_bytes() }
    }

    /// A line before the one that is timed; both engines answer it.
    fn say(&mut self, line: &str) {
        let mut reply = Vec::new();
        self.peer.line(line.as_bytes(), &mut reply);
        assert!(reply.starts_with(b"= ok"), "{line}");
        assert_eq!(self.proved.line(line.as_bytes()), reply);
    }

    /// A fresh book of 16 paths, and bidders with as much as they may deposit.
    fn begin(&mut self) {
        let paths: String = (0..PATHS).map(|path| format!(" {} {path}", if path % 2 == 0 { "X" } else { "M" })).collect();
        self.say(&format!("fresh{paths}"));
        for bidder in 0..BIDDERS {
            self.say(&format!("deposit {bidder} cash 500000000000"));
            self.say(&format!("deposit {bidder} letter 1000000000000"));
        }
    }

    fn open(&mut self, first: usize, last: usize) {
        self.say(&format!("open S {first} {last}{}", " 9999 900 9999 9999".repeat(PATHS)));
    }

    fn pay(&mut self) {
        for bidder in 0..BIDDERS {
            let owed = self.peer.book.as_ref().map_or(0, |book| book.bidders[bidder].owed);
            self.say(&format!("pay {bidder} {owed}"));
        }
    }
}

/// The words of so many bids of so many laminations, prices and MW by chance.
pub fn bid_words(chance: &mut Chance, bids: usize, laminations: usize) -> Vec<Vec<u64>> {
    (0..bids)
        .map(|bid| {
            let header = [bid % BIDDERS, bid / BIDDERS, bid, laminations].map(|word| word as u64);
            let mut prices: Vec<u64> = Vec::new();
            while prices.len() < laminations {
                let price = chance.range(100, 4_000);
                if !prices.contains(&price) {
                    prices.push(price);
                }
            }
            prices.sort_unstable_by(|a, b| b.cmp(a));
            let pairs = prices.into_iter().flat_map(|price| [price, chance.range(1, 30)]).collect::<Vec<_>>();
            header.into_iter().chain(pairs).collect()
        })
        .collect()
}

fn joined(words: &[Vec<u64>]) -> String {
    words.iter().flatten().map(|word| format!(" {word}")).collect()
}

/// A round of so many bids of so many laminations.
pub fn round(bids: usize, laminations: usize) -> Work {
    let words = bid_words(&mut Chance::new(93), bids, laminations);
    let mut work = Work::new(format!("round{}", joined(&words)));
    work.begin();
    work.open(100, 130);
    work
}

/// The same line in a stage that refuses it.
pub fn idle(of: Work) -> Work {
    let mut work = Work { line: of.line, ..Work::new(String::new()) };
    work.begin();
    work
}

/// A payout over a full register, all of it issued and valid.
pub fn payout() -> Work {
    let prices: String = (0..16).map(|zone| format!(" {}", 170 * zone - 1_300)).collect();
    let mut work = Work::new(format!("payout 150 priced{prices}"));
    work.begin();
    for first in [100, 120] {
        work.open(first, 200);
        // every bid wins: 32 bidders on each path, one MW each
        let words: Vec<Vec<u64>> = (0..512).map(|bid| vec![bid % 32, bid / 32, bid, 1, 1_000 + bid, 1]).collect();
        work.say(&format!("round{}", joined(&words)));
        work.pay();
    }
    assert_eq!(work.peer.book.as_ref().map(|book| book.entries), Some(1_024));
    work
}

/// A deposit, the least of the calls.
pub fn deposit() -> Work {
    let mut work = Work::new("deposit 7 cash 5".to_string());
    work.begin();
    work
}

/// The largest sheets: as many bids as fit, of 20 laminations and of one, and both rounds of a long auction.
pub fn sheets() -> Vec<(&'static str, Vec<u8>)> {
    vec![
        ("sheet S, bids of 20 laminations", sheet("S", 20, 1)),
        ("sheet S, bids of one lamination", sheet("S", 1, 1)),
        ("sheet L, bids of 4 laminations in both rounds", sheet("L", 4, 2)),
    ]
}

/// The largest sheet of this kind that is awarded.
fn sheet(kind: &str, laminations: usize, rounds: usize) -> Vec<u8> {
    let most = (BIDDERS * PATHS).min(4_096 / (4 + 2 * laminations));
    let fits = |bids: &usize| {
        let text = sheet_of(kind, *bids, laminations, rounds);
        text.len() <= SHEET_BYTES && sheets::output(&text).starts_with(b"TRA-AWARD")
    };
    let bids = (1..=most).rev().find(fits).expect("some number of bids fits");
    sheet_of(kind, bids, laminations, rounds)
}

fn sheet_of(kind: &str, bids: usize, laminations: usize, rounds: usize) -> Vec<u8> {
    let mut chance = Chance::new(16_384);
    let mut text = format!("TRA {kind} 9191 9221\nbidders {BIDDERS}\n");
    for bidder in 0..BIDDERS {
        text += &format!("{bidder} 500000000000 1000000000000\n");
    }
    text += &format!("paths {PATHS}\n");
    for path in 0..PATHS {
        text += &format!("{path} {} {path} 4000 900 800 700\n", if path % 2 == 0 { "X" } else { "M" });
    }
    for _ in 0..rounds {
        text += &format!("bids {bids}\n");
        for bid in bid_words(&mut chance, bids, laminations) {
            text += &bid.iter().map(u64::to_string).collect::<Vec<_>>().join(" ");
            text.push('\n');
        }
    }
    text.into_bytes()
}
