//! A year of the account as a journal: the calls of an operator in the proportion in which a year has them.

use crate::chance::Chance;
use crate::journals::Journal;

const BIDDERS: u64 = 32;
const PATHS: u64 = 16;
const FIRST_DAY: u64 = 9_132;
const DAYS: u64 = 365;

/// A journal being written, answered as it goes, so that bills can be paid.
struct Year {
    chance: Chance,
    peer: Journal,
    text: Vec<u8>,
    lines: usize,
}

/// A year of so many calls: deposits, twelve short auctions and four long ones with their bills, rent and retirement each month,
/// a disbursement at the end, and in all other lines the payouts of its hours.
pub fn year(calls: usize) -> Vec<u8> {
    let mut year = Year { chance: Chance::new(2025), peer: Journal::new(), text: Vec::new(), lines: 0 };
    year.begin();
    for month in 0..12 {
        year.month(month, calls * (month as usize + 1) / 12);
    }
    year.text
}

impl Year {
    fn say(&mut self, line: &str) {
        self.text.extend_from_slice(line.as_bytes());
        self.text.push(b'\n');
        self.lines += 1;
        let mut reply = Vec::new();
        self.peer.line(line.as_bytes(), &mut reply);
        assert!(reply.starts_with(b"= ok"), "{line}");
    }

    fn begin(&mut self) {
        let paths: String = (0..PATHS).map(|path| format!(" {} {}", if path % 2 == 0 { "X" } else { "M" }, path / 2)).collect();
        self.say(&format!("fresh{paths}"));
        for bidder in 0..BIDDERS {
            self.say(&format!("deposit {bidder} cash {}", 20_000_000 + bidder * 1_000_000));
            self.say(&format!("deposit {bidder} letter {}", 200_000_000 + bidder * 3_000_000));
        }
    }

    fn month(&mut self, month: u64, until: usize) {
        let first = FIRST_DAY + month * DAYS / 12;
        let last = FIRST_DAY + (month + 1) * DAYS / 12 - 1;
        self.say(&format!("retire {first}"));
        if month % 3 == 0 {
            self.auction("L", first, first + DAYS - 1, 2);
        }
        self.auction("S", first, last, 1);
        self.say(&format!("rent {}", 20_000_000_000u64));
        while self.lines + 1 < until {
            self.hour(first, last);
        }
        if month == 11 {
            let column = |one: u64| (0..BIDDERS).map(|k| format!(" {}", one + k)).collect::<String>();
            self.say(&format!("disburse 1000000{}{}{}{}", column(5), column(3), column(700), column(90)));
        }
    }

    fn auction(&mut self, kind: &str, first: u64, last: u64, rounds: u64) {
        let quantities = " 2000 1500 1200 1300".repeat(PATHS as usize);
        self.say(&format!("open {kind} {first} {last}{quantities}"));
        for round in 0..rounds {
            let bids = self.bids(round);
            self.say(&format!("round{bids}"));
        }
        for bidder in 0..BIDDERS {
            let owes = self.peer.book.as_ref().map(|book| book.bidders[bidder as usize]).filter(|b| b.applied + b.owed > 0);
            if let Some(bidder_now) = owes {
                self.say(&format!("pay {bidder} {}", bidder_now.owed));
            }
        }
    }

    /// Bids of every second bidder on four paths, of one to five laminations.
    fn bids(&mut self, round: u64) -> String {
        let mut words = String::new();
        for bidder in (round % 2..BIDDERS).step_by(2) {
            for place in 0..4 {
                let (path, laminations) = ((bidder + place * 4) % PATHS, self.chance.range(1, 5));
                words += &format!(" {bidder} {path} {} {laminations}", bidder * 60 + place);
                let mut price = self.chance.range(20_000, 60_000);
                for _ in 0..laminations {
                    words += &format!(" {price} {}", self.chance.range(1, 60));
                    price -= self.chance.range(1, 3_000);
                }
            }
        }
        words
    }

    fn hour(&mut self, first: u64, last: u64) {
        let day = self.chance.range(first, last);
        let state = if self.chance.percent(2) { "failed" } else { "priced" };
        let prices: String = (0..16).map(|_| format!(" {}", self.chance.below(4_000) as i64 - 1_500)).collect();
        self.say(&format!("payout {day} {state}{prices}"));
    }
}
