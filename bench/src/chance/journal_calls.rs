//! Single random calls, chosen by looking at the state of a peer.

use super::bid_lists::{at_limit, bids, cut_to, spoil, Bid, Taste};
use super::columns::columns;
use super::damage::damage_line;
use super::Chance;
use crate::journals::Journal;
use crate::market::{Bidder, Book, Stage};
use crate::register;

pub const MAX_FUNDS: u64 = 1_000_000_000_000;
/// A bid of every bidder on every path.
pub const ALL_BIDS: usize = 512;
pub const MAX_SHARED: i64 = 100_000_000_000;
const RESERVE: i64 = 2_000_000_000;

/// A journal being made, and the peer that has answered it so far.
pub struct Maker {
    pub chance: Chance,
    pub taste: Taste,
    pub text: Vec<u8>,
    pub peer: Journal,
    /// Some day of the present.
    pub day: u64,
    /// Whether rent is kept away, so that payouts bring the account below 0.
    pub thrifty: bool,
    replies: Vec<u8>,
}

impl Maker {
    pub fn new(seed: u64) -> Maker {
        let mut chance = Chance::new(!seed);
        let taste = Taste::random(&mut chance);
        let day = chance.scaled(60_000);
        let thrifty = chance.percent(40);
        Maker { chance, taste, text: Vec::new(), peer: Journal::new(), day, thrifty, replies: Vec::new() }
    }

    /// Writes a line and lets the peer answer it; tells if it was answered.
    pub fn say(&mut self, line: impl AsRef<[u8]>) -> bool {
        let line = line.as_ref();
        self.text.extend_from_slice(line);
        self.text.push(b'\n');
        self.replies.clear();
        self.peer.line(line, &mut self.replies);
        self.replies.starts_with(b"= ok")
    }

    /// Writes a line with some damage done to it.
    pub fn say_damaged(&mut self, line: String) {
        let mut line = line.into_bytes();
        damage_line(&mut self.chance, &mut line);
        self.say(line);
    }

    pub fn book(&self) -> Option<&Book> {
        self.peer.book.as_ref()
    }

    pub fn stage(&self) -> Stage {
        self.book().map_or(Stage::Idle, |book| book.stage)
    }

    pub fn account(&self) -> i64 {
        self.book().map_or(0, |book| book.account)
    }

    pub fn entries(&self) -> usize {
        self.book().map_or(0, |book| book.entries)
    }

    pub fn paths(&self) -> u64 {
        self.book().map_or(1, |book| book.paths.len() as u64)
    }

    pub fn bidder(&self, number: u64) -> Bidder {
        self.book().map_or(Bidder::default(), |book| book.bidders[number as usize])
    }

    /// The bidders that `is` finds.
    pub fn bidders(&self, is: impl Fn(&Bidder) -> bool) -> Vec<u64> {
        (0..32).filter(|&number| is(&self.bidder(number))).collect()
    }

    pub fn fresh(&mut self, paths: u64) -> String {
        let path = |chance: &mut Chance| format!(" {} {}", chance.pick(&['X', 'M']), chance.below(16));
        "fresh".to_string() + &(0..paths).map(|_| path(&mut self.chance)).collect::<String>()
    }

    /// An amount of the order of a bid's value.
    fn amount(&mut self) -> u64 {
        let value = self.taste.value();
        match self.chance.below(8) {
            0 => self.chance.scaled(MAX_FUNDS).max(1),
            1..=3 => self.chance.range(1, value),
            _ => self.chance.range(1, (value / 8).max(1)),
        }
    }

    pub fn deposit(&mut self) -> String {
        let bidder = self.chance.below(32);
        let now = self.bidder(bidder);
        let (fund, room) = match self.chance.below(2) {
            0 => ("cash", MAX_FUNDS - now.cash - now.applied),
            _ => ("letter", MAX_FUNDS - now.letter),
        };
        let amount = if self.chance.percent(4) { room } else { self.amount().min(room) };
        format!("deposit {bidder} {fund} {amount}")
    }

    pub fn withdraw(&mut self) -> String {
        let rich = self.bidders(|b| b.cash > 0 || b.letter > b.hold);
        let bidder = if rich.is_empty() { self.chance.below(32) } else { self.chance.pick(&rich) };
        let now = self.bidder(bidder);
        let (fund, free) = match now.cash > 0 && self.chance.percent(60) {
            true => ("cash", now.cash),
            false => ("letter", now.letter - now.hold),
        };
        let part = self.chance.pick(&[1, 2, 3, 10]);
        format!("withdraw {bidder} {fund} {}", (free / part).max(1) + self.chance.pick(&[0, 0, 0, 1]))
    }

    /// Quantities of which some leave nothing, some little and some plenty.
    pub fn quantities(&mut self, paths: u64) -> String {
        let mw = self.taste.mw;
        let most = self.chance.pick(&[mw, mw * 10, mw * 50, 9_999, 9_999]).min(9_999);
        let quantity = |chance: &mut Chance| match chance.below(12) {
            0 => chance.range(0, most),
            _ => chance.range(most / 2, most),
        };
        let mut words = String::new();
        for _ in 0..paths {
            let base = (quantity(&mut self.chance) * 4).min(9_999);
            words += &format!(" {base}");
            (0..3).for_each(|_| words += &format!(" {}", quantity(&mut self.chance)));
        }
        words
    }

    pub fn open(&mut self) -> String {
        let kind = self.chance.pick(&['S', 'L']);
        self.day = (self.day + self.chance.scaled(90)).min(65_000);
        let first = (self.day + self.chance.below(20)).saturating_sub(self.chance.below(20));
        let last = first + self.chance.scaled(500);
        let paths = self.paths();
        format!("open {kind} {first} {last}{}", self.quantities(paths))
    }

    /// Random right bids, at most `count` and at most the words of a list,
    /// by some bidders, or by all where every bid is wanted.
    pub fn bid_list(&mut self, count: usize) -> Vec<Bid> {
        let paths = self.paths() as u32;
        let mut who: Vec<u32> = (0..32).collect();
        self.chance.shuffle(&mut who);
        who.sort_by_key(|&number| self.bidder(number.into()).cash + self.bidder(number.into()).letter == 0);
        if count < ALL_BIDS {
            who.truncate(self.chance.pick(&[3, 10, 32]));
        }
        let mut list = bids(&mut self.chance, &self.taste, &who, paths, count);
        cut_to(&mut list, 4_096);
        list
    }

    pub fn round(&mut self) -> String {
        let count = self.chance.pick(&[0, 3, 10, 10, 40, 40, ALL_BIDS]);
        let mut list = self.bid_list(count);
        if self.chance.percent(20) {
            self.bid_all_one_has(&mut list);
        }
        round_line(&list)
    }

    /// Brings the first bid to the limit of its bidder, or a cent over it.
    fn bid_all_one_has(&mut self, list: &mut [Bid]) {
        let Some(bid) = list.first_mut() else { return };
        let bidder = self.bidder(bid.bidder.into());
        let multiplier = [10, 8, 5, 1][bidder.step as usize];
        at_limit(&mut self.chance, bid, multiplier * (bidder.cash + bidder.letter - bidder.hold));
    }

    pub fn spoilt_round(&mut self) -> String {
        let count = self.chance.pick(&[1, 3, 10, 40]);
        let mut list = self.bid_list(count);
        let paths = self.paths() as u32;
        spoil(&mut self.chance, &mut list, paths);
        let line = round_line(&list);
        match self.chance.below(6) {
            0 => format!("{line} 1 1 1"),
            1 => line.rsplit_once(' ').map_or(line.clone(), |(front, _)| front.to_string()),
            _ => line,
        }
    }

    pub fn pay(&mut self) -> String {
        let due = self.bidders(|b| b.value() > 0);
        let bidder = if due.is_empty() { self.chance.below(32) } else { self.chance.pick(&due) };
        format!("pay {bidder} {}", self.bidder(bidder).owed)
    }

    pub fn default(&mut self) -> String {
        let due = self.bidders(|b| b.owed > 0);
        let bidder = if due.is_empty() { self.chance.below(32) } else { self.chance.pick(&due) };
        format!("default {bidder}")
    }

    pub fn retire(&mut self) -> String {
        let day = self.entry_day() + self.chance.below(3);
        format!("retire {}", day.min(65_535))
    }

    pub fn rent(&mut self) -> String {
        let amount = match self.chance.below(4) {
            0 => self.chance.scaled(MAX_FUNDS).max(1),
            1 => self.amount(),
            _ => self.chance.range(1, 4_000_000_000),
        };
        format!("rent {amount}")
    }

    /// A day at an end of an entry's period or in it, if there is one.
    fn entry_day(&mut self) -> u64 {
        let count = self.entries();
        if count == 0 {
            return self.day;
        }
        let number = self.chance.below(count as u64) as usize;
        let entry = register::entries(&self.peer.register, count).nth(number);
        let (first, last) = entry.map_or((0, 0), |e| (e.period.first.into(), e.period.last.into()));
        match self.chance.below(5) {
            0 => first,
            1 => last,
            2 => last + 1,
            _ => self.chance.range(first, last),
        }
    }

    pub fn payout(&mut self) -> String {
        let day = self.entry_day().min(65_535);
        let hour = if self.chance.percent(12) { "failed" } else { "priced" };
        let most = if self.thrifty { 1_000_000 } else { self.chance.pick(&[10, 5_000, 1_000_000]) };
        format!("payout {day} {hour}{}", self.prices(most))
    }

    pub fn prices(&mut self, most: u64) -> String {
        let price = |chance: &mut Chance| match chance.below(5) {
            0 => " 0".to_string(),
            1 => format!(" {most}"),
            2 => format!(" -{}", chance.range(1, most)),
            3 => format!(" -{most}"),
            _ => format!(" {}", chance.range(0, most)),
        };
        (0..16).map(|_| price(&mut self.chance)).collect()
    }

    /// A total within its bound, mostly.
    fn total(&mut self, bound: i64) -> i64 {
        let bound = bound.clamp(1, MAX_SHARED);
        match self.chance.below(10) {
            0 => bound + 1,
            1..=2 => bound,
            3 => self.chance.range(1, bound as u64) as i64,
            _ => self.chance.scaled(bound as u64).max(1) as i64,
        }
    }

    pub fn disburse(&mut self) -> String {
        let total = self.total(self.account() - RESERVE);
        format!("disburse {total} {}", columns(&mut self.chance))
    }

    pub fn recover(&mut self) -> String {
        let total = self.total(-self.account());
        format!("recover {total} {}", columns(&mut self.chance))
    }
}

/// The line of a round with these bids.
pub fn round_line(bids: &[Bid]) -> String {
    bids.iter().fold("round".to_string(), |line, bid| line + " " + &bid.text())
}
