//! Random sheets: right ones, refused ones and damaged ones.

use super::bid_lists::{at_limit, bids, spoil, Bid, Taste};
use super::damage::damage;
use super::Chance;
use crate::sheets::MAX_BYTES;

const MAX_FUNDS: u64 = 1_000_000_000_000;
/// Most bidders, paths and bids a round.
const SIZES: [(u64, u64, u64); 6] = [(1, 1, 2), (4, 3, 10), (8, 16, 0), (12, 8, 60), (32, 16, 200), (32, 16, 512)];

struct Path {
    direction: char,
    zone: u64,
    quantities: [u64; 4],
}

struct Sheet {
    kind: char,
    days: [u64; 2],
    bidders: Vec<(u32, u64, u64)>,
    paths: Vec<Path>,
    rounds: Vec<Vec<Bid>>,
}

/// A random sheet.
pub fn sheet(seed: u64) -> Vec<u8> {
    let chance = &mut Chance::new(seed);
    let mut sheet = right(chance);
    let fate = chance.below(100);
    if (50..70).contains(&fate) {
        refuse(chance, &mut sheet);
    }
    let mut text = sheet.fitted(chance.percent(50)).into_bytes();
    if fate >= 70 {
        (0..chance.pick(&[1, 1, 1, 2])).for_each(|_| damage(chance, &mut text));
    }
    text
}

/// A sheet that the engine takes.
fn right(chance: &mut Chance) -> Sheet {
    let taste = Taste::random(chance);
    let (most_bidders, most_paths, count) = chance.pick(&SIZES);
    let bidders = listed(chance, &taste, most_bidders);
    let paths: Vec<Path> = (0..chance.range(1, most_paths)).map(|_| path(chance, &taste)).collect();
    let kind = chance.pick(&['S', 'L']);
    let first = chance.scaled(65_535);
    let days = [first, chance.range(first, 65_535.min(first + 400))];
    let who = who_bids(chance, &bidders);
    let mut round = |_| {
        let count = chance.range(count / 2, count) as usize;
        bids(chance, &taste, &who, paths.len() as u32, count)
    };
    let rounds = (0..if kind == 'S' { 1 } else { 2 }).map(&mut round).collect();
    let mut sheet = Sheet { kind, days, bidders, paths, rounds };
    if chance.percent(25) {
        bid_all_one_has(chance, &mut sheet);
    }
    sheet
}

/// Brings the first bid to the limit of its bidder, or a cent over it.
fn bid_all_one_has(chance: &mut Chance, sheet: &mut Sheet) {
    let Some(bid) = sheet.rounds[0].first_mut() else { return };
    let funds = sheet.bidders.iter().find(|listed| listed.0 == bid.bidder);
    at_limit(chance, bid, funds.map_or(0, |&(_, cash, letter)| 10 * (cash + letter)));
}

/// Bidders with money for some of their bids.
fn listed(chance: &mut Chance, taste: &Taste, most: u64) -> Vec<(u32, u64, u64)> {
    let mut numbers: Vec<u32> = (0..32).collect();
    chance.shuffle(&mut numbers);
    numbers.truncate(chance.range(most / 2, most) as usize);
    numbers.sort_unstable();
    let funds = taste.value().saturating_mul(chance.pick(&[1, 2, 40])).min(MAX_FUNDS);
    let fund = |chance: &mut Chance| match chance.below(6) {
        0..=1 => 0,
        2 => MAX_FUNDS,
        3 => chance.scaled(MAX_FUNDS),
        _ => chance.range(0, funds),
    };
    numbers.into_iter().map(|number| (number, fund(chance), fund(chance))).collect()
}

/// The bidders listed, and now and then one that is not.
fn who_bids(chance: &mut Chance, listed: &[(u32, u64, u64)]) -> Vec<u32> {
    let mut who: Vec<u32> = listed.iter().map(|&(number, _, _)| number).collect();
    let other = chance.below(32) as u32;
    if chance.percent(20) && !who.contains(&other) {
        who.push(other);
    }
    who
}

/// A path that offers nothing, little, enough or plenty.
fn path(chance: &mut Chance, taste: &Taste) -> Path {
    let most = match chance.below(5) {
        0 => 0,
        1 => taste.mw,
        2 => taste.mw * 6,
        3 => taste.mw * 40,
        _ => 9_999,
    };
    let most = most.min(9_999);
    let mut quantity = |factor: u64| (chance.range(most / 2, most) * factor).min(9_999);
    let quantities = [quantity(4), quantity(1), quantity(1), quantity(1)];
    Path { direction: chance.pick(&['X', 'M']), zone: chance.below(16), quantities }
}

/// Gives the sheet numbers that the engine refuses.
fn refuse(chance: &mut Chance, sheet: &mut Sheet) {
    for _ in 0..chance.pick(&[1, 1, 1, 2]) {
        match chance.below(10) {
            0 => too_much_money(chance, sheet),
            1 => bad_days(chance, sheet),
            2 => bad_path(chance, sheet),
            3 => bad_path_count(chance, sheet),
            4 => long_list(chance, sheet),
            _ => {
                let round = chance.below(sheet.rounds.len() as u64) as usize;
                spoil(chance, &mut sheet.rounds[round], sheet.paths.len() as u32);
            }
        }
    }
}

fn too_much_money(chance: &mut Chance, sheet: &mut Sheet) {
    let much = chance.pick(&[MAX_FUNDS + 1, MAX_FUNDS + 1, 9_999_999_999_999, 10_000_000_000_000]);
    match sheet.bidders.last_mut() {
        Some(bidder) if chance.percent(50) => bidder.1 = much,
        Some(bidder) => bidder.2 = much,
        None => sheet.bidders.push((31, 0, much)),
    }
}

fn bad_days(chance: &mut Chance, sheet: &mut Sheet) {
    let [first, last] = sheet.days;
    sheet.days = chance.pick(&[[last + 1, first], [first, 65_536], [65_536, 65_536], [first, 4_294_967_295]]);
}

fn bad_path(chance: &mut Chance, sheet: &mut Sheet) {
    let at = chance.below(sheet.paths.len().max(1) as u64) as usize;
    let Some(path) = sheet.paths.get_mut(at) else { return };
    match chance.below(5) {
        0 => path.zone = chance.pick(&[16, 4_294_967_295]),
        word => path.quantities[word as usize - 1] = chance.pick(&[10_000, 4_294_967_295]),
    }
}

fn bad_path_count(chance: &mut Chance, sheet: &mut Sheet) {
    let count = chance.pick(&[0, 17, 17, 40]);
    let path = |zone| Path { direction: 'X', zone, quantities: [1; 4] };
    sheet.paths.truncate(count);
    while sheet.paths.len() < count {
        sheet.paths.push(path(chance.below(16)));
    }
}

/// A list of more than 4,096 words, or just not.
fn long_list(chance: &mut Chance, sheet: &mut Sheet) {
    let pairs: Vec<[u32; 2]> = (0..20).map(|i| [30 - i, 1]).collect();
    let bid = |at: u32| Bid { bidder: at % 32, path: at / 32, stamp: 0, n: 20, pairs: pairs.clone() };
    let count = chance.pick(&[93, 94, 94, 100]);
    let round = chance.below(sheet.rounds.len() as u64) as usize;
    sheet.rounds.iter_mut().for_each(Vec::clear);
    sheet.rounds[round] = (0..count).map(bid).collect();
}

impl Sheet {
    /// The text, with bids dropped until it fits; if asked, filled up to the
    /// last byte by long stamps where they do.
    fn fitted(&mut self, fill: bool) -> String {
        let mut text = self.text();
        while text.len() > MAX_BYTES {
            let over = text.len() - MAX_BYTES;
            self.drop_bids(over);
            text = self.text();
        }
        if fill && text.len() > MAX_BYTES - 300 {
            self.lengthen_stamps(MAX_BYTES - text.len());
            text = self.text();
        }
        text
    }

    /// Drops bids of the longest round, some `over` bytes of them.
    fn drop_bids(&mut self, over: usize) {
        let mut dropped = 0;
        while dropped < over {
            let Some(bid) = self.rounds.iter_mut().max_by_key(|round| round.len()).and_then(Vec::pop) else {
                self.paths.pop();
                return;
            };
            dropped += bid.text().len() + 1;
        }
    }

    fn lengthen_stamps(&mut self, mut spare: usize) {
        for bid in self.rounds.iter_mut().rev().flat_map(|round| round.iter_mut().rev()) {
            let digits = bid.stamp.to_string().len();
            let more = spare.min(10 - digits);
            if more > 0 {
                bid.stamp = 10u32.pow((digits + more - 1) as u32);
                spare -= more;
            }
        }
    }

    fn text(&self) -> String {
        let [first, last] = self.days;
        let mut text = format!("TRA {} {first} {last}\nbidders {}\n", self.kind, self.bidders.len());
        for (number, cash, letter) in &self.bidders {
            text += &format!("{number} {cash} {letter}\n");
        }
        text += &format!("paths {}\n", self.paths.len());
        for (number, Path { direction, zone, quantities: [base, ful, a, b] }) in self.paths.iter().enumerate() {
            text += &format!("{number} {direction} {zone} {base} {ful} {a} {b}\n");
        }
        for round in &self.rounds {
            text += &format!("bids {}\n", round.len());
            round.iter().for_each(|bid| text += &(bid.text() + "\n"));
        }
        text
    }
}
