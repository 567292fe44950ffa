//! Random bids: what they cost, how they tie, and how they go wrong.

use super::Chance;

const MAX_PRICE: u64 = 100_000_000;
const MAX_MW: u64 = 9_999;

/// What the bids of one market are like.
#[derive(Clone, Copy)]
pub struct Taste {
    /// Prices are `price` plus up to `levels` times `step`.
    pub price: u64,
    pub step: u64,
    pub levels: u64,
    pub mw: u64,
    pub laminations: u64,
}

impl Taste {
    pub fn random(chance: &mut Chance) -> Taste {
        let laminations = chance.pick(&[1, 1, 2, 3, 5, 20]);
        let more = chance.pick(&[0, 2, 5, 40]);
        let levels = chance.range(laminations, laminations + more);
        let most = chance.pick(&[100, 1_000, 100_000, MAX_PRICE]);
        let step = chance.range(1, (most / (2 * levels)).max(1));
        let price = chance.range(1, most - (levels * step).min(most - 1));
        let mw = chance.scaled(MAX_MW).max(1);
        Taste { price, step, levels, mw, laminations }
    }

    /// A typical bid value.
    pub fn value(&self) -> u64 {
        let price = self.price + self.step * self.levels / 2;
        (price * (self.mw / 2 + 1) * (self.laminations / 2 + 1)).min(1_000_000_000_000)
    }

    /// Laminations of strictly falling price.
    fn pairs(&self, chance: &mut Chance) -> Vec<[u32; 2]> {
        let n = chance.range(1, self.laminations) as usize;
        let mut levels: Vec<u64> = (0..=self.levels).collect();
        chance.shuffle(&mut levels);
        levels.truncate(n);
        levels.sort_unstable_by(|a, b| b.cmp(a));
        let pair = |level| [self.price_at(level) as u32, chance.range(1, self.mw) as u32];
        levels.into_iter().map(pair).collect()
    }

    fn price_at(&self, level: u64) -> u64 {
        self.price + level * self.step
    }
}

#[derive(Clone)]
pub struct Bid {
    pub bidder: u32,
    pub path: u32,
    pub stamp: u32,
    pub n: u32,
    pub pairs: Vec<[u32; 2]>,
}

impl Bid {
    pub fn words(&self) -> impl Iterator<Item = u32> + '_ {
        [self.bidder, self.path, self.stamp, self.n].into_iter().chain(self.pairs.iter().flatten().copied())
    }

    pub fn text(&self) -> String {
        self.words().map(|word| word.to_string()).collect::<Vec<_>>().join(" ")
    }

    fn set_pairs(&mut self, pairs: Vec<[u32; 2]>) {
        self.n = pairs.len() as u32;
        self.pairs = pairs;
    }
}

/// Up to `count` bids of these bidders on paths below `paths`, right in all.
pub fn bids(chance: &mut Chance, taste: &Taste, bidders: &[u32], paths: u32, count: usize) -> Vec<Bid> {
    let mut places: Vec<(u32, u32)> = bidders.iter().flat_map(|&b| (0..paths).map(move |p| (b, p))).collect();
    chance.shuffle(&mut places);
    places.truncate(count);
    let mut stamp = chance.scaled(86_400) as u32;
    let mut bid = |(bidder, path)| {
        stamp += chance.pick(&[0, 0, 1, 1, 30, 900]);
        let pairs = taste.pairs(chance);
        Bid { bidder, path, stamp, n: pairs.len() as u32, pairs }
    };
    places.into_iter().map(&mut bid).collect()
}

/// Drops bids from the end until the list has at most `words` words.
pub fn cut_to(bids: &mut Vec<Bid>, words: usize) {
    let mut length: usize = bids.iter().map(|bid| bid.words().count()).sum();
    while length > words {
        length -= bids.pop().map_or(length, |bid| bid.words().count());
    }
}

/// Brings a bid's value to a limit, or one cent over it, where a price can.
pub fn at_limit(chance: &mut Chance, bid: &mut Bid, limit: u64) {
    let fits = |mw: &u64| limit.is_multiple_of(*mw) && (2..=MAX_PRICE).contains(&(limit / mw));
    let Some(mw) = [1, 10, 100, 1_000, 8_000].into_iter().find(fits) else {
        return;
    };
    let mut pairs = vec![[(limit / mw) as u32, mw as u32]];
    if chance.percent(50) {
        pairs.push([1, 1]);
    }
    bid.set_pairs(pairs);
}

/// Makes one bid a faulty one, by 14, 15 or 16.
pub fn spoil(chance: &mut Chance, bids: &mut Vec<Bid>, paths: u32) {
    if bids.is_empty() {
        bids.push(Bid { bidder: 0, path: 0, stamp: 1, n: 1, pairs: vec![[1, 1]] });
    }
    let at = chance.below(bids.len() as u64) as usize;
    match chance.below(20) {
        0..=3 => second_bid(chance, bids, at),
        4..=7 => falling_stamp(chance, bids, at),
        8 => bids[at].bidder = chance.pick(&[32, 33, u32::MAX]),
        9 => bids[at].path = chance.pick(&[paths, paths + 1, u32::MAX]),
        10 => bids[at].set_pairs(Vec::new()),
        11 => bids[at].set_pairs((0..21).map(|i| [100 - i, 1]).collect()),
        12 => same_price(&mut bids[at]),
        13 => bids[at].pairs.reverse(),
        _ => bad_pair(chance, &mut bids[at]),
    }
}

fn second_bid(chance: &mut Chance, bids: &mut Vec<Bid>, at: usize) {
    let behind = chance.range(at as u64 + 1, bids.len() as u64) as usize;
    let stamp = bids[behind - 1].stamp;
    let second = Bid { stamp, ..bids[at].clone() };
    bids.insert(behind, second);
}

fn falling_stamp(chance: &mut Chance, bids: &mut [Bid], at: usize) {
    let more = chance.pick(&[1, 5, 1_000_000]);
    bids[at].stamp = bids.iter().map(|bid| bid.stamp).max().unwrap_or(0).saturating_add(more);
}

fn same_price(bid: &mut Bid) {
    if let Some(&last) = bid.pairs.last() {
        bid.pairs.push(last);
        bid.n += 1;
    }
}

fn bad_pair(chance: &mut Chance, bid: &mut Bid) {
    if bid.pairs.is_empty() {
        return;
    }
    let at = chance.below(bid.pairs.len() as u64) as usize;
    match chance.below(2) {
        0 => bid.pairs[at][0] = chance.pick(&[0, 100_000_001, u32::MAX]),
        _ => bid.pairs[at][1] = chance.pick(&[0, 10_000, u32::MAX]),
    }
}
