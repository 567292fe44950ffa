//! The bid list of a round: reading and testing it, and admission.

use crate::market::{Bidder, Book, BIDDERS, MAX_MW, MAX_PATHS};
use crate::refusal::{self, unless};

/// Most words of a bid list.
pub const MAX_WORDS: usize = 4_096;
const HEADER: usize = 4;
const MAX_LAMINATIONS: usize = 20;
const MAX_PRICE: u32 = 100_000_000;
const MULTIPLIERS: [u64; 4] = [10, 8, 5, 1];

#[derive(Clone, Copy, Debug, PartialEq, Eq)]
pub struct Lamination {
    pub price: u32,
    pub mw: u32,
}

#[derive(Clone, Copy, Debug)]
pub struct Bid<'a> {
    pub bidder: usize,
    pub path: usize,
    stamp: u32,
    pairs: &'a [u32],
}

impl<'a> Bid<'a> {
    pub fn laminations(&self) -> impl Iterator<Item = Lamination> + 'a {
        self.pairs.chunks_exact(2).map(|pair| Lamination {
            price: pair[0],
            mw: pair[1],
        })
    }

    /// Price times MW, summed.
    pub fn value(&self) -> u64 {
        self.laminations().map(|l| u64::from(l.price) * u64::from(l.mw)).sum()
    }

    fn laminations_are_sound(&self) -> bool {
        let fields = |l: Lamination| (1..=MAX_PRICE).contains(&l.price) && (1..=MAX_MW).contains(&l.mw);
        self.laminations().all(fields)
            && self.laminations().zip(self.laminations().skip(1)).all(|(l, next)| l.price > next.price)
    }
}

/// The bids of a list, or the refusal of the first one at fault.
pub fn read(words: &[u32], paths: usize) -> Result<Vec<Bid<'_>>, u32> {
    let mut bids = Vec::with_capacity(words.len() / (HEADER + 2));
    let mut seen = [[false; BIDDERS]; MAX_PATHS];
    let mut stamp = 0;
    let mut rest = words;
    while !rest.is_empty() {
        let (bid, behind) = first(rest, paths).ok_or(refusal::BAD_BID)?;
        let seen = &mut seen[bid.path][bid.bidder];
        unless(!*seen, refusal::SECOND_BID)?;
        unless(stamp <= bid.stamp, refusal::STAMP)?;
        *seen = true;
        stamp = bid.stamp;
        bids.push(bid);
        rest = behind;
    }
    Ok(bids)
}

/// The first bid and the words behind it, if it is whole and sound.
fn first(words: &[u32], paths: usize) -> Option<(Bid<'_>, &[u32])> {
    let (&[bidder, path, stamp, n], rest) = words.split_first_chunk::<HEADER>()?;
    let (bidder, path, n) = (bidder as usize, path as usize, n as usize);
    let fits = bidder < BIDDERS && path < paths && (1..=MAX_LAMINATIONS).contains(&n);
    if !fits || rest.len() < 2 * n {
        return None;
    }
    let (pairs, behind) = rest.split_at(2 * n);
    let bid = Bid { bidder, path, stamp, pairs };
    bid.laminations_are_sound().then_some((bid, behind))
}

fn limit(bidder: &Bidder) -> u64 {
    MULTIPLIERS[bidder.step as usize] * (bidder.cash + bidder.letter - bidder.hold)
}

/// Which bids are admitted, from their values in list order.
pub fn admit(book: &Book, bids: &[Bid], values: &[u64]) -> Vec<bool> {
    let mut left = book.bidders.each_ref().map(limit);
    let mut admit = |(bid, &value): (&Bid, &u64)| {
        let left = &mut left[bid.bidder];
        let admitted = value <= *left;
        if admitted {
            *left -= value;
        }
        admitted
    };
    bids.iter().zip(values).map(&mut admit).collect()
}
