//! Awards of a round: laminations in the order of rule 7.8.

use crate::bids::{Bid, Lamination};

/// A lamination with its path and the number of its bid.
struct Lot {
    path: usize,
    price: u32,
    bid: usize,
    mw: u32,
}

/// MW won by each bid; sold MW and clearing price, or 0, of each path.
pub struct Awards {
    pub won: Vec<u32>,
    pub sold: Vec<u32>,
    pub prices: Vec<u32>,
}

impl Awards {
    /// Clearing price times the MW that a bid won.
    pub fn charge(&self, number: usize, bid: &Bid) -> u64 {
        u64::from(self.prices[bid.path]) * u64::from(self.won[number])
    }
}

pub fn award(bids: &[Bid], admitted: &[bool], offered: &[u32]) -> Awards {
    let mut awards = Awards {
        won: vec![0; bids.len()],
        sold: vec![0; offered.len()],
        prices: vec![0; offered.len()],
    };
    for lot in in_order(bids, admitted) {
        let sold = &mut awards.sold[lot.path];
        let taken = lot.mw.min(offered[lot.path] - *sold);
        if taken > 0 {
            *sold += taken;
            awards.won[lot.bid] += taken;
            awards.prices[lot.path] = lot.price;
        }
    }
    awards
}

/// The admitted lots, path by path, in the order in which they take.
fn in_order(bids: &[Bid], admitted: &[bool]) -> Vec<Lot> {
    let admitted = bids.iter().enumerate().filter(|&(number, _)| admitted[number]);
    let mut order: Vec<Lot> = admitted.flat_map(|(number, bid)| lots(number, bid)).collect();
    order.sort_unstable_by(|a, b| (a.path, b.price, a.bid).cmp(&(b.path, a.price, b.bid)));
    order
}

fn lots<'a>(bid: usize, of: &Bid<'a>) -> impl Iterator<Item = Lot> + 'a {
    let path = of.path;
    of.laminations().map(move |Lamination { price, mw }| Lot { path, price, bid, mw })
}
