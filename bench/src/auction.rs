//! Open and round.

use crate::awards::{award, Awards};
use crate::bids::{self, Bid};
use crate::market::{Bidder, Book, Kind, Path, Period, Stage, MAX_ENTRIES, MAX_MW};
use crate::refusal::{self, unless};
use crate::register::{self, Entry, PENDING};

/// What a round answers.
#[derive(Clone, Debug, PartialEq, Eq)]
pub struct Round {
    pub bids: Vec<BidResult>,
    pub paths: Vec<PathResult>,
}

#[derive(Clone, Copy, Debug, PartialEq, Eq)]
pub struct BidResult {
    pub bidder: usize,
    pub path: usize,
    pub admitted: bool,
    pub value: u64,
    pub mw: u32,
    pub charge: u64,
}

#[derive(Clone, Copy, Debug, PartialEq, Eq)]
pub struct PathResult {
    pub offered: u32,
    pub sold: u32,
    /// The clearing price, 0 with no award.
    pub price: u32,
}

/// Opens an auction; `quantities` has base, FUL, A and B of each path.
pub fn open(book: &mut Book, register: &[u32], kind: Kind, period: Period, quantities: &[u32]) -> Result<(), u32> {
    let words = 4 * book.paths.len();
    unless(quantities.len() >= words, refusal::SHORT_BUFFER)?;
    register::check(book, register)?;
    book.need_idle()?;
    unless(!book.any_value(), refusal::STAGE)?;
    unless(period.is_sound(), refusal::DAY)?;
    let quantities = &quantities[..words];
    unless(quantities.iter().all(|&mw| mw <= MAX_MW), refusal::QUANTITY)?;
    let out = register::out(book, register, period);
    for ((path, quantities), out) in book.paths.iter_mut().zip(quantities.chunks_exact(4)).zip(out) {
        path.offer = offer(kind, quantities, out);
        path.sold = 0;
    }
    book.stage = Stage::Open { kind, round: 1, period };
    Ok(())
}

fn offer(kind: Kind, quantities: &[u32], out: u32) -> u32 {
    let (base, ful) = (quantities[0], quantities[1]);
    let least = ful.min(quantities[2]).min(quantities[3]);
    match kind {
        Kind::Short => least.saturating_sub(out),
        Kind::Long => (base / 4).min(least).min(base.min(ful).saturating_sub(out)),
    }
}

/// What a round offers of a path.
fn offered(kind: Kind, round: u32, path: &Path) -> u32 {
    match (kind, round) {
        (Kind::Long, 1) => path.offer / 4,
        _ => path.offer - path.sold,
    }
}

pub fn round(book: &mut Book, register: &mut [u32], words: &[u32]) -> Result<Round, u32> {
    register::check(book, register)?;
    let Stage::Open { kind, round, period } = book.stage else {
        return Err(refusal::STAGE);
    };
    unless(words.len() <= bids::MAX_WORDS, refusal::LONG_LIST)?;
    let bids = bids::read(words, book.paths.len())?;
    let values: Vec<u64> = bids.iter().map(Bid::value).collect();
    let admitted = bids::admit(book, &bids, &values);
    let offers: Vec<u32> = book.paths.iter().map(|path| offered(kind, round, path)).collect();
    let awards = award(&bids, &admitted, &offers);
    let winners = awards.won.iter().filter(|&&mw| mw > 0).count();
    unless(book.entries + winners <= MAX_ENTRIES, refusal::REGISTER_FULL)?;
    enter(book, register, &bids, &awards, period);
    let answer = answer(&bids, &values, &admitted, &offers, &awards);
    close(book, &answer);
    book.stage = match round < kind.rounds() {
        true => Stage::Open { kind, round: round + 1, period },
        false => Stage::Idle,
    };
    Ok(answer)
}

/// Adds a pending entry for each winning bid.
fn enter(book: &mut Book, register: &mut [u32], bids: &[Bid], awards: &Awards, period: Period) {
    for (bid, &mw) in bids.iter().zip(&awards.won).filter(|&(_, &mw)| mw > 0) {
        let entry = Entry {
            bidder: bid.bidder as u32,
            path: bid.path as u32,
            mw,
            period,
            state: PENDING,
        };
        register::add(book, register, &entry);
    }
}

fn answer(bids: &[Bid], values: &[u64], admitted: &[bool], offers: &[u32], awards: &Awards) -> Round {
    let bid = |(number, bid): (usize, &Bid)| BidResult {
        bidder: bid.bidder,
        path: bid.path,
        admitted: admitted[number],
        value: values[number],
        mw: awards.won[number],
        charge: awards.charge(number, bid),
    };
    let path = |(number, &offered): (usize, &u32)| PathResult {
        offered,
        sold: awards.sold[number],
        price: awards.prices[number],
    };
    Round {
        bids: bids.iter().enumerate().map(bid).collect(),
        paths: offers.iter().enumerate().map(path).collect(),
    }
}

/// Books what was sold and charged, and sweeps every bidder.
fn close(book: &mut Book, answer: &Round) {
    for (path, result) in book.paths.iter_mut().zip(&answer.paths) {
        path.sold += result.sold;
    }
    for bid in &answer.bids {
        book.bidders[bid.bidder].owed += bid.charge;
    }
    book.bidders.iter_mut().for_each(sweep);
}

/// Moves cash to what is owed and holds a tenth of the rest.
fn sweep(bidder: &mut Bidder) {
    let moved = bidder.cash.min(bidder.owed);
    bidder.cash -= moved;
    bidder.applied += moved;
    bidder.owed -= moved;
    bidder.hold = bidder.letter.min(bidder.owed / 10);
}
