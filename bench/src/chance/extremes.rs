//! Random journals that go far: crowded registers, giant accounts and deep
//! shortfalls.

use super::bid_lists::{Bid, Taste};
use super::journal_calls::{round_line, Maker, ALL_BIDS};
use super::random_journals::{settle, side_step};
use crate::market::{Stage, MAX_ACCOUNT, MAX_ENTRIES};

/// All bidders with much money and small bids: a register that fills up.
pub fn crowd(maker: &mut Maker) {
    maker.taste = Taste { price: 5, step: 3, levels: 9, mw: 4, laminations: maker.chance.pick(&[1, 2, 2, 3]) };
    let paths = maker.chance.range(8, 16);
    let line = maker.fresh(paths);
    maker.say(line);
    for bidder in 0..32 {
        let fund = maker.chance.pick(&["cash", "letter"]);
        let amount = maker.chance.range(20_000, 90_000);
        maker.say(format!("deposit {bidder} {fund} {amount}"));
    }
    for _ in 0..maker.chance.range(3, 7) {
        crowded_auction(maker);
        (0..6).for_each(|_| side_step(maker));
    }
}

fn crowded_auction(maker: &mut Maker) {
    let kind = maker.chance.pick(&['S', 'S', 'L']);
    let first = maker.day;
    maker.day = (maker.day + maker.chance.below(40)).min(65_000);
    let groups = " 9999 9000 9500 9999".repeat(maker.paths() as usize);
    maker.say(format!("open {kind} {first} {}{groups}", first + 30));
    while matches!(maker.stage(), Stage::Open { .. }) {
        crowded_round(maker);
    }
    while !maker.bidders(|b| b.value() > 0).is_empty() {
        settle(maker);
    }
    if maker.entries() > 900 && maker.chance.percent(40) {
        let line = maker.retire();
        maker.say(line);
    }
}

/// As many bids as a list has room for; if too many win, as many as fit.
fn crowded_round(maker: &mut Maker) {
    let list = maker.bid_list(ALL_BIDS);
    if maker.say(round_line(&list)) {
        return;
    }
    let fits = list.len().min(MAX_ENTRIES - maker.entries());
    if !maker.say(round_line(&list[..fits])) {
        maker.say("round");
    }
}

/// The largest bids, until the account is at its upper limit.
pub fn giant(maker: &mut Maker) {
    let line = maker.fresh(16);
    maker.say(line);
    for _ in 0..maker.chance.range(64, 72) {
        giant_auction(maker);
        if maker.chance.percent(10) {
            side_step(maker);
        }
    }
    for _ in 0..20 {
        let line = match maker.chance.below(6) {
            0 => "rent 1000000000000".to_string(),
            1 => format!("rent {}", (MAX_ACCOUNT - maker.account()).min(1_000_000_000_000)),
            2..=3 => maker.default(),
            4 => maker.payout(),
            _ => maker.pay(),
        };
        maker.say(line);
    }
}

fn giant_auction(maker: &mut Maker) {
    maker.day = maker.day.min(60_000) + 1;
    for bidder in 0..2 {
        let room = 1_000_000_000_000 - maker.bidder(bidder).letter;
        if room > 0 {
            maker.say(format!("deposit {bidder} letter {room}"));
        }
    }
    let groups = " 9999 9999 9999 9999".repeat(16);
    maker.say(format!("open S {0} {0}{groups}", maker.day));
    let price = maker.chance.pick(&[100_000_000, 100_000_000, 99_999_999]);
    let bid = |path| Bid { bidder: path / 10, path, stamp: 7, n: 1, pairs: vec![[price, 9_999]] };
    let list: Vec<Bid> = (0..16).map(bid).collect();
    maker.say(round_line(&list));
    for _ in 0..2 {
        let line = if maker.chance.percent(2) { maker.default() } else { maker.pay() };
        maker.say(line);
    }
    if maker.entries() > 900 {
        maker.say(format!("retire {}", maker.day));
    }
}

/// One auction of all that can be sold, and the dearest hours until the
/// account is at its lower limit.
pub fn deep(maker: &mut Maker) {
    maker.say("fresh".to_string() + &" X 3 M 4".repeat(8));
    maker.say("deposit 6 cash 160000");
    maker.say("open S 5 9".to_string() + &" 9999 9999 9999 9999".repeat(16));
    let bid = |path| Bid { bidder: 6, path, stamp: 7, n: 1, pairs: vec![[1, 9_999]] };
    let list: Vec<Bid> = (0..16).map(bid).collect();
    maker.say(round_line(&list));
    maker.say("pay 6 0");
    let zeros = " 0".repeat(11);
    for _ in 0..6_255 {
        maker.say(format!("payout 7 priced 0 0 0 1000000 -1000000{zeros}"));
    }
    (0..20).for_each(|_| side_step(maker));
}
