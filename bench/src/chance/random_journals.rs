//! Random journals: ordinary years, wild lists of calls, and extremes.

use super::damage::damage;
use super::extremes::{crowd, deep, giant};
use super::journal_calls::Maker;
use crate::journal_lines::MAX_LINE;
use crate::market::Stage;

/// A random journal.
pub fn journal(seed: u64) -> Vec<u8> {
    let mut maker = Maker::new(seed);
    match seed % 150 {
        0 => deep(&mut maker),
        1..=6 => giant(&mut maker),
        7..=20 => crowd(&mut maker),
        21..=35 => wild(&mut maker),
        _ => ordinary(&mut maker),
    }
    finish(maker)
}

/// Now and then the text ends without its byte 10, or is damaged.
fn finish(mut maker: Maker) -> Vec<u8> {
    let Maker { chance, text, .. } = &mut maker;
    match chance.below(30) {
        0 => drop(text.pop()),
        1 => text.extend_from_slice(b"rent 1"),
        2..=3 => damage(chance, text),
        _ => {}
    }
    maker.text
}

fn ordinary(maker: &mut Maker) {
    if maker.chance.percent(10) {
        early(maker);
    }
    start(maker);
    let steps = maker.chance.pick(&[5, 30, 100, 100, 250]);
    for _ in 0..maker.chance.range(steps / 2, steps) {
        step(maker);
    }
    if maker.chance.percent(4) {
        long_lines(maker);
    }
}

/// Calls before a fresh book.
fn early(maker: &mut Maker) {
    for line in [maker.deposit(), maker.round(), maker.rent(), maker.payout(), "fresh X".to_string()] {
        if maker.chance.percent(40) {
            maker.say(line);
        }
    }
}

/// A fresh book, some deposits and often a well filled account.
fn start(maker: &mut Maker) {
    let most = maker.chance.pick(&[1, 4, 16]);
    let paths = maker.chance.range(1, most);
    let line = maker.fresh(paths);
    maker.say(line);
    for _ in 0..maker.chance.below(30) {
        let line = maker.deposit();
        maker.say(line);
    }
    if !maker.thrifty && maker.chance.percent(60) {
        maker.say("rent 3000000000");
    }
}

fn step(maker: &mut Maker) {
    match maker.chance.below(100) {
        0 => start(maker),
        1..=6 => {
            let line = any_call(maker);
            maker.say_damaged(line);
        }
        7..=14 => {
            let line = maker.refused();
            maker.say(line);
        }
        15..=55 => auction_step(maker),
        _ => side_step(maker),
    }
}

/// What the auction waits for: open, a round, or the settling of a bill.
fn auction_step(maker: &mut Maker) {
    let due = maker.book().is_some_and(|book| book.any_value());
    let line = match maker.stage() {
        Stage::Open { .. } if maker.chance.percent(15) => maker.spoilt_round(),
        Stage::Open { .. } => maker.round(),
        Stage::Idle if due => return settle(maker),
        Stage::Idle => maker.open(),
    };
    maker.say(line);
}

/// Settles some or all bills.
pub fn settle(maker: &mut Maker) {
    let defaults = maker.chance.pick(&[0, 10, 50, 90]);
    for _ in 0..maker.chance.pick(&[1, 4, 32]) {
        let due = maker.bidders(|b| b.value() > 0);
        if due.is_empty() {
            return;
        }
        let owed = !maker.bidders(|b| b.owed > 0).is_empty() || maker.chance.percent(5);
        let line = if owed && maker.chance.percent(defaults) { maker.default() } else { maker.pay() };
        maker.say(line);
    }
}

/// A call that either stage takes.
pub fn side_step(maker: &mut Maker) {
    let poor = maker.account() < 0;
    let rich = maker.account() > 2_000_000_000;
    let line = match maker.chance.below(100) {
        0..=24 => maker.deposit(),
        25..=34 => maker.withdraw(),
        35..=59 => maker.payout(),
        60..=66 => maker.retire(),
        67..=76 if !maker.thrifty => maker.rent(),
        _ if poor => maker.recover(),
        _ if rich => maker.disburse(),
        _ if maker.thrifty => maker.payout(),
        _ => maker.rent(),
    };
    maker.say(line);
}

fn any_call(maker: &mut Maker) -> String {
    match maker.chance.below(13) {
        0 => maker.fresh(2),
        1 => maker.deposit(),
        2 => maker.withdraw(),
        3 => maker.open(),
        4 => maker.round(),
        5 => maker.pay(),
        6 => maker.default(),
        7 => maker.retire(),
        8 => maker.rent(),
        9 => maker.payout(),
        10 => maker.disburse(),
        11 => maker.recover(),
        _ => maker.spoilt_round(),
    }
}

/// Calls in any order, many of them refused or without the form.
fn wild(maker: &mut Maker) {
    for _ in 0..maker.chance.range(5, 120) {
        let line = match maker.chance.below(3) {
            0 => maker.refused(),
            _ => any_call(maker),
        };
        match maker.chance.below(4) {
            0 => maker.say_damaged(line),
            _ => drop(maker.say(line)),
        }
    }
}

/// Lines about as long as a line may be.
fn long_lines(maker: &mut Maker) {
    let open = "open S 1 9";
    for length in [MAX_LINE - 2, MAX_LINE, MAX_LINE + 2, 3 * MAX_LINE] {
        let mut line = open.to_string() + &" 0".repeat((length - open.len()) / 2);
        line.truncate(length);
        maker.say(line);
    }
    let round = "round".to_string() + &" 7".repeat(maker.chance.pick(&[4_097, 32_000, 40_000]));
    maker.say(round);
}
