//! Deposit, withdraw, rent, pay and default.

use crate::market::{bidder_place, Bidder, Book, MAX_FUNDS, MAX_STEP};
use crate::refusal::{self, unless};
use crate::register;

#[derive(Clone, Copy, Debug, PartialEq, Eq)]
pub enum Fund {
    Cash,
    Letter,
}

pub fn deposit(book: &mut Book, bidder: u32, fund: Fund, amount: u64) -> Result<(), u32> {
    book.check()?;
    let bidder = &mut book.bidders[bidder_place(bidder)?];
    let held = match fund {
        Fund::Cash => bidder.cash + bidder.applied,
        Fund::Letter => bidder.letter,
    };
    unless((1..=MAX_FUNDS - held).contains(&amount), refusal::AMOUNT)?;
    *fund_of(bidder, fund) += amount;
    Ok(())
}

pub fn withdraw(book: &mut Book, bidder: u32, fund: Fund, amount: u64) -> Result<(), u32> {
    book.check()?;
    let bidder = &mut book.bidders[bidder_place(bidder)?];
    unless(amount > 0, refusal::AMOUNT)?;
    let free = match fund {
        Fund::Cash => bidder.cash,
        Fund::Letter => bidder.letter - bidder.hold,
    };
    unless(amount <= free, refusal::WITHDRAWAL)?;
    *fund_of(bidder, fund) -= amount;
    Ok(())
}

fn fund_of(bidder: &mut Bidder, fund: Fund) -> &mut u64 {
    match fund {
        Fund::Cash => &mut bidder.cash,
        Fund::Letter => &mut bidder.letter,
    }
}

pub fn rent(book: &mut Book, amount: u64) -> Result<(), u32> {
    book.check()?;
    unless((1..=MAX_FUNDS).contains(&amount), refusal::AMOUNT)?;
    book.account = book.account_with(amount)?;
    Ok(())
}

pub fn pay(book: &mut Book, register: &mut [u32], bidder: u32, amount: u64) -> Result<(), u32> {
    register::check(book, register)?;
    book.need_idle()?;
    let place = bidder_place(bidder)?;
    let payer = book.bidders[place];
    unless(amount == payer.owed, refusal::PAYMENT)?;
    unless(payer.value() > 0, refusal::NOTHING_DUE)?;
    book.account = book.account_with(payer.value())?;
    book.bidders[place] = Bidder {
        applied: 0,
        owed: 0,
        hold: 0,
        step: payer.step.saturating_sub(1),
        ..payer
    };
    register::issue(book, register, bidder);
    Ok(())
}

/// The answer is the draw on the letter.
pub fn default(book: &mut Book, register: &mut [u32], bidder: u32) -> Result<u64, u32> {
    register::check(book, register)?;
    book.need_idle()?;
    let place = bidder_place(bidder)?;
    let failed = book.bidders[place];
    unless(failed.owed > 0, refusal::NOTHING_DUE)?;
    let cash = failed.cash + failed.applied;
    let forfeit = (failed.value() / 10).min(cash + failed.letter);
    book.account = book.account_with(forfeit)?;
    let draw = forfeit.saturating_sub(cash);
    book.bidders[place] = Bidder {
        cash: cash - (forfeit - draw),
        applied: 0,
        letter: failed.letter - draw,
        hold: 0,
        owed: 0,
        step: (failed.step + 1).min(MAX_STEP),
    };
    register::remove_pending(book, register, bidder);
    Ok(draw)
}
