//! Retire, payout, disburse and recover.

use crate::market::{Book, Direction, BIDDERS, MAX_ACCOUNT, MAX_DAY, ZONES};
use crate::refusal::{self, unless};
use crate::register::{self, Entry, ISSUED};

const MAX_ZONE_PRICE: i64 = 1_000_000;
const MAX_TOTAL: u64 = 100_000_000_000;
const MAX_COLUMN: u64 = 100_000_000;
/// What a disbursement leaves in the account.
const RESERVE: i64 = 2_000_000_000;

/// An amount for each participant.
pub type Amounts = [u64; BIDDERS];
/// A charge or an energy for each participant.
pub type Column = [u32; BIDDERS];

#[derive(Clone, Copy, Debug, PartialEq, Eq)]
pub enum Hour {
    Failed,
    Priced,
}

#[derive(Clone, Debug, PartialEq, Eq)]
pub struct Columns {
    pub provincial: Column,
    pub export: Column,
    pub meters: Column,
    pub interties: Column,
}

pub fn retire(book: &mut Book, register: &mut [u32], day: u32) -> Result<(), u32> {
    register::check(book, register)?;
    unless(day <= MAX_DAY, refusal::DAY)?;
    register::remove_ended(book, register, day);
    Ok(())
}

pub fn payout(book: &mut Book, register: &[u32], day: u32, hour: Hour, prices: &[i64; ZONES]) -> Result<Amounts, u32> {
    register::check(book, register)?;
    unless(day <= MAX_DAY, refusal::DAY)?;
    let mut amounts = [0; BIDDERS];
    if hour == Hour::Priced {
        let range = -MAX_ZONE_PRICE..=MAX_ZONE_PRICE;
        unless(prices.iter().all(|price| range.contains(price)), refusal::PRICE)?;
        register::entries(register, book.entries)
            .filter(|entry| entry.state == ISSUED && entry.period.has(day))
            .for_each(|entry| amounts[entry.bidder as usize] += earned(book, &entry, prices));
    }
    let account = book.account - amounts.iter().sum::<u64>() as i64;
    unless(account >= -MAX_ACCOUNT, refusal::ACCOUNT)?;
    book.account = account;
    Ok(amounts)
}

fn earned(book: &Book, entry: &Entry, prices: &[i64; ZONES]) -> u64 {
    let path = &book.paths[entry.path as usize];
    let price = prices[path.zone as usize];
    let rate = match path.direction {
        Direction::Export => price.max(0),
        Direction::Import => (-price).max(0),
    };
    u64::from(entry.mw) * rate as u64
}

pub fn disburse(book: &mut Book, total: u64, columns: &Columns) -> Result<Amounts, u32> {
    book.check()?;
    let bound = book.account - RESERVE;
    let shares = divide(total, bound, columns)?;
    book.account -= total as i64;
    Ok(shares)
}

pub fn recover(book: &mut Book, total: u64, columns: &Columns) -> Result<Amounts, u32> {
    book.check()?;
    let bound = -book.account;
    let shares = divide(total, bound, columns)?;
    book.account += total as i64;
    Ok(shares)
}

/// The shares of both pools together.
fn divide(total: u64, bound: i64, columns: &Columns) -> Result<Amounts, u32> {
    unless((1..=MAX_TOTAL).contains(&total) && total as i64 <= bound, refusal::TOTAL)?;
    let sums = [&columns.provincial, &columns.export, &columns.meters, &columns.interties].map(sum);
    unless(sums.iter().all(|&sum| sum <= MAX_COLUMN), refusal::COLUMNS)?;
    let (provincial, charges) = (sums[0], sums[0] + sums[1]);
    unless(charges > 0, refusal::COLUMNS)?;
    let pool = total * provincial / charges;
    let mut shares = share(pool, &eligible(&columns.provincial, &columns.meters))?;
    let exports = share(total - pool, &eligible(&columns.export, &columns.interties))?;
    shares.iter_mut().zip(exports).for_each(|(share, more)| *share += more);
    Ok(shares)
}

fn sum(column: &Column) -> u64 {
    column.iter().map(|&n| u64::from(n)).sum()
}

/// The energies of those that have a charge.
fn eligible(charges: &Column, energies: &Column) -> Amounts {
    std::array::from_fn(|i| if charges[i] > 0 { energies[i].into() } else { 0 })
}

/// Shares a pool by weights: whole cents, then the cents left over, by
/// remainder and number (rules 11.5 and 11.6).
fn share(pool: u64, weights: &Amounts) -> Result<Amounts, u32> {
    let all: u64 = weights.iter().sum();
    if pool == 0 {
        return Ok([0; BIDDERS]);
    }
    unless(all > 0, refusal::COLUMNS)?;
    let mut shares = weights.map(|weight| pool * weight / all);
    let left = pool - shares.iter().sum::<u64>();
    let mut order: [usize; BIDDERS] = std::array::from_fn(|i| i);
    order.sort_by_key(|&i| std::cmp::Reverse(pool * weights[i] % all));
    order.iter().take(left as usize).for_each(|&i| shares[i] += 1);
    Ok(shares)
}
