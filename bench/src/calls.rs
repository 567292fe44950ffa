//! The eleven calls under one face.

use crate::auction::{self, Round};
use crate::market::{Book, Kind, Period, ZONES};
use crate::money::{self, Fund};
use crate::settlement::{self, Amounts, Columns, Hour};

#[derive(Clone, Debug, PartialEq, Eq)]
pub enum Call {
    Deposit { bidder: u32, fund: Fund, amount: u64 },
    Withdraw { bidder: u32, fund: Fund, amount: u64 },
    Open { kind: Kind, period: Period, quantities: Vec<u32> },
    Round { words: Vec<u32> },
    Pay { bidder: u32, amount: u64 },
    Default { bidder: u32 },
    Retire { day: u32 },
    Rent { amount: u64 },
    Payout { day: u32, hour: Hour, prices: [i64; ZONES] },
    Disburse { total: u64, columns: Box<Columns> },
    Recover { total: u64, columns: Box<Columns> },
}

#[derive(Clone, Debug, PartialEq, Eq)]
pub enum Answer {
    Done,
    Opened,
    Round(Round),
    Drawn(u64),
    Amounts(Box<Amounts>),
}

/// Makes a call. A refused one changes nothing.
pub fn perform(book: &mut Book, register: &mut [u32], call: &Call) -> Result<Answer, u32> {
    match *call {
        Call::Deposit { bidder, fund, amount } => money::deposit(book, bidder, fund, amount).map(done),
        Call::Withdraw { bidder, fund, amount } => money::withdraw(book, bidder, fund, amount).map(done),
        Call::Open { kind, period, ref quantities } => {
            auction::open(book, register, kind, period, quantities).map(|()| Answer::Opened)
        }
        Call::Round { ref words } => auction::round(book, register, words).map(Answer::Round),
        Call::Pay { bidder, amount } => money::pay(book, register, bidder, amount).map(done),
        Call::Default { bidder } => money::default(book, register, bidder).map(Answer::Drawn),
        Call::Retire { day } => settlement::retire(book, register, day).map(done),
        Call::Rent { amount } => money::rent(book, amount).map(done),
        Call::Payout { day, hour, ref prices } => {
            settlement::payout(book, register, day, hour, prices).map(amounts)
        }
        Call::Disburse { total, ref columns } => settlement::disburse(book, total, columns).map(amounts),
        Call::Recover { total, ref columns } => settlement::recover(book, total, columns).map(amounts),
    }
}

fn done((): ()) -> Answer {
    Answer::Done
}

fn amounts(amounts: Amounts) -> Answer {
    Answer::Amounts(Box::new(amounts))
}
