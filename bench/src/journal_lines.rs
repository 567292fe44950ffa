//! The lines of a journal: what each says.

use crate::calls::Call;
use crate::market::{Direction, Period};
use crate::money::Fund;
use crate::settlement::{Column, Columns, Hour};
use crate::text;

/// Most bytes of a line, its byte 10 left out.
pub const MAX_LINE: usize = 65_536;

/// What a line asks for.
pub enum Line {
    Fresh(Vec<(Direction, u32)>),
    Call(Call),
}

/// What a line says, if it has the form.
pub fn parse(line: &[u8]) -> Option<Line> {
    if line.len() > MAX_LINE {
        return None;
    }
    let mut fields = text::fields(line);
    let word = fields.next()?;
    let f = &mut fields;
    let line = match word {
        b"fresh" => Line::Fresh(fresh(f)?),
        _ => Line::Call(call(word, f)?),
    };
    fields.next().is_none().then_some(line)
}

fn call<'a>(word: &[u8], fields: &mut impl Iterator<Item = &'a [u8]>) -> Option<Call> {
    let f = fields;
    Some(match word {
        b"deposit" => Call::Deposit { bidder: word32(f)?, fund: fund(f.next()?)?, amount: word64(f)? },
        b"withdraw" => Call::Withdraw { bidder: word32(f)?, fund: fund(f.next()?)?, amount: word64(f)? },
        b"open" => open(f)?,
        b"round" => Call::Round { words: words(f)? },
        b"pay" => Call::Pay { bidder: word32(f)?, amount: word64(f)? },
        b"default" => Call::Default { bidder: word32(f)? },
        b"retire" => Call::Retire { day: word32(f)? },
        b"rent" => Call::Rent { amount: word64(f)? },
        b"payout" => payout(f)?,
        b"disburse" => Call::Disburse { total: word64(f)?, columns: columns(f)? },
        b"recover" => Call::Recover { total: word64(f)?, columns: columns(f)? },
        _ => return None,
    })
}

fn word32<'a>(fields: &mut impl Iterator<Item = &'a [u8]>) -> Option<u32> {
    text::u32(fields.next()?)
}

fn word64<'a>(fields: &mut impl Iterator<Item = &'a [u8]>) -> Option<u64> {
    text::u64(fields.next()?)
}

/// All the fields that are left, as words.
fn words<'a>(fields: &mut impl Iterator<Item = &'a [u8]>) -> Option<Vec<u32>> {
    fields.map(text::u32).collect()
}

fn fund(field: &[u8]) -> Option<Fund> {
    match field {
        b"cash" => Some(Fund::Cash),
        b"letter" => Some(Fund::Letter),
        _ => None,
    }
}

fn fresh<'a>(fields: &mut impl Iterator<Item = &'a [u8]>) -> Option<Vec<(Direction, u32)>> {
    let mut paths = Vec::new();
    while let Some(field) = fields.next() {
        paths.push((text::direction(field)?, word32(fields)?));
    }
    Some(paths)
}

fn open<'a>(fields: &mut impl Iterator<Item = &'a [u8]>) -> Option<Call> {
    let kind = text::kind(fields.next()?)?;
    let period = Period { first: word32(fields)?, last: word32(fields)? };
    let quantities = words(fields)?;
    (quantities.len() % 4 == 0).then_some(Call::Open { kind, period, quantities })
}

fn payout<'a>(fields: &mut impl Iterator<Item = &'a [u8]>) -> Option<Call> {
    let day = word32(fields)?;
    let hour = match fields.next()? {
        b"failed" => Hour::Failed,
        b"priced" => Hour::Priced,
        _ => return None,
    };
    let mut prices = [0; 16];
    for price in &mut prices {
        *price = text::i64(fields.next()?)?;
    }
    Some(Call::Payout { day, hour, prices })
}

fn columns<'a>(fields: &mut impl Iterator<Item = &'a [u8]>) -> Option<Box<Columns>> {
    let mut column = || -> Option<Column> {
        let mut column = [0; 32];
        for word in &mut column {
            *word = word32(fields)?;
        }
        Some(column)
    };
    Some(Box::new(Columns {
        provincial: column()?,
        export: column()?,
        meters: column()?,
        interties: column()?,
    }))
}
