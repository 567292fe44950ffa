//! Sheets: one auction as text, and its award sheet.

use crate::auction::{self, BidResult, PathResult, Round};
use crate::market::{Book, Direction, Kind, Period, BIDDERS, RELEASE, RULES};
use crate::money::{deposit, Fund};
use crate::register;
use crate::text;

/// Most bytes of a sheet.
pub const MAX_BYTES: usize = 16_384;
const MAX_DIGITS: usize = 13;

struct Listed {
    number: u32,
    cash: u64,
    letter: u64,
}

/// A sheet that has the form.
struct Sheet {
    kind: Kind,
    period: Period,
    bidders: Vec<Listed>,
    paths: Vec<(Direction, u32)>,
    quantities: Vec<u32>,
    /// The bid list of each round.
    rounds: Vec<Vec<u32>>,
}

/// The whole output for a sheet.
pub fn output(sheet: &[u8]) -> Vec<u8> {
    let mut out = Vec::new();
    put(&mut out, sheet);
    out
}

/// The output of a sheet, behind what is in the buffer.
pub fn put(out: &mut Vec<u8>, sheet: &[u8]) {
    let sheet = match read(sheet) {
        Ok(sheet) => sheet,
        Err(line) => return out.extend_from_slice(format!("refused 40 line {line}\n").as_bytes()),
    };
    match run(&sheet) {
        Ok((rounds, book)) => put_award_sheet(out, &sheet, &rounds, &book),
        Err(number) => out.extend_from_slice(format!("refused {number}\n").as_bytes()),
    }
}

/// The lines not yet read, and how many were.
struct Lines<'a> {
    rest: &'a [u8],
    number: usize,
}

impl<'a> Lines<'a> {
    /// Reads the next line; a missing, unended or faulty one is told by number.
    fn read<T>(&mut self, parse: impl FnOnce(&'a [u8]) -> Option<T>) -> Result<T, usize> {
        self.number += 1;
        let end = self.rest.iter().position(|&byte| byte == b'\n').ok_or(self.number)?;
        let line = &self.rest[..end];
        self.rest = &self.rest[end + 1..];
        parse(line).ok_or(self.number)
    }

    /// Reads a count line and then its lines, each told its place from 0.
    fn section(&mut self, word: &str, mut parse: impl FnMut(u32, &'a [u8]) -> Option<()>) -> Result<(), usize> {
        let count = self.read(|line| count(word, line))?;
        (0..count).try_for_each(|place| self.read(|line| parse(place, line)))
    }
}

/// Reads the form of a whole sheet, or the number of its first faulty line.
fn read(sheet: &[u8]) -> Result<Sheet, usize> {
    if sheet.len() > MAX_BYTES {
        return Err(0);
    }
    let mut lines = Lines { rest: sheet, number: 0 };
    let (kind, period) = lines.read(title)?;
    let mut bidders: Vec<Listed> = Vec::new();
    lines.section("bidders", |_, line| {
        let least = bidders.last().map_or(0, |before| before.number + 1);
        bidders.push(listed(line).filter(|bidder| bidder.number >= least)?);
        Some(())
    })?;
    let (mut paths, mut quantities) = (Vec::new(), Vec::new());
    lines.section("paths", |place, line| {
        paths.push(path(place, line, &mut quantities)?);
        Some(())
    })?;
    let mut rounds = Vec::new();
    for _ in 0..kind.rounds() {
        let mut words = Vec::new();
        lines.section("bids", |_, line| bid(line, &mut words))?;
        rounds.push(words);
    }
    match lines.rest {
        [] => Ok(Sheet { kind, period, bidders, paths, quantities, rounds }),
        _ => Err(lines.number + 1),
    }
}

fn long_number(field: &[u8]) -> Option<u64> {
    text::u64(field).filter(|_| field.len() <= MAX_DIGITS)
}

fn number(field: &[u8]) -> Option<u32> {
    long_number(field)?.try_into().ok()
}

fn title(line: &[u8]) -> Option<(Kind, Period)> {
    let mut fields = text::fields(line);
    fields.next().filter(|&word| word == b"TRA")?;
    let kind = text::kind(fields.next()?)?;
    let first = number(fields.next()?)?;
    let last = number(fields.next()?)?;
    fields.next().is_none().then_some((kind, Period { first, last }))
}

fn count(word: &str, line: &[u8]) -> Option<u32> {
    number(line.strip_prefix(word.as_bytes())?.strip_prefix(b" ")?)
}

fn listed(line: &[u8]) -> Option<Listed> {
    let mut fields = text::fields(line);
    let number = number(fields.next()?).filter(|&n| (n as usize) < BIDDERS)?;
    let cash = long_number(fields.next()?)?;
    let letter = long_number(fields.next()?)?;
    fields.next().is_none().then_some(Listed { number, cash, letter })
}

/// Direction and zone of a path; its quantities are appended.
fn path(place: u32, line: &[u8], quantities: &mut Vec<u32>) -> Option<(Direction, u32)> {
    let mut fields = text::fields(line);
    number(fields.next()?).filter(|&n| n == place)?;
    let direction = text::direction(fields.next()?)?;
    let zone = number(fields.next()?)?;
    for _ in 0..4 {
        quantities.push(number(fields.next()?)?);
    }
    fields.next().is_none().then_some((direction, zone))
}

/// Appends the words of a bid, which must have just its n pairs.
fn bid(line: &[u8], words: &mut Vec<u32>) -> Option<()> {
    let start = words.len();
    for field in text::fields(line) {
        words.push(number(field)?);
    }
    let &[_, _, _, n, ref pairs @ ..] = &words[start..] else {
        return None;
    };
    (pairs.len() as u64 == 2 * u64::from(n)).then_some(())
}

/// The calls of a sheet, and its rounds.
fn run(sheet: &Sheet) -> Result<(Vec<Round>, Book), u32> {
    let mut book = Book::fresh(&sheet.paths)?;
    let mut register = vec![0; register::WORDS];
    for bidder in &sheet.bidders {
        for (fund, amount) in [(Fund::Cash, bidder.cash), (Fund::Letter, bidder.letter)] {
            if amount > 0 {
                deposit(&mut book, bidder.number, fund, amount)?;
            }
        }
    }
    auction::open(&mut book, &register, sheet.kind, sheet.period, &sheet.quantities)?;
    let round = |words: &Vec<u32>| auction::round(&mut book, &mut register, words);
    let rounds = sheet.rounds.iter().map(round).collect::<Result<_, _>>()?;
    Ok((rounds, book))
}

fn put_award_sheet(out: &mut Vec<u8>, sheet: &Sheet, rounds: &[Round], book: &Book) {
    out.extend_from_slice(format!("TRA-AWARD release {RELEASE} rules {RULES}\n").as_bytes());
    text::put_count(out, "rounds", rounds.len());
    rounds.iter().for_each(|round| put_round(out, round));
    text::put_count(out, "bidders", sheet.bidders.len());
    for listed in &sheet.bidders {
        let b = &book.bidders[listed.number as usize];
        text::put(out, listed.number.into());
        text::put_each(out, [b.cash, b.applied, b.letter, b.hold, b.owed]);
        out.push(b'\n');
    }
}

fn put_round(out: &mut Vec<u8>, round: &Round) {
    text::put_count(out, "bids", round.bids.len());
    (1..).zip(&round.bids).for_each(|(place, bid)| put_bid(out, place, bid));
    text::put_count(out, "paths", round.paths.len());
    (0..).zip(&round.paths).for_each(|(number, path)| put_path(out, number, path));
    let winners = || round.bids.iter().filter(|bid| bid.mw > 0);
    text::put_count(out, "awards", winners().count());
    winners().for_each(|bid| put_award(out, bid));
}

fn put_bid(out: &mut Vec<u8>, place: u64, bid: &BidResult) {
    text::put(out, place);
    text::put_each(out, [bid.bidder as u64, bid.path as u64]);
    let mark: &[u8] = if bid.admitted { b" admitted" } else { b" over" };
    out.extend_from_slice(mark);
    text::put_each(out, [bid.value]);
    out.push(b'\n');
}

fn put_path(out: &mut Vec<u8>, number: u64, path: &PathResult) {
    text::put(out, number);
    text::put_each(out, [path.offered.into(), path.sold.into()]);
    match path.price {
        0 => out.extend_from_slice(b" -"),
        price => text::put_each(out, [price.into()]),
    }
    out.push(b'\n');
}

fn put_award(out: &mut Vec<u8>, bid: &BidResult) {
    text::put(out, bid.bidder as u64);
    text::put_each(out, [bid.path as u64, bid.mw.into(), bid.charge]);
    out.push(b'\n');
}
