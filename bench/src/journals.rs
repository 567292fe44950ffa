//! Journals: a list of calls as text, the answers and the state.

use crate::auction::Round;
use crate::calls::{perform, Answer};
use crate::journal_lines::{parse, Line};
use crate::market::{Bidder, Book, Stage, RELEASE, RULES};
use crate::refusal::FORM;
use crate::register;
use crate::text;

/// The state between two lines.
#[derive(Clone)]
pub struct Journal {
    pub book: Option<Book>,
    pub register: Vec<u32>,
}

impl Default for Journal {
    fn default() -> Self {
        Journal::new()
    }
}

impl Journal {
    pub fn new() -> Journal {
        Journal {
            book: None,
            register: vec![0; register::WORDS],
        }
    }

    /// Answers one line, given without its byte 10.
    pub fn line(&mut self, line: &[u8], out: &mut Vec<u8>) {
        match self.answer(line) {
            Ok(answer) => self.put_answer(&answer, out),
            Err(number) => put_refusal(number, out),
        }
    }

    fn answer(&mut self, line: &[u8]) -> Result<Answer, u32> {
        match parse(line).ok_or(FORM)? {
            Line::Fresh(paths) => {
                self.book = Some(Book::fresh(&paths)?);
                Ok(Answer::Done)
            }
            Line::Call(call) => {
                let book = self.book.as_mut().ok_or(FORM)?;
                perform(book, &mut self.register, &call)
            }
        }
    }

    fn put_answer(&self, answer: &Answer, out: &mut Vec<u8>) {
        out.extend_from_slice(b"= ok");
        match answer {
            Answer::Done => {}
            Answer::Opened => {
                let paths = self.book.iter().flat_map(|book| &book.paths);
                text::put_each(out, paths.map(|path| path.offer.into()));
            }
            Answer::Round(round) => put_round(round, out),
            Answer::Drawn(draw) => text::put_each(out, [*draw]),
            Answer::Amounts(amounts) => text::put_each(out, **amounts),
        }
        out.push(b'\n');
    }

    /// Appends the state, if there is a book.
    pub fn state(&self, out: &mut Vec<u8>) {
        let Some(book) = &self.book else { return };
        put_book(book, out);
        put_paths(book, out);
        put_bidders(book, out);
        self.put_entries(book, out);
    }

    fn put_entries(&self, book: &Book, out: &mut Vec<u8>) {
        let words = &self.register[..book.entries * register::ENTRY];
        for (number, entry) in (0..).zip(words.chunks_exact(register::ENTRY)) {
            out.extend_from_slice(b"# entry");
            text::put_each(out, [number]);
            text::put_each(out, entry.iter().map(|&word| word.into()));
            out.push(b'\n');
        }
    }
}

/// The whole output for a journal.
pub fn output(text: &[u8]) -> Vec<u8> {
    run(text).1
}

/// The journal after its last line, and the whole output.
pub fn run(text: &[u8]) -> (Journal, Vec<u8>) {
    let mut out = format!("# engine release {RELEASE} rules {RULES}\n").into_bytes();
    let mut journal = Journal::new();
    for line in text.split_inclusive(|&byte| byte == b'\n') {
        match line.strip_suffix(b"\n") {
            Some(line) => journal.line(line, &mut out),
            // A last line without its byte 10 has not the form.
            None => put_refusal(FORM, &mut out),
        }
    }
    journal.state(&mut out);
    (journal, out)
}

fn put_refusal(number: u32, out: &mut Vec<u8>) {
    out.extend_from_slice(b"= refused");
    text::put_each(out, [number.into()]);
    out.push(b'\n');
}

fn put_round(round: &Round, out: &mut Vec<u8>) {
    text::put_each(out, [round.bids.len() as u64]);
    for bid in &round.bids {
        out.extend_from_slice(b" |");
        text::put_each(out, [bid.admitted.into(), bid.value, bid.mw.into(), bid.charge]);
    }
    for (number, path) in round.paths.iter().enumerate() {
        out.extend_from_slice(if number == 0 { b" /" } else { b" |" });
        text::put_each(out, [path.offered.into(), path.sold.into(), path.price.into()]);
    }
}

fn put_book(book: &Book, out: &mut Vec<u8>) {
    out.extend_from_slice(b"# book account ");
    text::put_signed(out, book.account);
    out.extend_from_slice(b" count");
    text::put_each(out, [book.entries as u64]);
    match book.stage {
        Stage::Idle => out.extend_from_slice(b" idle"),
        Stage::Open { kind, round, period } => {
            out.extend_from_slice(b" open ");
            out.extend_from_slice(text::kind_letter(kind));
            text::put_each(out, [round, period.first, period.last].map(u64::from));
        }
    }
    out.push(b'\n');
}

fn put_paths(book: &Book, out: &mut Vec<u8>) {
    for (number, path) in (0..).zip(&book.paths) {
        out.extend_from_slice(b"# path");
        text::put_each(out, [number]);
        out.push(b' ');
        out.extend_from_slice(text::direction_letter(path.direction));
        text::put_each(out, [path.zone, path.offer, path.sold].map(u64::from));
        out.push(b'\n');
    }
}

fn put_bidders(book: &Book, out: &mut Vec<u8>) {
    for (number, b) in (0..).zip(&book.bidders).filter(|&(_, b)| *b != Bidder::default()) {
        out.extend_from_slice(b"# bidder");
        text::put_each(out, [number, b.cash, b.applied, b.letter, b.hold, b.owed, b.step.into()]);
        out.push(b'\n');
    }
}
