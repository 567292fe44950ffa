//! The register: 6,144 words, entries of six.

use crate::market::{Book, Period, BIDDERS, MAX_ENTRIES, MAX_MW};
use crate::refusal::{self, unless};

/// Words of an entry.
pub const ENTRY: usize = 6;
/// Words of the register.
pub const WORDS: usize = MAX_ENTRIES * ENTRY;

pub const PENDING: u32 = 1;
pub const ISSUED: u32 = 2;
/// The word of an entry that has its state.
const STATE: usize = 5;

#[derive(Clone, Copy, Debug, PartialEq, Eq)]
pub struct Entry {
    pub bidder: u32,
    pub path: u32,
    pub mw: u32,
    pub period: Period,
    pub state: u32,
}

impl Entry {
    fn read(words: &[u32]) -> Entry {
        Entry {
            bidder: words[0],
            path: words[1],
            mw: words[2],
            period: Period {
                first: words[3],
                last: words[4],
            },
            state: words[STATE],
        }
    }

    fn words(&self) -> [u32; ENTRY] {
        let Period { first, last } = self.period;
        [self.bidder, self.path, self.mw, first, last, self.state]
    }

    fn is_sound(&self, paths: usize) -> bool {
        (self.bidder as usize) < BIDDERS
            && (self.path as usize) < paths
            && (1..=MAX_MW).contains(&self.mw)
            && self.period.is_sound()
            && (self.state == PENDING || self.state == ISSUED)
    }

    fn is_pending_of(&self, bidder: u32) -> bool {
        self.bidder == bidder && self.state == PENDING
    }
}

/// The counted entries.
pub fn entries(register: &[u32], count: usize) -> impl Iterator<Item = Entry> + '_ {
    register[..count * ENTRY].chunks_exact(ENTRY).map(Entry::read)
}

/// Refuses a short register, an unsound book and an unsound counted entry.
pub fn check(book: &Book, register: &[u32]) -> Result<(), u32> {
    unless(register.len() >= WORDS, refusal::SHORT_BUFFER)?;
    book.check()?;
    let paths = book.paths.len();
    let sound = entries(register, book.entries).all(|entry| entry.is_sound(paths));
    unless(sound, refusal::UNSOUND)
}

/// The outstanding MW of each path for a period (rule 6.3).
pub fn out(book: &Book, register: &[u32], period: Period) -> Vec<u32> {
    let mut out = vec![0; book.paths.len()];
    entries(register, book.entries)
        .filter(|entry| entry.period.meets(period))
        .for_each(|entry| out[entry.path as usize] += entry.mw);
    out
}

/// Adds an entry behind the counted ones.
pub fn add(book: &mut Book, register: &mut [u32], entry: &Entry) {
    let at = book.entries * ENTRY;
    register[at..at + ENTRY].copy_from_slice(&entry.words());
    book.entries += 1;
}

/// Issues the pending entries of a bidder.
pub fn issue(book: &Book, register: &mut [u32], bidder: u32) {
    register[..book.entries * ENTRY]
        .chunks_exact_mut(ENTRY)
        .filter(|words| words[0] == bidder)
        .for_each(|words| words[STATE] = ISSUED);
}

/// Removes the pending entries of a bidder.
pub fn remove_pending(book: &mut Book, register: &mut [u32], bidder: u32) {
    keep(book, register, |entry| !entry.is_pending_of(bidder));
}

/// Removes the issued entries that ended before a day.
pub fn remove_ended(book: &mut Book, register: &mut [u32], day: u32) {
    keep(book, register, |entry| entry.state != ISSUED || entry.period.last >= day);
}

/// Keeps the entries that are to stay, in their order.
fn keep(book: &mut Book, register: &mut [u32], stays: impl Fn(&Entry) -> bool) {
    let mut kept = 0;
    for from in (0..book.entries * ENTRY).step_by(ENTRY) {
        let words = from..from + ENTRY;
        if stays(&Entry::read(&register[words.clone()])) {
            register.copy_within(words, kept * ENTRY);
            kept += 1;
        }
    }
    book.entries = kept;
}
