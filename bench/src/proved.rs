//! The proved engine, by its static library, with the outputs that its programs write.

use crate::text;
use tra::Journal;

const PATHS_AT: usize = 7;
const PATH: usize = 4;
const BIDDERS_AT: usize = 71;
const BIDDER: usize = 6;
const ENTRY: usize = 6;

/// The output for a sheet.
pub fn sheet(sheet: &[u8]) -> Vec<u8> {
    let mut out = vec![0; tra::OUT_BYTES];
    let used = tra::sheet(sheet, &mut out).expect("the buffer is as long as stated");
    out.truncate(used);
    out
}

/// The whole output for a journal, its lines one after the other on one state.
pub fn journal(text: &[u8]) -> Vec<u8> {
    run(text).1
}

/// The journal after its last line, and the whole output.
pub fn run(text: &[u8]) -> (Journal, Vec<u8>) {
    let mut out = format!("# engine release {} rules {}\n", tra::release(), tra::rules()).into_bytes();
    let mut journal = Journal::new();
    for line in text.split_inclusive(|&byte| byte == b'\n') {
        // A last line without its byte 10 has not the form, and neither has an empty one.
        out.extend_from_slice(journal.line(line.strip_suffix(b"\n").unwrap_or_default()));
    }
    state(&journal, &mut out);
    (journal, out)
}

/// The state, read out of the words as the header lists them.
fn state(journal: &Journal, out: &mut Vec<u8>) {
    let book = journal.book();
    let (paths, entries) = (book[0] as usize, book[1] as usize);
    if paths == 0 {
        return;
    }
    out.extend_from_slice(b"# book account ");
    text::put_signed(out, journal.account());
    out.extend_from_slice(b" count");
    text::put_each(out, [book[1]]);
    put_stage(&book[2..PATHS_AT], out);
    for (number, path) in (0..).zip(book[PATHS_AT..].chunks_exact(PATH).take(paths)) {
        out.extend_from_slice(b"# path");
        text::put_each(out, [number]);
        out.extend_from_slice(if path[0] == 0 { b" X" } else { b" M" });
        text::put_each(out, path[1..].iter().copied());
        out.push(b'\n');
    }
    let bidders = (0..).zip(book[BIDDERS_AT..].chunks_exact(BIDDER));
    for (number, bidder) in bidders.filter(|(_, bidder)| bidder.iter().any(|&word| word != 0)) {
        put_row("# bidder", number, bidder.iter().copied(), out);
    }
    for (number, entry) in (0..).zip(journal.entries().chunks_exact(ENTRY).take(entries)) {
        put_row("# entry", number, entry.iter().map(|&word| word.into()), out);
    }
}

fn put_row(word: &str, number: u64, words: impl Iterator<Item = u64>, out: &mut Vec<u8>) {
    out.extend_from_slice(word.as_bytes());
    text::put_each(out, [number]);
    text::put_each(out, words);
    out.push(b'\n');
}

fn put_stage(stage: &[u64], out: &mut Vec<u8>) {
    match stage[0] {
        0 => out.extend_from_slice(b" idle"),
        _ => {
            out.extend_from_slice(if stage[1] == 0 { b" open S" } else { b" open L" });
            text::put_each(out, stage[2..].iter().copied());
        }
    }
    out.push(b'\n');
}
