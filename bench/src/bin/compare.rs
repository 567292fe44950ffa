//! Random sheets and journals by the proved engine and by the peer: every byte must be the same.
//!
//!     compare SECONDS [FIRST]
//!
//! runs for so many seconds from a first seed on. A difference is printed with the sheet or journal that shows it, and ends the
//! program with status 1.

use std::env::args;
use std::io::{stdout, Write};
use std::process::exit;
use std::time::{Duration, Instant};
use tra_bench::chance::{self, Coverage};
use tra_bench::{journals, proved, sheets};

/// Sheets to each journal.
const SHEETS: u64 = 24;
/// How many of both are counted by what they cause; counting runs the peer once more.
const COUNTED: u64 = 150;

fn main() {
    let mut words = args().skip(1).map(|word| word.parse::<u64>().expect("a number"));
    let seconds = words.next().unwrap_or(60);
    let first = words.next().unwrap_or(0);
    let end = Instant::now() + Duration::from_secs(seconds);
    let mut seen = Coverage::default();
    let (mut runs, mut lines) = (0, 0);
    for seed in first.. {
        (seed * SHEETS..(seed + 1) * SHEETS).for_each(|seed| compare_sheet(seed, &chance::sheet(seed)));
        let text = chance::journal(seed);
        compare_journal(seed, &text);
        runs += 1;
        lines += text.iter().filter(|&&byte| byte == b'\n').count();
        if runs <= COUNTED {
            (seed * SHEETS..(seed + 1) * SHEETS).for_each(|seed| seen.sheet(&chance::sheet(seed)));
            seen.journal(&text);
        }
        if Instant::now() >= end {
            break;
        }
    }
    print!("of the first {} journals and their sheets:\n{seen}", runs.min(COUNTED));
    println!("outside: {} sheets and {runs} journals of {lines} lines, both engines the same", runs * SHEETS);
}

fn compare_sheet(seed: u64, sheet: &[u8]) {
    differ("sheet", seed, sheet, &proved::sheet(sheet), &sheets::output(sheet));
}

fn compare_journal(seed: u64, text: &[u8]) {
    let (journal, output) = proved::run(text);
    let (peer, expected) = journals::run(text);
    differ("journal", seed, text, &output, &expected);
    if journal.entries() != peer.register {
        fail("journal", seed, text, b"the registers differ past their entries\n", b"");
    }
}

fn differ(what: &str, seed: u64, text: &[u8], proved: &[u8], peer: &[u8]) {
    if proved != peer {
        fail(what, seed, text, proved, peer);
    }
}

fn fail(what: &str, seed: u64, text: &[u8], proved: &[u8], peer: &[u8]) -> ! {
    let mut out = stdout().lock();
    let parts: [(&str, &[u8]); 3] = [("the text", text), ("the proved engine", proved), ("the peer", peer)];
    writeln!(out, "outside: a difference in {what} {seed}").unwrap();
    for (name, bytes) in parts {
        writeln!(out, "---- {name}").unwrap();
        out.write_all(bytes).unwrap();
    }
    exit(1)
}
