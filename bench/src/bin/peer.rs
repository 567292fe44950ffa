//! `peer sheet` and `peer journal`: standard input to standard output.
//! `peer make sheet SEED` and `peer make journal SEED` print a random one,
//! `peer coverage SHEETS JOURNALS` what so many of them cause.

use std::io::{self, Read, Write};
use tra_bench::{chance, journals, sheets};

fn main() -> io::Result<()> {
    let words: Vec<String> = std::env::args().skip(1).collect();
    let words: Vec<&str> = words.iter().map(String::as_str).collect();
    let out = match words[..] {
        ["sheet"] => sheets::output(&input()?),
        ["journal"] => journals::output(&input()?),
        ["make", "sheet", seed] => chance::sheet(number(seed)?),
        ["make", "journal", seed] => chance::journal(number(seed)?),
        ["coverage", sheets, journals] => coverage(number(sheets)?, number(journals)?),
        _ => return Err(io::Error::other("which of sheet, journal, make and coverage?")),
    };
    io::stdout().write_all(&out)
}

fn input() -> io::Result<Vec<u8>> {
    let mut bytes = Vec::new();
    io::stdin().read_to_end(&mut bytes)?;
    Ok(bytes)
}

fn number(word: &str) -> io::Result<u64> {
    word.parse().map_err(io::Error::other)
}

fn coverage(sheets: u64, journals: u64) -> Vec<u8> {
    let mut seen = chance::Coverage::default();
    (0..sheets).for_each(|seed| seen.sheet(&chance::sheet(seed)));
    (0..journals).for_each(|seed| seen.journal(&chance::journal(seed)));
    seen.to_string().into_bytes()
}
