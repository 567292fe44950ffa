//! The case files and the samples against the peer.

use std::fs;
use tra_bench::{journals, sheets};

fn file(name: &str) -> Vec<u8> {
    let path = format!("{}/../{name}", env!("CARGO_MANIFEST_DIR"));
    fs::read(&path).unwrap_or_else(|error| panic!("{name}: {error}"))
}

/// The cases of a file: a line `WORD LENGTH NAME`, the bytes, one byte 10.
fn cases<'a>(text: &'a [u8], word: &str) -> Vec<(&'a str, &'a [u8])> {
    let mut cases = Vec::new();
    let mut rest = text;
    while !rest.is_empty() {
        let end = rest.iter().position(|&byte| byte == b'\n').expect("a case line");
        let line = std::str::from_utf8(&rest[..end]).expect("text");
        let mut fields = line.splitn(3, ' ');
        assert_eq!(fields.next(), Some(word));
        let length: usize = fields.next().expect("a length").parse().expect("a number");
        let (case, behind) = rest[end + 1..].split_at(length);
        cases.push((fields.next().expect("a name"), case));
        rest = behind.strip_prefix(b"\n").expect("a byte 10 behind the case");
    }
    cases
}

/// Compares case by case, so that the first difference is named.
fn compare(directory: &str, word: &str, output: fn(&[u8]) -> Vec<u8>) {
    let stdin = file(&format!("crates/{directory}/stdin"));
    let stdout = file(&format!("crates/{directory}/stdout"));
    let mut wanted = &stdout[..];
    let cases = cases(&stdin, word);
    for (name, case) in &cases {
        let mut got = format!("== {name}\n").into_bytes();
        got.extend(output(case));
        wanted = wanted.strip_prefix(&got[..]).unwrap_or_else(|| {
            let wanted = &wanted[..wanted.len().min(got.len() + 40)];
            panic!("{name}\n{}\n{}", String::from_utf8_lossy(&got), String::from_utf8_lossy(wanted))
        });
    }
    assert!(wanted.is_empty());
    println!("{directory}: {} cases", cases.len());
}

#[test]
fn sheet_cases() {
    compare("case_sheets", "sheet", sheets::output);
}

#[test]
fn journal_cases() {
    compare("case_journals", "journal", journals::output);
}

#[test]
fn samples() {
    assert_eq!(sheets::output(&file("samples/short.sheet")), file("samples/short.award"));
    assert_eq!(sheets::output(&file("samples/long.sheet")), file("samples/long.award"));
    assert_eq!(journals::output(&file("samples/year.journal")), file("samples/year.answers"));
}
