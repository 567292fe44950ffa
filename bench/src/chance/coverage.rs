//! Counters of what random sheets and journals cause.

use crate::journals::Journal;
use crate::sheets;
use std::collections::BTreeMap;
use std::fmt;

const CALLS: [&str; 12] = [
    "fresh", "deposit", "withdraw", "open", "round", "pay", //
    "default", "retire", "rent", "payout", "disburse", "recover",
];

/// How often each outcome was met, by what met it.
#[derive(Default)]
pub struct Coverage {
    counts: BTreeMap<String, u64>,
}

impl Coverage {
    fn count(&mut self, kind: String) {
        *self.counts.entry(kind).or_default() += 1;
    }

    /// How often an outcome was met, named as it is printed.
    pub fn times(&self, kind: &str) -> u64 {
        self.counts.get(kind).copied().unwrap_or(0)
    }

    /// Counts the outcome of a sheet.
    pub fn sheet(&mut self, sheet: &[u8]) {
        let output = String::from_utf8(sheets::output(sheet)).unwrap_or_default();
        let first = output.lines().next().unwrap_or_default();
        let kind = match first.split(' ').collect::<Vec<_>>()[..] {
            ["refused", number] => format!("sheet refused {number}"),
            ["refused", _, "line", "0"] => "sheet refused 40 line 0".to_string(),
            ["refused", _, ..] => "sheet refused 40".to_string(),
            _ => "sheet awarded".to_string(),
        };
        if kind == "sheet awarded" {
            self.award_sheet(&output);
        }
        self.count(kind);
    }

    fn award_sheet(&mut self, output: &str) {
        for line in output.lines() {
            match line.split(' ').collect::<Vec<_>>()[..] {
                [_, _, _, "over", _] => self.count("sheet bid over".to_string()),
                [_, _, _, "admitted", _] => self.count("sheet bid admitted".to_string()),
                [_, "0", "0", "-"] => self.count("sheet path without offer".to_string()),
                [_, _, "0", "-"] => self.count("sheet path without award".to_string()),
                [_, offered, sold, _] if offered == sold => self.count("sheet path sold out".to_string()),
                _ => {}
            }
        }
    }

    /// Counts the answer of each line of a journal.
    pub fn journal(&mut self, text: &[u8]) {
        let mut journal = Journal::new();
        let mut most = 0;
        for line in text.split(|&byte| byte == b'\n') {
            let mut reply = Vec::new();
            journal.line(line, &mut reply);
            let word = line.split(|&byte| byte == b' ').next().unwrap_or_default();
            let word = CALLS.iter().find(|call| call.as_bytes() == word).unwrap_or(&"other");
            let reply = String::from_utf8_lossy(&reply);
            let answer = if reply.starts_with("= ok") { "ok" } else { reply[2..].trim_end() };
            self.count(format!("{word} {answer}"));
            most = most.max(journal.book.as_ref().map_or(0, |book| book.entries));
        }
        let deep = match most {
            1024 => "journal with a full register",
            512.. => "journal with 512 entries or more",
            1.. => "journal with entries",
            0 => "journal without entries",
        };
        self.count(deep.to_string());
    }
}

impl fmt::Display for Coverage {
    fn fmt(&self, f: &mut fmt::Formatter) -> fmt::Result {
        self.counts.iter().try_for_each(|(kind, count)| writeln!(f, "{kind}: {count}"))
    }
}
