//! What the random sheets and journals must reach.

use tra_bench::chance::{journal, sheet, Coverage};

/// Each call, and the refusals that a list of calls can meet at it.
const CALLS: [(&str, &[u32]); 12] = [
    ("fresh", &[25, 40]),
    ("deposit", &[10, 11, 40]),
    ("withdraw", &[10, 11, 12, 40]),
    ("open", &[1, 20, 21, 25, 40]),
    ("round", &[14, 15, 16, 20, 22, 23, 40]),
    ("pay", &[10, 13, 20, 24, 31, 40]),
    ("default", &[10, 20, 24, 31, 40]),
    ("retire", &[21, 40]),
    ("rent", &[11, 31, 40]),
    ("payout", &[21, 30, 31, 40]),
    ("disburse", &[32, 33, 40]),
    ("recover", &[32, 33, 40]),
];

#[test]
fn journals_reach_every_answer() {
    let mut seen = Coverage::default();
    (0..300).for_each(|seed| seen.journal(&journal(seed)));
    for (call, refusals) in CALLS {
        assert!(seen.times(&format!("{call} ok")) >= 100, "{call} ok");
        for number in refusals {
            assert!(seen.times(&format!("{call} refused {number}")) > 0, "{call} {number}");
        }
    }
    assert!(seen.times("journal with a full register") > 0);
}

#[test]
fn sheets_reach_every_answer() {
    let mut seen = Coverage::default();
    (0..2_000).for_each(|seed| seen.sheet(&sheet(seed)));
    for number in [11, 14, 15, 16, 21, 22, 25, 40] {
        assert!(seen.times(&format!("sheet refused {number}")) > 0, "{number}");
    }
    assert!(seen.times("sheet refused 40 line 0") > 0);
    assert!(seen.times("sheet awarded") >= 500);
}

#[test]
fn a_seed_gives_one_text() {
    assert!((0..20).all(|seed| sheet(seed) == sheet(seed) && journal(seed) == journal(seed)));
}
