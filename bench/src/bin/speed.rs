//! How long the proved engine and the peer take for the same work, in one run: medians of many repetitions, as rows of a table.
//!
//!     speed [REPETITIONS]
//!
//! Both engines work on text, through their lines of a journal or on a sheet. Their states are restored before each repetition and
//! outside its time; buffers are warm and are not cleared between repetitions. The two take turns.

use std::env::args;
use std::hint::black_box;
use std::time::{Duration, Instant};
use tra_bench::work::{self, Work};
use tra_bench::{journals, proved, sheets, year};

fn main() {
    let repetitions = args().nth(1).map_or(300, |word| word.parse().expect("a number"));
    println!("| Work | Proved, µs | Rust, µs | Proved / Rust |");
    println!("|---|---|---|---|");
    let bids = |bids, laminations| work::round(bids, laminations);
    for (name, work) in [
        ("round, 93 bids of 20 laminations", bids(93, 20)),
        ("the same list, refused 20: its text read alone", work::idle(bids(93, 20))),
        ("round, 9 bids of 20", bids(9, 20)),
        ("round, 512 bids of 2 laminations", bids(512, 2)),
        ("the same list, refused 20: its text read alone", work::idle(bids(512, 2))),
        ("round, 51 bids of 2", bids(51, 2)),
        ("payout over 1,024 entries", work::payout()),
        ("deposit", work::deposit()),
    ] {
        row(name, repetitions, &work);
    }
    for (name, sheet) in work::sheets() {
        let (mut out, mut theirs) = (vec![0; tra::OUT_BYTES], Vec::with_capacity(tra::OUT_BYTES));
        let (ours, peers) = turns(
            repetitions,
            || {
                timed(|| {
                    black_box(tra::sheet(&sheet, &mut out).expect("the buffer is as long as stated"));
                })
            },
            || {
                theirs.clear();
                timed(|| sheets::put(black_box(&mut theirs), &sheet))
            },
        );
        print(&format!("{name}, {} bytes", sheet.len()), ours, peers);
    }
    let journal = year::year(10_000);
    let few = (repetitions / 30).max(5);
    let (ours, peers) = turns(
        few,
        || timed(|| drop(black_box(proved::journal(&journal)))),
        || timed(|| drop(black_box(journals::output(&journal)))),
    );
    print("10,000 calls of a year", ours, peers);
}

/// A line on a state, by both engines.
fn row(name: &str, repetitions: usize, work: &Work) {
    let (mut ours, mut theirs) = (work.proved.clone(), work.peer.clone());
    let mut reply = Vec::with_capacity(tra::OUT_BYTES);
    let (ours, peers) = turns(
        repetitions,
        || {
            ours.clone_from(&work.proved);
            timed(|| {
                black_box(ours.line(&work.line));
            })
        },
        || {
            theirs.book.clone_from(&work.peer.book);
            theirs.register.clone_from(&work.peer.register);
            reply.clear();
            timed(|| theirs.line(&work.line, &mut reply))
        },
    );
    print(name, ours, peers);
}

fn timed(work: impl FnOnce()) -> Duration {
    let start = Instant::now();
    work();
    start.elapsed()
}

/// The medians of two kinds of work that take turns.
fn turns(repetitions: usize, mut one: impl FnMut() -> Duration, mut other: impl FnMut() -> Duration) -> (Duration, Duration) {
    let mut times: Vec<(Duration, Duration)> = (0..repetitions).map(|_| (one(), other())).collect();
    let middle = repetitions / 2;
    times.sort_unstable_by_key(|pair| pair.0);
    let first = times[middle].0;
    times.sort_unstable_by_key(|pair| pair.1);
    (first, times[middle].1)
}

fn print(name: &str, ours: Duration, peers: Duration) {
    let micros = |time: Duration| time.as_nanos() as f64 / 1_000.0;
    println!("| {name} | {:.1} | {:.1} | {:.2} |", micros(ours), micros(peers), micros(ours) / micros(peers));
}
