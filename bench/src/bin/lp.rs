//! Rounds as linear programs: what glpsol finds to be the greatest total bid value must be the engine's.
//!
//!     lp FOLDER [ROUNDS]
//!
//! writes each program to a folder, has glpsol solve it, and compares. A difference ends the program with status 1. The last
//! rows are the two large rounds, with the time of both, each a median: the engine's for the round's line, and glpsol's for its
//! process, from its start to its end.

use std::env::args;
use std::fmt::Write;
use std::fs;
use std::path::{Path, PathBuf};
use std::process::{exit, Command};
use std::time::{Duration, Instant};
use tra_bench::chance::Chance;
use tra_bench::work::bid_words;

/// How often each is timed.
const REPETITIONS: usize = 21;

/// A pair of an admitted bid: where it bids, at what price, and for how many MW.
struct Lamination {
    path: usize,
    price: u64,
    quantity: u64,
}

/// A round that was answered: its admitted laminations, what it offers, and the engine's total bid value.
struct Round {
    laminations: Vec<Lamination>,
    offered: Vec<u64>,
    value: u64,
    time: Duration,
}

fn main() {
    let folder = PathBuf::from(args().nth(1).expect("a folder"));
    let rounds = args().nth(2).map_or(40, |word| word.parse().expect("a number"));
    fs::create_dir_all(&folder).expect("the folder can be made");
    let mut chance = Chance::new(4_6);
    for number in 0..rounds {
        let (bids, laminations) = (chance.range(1, 200) as usize, chance.range(1, 20) as usize);
        let (cash, limit) = (chance.range(100_000, 40_000_000), chance.range(1, 900));
        check(&folder, &format!("round {number}"), bids.min(4_096 / (4 + 2 * laminations)), laminations, cash, limit);
    }
    println!("{rounds} rounds: glpsol's optimum is the engine's total bid value in each");
    println!("| Round | Engine, µs | glpsol, µs | glpsol / engine |\n|---|---|---|---|");
    for (bids, laminations) in [(93, 20), (512, 2)] {
        let runs = (0..REPETITIONS).map(|_| check(&folder, "large", bids, laminations, 500_000_000_000, 900));
        let (engines, solvers): (Vec<Duration>, Vec<Duration>) = runs.unzip();
        let (engine, solver) = (median(engines).as_micros().max(1), median(solvers).as_micros());
        println!("| {bids} bids of {laminations} laminations | {engine} | {solver} | {} |", solver / engine);
    }
}

fn median(mut times: Vec<Duration>) -> Duration {
    times.sort_unstable();
    times[times.len() / 2]
}

/// One round by both; the time of each.
fn check(folder: &Path, name: &str, bids: usize, laminations: usize, cash: u64, limit: u64) -> (Duration, Duration) {
    let words = bid_words(&mut Chance::new(bids as u64 * 31 + limit), bids, laminations);
    let round = answered(&words, cash, limit);
    let (optimum, time) = solved(folder, &program(&round));
    if optimum != round.value {
        println!("{name}: glpsol finds {optimum}, and the engine's total bid value is {}", round.value);
        println!("{}", program(&round));
        exit(1);
    }
    (round.time, time)
}

/// The round by the engine.
fn answered(words: &[Vec<u64>], cash: u64, limit: u64) -> Round {
    let mut journal = tra::Journal::new();
    let say = |journal: &mut tra::Journal, line: &str| {
        let start = Instant::now();
        let reply = journal.line(line.as_bytes());
        let time = start.elapsed();
        let reply = String::from_utf8(reply.to_vec()).expect("a reply is text");
        assert!(reply.starts_with("= ok"), "{line}: {reply}");
        (reply, time)
    };
    say(&mut journal, &format!("fresh{}", " X 1".repeat(16)));
    for bidder in 0..32 {
        say(&mut journal, &format!("deposit {bidder} cash {}", cash + bidder * 1_000));
    }
    say(&mut journal, &format!("open S 1 31{}", format!(" 9999 {limit} 9999 9999").repeat(16)));
    let line: String = words.iter().flatten().map(|word| format!(" {word}")).collect();
    let line = format!("round{line}");
    let mut again = journal.clone();
    let times = (0..REPETITIONS).map(|_| {
        again.clone_from(&journal);
        say(&mut again, &line).1
    });
    let time = median(times.collect());
    let (reply, _) = say(&mut journal, &line);
    let (bids, paths) = reply.trim_end().split_once(" / ").expect("a round tells of paths");
    let row = |row: &str| row.split_whitespace().map(|word| word.parse().expect("a number")).collect::<Vec<u64>>();
    let offered = paths.split(" | ").map(|path| row(path)[0]).collect();
    let mut round = Round { laminations: Vec::new(), offered, value: 0, time };
    for (bid, answer) in words.iter().zip(bids.split(" | ").skip(1)) {
        round.add(bid, &row(answer));
    }
    round
}

impl Round {
    /// A bid with its answer: where it is admitted its laminations count, and its MW fill them in order.
    fn add(&mut self, bid: &[u64], answer: &[u64]) {
        if answer[0] == 0 {
            return;
        }
        let mut left = answer[2];
        for pair in bid[4..].chunks_exact(2) {
            let taken = left.min(pair[1]);
            left -= taken;
            self.value += pair[0] * taken;
            self.laminations.push(Lamination { path: bid[1] as usize, price: pair[0], quantity: pair[1] });
        }
    }
}

/// The greatest total bid value of any award within the offers, as a linear program.
fn program(round: &Round) -> String {
    let mut text = "Maximize\n value:".to_string();
    for (number, lamination) in round.laminations.iter().enumerate() {
        write!(text, "\n + {} x{number}", lamination.price).unwrap();
    }
    text += "\n + 0 none\nSubject To\n";
    for (path, offered) in round.offered.iter().enumerate() {
        write!(text, " path{path}: none").unwrap();
        for (number, _) in round.laminations.iter().enumerate().filter(|(_, lamination)| lamination.path == path) {
            write!(text, "\n + x{number}").unwrap();
        }
        writeln!(text, "\n <= {offered}").unwrap();
    }
    text += "Bounds\n none = 0\n";
    for (number, lamination) in round.laminations.iter().enumerate() {
        writeln!(text, " x{number} <= {}", lamination.quantity).unwrap();
    }
    text + "End\n"
}

/// The optimum of a program, and how long glpsol took.
fn solved(folder: &Path, program: &str) -> (u64, Duration) {
    let (input, output) = (folder.join("round.lp"), folder.join("round.out"));
    fs::write(&input, program).expect("the program can be written");
    let start = Instant::now();
    let ran = Command::new("glpsol").arg("--lp").arg(&input).arg("-o").arg(&output).output().expect("glpsol runs");
    let time = start.elapsed();
    let found = fs::read_to_string(&output).expect("glpsol wrote its answer");
    let line = found.lines().find(|line| line.starts_with("Objective:"));
    let optimum = line.and_then(|line| line.split_whitespace().nth(3)).and_then(|word| word.parse::<f64>().ok());
    assert!(ran.status.success() && found.contains("OPTIMAL"), "{}", String::from_utf8_lossy(&ran.stdout));
    (optimum.expect("an objective").round() as u64, time)
}
