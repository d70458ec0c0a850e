//! Calls violstream_price and violstream_plan at random and compares every answer with one worked out here:
//!
//! - refusals: the first row of the table that applies, over whole numbers wide enough never to wrap;
//! - stops: for each want all files of the table that have its aggregate's number, gathered by the first of them;
//! - times, legs, sum, finish and end: the legs of the list, walked one after the other;
//! - the least list of up to 10 stops: every choice of an end for every start is written down, the three rules are held
//!   against each pair of entries, and of the lists left (1,430 for 8 stops) the tie rule picks one;
//! - for more stops: the cheapest plan of each window of stops, remembered by window.
//!
//! Where some file lies in an aggregate, the library is called once more, on the whole table with each aggregate made one
//! file: the two answers must be the same, by other names.
//!
//! Every row stands between guard words. After a call every word of every row, and every guard, is compared with what it
//! must be: unchanged, but for the first entries of the rows for the answer of an accepted call.
//!
//! rustc -O --edition 2021 tests/rust/compare/compare.rs -L native=DIR -l static=violstream     (DIR holds libviolstream.a)
//! ./compare [--calls N] [--seed S] [--from N] [--sheets FILE]     exit status: 0 all agree, 1 a difference, 2 bad usage
//!
//! --sheets writes down plans of at most 8 wants, as run sheets with the plan sheets that must come of them.

mod call;
mod check;
mod draw;
mod fence;
mod joined;
mod judge;
mod kinds;
mod limits;
mod lists;
mod make;
mod random;
mod rows;
mod sheets;
mod walk;
mod windows;
mod worked;

use call::Call;
use check::{Checker, TO_MEET_FROM_THE_RIGHT};
use kinds::draw_call;
use random::Random;
use std::process::exit;
use std::time::Instant;
use worked::check_worked;

const DEFAULT_CALLS: u64 = 220_000;
const COVERING_CALLS: u64 = 100_000;

fn check_or_exit(checker: &mut Checker, call: &Call, shift: usize, again: String) {
    if let Err(d) = checker.check(call, shift) {
        eprintln!("compare.rs: difference: {}\n  must be {}\n  is      {}\n{}\n  {}", d.what, d.must_be, d.is, call, again);
        exit(1);
    }
}

fn require(met: bool, what: String) {
    if !met {
        eprintln!("compare.rs: never met: {}; this says nothing of the library, choose more calls", what);
        exit(1);
    }
}

fn require_all_met(checker: &Checker) {
    for &(plan, numbers) in &[(false, [0, 1, 2, 3, 4, 5, 6, 7, 10, 8, 8]), (true, [0, 1, 2, 3, 4, 5, 6, 7, 14, 8, 9])] {
        for &number in numbers.iter() {
            require(checker.results.contains_key(&(plan, number)), format!("plan: {}, number {}", plan, number));
        }
    }
    for ((what, _), times) in &checker.met {
        require(*times > 0, what.to_string());
    }
    for entry in 1..=8 {
        for rule in ["no stop", "backward", "at leftmost", "not falling", "same end", "crossing"].iter() {
            let possible = entry > 1 || ["no stop", "backward", "at leftmost"].contains(rule);
            require(!possible || checker.broken.contains_key(&(*rule, entry)), format!("{} at entry {}", rule, entry));
        }
    }
}

fn summary(checker: &Checker, calls: u64, seed: u64, seconds: f64) -> String {
    let count = |plan: bool, refused: bool| -> u64 {
        checker.results.iter().filter(|(key, _)| key.0 == plan && (key.1 != 0) == refused).map(|(_, n)| n).sum()
    };
    format!(
        "compare.rs: {} calls agree, seed {}: price {} accepted, {} refused; plan {} accepted ({} against all lists, {} by \
         windows), {} refused; {} also against their tables joined; {:.1} s",
        calls, seed, count(false, false), count(false, true), count(true, false), checker.searched, checker.by_windows,
        count(true, true), checker.also_joined, seconds
    )
}

fn usage() -> ! {
    eprintln!("usage: compare [--calls N] [--seed S] [--from N] [--sheets FILE]");
    exit(2)
}

/// Calls, seed, first call, and the file for sheets.
fn arguments() -> (u64, u64, u64, Option<String>) {
    let words: Vec<String> = std::env::args().skip(1).collect();
    let (mut calls, mut seed, mut from, mut sheets) = (DEFAULT_CALLS, 1, 0, None);
    for pair in words.chunks(2) {
        let word = pair.get(1).unwrap_or_else(|| usage());
        let number = || word.parse().unwrap_or_else(|_| usage());
        match pair[0].as_str() {
            "--calls" => calls = number(),
            "--seed" => seed = number(),
            "--from" => from = number(),
            "--sheets" => sheets = Some(word.clone()),
            _ => usage(),
        }
    }
    (calls, seed, from, sheets)
}

fn write_sheets(path: &str, text: &str) {
    if let Err(reason) = std::fs::write(path, text) {
        eprintln!("compare.rs: cannot write {}: {}", path, reason);
        exit(1);
    }
}

fn main() {
    let (calls, seed, from, sheets) = arguments();
    let began = Instant::now();
    let mut checker = Checker::new(TO_MEET_FROM_THE_RIGHT);
    check_worked(&mut checker);
    checker.results.clear();
    checker.searched = 0;
    checker.also_joined = 0;
    for number in from..from + calls {
        let mut random = Random::of(seed, number);
        let call = draw_call(&mut random);
        let again = format!("again alone: compare --seed {} --from {} --calls 1", seed, number);
        check_or_exit(&mut checker, &call, random.index(4), again);
    }
    if calls >= COVERING_CALLS {
        require_all_met(&checker);
    }
    if let Some(path) = sheets {
        write_sheets(&path, &checker.sheets.text);
    }
    println!("{}", summary(&checker, calls, seed, began.elapsed().as_secs_f64()));
}
