//! Calls violstream_price_any and violstream_plan_any, for which the head may stand anywhere, and compares every answer with one
//! worked out here, as compare.rs does for the other two calls and with its modules:
//!
//! - small runs of up to six wants at every place of the head, from 0 to past the end of the tape: the planner against all
//!   well-formed lists, each walked leg by leg, and the pricer on each of these lists and on lists that are not well formed;
//!   rows of just the words needed and one word short; and where the head stands at or right of every wanted end, the words
//!   that violstream_price and violstream_plan leave;
//! - calls of all kinds of compare.rs, those at the limits among them, with the head put anywhere.
//!
//! What differs from the other two calls: 7 is only a head above the limit; there is no rule number; a leg from a stop whose
//! start lies right of the head's first place turns at that place; and no detour may start right of the head's own stop.
//!
//! rustc -O --edition 2021 tests/rust/any_head/any_head.rs -L native=DIR -l static=violstream     (DIR holds libviolstream.a)
//! ./any_head [--runs N] [--calls N] [--seed S] [--from N]     exit status: 0 all agree, 1 a difference, 2 bad usage
#![allow(dead_code)] // of the modules that compare.rs uses too

#[path = "../compare/call.rs"]
mod call;
#[path = "../compare/check.rs"]
mod check;
#[path = "../compare/draw.rs"]
mod draw;
#[path = "../compare/fence.rs"]
mod fence;
#[path = "../compare/make.rs"]
mod from_the_right;
#[path = "../compare/joined.rs"]
mod joined;
#[path = "../compare/judge.rs"]
mod judge;
#[path = "../compare/kinds.rs"]
mod kinds;
#[path = "../compare/limits.rs"]
mod limits;
#[path = "../compare/lists.rs"]
mod lists;
#[path = "../compare/random.rs"]
mod random;
#[path = "../compare/rows.rs"]
mod rows;
#[path = "../compare/sheets.rs"]
mod sheets;
#[path = "../compare/walk.rs"]
mod walk;
#[path = "../compare/windows.rs"]
mod windows;

mod anywhere;
mod everywhere;
mod make;
mod small;
mod worked;

use anywhere::{draw_anywhere, TO_MEET_ANYWHERE};
use call::Call;
use check::Checker;
use everywhere::{check_everywhere, Seen};
use random::Random;
use rows::Difference;
use std::process::exit;
use std::time::Instant;

const DEFAULT_RUNS: u64 = 400;
const DEFAULT_CALLS: u64 = 100_000;
const COVERING_RUNS: u64 = 100;
const COVERING_CALLS: u64 = 100_000;

pub fn differ(call: &Call, d: Difference, again: String) -> ! {
    eprintln!("any_head.rs: difference: {}\n  must be {}\n  is      {}\n{}\n  {}", d.what, d.must_be, d.is, call, again);
    exit(1)
}

fn require(met: bool, what: &str) {
    if !met {
        eprintln!("any_head.rs: never met: {}; this says nothing of the library, choose more calls", what);
        exit(1);
    }
}

fn require_all_met(checker: &Checker) {
    for &(plan, numbers) in &[(false, [0, 1, 2, 3, 4, 5, 6, 7, 10, 8]), (true, [0, 1, 2, 3, 4, 5, 6, 7, 8, 9])] {
        for &number in numbers.iter() {
            require(checker.results.contains_key(&(plan, number)), &format!("plan: {}, number {}", plan, number));
        }
    }
    for ((what, _), times) in &checker.met {
        require(*times > 0, what);
    }
    for rule in ["no stop", "backward", "at leftmost", "right of the head's own stop"] {
        require(checker.broken.contains_key(&(rule, 1)), &format!("{} at entry 1", rule));
    }
    for rule in ["no stop", "backward", "at leftmost", "not falling", "same end", "crossing"] {
        require((2..=4).all(|entry| checker.broken.contains_key(&(rule, entry))), &format!("{} at entries 2 to 4", rule));
    }
}

fn check_runs(checker: &mut Checker, runs: u64, seed: u64, from: u64) -> Seen {
    let mut seen = Seen::default();
    for number in from..from + runs {
        let mut random = Random::of(seed, number);
        if let Err((call, difference)) = check_everywhere(checker, &mut random, &mut seen) {
            differ(&call, difference, format!("again alone: any_head --seed {} --from {} --runs 1 --calls 0", seed, number));
        }
    }
    seen
}

fn check_calls(checker: &mut Checker, calls: u64, seed: u64, from: u64) {
    for number in from..from + calls {
        let mut random = Random::of(!seed, number);
        let call = draw_anywhere(&mut random);
        if let Err(difference) = checker.check(&call, random.index(4)) {
            differ(&call, difference, format!("again alone: any_head --seed {} --from {} --runs 0 --calls 1", seed, number));
        }
    }
}

fn usage() -> ! {
    eprintln!("usage: any_head [--runs N] [--calls N] [--seed S] [--from N]");
    exit(2)
}

/// Runs, calls, seed, and the number of the first of either.
fn arguments() -> (u64, u64, u64, u64) {
    let words: Vec<String> = std::env::args().skip(1).collect();
    let (mut runs, mut calls, mut seed, mut from) = (DEFAULT_RUNS, DEFAULT_CALLS, 1, 0);
    for pair in words.chunks(2) {
        let number = pair.get(1).and_then(|word| word.parse().ok()).unwrap_or_else(|| usage());
        match pair[0].as_str() {
            "--runs" => runs = number,
            "--calls" => calls = number,
            "--seed" => seed = number,
            "--from" => from = number,
            _ => usage(),
        }
    }
    (runs, calls, seed, from)
}

fn main() {
    let (runs, calls, seed, from) = arguments();
    let began = Instant::now();
    let mut checker = Checker::new(TO_MEET_ANYWHERE);
    worked::check_worked(&mut checker);
    let seen = check_runs(&mut checker, runs, seed, from);
    check_calls(&mut checker, calls, seed, from);
    if calls >= COVERING_CALLS && runs >= COVERING_RUNS {
        require_all_met(&checker);
        require(seen.at_the_head > 0, "a least list with a detour from the head itself");
        require(seen.as_from_the_right > 0, "a head right of everything");
    }
    println!(
        "any_head.rs: {} runs at {} head places agree, seed {}, with {} lists priced and {} least lists with a detour from the head \
         itself; {} calls as from the right; {} calls with the head anywhere; {:.1} s",
        seen.runs, seen.places, seed, seen.lists, seen.at_the_head, seen.as_from_the_right, calls, began.elapsed().as_secs_f64()
    );
}
