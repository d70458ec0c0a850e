//! Compares violstream_plan_any with all movements of the head, for small runs at every place of the head. Nothing here knows of
//! detours or lists.
//!
//! A movement is steps of one place to the left or to the right, and turns. Where the head stands, which way it faces, where its
//! run to the right has started and what is read: that is all that what comes can depend on. A step takes one unit of time and
//! a turn the turn price, and meanwhile every read that is not done waits. So the sum of a movement is the length of a path, and
//! the least sum of all movements is a shortest path (shortest.rs).
//!
//! At every place of the head:
//!
//! - the sum of the plan is the least of all movements from there;
//! - its rows are those that violstream_price_any gives for its list;
//! - where the head stands at or right of every wanted end, violstream_plan leaves the same words;
//! - where it stands at or left of everything wanted, there is no detour, and no movement reads any stop earlier than the plan.
//!
//! And between runs: with more reads, of other files too, or a higher turn price, no movement from the same place is below the plan.
//!
//! rustc -O --edition 2021 tests/rust/movements/movements.rs -L native=DIR -l static=violstream     (DIR holds libviolstream.a)
//! ./movements [--runs N] [--seed S] [--from N]     exit status: 0 all agree, 1 a difference, 2 bad usage
#![allow(dead_code)] // of the modules that other programs use too

#[path = "../compare/call.rs"]
mod call;
#[path = "../compare/fence.rs"]
mod fence;
#[path = "../compare/make.rs"]
mod from_the_right;
#[path = "../compare/limits.rs"]
mod limits;
#[path = "../any_head/make.rs"]
mod make;
#[path = "../compare/random.rs"]
mod random;
mod shortest;
#[path = "../any_head/small.rs"]
mod small;

use call::*;
use fence::Fenced;
use make::make;
use random::Random;
use shortest::{least_sums, Stop};
use small::{small_run, tape_end};
use std::process::exit;
use std::time::Instant;

const DEFAULT_RUNS: u64 = 6_000;
const COVERING_RUNS: u64 = 1_000;
const PAST_THE_END: u64 = 2;

/// What was looked at.
#[derive(Default)]
struct Seen {
    places: u64,
    at_the_head: u64,
    as_from_the_right: u64,
    as_early_as_can_be: u64,
    dearer: u64,
}

/// What is wanted, by the extents of aggregates.
fn stops_of(call: &Call) -> Vec<Stop> {
    let number = |file: u64| call.rows[AGGREGATES][file as usize - 1];
    let files = 1..=call.len(STARTS) as u64;
    let mut stops: Vec<Stop> = Vec::new();
    for (&wanted, &reads) in call.rows[NUMBERS].iter().zip(&call.rows[COUNTS]) {
        let together = |&file: &u64| file == wanted || (number(wanted) != 0 && number(file) == number(wanted));
        let first = files.clone().find(together).unwrap_or(wanted) as usize - 1;
        let last = files.clone().rev().find(together).unwrap_or(wanted) as usize - 1;
        let start = call.rows[STARTS][first];
        match stops.last_mut() {
            Some(stop) if stop.start == start => stop.reads += reads,
            _ => stops.push(Stop { start, end: call.rows[STARTS][last] + call.rows[LENGTHS][last], reads }),
        }
    }
    stops
}

/// The call with rows of just the words needed, and the words that it leaves; or its refusal.
fn rows_after(call: &Call, list: Option<(&[u64], &[u64])>) -> Result<Vec<Vec<u64>>, u64> {
    let (k, wants) = (stops_of(call).len(), call.len(NUMBERS));
    let reads: u64 = call.rows[COUNTS].iter().sum();
    let mut lent = Call { plan: list.is_none(), ..call.clone() };
    lent.rows[TIMES] = vec![3; wants];
    lent.rows[LEGS] = vec![3; wants];
    lent.rows[SUMS] = vec![3; 4];
    lent.rows[FROM] = list.map_or(vec![3; k.saturating_sub(1)], |halves| halves.0.to_vec());
    lent.rows[TO] = list.map_or(vec![3; k.saturating_sub(1)], |halves| halves.1.to_vec());
    lent.rows[ROOM] = vec![3; if list.is_none() { k * k * (reads as usize + 1) } else { 0 }];
    let mut rows: Vec<Fenced> = lent.rows.iter().map(|row| Fenced::around(row, 0, false)).collect();
    match make(&lent, &mut rows) {
        0 if rows.iter().all(|row| row.first_bad_guard().is_none()) => Ok(rows.iter().map(|row| row.row().to_vec()).collect()),
        result => Err(result),
    }
}

struct Place<'a> {
    call: &'a Call,
    stops: &'a [Stop],
    again: String,
}

impl Place<'_> {
    fn differ(&self, what: &str, must_be: String, is: String) -> ! {
        eprintln!("movements.rs: difference: {}\n  must be {}\n  is      {}\n{}\n  {}", what, must_be, is, self.call, self.again);
        exit(1)
    }

    fn same<T: PartialEq + std::fmt::Debug>(&self, what: &str, must_be: T, is: T) {
        if must_be != is {
            self.differ(what, format!("{:?}", must_be), format!("{:?}", is));
        }
    }

    fn plan(&self) -> Vec<Vec<u64>> {
        rows_after(self.call, None).unwrap_or_else(|result| self.differ("the plan's result", 0.to_string(), result.to_string()))
    }

    /// The pricer's answer for the plan's list.
    fn check_price(&self, plan: &[Vec<u64>]) {
        let n = plan[SUMS][3] as usize;
        match rows_after(self.call, Some((&plan[FROM][..n], &plan[TO][..n]))) {
            Err(result) => self.differ("the price's result", 0.to_string(), result.to_string()),
            Ok(price) => [TIMES, LEGS, SUMS].iter().for_each(|&row| self.same(NAMES[row], &price[row], &plan[row])),
        }
    }

    fn check_from_the_right(&self, plan: &[Vec<u64>], seen: &mut Seen) {
        if self.stops.iter().all(|stop| stop.end <= self.call.head) {
            let from_the_right = Call { any: false, ..self.call.clone() };
            self.same("the rows that violstream_plan leaves", rows_after(&from_the_right, None), Ok(plan.to_vec()));
            seen.as_from_the_right += 1;
        }
    }

    /// `earliest`: for each stop the least time of all movements, by the place where the head starts.
    fn check_from_the_left(&self, plan: &[Vec<u64>], earliest: &[Vec<u64>], seen: &mut Seen) {
        if self.stops.iter().all(|stop| self.call.head <= stop.start) {
            let of_stop = |i: usize| earliest[i][self.call.head as usize];
            let mut times = plan[TIMES].clone();
            times.dedup();
            self.same("the earliest times", (0..self.stops.len()).map(of_stop).collect(), times);
            self.same("the number of detours", 0, plan[SUMS][3]);
            seen.as_early_as_can_be += (self.stops.len() > 1) as u64;
        }
    }
}

/// The run with more reads of some files, wanted or not, and perhaps a higher turn price.
fn dearer_run(random: &mut Random, call: &Call) -> Call {
    let mut counts = vec![0; call.len(STARTS)];
    for (&file, &reads) in call.rows[NUMBERS].iter().zip(&call.rows[COUNTS]) {
        counts[file as usize - 1] = reads;
    }
    for _ in 0..random.below(3) {
        let file = random.index(counts.len());
        counts[file] += random.within(1, 3);
    }
    let mut dearer = Call { turn: call.turn + random.below(3), ..call.clone() };
    dearer.rows[NUMBERS] = (1..=counts.len() as u64).filter(|&file| counts[file as usize - 1] > 0).collect();
    dearer.rows[COUNTS] = counts.into_iter().filter(|&reads| reads > 0).collect();
    dearer
}

fn check_run(random: &mut Random, again: String, seen: &mut Seen) {
    let mut call = small_run(random);
    let stops = stops_of(&call);
    let places = (tape_end(&call) + PAST_THE_END + 1) as usize;
    let least = least_sums(&stops, call.turn, places);
    let alone = |stop: &Stop| least_sums(&[Stop { reads: 1, ..*stop }], call.turn, places);
    let earliest: Vec<Vec<u64>> = stops.iter().map(alone).collect();
    let dearer = if call.len(STARTS) > 0 { dearer_run(random, &call) } else { call.clone() };
    let of_dearer = least_sums(&stops_of(&dearer), dearer.turn, places);
    for head in 0..places {
        call.head = head as u64;
        let place = Place { call: &call, stops: &stops, again: again.clone() };
        let plan = place.plan();
        place.same("the least sum of all movements", least[head], plan[SUMS][0]);
        place.check_price(&plan);
        place.check_from_the_right(&plan, seen);
        place.check_from_the_left(&plan, &earliest, seen);
        if of_dearer[head] < plan[SUMS][0] {
            place.differ("the sum, at most that of a movement for a dearer run", of_dearer[head].to_string(), plan[SUMS][0].to_string());
        }
        let detours = &plan[FROM][..plan[SUMS][3] as usize];
        seen.at_the_head += detours.iter().any(|&file| call.rows[STARTS][file as usize - 1] > call.head) as u64;
        seen.dearer += (of_dearer[head] > plan[SUMS][0]) as u64;
        seen.places += 1;
    }
}

fn require_all_met(seen: &Seen) {
    let met = [
        (seen.at_the_head, "a detour from the head itself"),
        (seen.as_from_the_right, "a head right of everything"),
        (seen.as_early_as_can_be, "a head left of everything"),
        (seen.dearer, "a dearer run"),
    ];
    for (_, what) in met.iter().filter(|(times, _)| *times == 0) {
        eprintln!("movements.rs: never met: {}; this says nothing of the library, choose more runs", what);
        exit(1);
    }
}

fn usage() -> ! {
    eprintln!("usage: movements [--runs N] [--seed S] [--from N]");
    exit(2)
}

/// Runs, seed and first run.
fn arguments() -> (u64, u64, u64) {
    let words: Vec<String> = std::env::args().skip(1).collect();
    let (mut runs, mut seed, mut from) = (DEFAULT_RUNS, 1, 0);
    for pair in words.chunks(2) {
        let number = pair.get(1).and_then(|word| word.parse().ok()).unwrap_or_else(|| usage());
        match pair[0].as_str() {
            "--runs" => runs = number,
            "--seed" => seed = number,
            "--from" => from = number,
            _ => usage(),
        }
    }
    (runs, seed, from)
}

fn main() {
    let (runs, seed, from) = arguments();
    let began = Instant::now();
    let mut seen = Seen::default();
    for number in from..from + runs {
        let again = format!("again alone: movements --seed {} --from {} --runs 1", seed, number);
        check_run(&mut Random::of(seed, number), again, &mut seen);
    }
    if runs >= COVERING_RUNS {
        require_all_met(&seen);
    }
    println!(
        "movements.rs: {} runs at {} head places agree with all movements, seed {}: {} plans with a detour from the head itself, {} as \
         from the right, {} as early as can be; {:.1} s",
        runs, seen.places, seed, seen.at_the_head, seen.as_from_the_right, seen.as_early_as_can_be, began.elapsed().as_secs_f64()
    );
}
