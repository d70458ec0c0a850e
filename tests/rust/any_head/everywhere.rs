//! A small run at every place of the head, from 0 to past the end of the tape: the planner, and the pricer on every list.

use crate::call::*;
use crate::check::Checker;
use crate::draw::{last_wanted_end, lend_rows, stop_names};
use crate::fence::Fenced;
use crate::lists::{all_lists, Detour};
use crate::make::make;
use crate::random::Random;
use crate::rows::{difference, Difference};
use crate::small::{small_run, tape_end};

/// What was looked at.
#[derive(Default)]
pub struct Seen {
    pub runs: u64,
    pub places: u64,
    pub lists: u64,
    pub as_from_the_right: u64,
    pub at_the_head: u64, // least lists with a detour that starts at the head, left of its stop's start
}

fn entries(list: &[Detour]) -> (Vec<u64>, Vec<u64>) {
    list.iter().cloned().unzip()
}

/// Every list of that many entries over some names.
fn every_list(names: u64, entries: u32) -> Vec<Vec<Detour>> {
    let pairs = names * names;
    let entry = |n: u64| (n % names, n / names);
    (0..pairs.pow(entries)).map(|n| (0..entries).map(|i| entry(n / pairs.pow(i) % pairs)).collect()).collect()
}

/// Lists, well formed or not, by names: all well-formed ones, starts right of the head's own stop among them; and others.
fn lists_to_price(random: &mut Random, call: &Call) -> Vec<Vec<Detour>> {
    let names = stop_names(call);
    let named = |list: &Vec<Detour>| list.iter().map(|d| (names[d.0 as usize], names[d.1 as usize])).collect();
    let mut lists: Vec<Vec<Detour>> = all_lists(names.len()).iter().map(named).collect();
    let some = call.len(STARTS) as u64 + 2;
    if some <= 5 && random.chance(2) {
        lists.extend(every_list(some, 3));
    }
    if some <= 7 && random.chance(5) {
        lists.extend((1..=2).flat_map(|n| every_list(some, n)));
    }
    for _ in 0..20 {
        let n = random.within(1, 4);
        lists.push((0..n).map(|_| (random.below(some), random.below(some))).collect());
    }
    lists
}

/// Where the head stands at or right of every wanted end, the other two calls must leave the same words.
fn compare_from_the_right(call: &Call, seen: &mut Seen) -> Result<(), Difference> {
    let from_the_right = Call { any: false, ..call.clone() };
    let rows = || -> Vec<Fenced> { call.rows.iter().map(|row| Fenced::around(row, 0, false)).collect() };
    let (mut any, mut other) = (rows(), rows());
    let (is, must_be) = (make(call, &mut any), make(&from_the_right, &mut other));
    if is != must_be {
        return Err(difference("the result, against the call from the right".to_string(), must_be, is));
    }
    for row in 0..ROWS {
        if any[row].words != other[row].words {
            let what = format!("row {}, against the call from the right", NAMES[row]);
            return Err(difference(what, other[row].row().to_vec(), any[row].row().to_vec()));
        }
    }
    seen.as_from_the_right += 1;
    Ok(())
}

fn check(checker: &mut Checker, call: &Call, shift: usize, seen: &mut Seen) -> Result<(), (Call, Difference)> {
    let checked = checker.check(call, shift).and_then(|_| {
        if last_wanted_end(call) <= call.head { compare_from_the_right(call, seen) } else { Ok(()) }
    });
    checked.map_err(|difference| (call.clone(), difference))
}

/// Each row for the answer of just the words needed, and then one word short.
fn check_rows(checker: &mut Checker, call: &Call, seen: &mut Seen) -> Result<(), (Call, Difference)> {
    let (k, wants) = (stop_names(call).len(), call.len(NUMBERS));
    let room = k * k * (call.rows[COUNTS].iter().sum::<u64>() as usize + 1);
    let detours = if call.plan { k.saturating_sub(1) } else { call.len(FROM) };
    let needed = [(FROM, detours), (TO, detours), (TIMES, wants), (LEGS, wants), (SUMS, 4), (ROOM, room)];
    let mut tight = call.clone();
    for &(row, words) in &needed {
        tight.rows[row].truncate(words);
    }
    check(checker, &tight, 0, seen)?;
    for &(row, words) in needed.iter().filter(|need| need.1 > 0 && (call.plan || !matches!(need.0, FROM | TO))) {
        let mut short = tight.clone();
        short.rows[row].truncate(words - 1);
        check(checker, &short, 0, seen)?;
    }
    Ok(())
}

fn check_plan(checker: &mut Checker, random: &mut Random, run: &Call, seen: &mut Seen) -> Result<(), (Call, Difference)> {
    let mut call = Call { plan: true, ..run.clone() };
    lend_rows(random, &mut call);
    check(checker, &call, random.index(4), seen)?;
    if let Some(&first) = checker.last.first[FROM].first() {
        seen.at_the_head += (call.rows[STARTS][first as usize - 1] > call.head) as u64;
    }
    check_rows(checker, &call, seen)
}

fn check_prices(checker: &mut Checker, random: &mut Random, run: &Call, seen: &mut Seen) -> Result<(), (Call, Difference)> {
    let mut call = run.clone();
    lend_rows(random, &mut call);
    for list in lists_to_price(random, &call) {
        let (from, to) = entries(&list);
        call.rows[FROM] = from;
        call.rows[TO] = to;
        check(checker, &call, random.index(4), seen)?;
        seen.lists += 1;
    }
    call.rows[TO].push(1);
    check(checker, &call, 0, seen)?;
    call.rows[FROM].clear();
    call.rows[TO].clear();
    check_rows(checker, &call, seen)
}

pub fn check_everywhere(checker: &mut Checker, random: &mut Random, seen: &mut Seen) -> Result<(), (Call, Difference)> {
    let mut run = small_run(random);
    for head in 0..=tape_end(&run) + 2 {
        run.head = head;
        check_plan(checker, random, &run, seen)?;
        check_prices(checker, random, &run, seen)?;
        seen.places += 1;
    }
    seen.runs += 1;
    Ok(())
}
