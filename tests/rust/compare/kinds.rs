//! Kinds of calls.

use crate::call::*;
use crate::check::{rule_broken, SEARCHED};
use crate::draw::*;
use crate::limits::*;
use crate::lists::{well_formed, Detour};
use crate::random::Random;

fn few(random: &mut Random) -> usize {
    random.pick(&[0, 1, 2, 3, 4, 5, 6, 6, 7, 7, 7, 8, 8, 8])
}

/// More wants than that, where aggregates make them few stops.
fn joined_plan(random: &mut Random) -> Call {
    let wants = random.within(6, 24) as usize;
    let call = plan_call(random, wants);
    if stop_names(&call).len() <= 8 {
        return call;
    }
    let k = few(random);
    plan_call(random, k)
}

fn sound_call(random: &mut Random) -> Call {
    if random.chance(50) {
        let k = few(random);
        plan_call(random, k)
    } else {
        let k = if random.chance(75) { random.index(12) } else { random.index(WANTS + 1) };
        price_call(random, k)
    }
}

/// A name for a detour's stop: of one, of a file that need not be the first of its aggregate, of an unwanted one, or none at all.
fn any_name(random: &mut Random, call: &Call, names: &[u64]) -> u64 {
    if names.is_empty() || random.chance(15) {
        return if random.chance(50) { random.below(call.len(STARTS) as u64 + 3) } else { random.word() };
    }
    if random.chance(10) {
        return random.pick(&call.rows[NUMBERS]);
    }
    random.pick(names) + random.chance(10) as u64
}

/// A list that breaks some rule at some entry, and sometimes more than one.
fn broken_list_call(random: &mut Random) -> Call {
    let k = if random.chance(60) { random.index(12) } else { random.index(WANTS + 1) };
    let mut call = price_call(random, k);
    if call.len(FROM) == 0 || random.chance(5) {
        call.rows[FROM].push(0);
        call.rows[TO].push(0);
    }
    let at = random.index(call.len(FROM));
    let aim = random.pick(&["no stop", "backward", "at leftmost", "not falling", "same end", "crossing"]);
    let names = stop_names(&call);
    for _ in 0..150 {
        call.rows[FROM][at] = any_name(random, &call, &names);
        call.rows[TO][at] = any_name(random, &call, &names);
        let list: Vec<Detour> = call.rows[FROM].iter().cloned().zip(call.rows[TO].iter().cloned()).collect();
        let leftmost = names.first().cloned().unwrap_or(0);
        let sound = list[at].0 <= list[at].1 && well_formed(&list[..=at], leftmost);
        if !sound && !names.is_empty() && rule_broken(&names, None, &list, at) == aim {
            break;
        }
    }
    if random.chance(6) {
        let half = random.pick(&[FROM, TO]);
        call.rows[half].pop();
    }
    call
}

fn set_reads(random: &mut Random, call: &mut Call, reads: u64) {
    let k = call.len(NUMBERS);
    if k == 0 {
        return;
    }
    call.rows[COUNTS] = vec![1; k];
    let mut rest = reads - k as u64;
    while rest > 0 {
        let part = random.within(1, rest.min(64));
        call.rows[COUNTS][random.index(k)] += part;
        rest -= part;
    }
}

fn largest_plan(random: &mut Random, reads: u64) -> Call {
    let mut call = draw_run(random, WANTS);
    if random.chance(60) {
        call.rows[AGGREGATES].fill(0);
    }
    call.plan = true;
    set_reads(random, &mut call, reads);
    lend_rows(random, &mut call);
    call
}

fn largest_price(random: &mut Random) -> Call {
    let mut call = price_call(random, WANTS);
    set_reads(random, &mut call, READS);
    call
}

fn long_table(random: &mut Random, files: usize) -> Call {
    let mut call = Call { plan: random.chance(50), head: POSITION, rule: 1, ..Call::default() };
    let size = random.pick(&[1, 3, 1 << 28]);
    call.rows[STARTS] = (0..files as u64).map(|i| i * size).collect();
    call.rows[LENGTHS] = vec![size; files];
    if random.chance(30) {
        call.rows[AGGREGATES] = (0..files as u64).map(|i| 1 + i * 2049 % AGGREGATE).collect();
    } else {
        let first = random.within(1, AGGREGATE);
        draw_aggregates(random, &mut call, first);
    }
    for file in 1..=files as u64 {
        if call.len(NUMBERS) < 8 && (file == files as u64 || random.below(600) == 0) {
            call.rows[NUMBERS].push(file);
            call.rows[COUNTS].push(random.within(1, 4));
        }
    }
    lend_rows(random, &mut call);
    call
}

/// Gives two files that are not neighbours the same number; sound where all between them have it too.
fn repeat_a_number(random: &mut Random, call: &mut Call) {
    let n = call.len(AGGREGATES);
    if n > 2 {
        let (at, number) = (random.index(n - 2), random.within(1, AGGREGATE));
        let between = random.pick(&[0, number, call.rows[AGGREGATES][at + 1]]);
        call.rows[AGGREGATES][at] = number;
        call.rows[AGGREGATES][at + 1] = between;
        call.rows[AGGREGATES][at + 2] = number;
    }
}

/// The run itself at a limit, or one over it.
fn run_at_a_limit(random: &mut Random, call: &mut Call, over: u64) {
    match random.below(8) {
        0 => call.turn = TURN + over,
        1 => call.head = POSITION + over,
        2 => call.head = last_wanted_end(call).saturating_sub(over),
        3 => set_reads(random, call, READS + over),
        4 => repeat_a_number(random, call),
        5 => {
            draw_aggregates(random, call, AGGREGATE + over);
            call.head = POSITION;
        }
        6 => call.rule = if over == 0 { 1 } else { random.pick(&[0, 2, 255, 256, 257, 1 << 32, u64::MAX]) },
        _ => {
            push_to_the_end(call);
            if let Some(length) = call.rows[LENGTHS].last_mut() {
                *length += over;
            }
            call.head = POSITION;
        }
    }
    lend_rows(random, call);
}

/// A row for the answer of the length needed, or one word less.
fn row_at_its_limit(random: &mut Random, call: &mut Call, short: u64) {
    let (k, wants) = (stop_names(call).len(), call.len(NUMBERS));
    let room = k * k * (reads_drawn(call) as usize + 1);
    let needed = [0, 0, 0, 0, 0, k.saturating_sub(1), k.saturating_sub(1), wants, wants, 4, room];
    let row = random.pick(if call.plan { &[FROM, TO, TIMES, LEGS, SUMS, ROOM][..] } else { &[TIMES, LEGS, SUMS] });
    call.rows[row].truncate(needed[row].saturating_sub(short as usize));
}

fn call_at_a_limit(random: &mut Random) -> Call {
    let over = random.below(2);
    match random.below(60) {
        0 => return long_table(random, FILES + over as usize),
        1 => {
            let mut call = draw_run(random, WANTS + over as usize);
            call.plan = random.chance(30);
            call.rows[COUNTS] = vec![1; WANTS + over as usize];
            lend_rows(random, &mut call);
            return call;
        }
        _ => {}
    }
    let mut call = sound_call(random);
    if random.chance(60) {
        run_at_a_limit(random, &mut call, over);
    }
    if random.chance(60) {
        let short = random.below(2);
        row_at_its_limit(random, &mut call, short);
    }
    call
}

/// Changes one thing: a word, a scalar, the length of a row, the order of two words.
fn damage(random: &mut Random, call: &mut Call) {
    let row = random.index(ROWS);
    let len = call.len(row);
    match random.below(10) {
        9 => repeat_a_number(random, call),
        0 => call.head = random.odd(call.head),
        1 => call.turn = random.odd(TURN),
        2 => call.rule = random.odd(256),
        3 => call.rows[row].push(random.word()),
        4 => call.rows[row].truncate(len.saturating_sub(1)),
        5 => call.rows[row].truncate(random.index(len + 1)),
        6 if len > 1 => call.rows[row].swap(len / 2, len / 2 - 1),
        _ if len > 0 => {
            let at = random.index(len);
            call.rows[row][at] = random.odd(call.rows[row][at]);
        }
        _ => {}
    }
}

fn damaged_call(random: &mut Random) -> Call {
    let mut call = sound_call(random);
    for _ in 0..random.within(1, 4) {
        damage(random, &mut call);
    }
    call
}

/// Any numbers in every parameter.
fn wild_call(random: &mut Random) -> Call {
    let mut call = Call { plan: random.chance(50), ..Call::default() };
    call.head = random.odd(0);
    call.turn = random.odd(0);
    call.rule = random.odd(0);
    let len = random.index(5);
    for row in 0..ROWS {
        let len = if random.chance(70) { len } else { random.index(7) };
        call.rows[row] = (0..len).map(|i| random.odd(i as u64)).collect();
        call.nulls[row] = random.chance(50);
    }
    call
}

pub fn draw_call(random: &mut Random) -> Call {
    match random.below(10_000) {
        0 => largest_plan(random, READS),
        1..=12 => largest_plan(random, 100),
        13..=20 => largest_price(random),
        21..=40 => plan_call(random, SEARCHED),
        41..=120 => {
            let k = random.within(SEARCHED as u64 + 1, 30) as usize;
            plan_call(random, k)
        }
        121..=1000 => joined_plan(random),
        1001..=4200 => {
            let k = few(random);
            plan_call(random, k)
        }
        4201..=5500 => {
            let k = if random.chance(75) { random.index(12) } else { random.index(WANTS + 1) };
            price_call(random, k)
        }
        5501..=7000 => broken_list_call(random),
        7001..=8200 => call_at_a_limit(random),
        8201..=9700 => damaged_call(random),
        _ => wild_call(random),
    }
}
