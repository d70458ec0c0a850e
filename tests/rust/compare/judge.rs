//! Judging: the first row of the table that applies.

use crate::call::*;
use crate::limits::*;
use crate::lists::{well_formed, Detour};
use crate::walk::{Run, Stop};
use std::collections::{BTreeMap, HashMap};

type Refusal = (u64, usize); // number and place

/// The first file that has a number, other than 0, which some file before it has too, with another number between them.
fn first_return(aggregates: &[u64]) -> Option<usize> {
    let mut firsts = HashMap::new();
    (0..aggregates.len()).find(|&i| {
        let first = *firsts.entry(aggregates[i]).or_insert(i);
        aggregates[i] != 0 && aggregates[first..i].iter().any(|&number| number != aggregates[i])
    })
}

fn first_bad_file(call: &Call) -> Option<usize> {
    let ends: Vec<u128> = call.rows[STARTS].iter().zip(&call.rows[LENGTHS]).map(|(&l, &s)| l as u128 + s as u128).collect();
    let badly_placed = (0..ends.len()).find(|&i| {
        call.rows[LENGTHS][i] == 0
            || (i > 0 && (call.rows[STARTS][i] as u128) < ends[i - 1])
            || ends[i] > POSITION as u128
    });
    let too_high = call.rows[AGGREGATES].iter().position(|&number| number > AGGREGATE);
    [badly_placed, too_high, first_return(&call.rows[AGGREGATES])].iter().flatten().min().copied()
}

fn first_bad_want(call: &Call) -> Option<usize> {
    let numbers = &call.rows[NUMBERS];
    (0..numbers.len()).find(|&i| {
        let in_table = (1..=call.len(STARTS) as u64).contains(&numbers[i]);
        !in_table || (i > 0 && numbers[i - 1] >= numbers[i]) || call.rows[COUNTS][i] == 0
    })
}

/// The files of a sound table that are read with a file: those that lie in the same aggregate, and itself.
pub fn read_with(call: &Call, file: u64) -> Vec<u64> {
    let number = call.rows[AGGREGATES][file as usize - 1];
    let together = |other: &u64| *other == file || (number != 0 && call.rows[AGGREGATES][*other as usize - 1] == number);
    (1..=call.len(STARTS) as u64).filter(together).collect()
}

/// What is wanted, from left to right, each by its first file, and for each want where it stands there.
pub fn stops_of(call: &Call) -> (Vec<Stop>, Vec<usize>) {
    let mut stops: BTreeMap<u64, Stop> = BTreeMap::new();
    let mut firsts = Vec::new();
    for (&file, &count) in call.rows[NUMBERS].iter().zip(&call.rows[COUNTS]) {
        let files = read_with(call, file);
        let (first, last) = (files[0], files[files.len() - 1] as usize - 1);
        let end = call.rows[STARTS][last] + call.rows[LENGTHS][last];
        let nobody_yet = Stop { file: first, start: call.rows[STARTS][first as usize - 1], end, count: 0 };
        stops.entry(first).or_insert(nobody_yet).count += count;
        firsts.push(first);
    }
    let of_wants = firsts.iter().map(|first| stops.range(..first).count()).collect();
    (stops.into_values().collect(), of_wants)
}

fn judge_run(call: &Call) -> Result<Run, Refusal> {
    if call.len(STARTS) > FILES || [LENGTHS, AGGREGATES].iter().any(|&row| call.len(row) != call.len(STARTS)) {
        return Err((1, 0));
    }
    if let Some(i) = first_bad_file(call) {
        return Err((2, i + 1));
    }
    if call.len(NUMBERS) > WANTS || call.len(NUMBERS) != call.len(COUNTS) {
        return Err((3, 0));
    }
    if let Some(i) = first_bad_want(call) {
        return Err((4, i + 1));
    }
    if call.rows[COUNTS].iter().map(|&c| c as u128).sum::<u128>() > READS as u128 {
        return Err((5, 0));
    }
    if call.turn > TURN {
        return Err((6, 0));
    }
    let (stops, of_wants) = stops_of(call);
    let too_far_left = !call.any && stops.last().map_or(false, |stop| call.head < stop.end);
    if call.head > POSITION || too_far_left {
        return Err((7, 0));
    }
    Ok(Run { stops, of_wants, head: call.head, turn: call.turn })
}

/// Two stops from left to right, of which the first is not right of the head's own stop.
fn names_stops(run: &Run, detour: &Detour) -> bool {
    let is_stop = |file: u64| run.stops.iter().any(|stop| stop.file == file);
    let in_reach = run.stops.get(run.own_stop()).map_or(true, |own| detour.0 <= own.file);
    is_stop(detour.0) && is_stop(detour.1) && detour.0 <= detour.1 && in_reach
}

/// The list as first files, if it is well formed; else the first number of entries that is not.
fn judge_list(run: &Run, call: &Call) -> Result<Vec<Detour>, Refusal> {
    if call.len(FROM) != call.len(TO) {
        return Err((10, 0));
    }
    let list: Vec<Detour> = call.rows[FROM].iter().cloned().zip(call.rows[TO].iter().cloned()).collect();
    let leftmost = run.stops.first().map_or(0, |stop| stop.file);
    for n in 1..=list.len() {
        if !names_stops(run, &list[n - 1]) || !well_formed(&list[..n], leftmost) {
            return Err((10, n));
        }
    }
    Ok(list)
}

fn a_row_is_short(run: &Run, call: &Call) -> bool {
    let detours = if call.plan { run.k().saturating_sub(1) } else { 0 };
    let for_wants = call.len(TIMES).min(call.len(LEGS));
    for_wants < run.of_wants.len() || call.len(SUMS) < 4 || call.len(FROM) < detours || call.len(TO) < detours
}

/// The run and, for the pricer, its list; or the refusal.
pub fn judge(call: &Call) -> Result<(Run, Vec<Detour>), Refusal> {
    let run = judge_run(call)?;
    if call.plan && !call.any && call.rule != 1 {
        return Err((14, 0));
    }
    let list = if call.plan { Vec::new() } else { judge_list(&run, call)? };
    if a_row_is_short(&run, call) {
        return Err((8, 0));
    }
    if call.plan && call.len(ROOM) < run.room() {
        return Err((9, 0));
    }
    Ok((run, list))
}
