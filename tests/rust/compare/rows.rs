//! What must stand in the rows afterwards.

use crate::call::*;
use crate::fence::{guard_word, Fenced};
use crate::lists::Detour;
use crate::walk::{leg_of, rightward_runs, sum_of, time_of, Run};
use std::fmt;

/// The first entries of each row that the call writes, and how much of the room it clears.
#[derive(Default)]
pub struct Written {
    pub first: [Vec<u64>; ROWS],
    pub cleared: usize,
}

pub fn by_position(run: &Run, list: &[Detour]) -> Vec<Detour> {
    let at = |file: u64| run.stops.iter().position(|stop| stop.file == file).expect("the first file of a stop") as u64;
    list.iter().map(|d| (at(d.0), at(d.1))).collect()
}

/// `list` by position.
pub fn written(call: &Call, run: &Run, list: &[Detour]) -> Written {
    let (runs, head) = rightward_runs(run, list);
    let mut written = Written::default();
    written.first[SUMS] = vec![sum_of(run, list), head.clock, head.place, list.len() as u64];
    written.first[TIMES] = run.of_wants.iter().map(|&i| time_of(&run.stops[i], &runs)).collect();
    written.first[LEGS] = run.of_wants.iter().map(|&i| leg_of(&run.stops[i], &runs)).collect();
    if call.plan {
        written.first[FROM] = list.iter().map(|d| run.stops[d.0 as usize].file).collect();
        written.first[TO] = list.iter().map(|d| run.stops[d.1 as usize].file).collect();
        written.cleared = run.room();
    }
    written
}

pub struct Difference {
    pub what: String,
    pub must_be: String,
    pub is: String,
}

pub fn difference<T: fmt::Debug>(what: String, must_be: T, is: T) -> Difference {
    Difference { what, must_be: format!("{:?}", must_be), is: format!("{:?}", is) }
}

fn compare_guards(name: &str, is: &Fenced) -> Result<(), Difference> {
    match is.first_bad_guard() {
        None => Ok(()),
        Some(at) => Err(difference(format!("guard word {} around row {}", at, name), guard_word(at), is.words[at])),
    }
}

/// The words from `from` on are what they were.
fn compare_rest(name: &str, is: &[u64], before: &[u64], from: usize) -> Result<(), Difference> {
    if is[from..] == before[from..] {
        return Ok(());
    }
    let at = (from..before.len()).find(|&i| is[i] != before[i]).unwrap_or(from);
    Err(difference(format!("word {} from 0 of row {}, which was not to change", at, name), before[at], is[at]))
}

fn compare_row(name: &str, is: &Fenced, before: &[u64], first: &[u64]) -> Result<(), Difference> {
    compare_guards(name, is)?;
    let written = &is.row()[..first.len()];
    if written != first {
        return Err(difference(format!("the first {} words of row {}", first.len(), name), first, written));
    }
    compare_rest(name, is.row(), before, first.len())
}

/// The room is zero as far as it is cleared.
fn compare_room(is: &Fenced, before: &[u64], cleared: usize) -> Result<(), Difference> {
    compare_guards(NAMES[ROOM], is)?;
    if let Some(at) = is.row()[..cleared].iter().position(|&word| word != 0) {
        return Err(difference(format!("word {} from 0 of the room", at), 0, is.row()[at]));
    }
    compare_rest(NAMES[ROOM], is.row(), before, cleared)
}

pub fn compare_rows(call: &Call, rows: &[Fenced], written: &Written) -> Result<(), Difference> {
    for row in 0..ROOM {
        compare_row(NAMES[row], &rows[row], &call.rows[row], &written.first[row])?;
    }
    compare_room(&rows[ROOM], &call.rows[ROOM], written.cleared)
}
