//! One call checked, and what was met.

use crate::call::*;
use crate::draw::{last_file_end, last_wanted_end, own_stop_name, reads_drawn, stop_names};
use crate::fence::Fenced;
use crate::joined::compare_with_joined;
use crate::judge::{judge, read_with};
use crate::limits::*;
use crate::lists::{all_lists, Detour};
use crate::make::make;
use crate::rows::{by_position, compare_rows, difference, written, Difference, Written};
use crate::sheets::Sheets;
use crate::walk::{search, Run};
use crate::windows::plan_by_windows;
use std::collections::BTreeMap;

pub const SEARCHED: usize = 10; // stops up to which every list is tried

/// The words of room that an accepted run needs.
fn room_needed(call: &Call) -> usize {
    let k = stop_names(call).len();
    k * k * (reads_drawn(call) as usize + 1)
}

fn room_by_wants(call: &Call) -> usize {
    call.len(NUMBERS) * call.len(NUMBERS) * (reads_drawn(call) as usize + 1)
}

/// The rows for the answer are one word short in `row` and nowhere else.
fn one_short(call: &Call, row: usize) -> bool {
    let wants = call.len(NUMBERS);
    let detours = if call.plan { stop_names(call).len().saturating_sub(1) } else { 0 };
    let needed = [(FROM, detours), (TO, detours), (TIMES, wants), (LEGS, wants), (SUMS, 4)];
    needed.iter().all(|&(r, n)| if r == row { call.len(r) + 1 == n } else { call.len(r) >= n })
}

fn tape_end(call: &Call) -> u64 {
    match (call.rows[STARTS].last(), call.rows[LENGTHS].last()) {
        (Some(start), Some(length)) => start.wrapping_add(*length),
        _ => 0,
    }
}

/// The aggregate number of the file that 2 names, and of the file before it; 0 where there is none.
fn numbers_at(call: &Call, result: u64) -> (u64, u64) {
    let at = (result / 256) as usize;
    let number = |i: usize| call.rows[AGGREGATES].get(i).copied().unwrap_or(0);
    (number(at.wrapping_sub(1)), number(at.wrapping_sub(2)))
}

/// A file refused by 2 whose number some file left of the one before it has.
fn returns(call: &Call, result: u64) -> bool {
    let (number, before) = numbers_at(call, result);
    let earlier = (result / 256).saturating_sub(2) as usize;
    result % 256 == 2 && number != 0 && before != number && call.rows[AGGREGATES][..earlier].contains(&number)
}

/// The entry of a list that 10 names starts at a file of a wanted aggregate, and not at the first.
fn later_member(call: &Call, result: u64) -> bool {
    if result % 256 != 10 || result == 10 {
        return false;
    }
    let file = call.rows[FROM][(result / 256) as usize - 1];
    let in_table = (1..=call.len(STARTS) as u64).contains(&file);
    in_table && !stop_names(call).contains(&file) && read_with(call, file).iter().any(|f| call.rows[NUMBERS].contains(f))
}

fn joined(call: &Call) -> bool {
    stop_names(call).len() < call.len(NUMBERS)
}

/// Something to be met: what it is, and how it is told from the call and the result.
pub type ToMeet = (&'static str, fn(&Call, u64) -> bool);

/// What a long run must have met, wherever the head may stand.
pub const TO_MEET: &[ToMeet] = &[
    ("plan of 64 stops and 1,024 reads", |c, r| r == 0 && c.plan && stop_names(c).len() == WANTS && reads_drawn(c) == READS),
    ("price of 64 wants and 1,024 reads", |c, r| r == 0 && !c.plan && c.len(NUMBERS) == WANTS && reads_drawn(c) == READS),
    ("4,096 files", |c, r| r == 0 && c.len(STARTS) == FILES),
    ("4,097 files", |c, r| r == 1 && c.len(STARTS) == FILES + 1 && c.len(LENGTHS) == FILES + 1),
    ("aggregates of another number than files", |c, r| r == 1 && c.len(STARTS) <= FILES && c.len(STARTS) == c.len(LENGTHS)),
    ("aggregate number 4,096", |c, r| r == 0 && c.rows[AGGREGATES].contains(&AGGREGATE)),
    ("aggregate number 4,097", |c, r| r % 256 == 2 && numbers_at(c, r).0 == AGGREGATE + 1),
    ("a number that returns after 0", |c, r| returns(c, r) && numbers_at(c, r).1 == 0),
    ("a number that returns after another", |c, r| returns(c, r) && numbers_at(c, r).1 != 0),
    ("4,096 files, each in its own aggregate", |c, r| {
        r == 0 && c.len(STARTS) == FILES && c.rows[AGGREGATES].windows(2).all(|w| w[0] != w[1] && w[0] != 0)
    }),
    ("wants that are joined", |c, r| r == 0 && c.plan && joined(c) && stop_names(c).len() > 1),
    ("a stop whose first file is not wanted", |c, r| r == 0 && stop_names(c).iter().any(|f| !c.rows[NUMBERS].contains(f))),
    ("a list that names a file which is not the first", |c, r| later_member(c, r)),
    ("times for the stops and not for the wants", |c, r| {
        r == 8 && c.len(TIMES) < c.len(NUMBERS) && stop_names(c).len() <= c.len(TIMES)
    }),
    ("detours by the stops and not by the wants", |c, r| r == 0 && c.plan && c.len(FROM) + 1 < c.len(NUMBERS)),
    ("room by the stops and not by the wants", |c, r| r == 0 && c.plan && c.len(ROOM) < room_by_wants(c)),
    ("65 wants", |c, r| r == 3 && c.len(NUMBERS) == WANTS + 1 && c.len(COUNTS) == WANTS + 1),
    ("1,025 reads", |c, r| r == 5 && c.rows[COUNTS].iter().all(|&n| n <= READS) && reads_drawn(c) == READS + 1),
    ("file up to the limit", |c, r| r == 0 && tape_end(c) == POSITION),
    ("file over the limit", |c, r| r == 2 + 256 * c.len(STARTS) as u64 && tape_end(c) == POSITION + 1),
    ("turn price at the limit", |c, r| r == 0 && c.turn == TURN),
    ("turn price over the limit", |c, r| r == 6 && c.turn == TURN + 1),
    ("head at the limit", |c, r| r == 0 && c.head == POSITION),
    ("head over the limit", |c, r| r == 7 && c.head == POSITION + 1),
    ("unequal halves of a list", |_, r| r == 10),
    ("times one short", |c, r| r == 8 && one_short(c, TIMES)),
    ("legs one short", |c, r| r == 8 && one_short(c, LEGS)),
    ("sums one short", |c, r| r == 8 && one_short(c, SUMS)),
    ("detour starts one short", |c, r| r == 8 && one_short(c, FROM)),
    ("detour ends one short", |c, r| r == 8 && one_short(c, TO)),
    ("room one short", |c, r| r == 9 && c.len(ROOM) + 1 == room_needed(c)),
    ("room just enough", |c, r| r == 0 && c.plan && c.len(NUMBERS) > 1 && c.len(ROOM) == room_needed(c)),
    ("no wants and null rows", |c, r| r == 0 && c.plan && c.len(NUMBERS) == 0 && c.len(ROOM) == 0 && c.nulls[ROOM]),
];

/// And where it must stand at or right of every wanted end.
pub const TO_MEET_FROM_THE_RIGHT: &[ToMeet] = &[
    ("head right of the last wanted file, left of its aggregate's end", |c, r| {
        r == 7 && c.head <= POSITION && c.len(NUMBERS) > 0 && last_file_end(c) <= c.head
    }),
    ("head at the rightmost wanted end", |c, r| r == 0 && c.len(NUMBERS) > 0 && c.head == last_wanted_end(c)),
    ("head one left of it", |c, r| r == 7 && c.head.wrapping_add(1) == last_wanted_end(c)),
    ("rule 0", |c, r| r == 14 && c.rule == 0),
    ("rule 0, before a short room", |c, r| r == 14 && c.rule == 0 && c.len(ROOM) < room_needed(c)),
    ("rule 2", |c, r| r == 14 && c.rule == 2),
    ("rule 255", |c, r| r == 14 && c.rule == 255),
    ("rule 256", |c, r| r == 14 && c.rule == 256),
    ("rule 2^64 - 1", |c, r| r == 14 && c.rule == u64::MAX),
];

pub struct Checker {
    lists: Vec<Vec<Vec<Detour>>>,
    pub met: Vec<(ToMeet, u64)>, // how often each
    pub results: BTreeMap<(bool, u64), u64>,
    pub broken: BTreeMap<(&'static str, usize), u64>,
    pub searched: u64,
    pub by_windows: u64,
    pub also_joined: u64,
    pub sheets: Sheets,
    pub last: Written, // what the last call checked had to write
}

impl Checker {
    /// `to_meet` beside TO_MEET.
    pub fn new(to_meet: &[ToMeet]) -> Checker {
        let lists: Vec<_> = (0..=SEARCHED).map(all_lists).collect();
        let numbers: Vec<usize> = lists.iter().map(Vec::len).collect();
        assert_eq!(numbers, [1, 1, 2, 5, 14, 42, 132, 429, 1430, 4862, 16796], "the numbers of well-formed lists");
        let met = TO_MEET.iter().chain(to_meet).map(|&what| (what, 0)).collect();
        let sheets = Sheets::default();
        let (results, broken) = (BTreeMap::new(), BTreeMap::new());
        Checker { lists, met, results, broken, searched: 0, by_windows: 0, also_joined: 0, sheets, last: Written::default() }
    }

    fn least(&mut self, run: &Run) -> Vec<Detour> {
        if run.k() <= SEARCHED {
            self.searched += 1;
            search(run, &self.lists[run.k()])
        } else {
            self.by_windows += 1;
            plan_by_windows(run)
        }
    }

    pub fn expect(&mut self, call: &Call) -> (u64, Written) {
        match judge(call) {
            Err((number, place)) => {
                if number == 10 && place > 0 {
                    let list: Vec<Detour> = call.rows[FROM].iter().cloned().zip(call.rows[TO].iter().cloned()).collect();
                    let rule = rule_broken(&stop_names(call), own_stop_name(call), &list, place - 1);
                    *self.broken.entry((rule, place)).or_insert(0) += 1;
                }
                (number + 256 * place as u64, Written::default())
            }
            Ok((run, list)) => {
                let list = if call.plan { self.least(&run) } else { by_position(&run, &list) };
                (0, written(call, &run, &list))
            }
        }
    }

    pub fn check(&mut self, call: &Call, shift: usize) -> Result<(), Difference> {
        let (must_be, written) = self.expect(call);
        let mut rows: Vec<Fenced> =
            (0..ROWS).map(|r| Fenced::around(&call.rows[r], (shift + r) % 4, call.nulls[r])).collect();
        let is = make(call, &mut rows);
        if is != must_be {
            let account = |result: u64| (result, result % 256, result / 256);
            return Err(difference("the result, its number and its place".to_string(), account(must_be), account(is)));
        }
        compare_rows(call, &rows, &written)?;
        if must_be == 0 {
            self.sheets.note(call, &written);
        }
        if must_be == 0 && call.rows[AGGREGATES].iter().any(|&number| number != 0) {
            compare_with_joined(call, &rows)?;
            self.also_joined += 1;
        }
        self.note(call, must_be);
        self.last = written;
        Ok(())
    }

    fn note(&mut self, call: &Call, result: u64) {
        *self.results.entry((call.plan, result % 256)).or_insert(0) += 1;
        for ((_, is_met), times) in &mut self.met {
            *times += is_met(call, result) as u64;
        }
    }
}

/// Which rule entry i breaks, for the count of what was met; the judging does not use it.
pub fn rule_broken(names: &[u64], own: Option<u64>, list: &[Detour], i: usize) -> &'static str {
    let (a, b) = list[i];
    if !names.contains(&a) || !names.contains(&b) {
        "no stop"
    } else if a > b {
        "backward"
    } else if names[0] == a {
        "at leftmost"
    } else if own.map_or(false, |own| own < a) {
        "right of the head's own stop"
    } else if list[..i].iter().any(|d| d.0 <= a) {
        "not falling"
    } else if list[..i].iter().any(|d| d.1 == b) {
        "same end"
    } else {
        "crossing"
    }
}
