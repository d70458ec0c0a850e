//! Calls of every kind, with the head put anywhere; and what a long run must have met.

use crate::call::*;
use crate::check::ToMeet;
use crate::draw::last_wanted_end;
use crate::judge::{judge, stops_of};
use crate::kinds::draw_call;
use crate::limits::POSITION;
use crate::random::Random;

/// A place for the head: at or next to a file's start or end, anywhere left of where it stands, or at 0.
fn place(random: &mut Random, call: &Call) -> u64 {
    let files = call.len(STARTS).min(call.len(LENGTHS));
    if files > 0 && random.chance(70) {
        let at = random.index(files);
        let length = if random.chance(40) { call.rows[LENGTHS][at] } else { 0 };
        let edge = call.rows[STARTS][at].wrapping_add(length);
        return random.pick(&[edge, edge, edge.saturating_add(1), edge.saturating_sub(1)]);
    }
    if random.chance(70) { random.within(0, call.head.min(POSITION)) } else { 0 }
}

/// Takes from a list, from its beginning, the entries that start right of the head's own stop; in half of the calls.
fn within_reach(random: &mut Random, call: &mut Call) {
    while !call.plan && call.len(FROM) > 0 && judge(call).err() == Some((10, 1)) && random.chance(90) {
        call.rows[FROM].remove(0);
        call.rows[TO].remove(0);
    }
}

pub fn draw_anywhere(random: &mut Random) -> Call {
    let mut call = Call { any: true, ..draw_call(random) };
    if random.chance(80) {
        call.head = place(random, &call);
    }
    if random.chance(50) {
        within_reach(random, &mut call);
    }
    call
}

/// Whether an accepted run has a stop for which this holds.
fn some_stop(call: &Call, result: u64, holds: fn(u64, u64, u64) -> bool) -> bool {
    result == 0 && stops_of(call).0.iter().any(|stop| holds(call.head, stop.start, stop.end))
}

fn all_right_of_the_head(call: &Call, result: u64) -> bool {
    result == 0 && call.len(NUMBERS) > 1 && stops_of(call).0.iter().all(|stop| call.head < stop.start)
}

/// Between two files of one wanted aggregate.
fn in_a_gap(call: &Call, result: u64) -> bool {
    let end = |i: usize| call.rows[STARTS][i] + call.rows[LENGTHS][i];
    let mut neighbours = 1..call.len(STARTS).min(call.len(AGGREGATES));
    some_stop(call, result, |head, start, end| start < head && head < end)
        && neighbours.any(|i| {
            let together = call.rows[AGGREGATES][i] != 0 && call.rows[AGGREGATES][i] == call.rows[AGGREGATES][i - 1];
            together && end(i - 1) < call.head && call.head < call.rows[STARTS][i]
        })
}

pub const TO_MEET_ANYWHERE: &[ToMeet] = &[
    ("head inside a stop", |c, r| some_stop(c, r, |head, start, end| start < head && head < end)),
    ("head at a stop's start", |c, r| some_stop(c, r, |head, start, _| head == start)),
    ("head at a stop's end, another further right", |c, r| some_stop(c, r, |head, _, end| head == end) && c.head < last_wanted_end(c)),
    ("head between two files of an aggregate", in_a_gap),
    ("everything right of the head", |c, r| c.plan && all_right_of_the_head(c, r)),
    ("a list for such a run", |c, r| !c.plan && all_right_of_the_head(c, r)),
    ("head at 0", |c, r| r == 0 && c.len(NUMBERS) > 0 && c.head == 0),
    ("head at the rightmost wanted end", |c, r| r == 0 && c.len(NUMBERS) > 0 && c.head == last_wanted_end(c)),
    ("head one left of it", |c, r| r == 0 && c.head + 1 == last_wanted_end(c)),
    ("head one right of it", |c, r| r == 0 && c.len(NUMBERS) > 0 && c.head == last_wanted_end(c) + 1),
    ("another rule number, which these calls do not have", |c, r| r == 0 && c.plan && c.rule != 1),
];
