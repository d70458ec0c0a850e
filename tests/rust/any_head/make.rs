//! The two functions for a head anywhere as this program declares them, and the two that ask for a head right of everything.

use crate::call::*;
use crate::fence::Fenced;

extern "C" {
    fn violstream_price_any(
        starts: *const u64, starts_len: usize, lengths: *const u64, lengths_len: usize,
        aggregates: *const u64, aggregates_len: usize,
        numbers: *const u64, numbers_len: usize, counts: *const u64, counts_len: usize,
        head: u64, turn: u64,
        detour_starts: *const u64, detour_starts_len: usize, detour_ends: *const u64, detour_ends_len: usize,
        times: *mut u64, times_len: usize, legs: *mut u64, legs_len: usize, sums: *mut u64, sums_len: usize,
    ) -> u64;
    fn violstream_plan_any(
        starts: *const u64, starts_len: usize, lengths: *const u64, lengths_len: usize,
        aggregates: *const u64, aggregates_len: usize,
        numbers: *const u64, numbers_len: usize, counts: *const u64, counts_len: usize,
        head: u64, turn: u64,
        detour_starts: *mut u64, detour_starts_len: usize, detour_ends: *mut u64, detour_ends_len: usize,
        times: *mut u64, times_len: usize, legs: *mut u64, legs_len: usize, sums: *mut u64, sums_len: usize,
        room: *mut u64, room_len: usize,
    ) -> u64;
}

fn make_any(call: &Call, rows: &mut [Fenced]) -> u64 {
    let p: Vec<*mut u64> = rows.iter_mut().map(Fenced::pointer).collect();
    let n: Vec<usize> = rows.iter().map(|row| row.len).collect();
    // Sound: each pointer is that of a row of its length, or null for an empty one, and no two rows overlap.
    unsafe {
        if call.plan {
            violstream_plan_any(
                p[STARTS], n[STARTS], p[LENGTHS], n[LENGTHS], p[AGGREGATES], n[AGGREGATES],
                p[NUMBERS], n[NUMBERS], p[COUNTS], n[COUNTS],
                call.head, call.turn,
                p[FROM], n[FROM], p[TO], n[TO], p[TIMES], n[TIMES], p[LEGS], n[LEGS], p[SUMS], n[SUMS],
                p[ROOM], n[ROOM],
            )
        } else {
            violstream_price_any(
                p[STARTS], n[STARTS], p[LENGTHS], n[LENGTHS], p[AGGREGATES], n[AGGREGATES],
                p[NUMBERS], n[NUMBERS], p[COUNTS], n[COUNTS],
                call.head, call.turn,
                p[FROM], n[FROM], p[TO], n[TO], p[TIMES], n[TIMES], p[LEGS], n[LEGS], p[SUMS], n[SUMS],
            )
        }
    }
}

pub fn make(call: &Call, rows: &mut [Fenced]) -> u64 {
    if call.any {
        make_any(call, rows)
    } else {
        crate::from_the_right::make(call, rows)
    }
}
