//! Small runs: up to six wants on a tape of some twenty places, with gaps, unwanted files and aggregates.

use crate::call::*;
use crate::random::Random;

const MOST_WANTS: u64 = 6;

/// Files 1 to 4 long or all of length 1, up to 3 apart; some of them wanted.
fn small_tape(random: &mut Random, call: &mut Call) {
    let (gap, length, count) = (random.pick(&[0, 0, 1, 3]), random.pick(&[1, 1, 2, 4]), random.pick(&[1, 1, 2, 5, 12]));
    let wants = random.pick(&[0, 1, 2, 2, 3, 3, 4, 4, 5, 5, MOST_WANTS]);
    let files = wants + random.pick(&[0, 0, 1, 2, 3]);
    let mut left_to_want = wants;
    let mut end = random.below(3);
    for file in 1..=files {
        let start = end + random.within(0, gap);
        end = start + random.within(1, length);
        call.rows[STARTS].push(start);
        call.rows[LENGTHS].push(end - start);
        if random.below(files - file + 1) < left_to_want {
            left_to_want -= 1;
            call.rows[NUMBERS].push(file);
            call.rows[COUNTS].push(random.within(1, count));
        }
    }
}

/// In half of the runs neighbours lie together, two or three, in aggregates that are numbered from right to left.
fn small_aggregates(random: &mut Random, call: &mut Call) {
    let files = call.len(STARTS);
    let together = random.pick(&[0, 0, 0, 40, 70]);
    let mut number = files as u64;
    call.rows[AGGREGATES] = vec![0; files];
    for i in 1..files {
        if random.chance(together) {
            call.rows[AGGREGATES][i - 1] = number;
            call.rows[AGGREGATES][i] = number;
        } else {
            number -= 1;
        }
    }
}

/// The head's place is left at 0.
pub fn small_run(random: &mut Random) -> Call {
    let mut call = Call { any: true, rule: 1, ..Call::default() };
    small_tape(random, &mut call);
    small_aggregates(random, &mut call);
    call.turn = random.pick(&[0, 0, 0, 1, 1, 2, 3, 7, 40]);
    call
}

pub fn tape_end(call: &Call) -> u64 {
    call.rows[STARTS].iter().zip(&call.rows[LENGTHS]).map(|(start, length)| start + length).max().unwrap_or(0)
}
