//! Cases worked by hand.

use crate::call::*;
use crate::check::Checker;
use crate::differ;
use crate::draw::lend_rows;
use crate::lists::Detour;
use crate::random::Random;

/// Files, wants, head, turn price, a list; its sum, finish and end; times and legs; and whether it is the least list.
type Worked = (
    &'static [Detour], &'static [Detour], u64, u64, &'static [Detour], [u64; 3], &'static [u64], &'static [u64], bool,
);

const SHEET: &[Detour] = &[(0, 10), (10, 4), (20, 30)];
const ASKED: &[Detour] = &[(1, 1), (2, 3), (3, 1)];
const TWO: &[Detour] = &[(0, 1), (5, 1)];
const WORKED: &[Worked] = &[
    // a tape just mounted: everything from left to right
    (SHEET, ASKED, 0, 1, &[], [107, 51, 50], &[11, 15, 51], &[1, 1, 1], true),
    // the head at the end of file 2
    (SHEET, ASKED, 14, 1, &[], [177, 65, 50], &[25, 29, 65], &[1, 1, 1], false),
    (SHEET, ASKED, 14, 1, &[(2, 2)], [137, 75, 50], &[35, 9, 75], &[2, 1, 2], true),
    (SHEET, ASKED, 14, 1, &[(2, 3)], [179, 107, 10], &[107, 9, 45], &[2, 1, 1], false),
    (SHEET, ASKED, 14, 1, &[(3, 3)], [445, 103, 14], &[99, 103, 37], &[2, 2, 1], false),
    // a detour from the head itself, which stands left of file 2
    (TWO, &[(1, 1), (2, 5)], 4, 0, &[(2, 2)], [19, 9, 1], &[9, 2], &[2, 1], true),
    (TWO, &[(1, 1), (2, 5)], 4, 0, &[], [55, 10, 6], &[5, 10], &[1, 1], false),
    // the head right of everything, at the end of file 3
    (SHEET, ASKED, 50, 1, &[(2, 2)], [317, 111, 50], &[71, 45, 111], &[2, 1, 2], true),
    (SHEET, &[], 7, 1, &[], [0, 0, 7], &[], &[], true),
];

/// Head, a list, and the refusal of a run that wants all files of the sheet.
const REFUSED: &[(u64, &[Detour], u64)] = &[
    (0, &[(2, 2)], 10 + 256),           // the head's own stop is 1, where no detour may start
    (10, &[(3, 3)], 10 + 256),          // it is 2
    (10, &[(3, 3), (2, 2)], 10 + 256),
    (14, &[(3, 3), (3, 3)], 10 + 2 * 256),
    (15, &[(4, 4)], 10 + 256),
    ((1 << 40) + 1, &[], 7),
];

fn split(pairs: &[Detour]) -> (Vec<u64>, Vec<u64>) {
    pairs.iter().cloned().unzip()
}

fn call_of(files: &[Detour], wants: &[Detour], head: u64, turn: u64, list: &[Detour], plan: bool) -> Call {
    let mut call = Call { plan, any: true, head, turn, ..Call::default() };
    for &(pairs, first, second) in &[(files, STARTS, LENGTHS), (wants, NUMBERS, COUNTS), (list, FROM, TO)] {
        let (firsts, seconds) = split(pairs);
        call.rows[first] = firsts;
        call.rows[second] = seconds;
    }
    call.rows[AGGREGATES] = vec![0; files.len()];
    lend_rows(&mut Random::of(0, 0), &mut call);
    call
}

fn check(checker: &mut Checker, call: &Call) {
    if let Err(difference) = checker.check(call, 0) {
        differ(call, difference, "worked case".to_string());
    }
}

/// This program's own answer must be the one worked by hand, and the library's must be this program's.
pub fn check_worked(checker: &mut Checker) {
    for &(files, wants, head, turn, list, sums, times, legs, least) in WORKED {
        for &plan in if least { &[false, true][..] } else { &[false][..] } {
            let call = call_of(files, wants, head, turn, list, plan);
            let (result, written) = checker.expect(&call);
            let found = (result, &written.first[SUMS][..3], &written.first[TIMES][..], &written.first[LEGS][..]);
            assert_eq!(found, (0, &sums[..], times, legs), "an answer worked by hand\n{}", call);
            let found = (written.first[FROM].clone(), written.first[TO].clone());
            assert!(!plan || found == split(list), "a list worked by hand\n{}", call);
            check(checker, &call);
        }
    }
    for &(head, list, refusal) in REFUSED {
        let call = call_of(SHEET, ASKED, head, 1, list, false);
        assert_eq!(checker.expect(&call).0, refusal, "a refusal worked by hand\n{}", call);
        check(checker, &call);
    }
}
