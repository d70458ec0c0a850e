//! The cases that document 01 works by hand, and those with aggregates.

use crate::call::*;
use crate::check::Checker;
use crate::check_or_exit;
use crate::draw::lend_rows;
use crate::lists::Detour;
use crate::random::Random;

/// Files, wants, head, turn price, a list, its sum, each want's leg, and whether it is the least list.
type Worked = (&'static [Detour], &'static [Detour], u64, u64, &'static [Detour], u64, &'static [u64], bool);

const TWO: &[Detour] = &[(0, 10), (10, 10)];
const SHEET: &[Detour] = &[(0, 10), (10, 4), (20, 30)];
const FOUR: &[Detour] = &[(0, 2), (2, 2), (4, 2), (6, 2)];
const WORKED: &[Worked] = &[
    (&[], &[], 60, 0, &[], 0, &[], true),
    (&[(5, 3)], &[(1, 3)], 8, 2, &[], 24, &[1], true),
    (TWO, &[(1, 1), (2, 1)], 20, 0, &[], 70, &[1, 1], true),
    (TWO, &[(1, 1), (2, 1)], 20, 0, &[(2, 2)], 70, &[2, 1], false),
    (TWO, &[(1, 1), (2, 2)], 20, 0, &[(2, 2)], 90, &[2, 1], true),
    (TWO, &[(1, 1), (2, 2)], 20, 0, &[], 110, &[1, 1], false),
    (TWO, &[(1, 1), (2, 1)], 20, 1, &[], 72, &[1, 1], true),
    (TWO, &[(1, 1), (2, 1)], 20, 1, &[(2, 2)], 74, &[2, 1], false),
    (TWO, &[(2, 1)], 20, 0, &[], 20, &[1], true),
    (SHEET, &[(1, 1), (2, 3), (3, 1)], 60, 1, &[], 407, &[1, 1, 1], false),
    (SHEET, &[(1, 1), (2, 3), (3, 1)], 60, 1, &[(2, 2)], 367, &[2, 1, 2], true),
    (SHEET, &[(1, 1), (2, 3), (3, 1)], 60, 1, &[(2, 3)], 409, &[2, 1, 1], false),
    (SHEET, &[(1, 1), (2, 3), (3, 1)], 60, 1, &[(3, 3)], 615, &[2, 2, 1], false),
    (SHEET, &[(1, 1), (2, 3), (3, 1)], 60, 1, &[(3, 3), (2, 2)], 565, &[3, 2, 1], false),
    (FOUR, &[(1, 1), (2, 1), (3, 1), (4, 1)], 8, 1, &[(3, 3), (2, 4)], 72, &[3, 2, 1, 2], false),
    (FOUR, &[(1, 1), (2, 1), (3, 1), (4, 1)], 8, 1, &[], 56, &[1, 1, 1, 1], true),
];

fn split(pairs: &[Detour]) -> (Vec<u64>, Vec<u64>) {
    pairs.iter().cloned().unzip()
}

fn worked_call(random: &mut Random, worked: &Worked, plan: bool) -> Call {
    let &(files, wants, head, turn, list, _, _, _) = worked;
    let mut call = Call { plan, head, turn, rule: 1, ..Call::default() };
    for &(pairs, first, second) in &[(files, STARTS, LENGTHS), (wants, NUMBERS, COUNTS), (list, FROM, TO)] {
        let (firsts, seconds) = split(pairs);
        call.rows[first] = firsts;
        call.rows[second] = seconds;
    }
    call.rows[AGGREGATES] = vec![0; files.len()];
    lend_rows(random, &mut call);
    call
}

/// Aggregate numbers, wants, a list for files 2 and 3 with a gap between them, head 60, turn price 1; then sums, times and
/// legs, and whether it is the least list.
type Aggregated = (&'static [u64], &'static [Detour], &'static [Detour], [u64; 4], &'static [u64], &'static [u64], bool);

const GAP: &[Detour] = &[(0, 10), (10, 4), (16, 4), (20, 30)];
const AGGREGATED: &[Aggregated] = &[
    (&[0, 7, 7, 0], &[(1, 1), (3, 3), (4, 1)], &[(2, 2)], [409, 133, 50, 1], &[93, 61, 133], &[2, 1, 2], true),
    (&[0, 0, 0, 0], &[(1, 1), (3, 3), (4, 1)], &[(3, 3)], [349, 121, 50, 1], &[81, 49, 121], &[2, 1, 2], true),
    (&[0, 7, 7, 0], &[(1, 1), (2, 1), (3, 2), (4, 1)], &[(2, 2)], [409, 133, 50, 1], &[93, 61, 61, 133], &[2, 1, 1, 2], true),
    (&[1, 1, 1, 1], &[(2, 1), (3, 2)], &[], [333, 111, 50, 0], &[111, 111], &[1, 1], true),
    (&[4096, 3, 3, 2], &[(1, 1)], &[], [71, 71, 10, 0], &[71], &[1], true),
];

/// Aggregate numbers, a list, the head, and the refusal of a run that wants files 1, 2 and 3 once each.
const REFUSED: &[(&[u64], &[Detour], u64, u64)] = &[
    (&[5, 0, 5, 0], &[], 60, 2 + 3 * 256),
    (&[5, 3, 3, 5], &[], 60, 2 + 4 * 256),
    (&[0, 4097, 0, 0], &[], 60, 2 + 2 * 256),
    (&[0, 0, 0], &[], 60, 1),
    (&[0, 0, 7, 7], &[], 49, 7),
    (&[0, 7, 7, 0], &[(3, 3)], 60, 10 + 256),
    (&[0, 7, 7, 0], &[(2, 3)], 60, 10 + 256),
    (&[7, 7, 0, 0], &[(3, 3), (2, 2)], 60, 10 + 2 * 256),
];

fn with_aggregates(random: &mut Random, numbers: &[u64], wants: &[Detour], list: &[Detour], plan: bool) -> Call {
    let (starts, lengths) = split(GAP);
    let mut call = Call { plan, head: 60, turn: 1, rule: 1, ..Call::default() };
    call.rows[STARTS] = starts;
    call.rows[LENGTHS] = lengths;
    call.rows[AGGREGATES] = vec![0; GAP.len()];
    let (firsts, seconds) = split(wants);
    call.rows[NUMBERS] = firsts;
    call.rows[COUNTS] = seconds;
    let (from, to) = split(list);
    call.rows[FROM] = from;
    call.rows[TO] = to;
    lend_rows(random, &mut call);
    call.rows[AGGREGATES] = numbers.to_vec();
    call
}

fn check_aggregated(checker: &mut Checker, random: &mut Random) {
    for &(numbers, wants, list, sums, times, legs, least) in AGGREGATED {
        for &plan in if least { &[false, true][..] } else { &[false][..] } {
            let call = with_aggregates(random, numbers, wants, list, plan);
            let (result, written) = checker.expect(&call);
            let found = (result, &written.first[SUMS][..], &written.first[TIMES][..], &written.first[LEGS][..]);
            assert_eq!(found, (0, &sums[..], times, legs), "an answer worked by hand\n{}", call);
            assert!(!plan || (written.first[FROM].iter().cloned().zip(written.first[TO].iter().cloned())).eq(list.iter().cloned()));
            check_or_exit(checker, &call, 0, "worked case with aggregates".to_string());
        }
    }
    for &(numbers, list, head, refusal) in REFUSED {
        let mut call = with_aggregates(random, numbers, &[(1, 1), (2, 1), (3, 1)], list, false);
        call.head = head;
        assert_eq!(checker.expect(&call).0, refusal, "a refusal worked by hand\n{}", call);
        check_or_exit(checker, &call, 0, "refused case with aggregates".to_string());
    }
}

/// This program's own answer must be the sum and the legs worked by hand, and the library's must be this program's.
pub fn check_worked(checker: &mut Checker) {
    let mut random = Random::of(0, 0);
    for worked in WORKED {
        for &plan in if worked.7 { &[false, true][..] } else { &[false][..] } {
            let call = worked_call(&mut random, worked, plan);
            let (result, written) = checker.expect(&call);
            assert_eq!((result, written.first[SUMS][0]), (0, worked.5), "a sum worked by hand\n{}", call);
            assert_eq!(written.first[LEGS], worked.6, "legs worked by hand\n{}", call);
            assert_eq!(written.first[SUMS][3], worked.4.len() as u64, "a list worked by hand\n{}", call);
            check_or_exit(checker, &call, 0, "worked case".to_string());
        }
    }
    check_aggregated(checker, &mut random);
}
