//! Drawing sound runs and lists.

use crate::call::*;
use crate::judge::{read_with, stops_of};
use crate::limits::*;
use crate::lists::{well_formed, Detour};
use crate::random::Random;

/// How the numbers of a run are drawn: each is `most`, or each anything up to it.
#[derive(Clone, Copy)]
struct Upto {
    most: u64,
    equal: bool,
}

impl Upto {
    fn any_of(random: &mut Random, mosts: &[u64]) -> Upto {
        Upto { most: random.pick(mosts), equal: random.chance(50) }
    }

    fn draw(&self, random: &mut Random, least: u64) -> u64 {
        if self.equal { self.most } else { random.within(least, self.most) }
    }
}

/// Files and wants: `k` wanted files, some others among them.
fn draw_tape(random: &mut Random, call: &mut Call, k: usize, others: u64) {
    let gap = Upto::any_of(random, &[0, 0, 0, 0, 1, 4, 100, 1 << 30]);
    let length = Upto::any_of(random, &[1, 1, 2, 3, 8, 50, 1 << 20, 1 << 31]);
    let files = k as u64 + if others == 0 { 0 } else { random.within(0, others) };
    let mut left_to_want = k as u64;
    let mut end = 0;
    for file in 1..=files {
        let start = end + gap.draw(random, 0);
        let size = length.draw(random, 1);
        call.rows[STARTS].push(start);
        call.rows[LENGTHS].push(size);
        end = start + size;
        if random.below(files - file + 1) < left_to_want {
            call.rows[NUMBERS].push(file);
            left_to_want -= 1;
        }
    }
}

fn end_of(call: &Call, file: u64) -> u64 {
    call.rows[STARTS][file as usize - 1] + call.rows[LENGTHS][file as usize - 1]
}

/// The end of the last wanted file by itself, and that of its aggregate.
pub fn last_file_end(call: &Call) -> u64 {
    call.rows[NUMBERS].last().map_or(0, |&file| end_of(call, file))
}

pub fn last_wanted_end(call: &Call) -> u64 {
    call.rows[NUMBERS].last().and_then(|&file| read_with(call, file).pop()).map_or(0, |file| end_of(call, file))
}

/// The first files of the stops of a sound table with sound wants.
pub fn stop_names(call: &Call) -> Vec<u64> {
    stops_of(call).0.iter().map(|stop| stop.file).collect()
}

/// That of the first stop whose start is at or right of the head.
pub fn own_stop_name(call: &Call) -> Option<u64> {
    stops_of(call).0.iter().find(|stop| call.head <= stop.start).map(|stop| stop.file)
}

/// In which aggregates the files lie: of 100 stretches of neighbours so many in one, with numbers shuffled, the first `first`.
pub fn draw_aggregates(random: &mut Random, call: &mut Call, first: u64) {
    let inside = random.pick(&[0, 0, 30, 60, 100, 100]);
    let longest = random.pick(&[1, 2, 3, 5, 40]);
    let mut unused: Vec<u64> = (1..=AGGREGATE).filter(|&number| number != first).collect();
    let mut next = Some(first);
    call.rows[AGGREGATES].clear();
    while call.len(AGGREGATES) < call.len(STARTS) {
        let stretch = random.within(1, longest).min((call.len(STARTS) - call.len(AGGREGATES)) as u64);
        let number = match (random.chance(inside), next.take()) {
            (true, Some(number)) => number,
            (true, None) if !unused.is_empty() => unused.swap_remove(random.index(unused.len())),
            (_, kept) => {
                next = kept;
                0
            }
        };
        call.rows[AGGREGATES].extend(std::iter::repeat(number).take(stretch as usize));
    }
}

/// Shifts the tape so that its last file ends at the limit.
pub fn push_to_the_end(call: &mut Call) {
    if let (Some(start), Some(length)) = (call.rows[STARTS].last(), call.rows[LENGTHS].last()) {
        let by = POSITION - start - length;
        call.rows[STARTS].iter_mut().for_each(|start| *start += by);
    }
}

/// A sound run of k wants, most often one with many lists of equal sum.
pub fn draw_run(random: &mut Random, k: usize) -> Call {
    let mut call = Call::default();
    let others = if random.chance(50) { 0 } else { random.below(2 * k as u64 + 3) };
    draw_tape(random, &mut call, k, others);
    let first = random.within(1, AGGREGATE);
    draw_aggregates(random, &mut call, first);
    if random.chance(10) {
        push_to_the_end(&mut call);
    }
    let count = Upto::any_of(random, &[1, 1, 1, 2, 3, 8, 16]);
    call.rows[COUNTS] = (0..k).map(|_| count.draw(random, 1)).collect();
    let least_head = last_wanted_end(&call);
    let most_head = random.pick(&[least_head, least_head, POSITION.min(least_head + 50), POSITION]);
    call.head = random.within(least_head, most_head);
    call.turn = Upto::any_of(random, &[0, 0, 0, 1, 3, 20, 1 << 20, TURN]).draw(random, 0);
    call.rule = 1;
    call
}

pub fn reads_drawn(call: &Call) -> u64 {
    call.rows[COUNTS].iter().fold(0, |sum, &count| sum.wrapping_add(count))
}

fn noise(random: &mut Random, least: usize) -> Vec<u64> {
    let more = if random.chance(50) { 0 } else { random.index(5) };
    (0..least + more).map(|_| random.word()).collect()
}

/// Rows for the answer, long enough or longer, with anything in them.
pub fn lend_rows(random: &mut Random, call: &mut Call) {
    let wants = call.len(NUMBERS);
    call.rows[TIMES] = noise(random, wants);
    call.rows[LEGS] = noise(random, wants);
    call.rows[SUMS] = noise(random, 4);
    if call.plan {
        let k = stop_names(call).len();
        call.rows[FROM] = noise(random, k.saturating_sub(1));
        call.rows[TO] = noise(random, k.saturating_sub(1));
        call.rows[ROOM] = noise(random, k * k * (reads_drawn(call) as usize + 1));
    }
    call.nulls.iter_mut().for_each(|null| *null = random.chance(50));
}

pub fn plan_call(random: &mut Random, k: usize) -> Call {
    let mut call = draw_run(random, k);
    call.plan = true;
    lend_rows(random, &mut call);
    call
}

/// A well-formed list by position: detours are put in one by one where they fit.
fn draw_list(random: &mut Random, k: usize) -> Vec<Detour> {
    let mut list: Vec<Detour> = Vec::new();
    if k < 2 {
        return list;
    }
    let singles = random.chance(30);
    for _ in 0..random.index(4 * k) {
        let start = random.within(1, k as u64 - 1);
        let end = if singles { start } else { random.within(start, k as u64 - 1) };
        let at = list.iter().position(|d| d.0 < start).unwrap_or(list.len());
        list.insert(at, (start, end));
        if !well_formed(&list, 0) {
            list.remove(at);
        }
    }
    list
}

pub fn price_call(random: &mut Random, k: usize) -> Call {
    let mut call = draw_run(random, k);
    let names = stop_names(&call);
    let list = draw_list(random, names.len());
    call.rows[FROM] = list.iter().map(|d| names[d.0 as usize]).collect();
    call.rows[TO] = list.iter().map(|d| names[d.1 as usize]).collect();
    lend_rows(random, &mut call);
    call
}
