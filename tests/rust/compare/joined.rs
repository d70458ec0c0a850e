//! An accepted call once more, on its table with each aggregate made one file that lies in none, unwanted ones too. The library's
//! two answers must be the same: lists by first files, times and legs by wants.

use crate::call::*;
use crate::draw::reads_drawn;
use crate::fence::Fenced;
use crate::make::make;
use crate::rows::{difference, Difference};

/// The table joined, and for each of its files the first and the last file of the table handed in.
fn join_table(call: &Call) -> (Call, Vec<(u64, u64)>) {
    let mut joined = Call { plan: call.plan, any: call.any, head: call.head, turn: call.turn, rule: call.rule, ..Call::default() };
    let mut spans: Vec<(u64, u64)> = Vec::new();
    for (i, &number) in call.rows[AGGREGATES].iter().enumerate() {
        let file = i as u64 + 1;
        match spans.last_mut() {
            Some(span) if number != 0 && call.rows[AGGREGATES][i - 1] == number => span.1 = file,
            _ => spans.push((file, file)),
        }
    }
    for &(first, last) in &spans {
        let start = call.rows[STARTS][first as usize - 1];
        let end = call.rows[STARTS][last as usize - 1] + call.rows[LENGTHS][last as usize - 1];
        joined.rows[STARTS].push(start);
        joined.rows[LENGTHS].push(end - start);
        joined.rows[AGGREGATES].push(0);
    }
    (joined, spans)
}

/// Which file of the joined table a file of the table handed in has become.
fn became(spans: &[(u64, u64)], file: u64) -> u64 {
    spans.iter().position(|&(first, last)| first <= file && file <= last).expect("a file of the table") as u64 + 1
}

fn join_wants(call: &Call, joined: &mut Call, spans: &[(u64, u64)]) {
    for (&file, &count) in call.rows[NUMBERS].iter().zip(&call.rows[COUNTS]) {
        let number = became(spans, file);
        if joined.rows[NUMBERS].last() == Some(&number) {
            *joined.rows[COUNTS].last_mut().expect("a count for each number") += count;
        } else {
            joined.rows[NUMBERS].push(number);
            joined.rows[COUNTS].push(count);
        }
    }
}

/// Rows for the answer of just the words needed, or the list renamed.
fn lend_joined(call: &Call, joined: &mut Call, spans: &[(u64, u64)]) {
    let k = joined.len(NUMBERS);
    joined.rows[TIMES] = vec![1; k];
    joined.rows[LEGS] = vec![1; k];
    joined.rows[SUMS] = vec![1; 4];
    for &half in &[FROM, TO] {
        joined.rows[half] = if call.plan {
            vec![0; k.saturating_sub(1)]
        } else {
            call.rows[half].iter().map(|&file| became(spans, file)).collect()
        };
    }
    if call.plan {
        joined.rows[ROOM] = vec![1; k * k * (reads_drawn(call) as usize + 1)];
    }
}

fn same(what: &str, by_joined: Vec<u64>, is: &[u64]) -> Result<(), Difference> {
    if by_joined == is {
        return Ok(());
    }
    Err(difference(format!("{}, against the joined table", what), by_joined, is.to_vec()))
}

/// `rows` as the first call has left them.
pub fn compare_with_joined(call: &Call, rows: &[Fenced]) -> Result<(), Difference> {
    let (mut joined, spans) = join_table(call);
    join_wants(call, &mut joined, &spans);
    lend_joined(call, &mut joined, &spans);
    let mut lent: Vec<Fenced> = joined.rows.iter().map(|row| Fenced::around(row, 0, false)).collect();
    let result = make(&joined, &mut lent);
    if result != 0 {
        return Err(difference("the result for the joined table".to_string(), 0, result));
    }
    same("sums", lent[SUMS].row()[..4].to_vec(), &rows[SUMS].row()[..4])?;
    for &row in &[TIMES, LEGS] {
        let want = |&file: &u64| joined.rows[NUMBERS].iter().position(|&n| n == became(&spans, file)).expect("a want");
        let of_wants = call.rows[NUMBERS].iter().map(|file| lent[row].row()[want(file)]).collect();
        same(NAMES[row], of_wants, &rows[row].row()[..call.len(NUMBERS)])?;
    }
    let detours = if call.plan { lent[SUMS].row()[3] as usize } else { 0 };
    for &half in &[FROM, TO] {
        let named = lent[half].row()[..detours].iter().map(|&file| spans[file as usize - 1].0).collect();
        same(NAMES[half], named, &rows[half].row()[..detours])?;
    }
    Ok(())
}
