//! Lists of detours.

use std::cmp::Ordering;

/// A detour by two numbers that rise with the files: file numbers, or positions among the stops.
pub type Detour = (u64, u64);

/// The three rules, word for word, over every entry and every pair.
pub fn well_formed(list: &[Detour], leftmost: u64) -> bool {
    let right_of_leftmost = list.iter().all(|d| d.0 > leftmost);
    let falling = list.windows(2).all(|w| w[0].0 > w[1].0);
    let apart = list.iter().all(|d| list.iter().all(|e| !(d.0 < e.0) || d.1 < e.0 || e.1 < d.1));
    right_of_leftmost && falling && apart
}

/// The tie rule: which of two lists comes first.
pub fn tie_order(x: &[Detour], y: &[Detour], files: u64) -> Ordering {
    let start = |list: &[Detour], end: u64| list.iter().find(|d| d.1 == end).map(|d| d.0);
    for file in (0..files).rev() {
        match (start(x, file), start(y, file)) {
            (None, Some(_)) => return Ordering::Less,
            (Some(_), None) => return Ordering::Greater,
            (Some(a), Some(b)) if a != b => return b.cmp(&a),
            _ => {}
        }
    }
    Ordering::Equal
}

/// Every way to give each start below `start` no end or one of the files from it to the last; the well-formed are kept.
fn choose_ends(start: u64, k: u64, list: &mut Vec<Detour>, kept: &mut Vec<Vec<Detour>>) {
    if start == 0 {
        if well_formed(list, 0) {
            kept.push(list.clone());
        }
        return;
    }
    choose_ends(start - 1, k, list, kept);
    for end in start..k {
        list.push((start, end));
        choose_ends(start - 1, k, list, kept);
        list.pop();
    }
}

/// All well-formed lists of k stops, by position from 0.
pub fn all_lists(k: usize) -> Vec<Vec<Detour>> {
    let mut kept = Vec::new();
    choose_ends(k.saturating_sub(1) as u64, k as u64, &mut Vec::new(), &mut kept);
    kept
}
