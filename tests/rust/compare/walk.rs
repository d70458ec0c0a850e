//! The walk, and the search among all lists.

use crate::lists::{tie_order, Detour};

/// A file, or all that lie in its aggregate: the first file, where it starts, where the last ends, and the reads of all.
#[derive(Clone)]
pub struct Stop {
    pub file: u64,
    pub start: u64,
    pub end: u64,
    pub count: u64,
}

pub struct Run {
    pub stops: Vec<Stop>,
    pub of_wants: Vec<usize>, // for each want handed in, its stop
    pub head: u64,
    pub turn: u64,
}

impl Run {
    pub fn k(&self) -> usize {
        self.stops.len()
    }

    pub fn reads(&self) -> u64 {
        self.stops.iter().map(|stop| stop.count).sum()
    }

    /// The head's own stop, the first whose start is at or right of the head; k where there is none. No detour starts right of it.
    pub fn own_stop(&self) -> usize {
        self.stops.iter().position(|stop| self.head <= stop.start).unwrap_or(self.k())
    }

    /// Where a leg from a stop on turns right: at its start, or at the head's first place where the start lies right of that.
    pub fn turns_at(&self, stop: usize) -> u64 {
        self.stops[stop].start.min(self.head)
    }

    pub fn room(&self) -> usize {
        self.k() * self.k() * (self.reads() as usize + 1)
    }
}

#[derive(Clone, Copy)]
pub struct Head {
    pub place: u64,
    pub clock: u64,
    pub rightward: bool,
}

impl Head {
    fn left_to(self, place: u64) -> Head {
        assert!(!self.rightward && place <= self.place, "a leg goes left");
        Head { place, clock: self.clock + (self.place - place), ..self }
    }

    fn turned(self, price: u64) -> Head {
        Head { clock: self.clock + price, rightward: !self.rightward, ..self }
    }

    fn right_to(self, place: u64) -> Head {
        assert!(self.rightward && self.place <= place, "a rightward run goes right");
        Head { place, clock: self.clock + (place - self.place), ..self }
    }
}

/// A rightward run: where and when it starts, where it ends.
pub struct Rightward {
    from: Head,
    to: u64,
}

/// The rightward runs of a list with its last sweep, and the head at the end.
pub fn rightward_runs(run: &Run, list: &[Detour]) -> (Vec<Rightward>, Head) {
    let mut head = Head { place: run.head, clock: 0, rightward: false };
    let mut runs = Vec::with_capacity(list.len() + 1);
    if run.k() == 0 {
        return (runs, head);
    }
    let in_detour = |i: u64| list.iter().any(|&(a, b)| a <= i && i <= b);
    let last = (0..run.k() as u64).rev().find(|&i| !in_detour(i));
    let sweep = (0, last.expect("the leftmost stop is in no detour"));
    for &(a, b) in list.iter().chain(Some(&sweep)) {
        if !runs.is_empty() {
            head = head.turned(run.turn);
        }
        let from = head.left_to(run.turns_at(a as usize)).turned(run.turn);
        let to = run.stops[b as usize].end;
        runs.push(Rightward { from, to });
        head = from.right_to(to);
    }
    (runs, head)
}

/// The runs before the one that reads a stop, which is the first from its start or further left to its end or further right.
fn runs_before(stop: &Stop, runs: &[Rightward]) -> usize {
    let reads = |r: &Rightward| r.from.place <= stop.start && stop.end <= r.to;
    runs.iter().position(reads).expect("the last sweep reads every stop")
}

pub fn time_of(stop: &Stop, runs: &[Rightward]) -> u64 {
    runs[runs_before(stop, runs)].from.right_to(stop.end).clock
}

/// Each leg has one rightward run; the first is leg 1.
pub fn leg_of(stop: &Stop, runs: &[Rightward]) -> u64 {
    runs_before(stop, runs) as u64 + 1
}

pub fn sum_of(run: &Run, list: &[Detour]) -> u64 {
    let (runs, _) = rightward_runs(run, list);
    run.stops.iter().map(|stop| stop.count * time_of(stop, &runs)).sum()
}

/// Of all lists without a start right of the head's own stop, those of smallest sum; of those, the one that comes first.
pub fn search(run: &Run, lists: &[Vec<Detour>]) -> Vec<Detour> {
    let mut least = u64::MAX;
    let mut cheapest: Vec<&Vec<Detour>> = Vec::new();
    let own = run.own_stop() as u64;
    for list in lists.iter().filter(|list| list.iter().all(|detour| detour.0 <= own)) {
        let sum = sum_of(run, list);
        if sum < least {
            least = sum;
            cheapest.clear();
        }
        if sum == least {
            cheapest.push(list);
        }
    }
    let first = cheapest.into_iter().min_by(|x, y| tie_order(x, y, run.k() as u64));
    first.expect("the empty list is well formed").clone()
}
