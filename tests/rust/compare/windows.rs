//! More stops than can be searched: windows of stops.

use crate::lists::Detour;
use crate::walk::Run;

/// Costs of windows. Window (a, b) holds the stops after a up to b, with a leg from a past b to come; s reads right of b wait.
struct Windows<'a> {
    run: &'a Run,
    left: Vec<u64>,     // reads left of each stop
    known: Vec<u64>,    // u64::MAX: not yet known
    width: usize,
}

impl<'a> Windows<'a> {
    fn of(run: &'a Run) -> Windows<'a> {
        let mut left = vec![0];
        for stop in &run.stops {
            left.push(left[left.len() - 1] + stop.count);
        }
        Windows { run, left, known: vec![u64::MAX; run.room()], width: run.reads() as usize + 1 }
    }

    /// What skipping stop b costs, or reading it by a detour that starts at c.
    fn choice(&mut self, a: usize, b: usize, s: u64, detour: Option<usize>) -> u64 {
        let stops = &self.run.stops;
        let turns_at = |stop: usize| self.run.turns_at(stop);
        let from = detour.unwrap_or(a);
        let wait = 2 * (turns_at(b) - turns_at(from)) * stops[b].count;
        let waiting_after = s + stops[b].count;
        let c = match detour {
            None => return wait + self.cost(a, b - 1, waiting_after),
            Some(c) => c,
        };
        let delay = 2 * (self.run.turn + stops[b].end - turns_at(c)) * (self.left[c] + s);
        let inner = if c == b { 0 } else { self.cost(c, b - 1, waiting_after) };
        delay + wait + inner + self.cost(a, c - 1, s)
    }

    fn choices(a: usize, b: usize) -> impl Iterator<Item = Option<usize>> {
        std::iter::once(None).chain((a + 1..=b).rev().map(Some))
    }

    fn cost(&mut self, a: usize, b: usize, s: u64) -> u64 {
        if a == b {
            return 0;
        }
        let at = (a * self.run.k() + b) * self.width + s as usize;
        if self.known[at] == u64::MAX {
            self.known[at] = Self::choices(a, b).map(|c| self.choice(a, b, s, c)).min().unwrap_or(0);
        }
        self.known[at]
    }

    fn list(&mut self, a: usize, b: usize, s: u64, list: &mut Vec<Detour>) {
        if a == b {
            return;
        }
        let least = self.cost(a, b, s);
        let first = Self::choices(a, b).find(|&c| self.choice(a, b, s, c) == least);
        let waiting_after = s + self.run.stops[b].count;
        match first.expect("some choice is least") {
            None => self.list(a, b - 1, waiting_after, list),
            Some(c) => {
                if c < b {
                    self.list(c, b - 1, waiting_after, list);
                }
                list.push((c as u64, b as u64));
                self.list(a, c - 1, s, list);
            }
        }
    }
}

pub fn plan_by_windows(run: &Run) -> Vec<Detour> {
    let mut list = Vec::new();
    Windows::of(run).list(0, run.k() - 1, 0, &mut list);
    list
}
