//! A plan for a person: what the run sheet, its plan sheet, its figure sheet and the plan sheet of the empty list say, arranged.
//!
//! Sums go through as texts. Worked out here, since no sheet gives it: where a leg turns and ends, which are starts and ends of the run sheet's
//! files, or the head's first place where a leg turns there; the clock as it sets off to the right, which is the time of its first file less the
//! way to that file's end; and the clock at its end, which is so much later as it is long. Nothing here reads or writes a file.

pub mod measure;
pub mod picture;
pub mod schedule;
pub mod sketch;
pub mod table;

use crate::answers::lines;
use std::collections::{BTreeMap, BTreeSet};

#[derive(Default)]
pub struct Plan {
    pub tape: String,
    pub head: i64,
    files: Vec<File>,
    /// Wanted files, by number, with their reads.
    waiting: BTreeMap<usize, String>,
    pub sum: String,
    pub sum_of_sweep: String,
    pub reads: String,
    pub finish: i64,
    last_place: i64,
    detours: Vec<Detour>,
    /// In the order of the plan sheet.
    done: Vec<Read>,
    pub turn: i64,
    legs: Vec<Leg>,
}

struct File {
    start: i64,
    end: i64,
    aggregate: String,
}

struct Detour {
    from: usize,
    to: usize,
    buys: String,
}

#[derive(Clone)]
struct Read {
    file: usize,
    time: i64,
    leg: usize,
}

#[derive(Default)]
struct Leg {
    comes_from: i64,
    turns_at: i64,
    sets_off: i64,
    runs_to: i64,
    ends_at: i64,
}

/// The four texts, as they were handed in and printed.
pub struct Texts<'a> {
    pub run: &'a [u8],
    pub plan: &'a [u8],
    pub buys: &'a [u8],
    pub sweep: &'a [u8],
}

/// The lines of a text: key, and the values between commas.
pub fn entries(text: &[u8]) -> Vec<(String, Vec<String>)> {
    lines(text)
        .map(|line| {
            let line = String::from_utf8_lossy(line);
            let (key, value) = line.split_once('=').unwrap_or((&line, ""));
            (key.to_string(), value.split(',').map(str::to_string).collect())
        })
        .collect()
}

fn number(text: Option<&String>) -> i64 {
    text.and_then(|text| text.parse().ok()).unwrap_or(0)
}

fn index(text: Option<&String>) -> usize {
    text.and_then(|text| text.parse().ok()).unwrap_or(0)
}

impl Plan {
    /// Where the head is when: left, a turn, right, and a turn before the next leg.
    fn way(&self) -> Vec<(i64, i64)> {
        let mut points = vec![(self.head, 0)];
        let mut before = None;
        for leg in &self.legs {
            points.extend(before.map(|ended| (leg.comes_from, ended + self.turn)));
            points.extend([(leg.turns_at, leg.sets_off - self.turn), (leg.turns_at, leg.sets_off), (leg.runs_to, leg.ends_at)]);
            before = Some(leg.ends_at);
        }
        points
    }

    pub fn read(texts: &Texts) -> Plan {
        let mut plan = Plan::default();
        plan.read_run(texts.run);
        plan.read_plan(texts.plan);
        let buys = entries(texts.buys).into_iter().filter(|(key, _)| key == "buys");
        for (detour, (_, values)) in plan.detours.iter_mut().zip(buys) {
            detour.buys = values.get(2).cloned().unwrap_or_default();
        }
        if let Some((_, values)) = entries(texts.sweep).into_iter().find(|(key, _)| key == "sum") {
            plan.sum_of_sweep = values.concat();
        }
        plan.lay_legs();
        plan
    }

    fn read_run(&mut self, text: &[u8]) {
        for (key, values) in entries(text) {
            let (first, second) = (values.first(), values.get(1));
            match key.as_str() {
                "tape" => self.tape = values.concat(),
                "head" => self.head = number(first),
                "file" => self.files.push(File {
                    start: number(first),
                    end: number(first) + number(second),
                    aggregate: values.get(2).cloned().unwrap_or_default(),
                }),
                "want" => {
                    self.waiting.insert(index(first), second.cloned().unwrap_or_default());
                }
                _ => {}
            }
        }
    }

    fn read_plan(&mut self, text: &[u8]) {
        for (key, values) in entries(text) {
            let first = values.first();
            match key.as_str() {
                "sum" => self.sum = values.concat(),
                "reads" => self.reads = values.concat(),
                "finish" => self.finish = number(first),
                "end" => self.last_place = number(first),
                "detour" => self.detours.push(Detour { from: index(first), to: index(values.get(1)), buys: String::new() }),
                "time" => self.done.push(Read { file: index(first), time: number(values.get(1)), leg: index(values.get(2)) }),
                _ => {}
            }
        }
    }

    fn file(&self, number: usize) -> Option<&File> {
        self.files.get(number.checked_sub(1)?)
    }

    fn together(&self, one: usize, other: usize) -> bool {
        match (self.file(one), self.file(other)) {
            (Some(one), Some(other)) => one.aggregate != "0" && one.aggregate == other.aggregate,
            _ => false,
        }
    }

    /// The files of one aggregate are read together: from the first start to the last end.
    fn left_of(&self, file: usize) -> i64 {
        let first = (1..file).rev().take_while(|before| self.together(file, *before)).last().unwrap_or(file);
        self.file(first).map_or(0, |file| file.start)
    }

    fn right_of(&self, file: usize) -> i64 {
        let last = (file + 1..).take_while(|next| self.together(file, *next)).last().unwrap_or(file);
        self.file(last).map_or(0, |file| file.end)
    }

    /// The legs: each detour's, and the last sweep's, which starts at the leftmost wanted file and ends where the plan sheet says.
    fn lay_legs(&mut self) {
        if self.done.is_empty() {
            return;
        }
        for leg in 1..=self.detours.len() + 1 {
            let laid = self.lay_leg(leg);
            self.legs.push(laid);
        }
        // On the first leg the head has moved and turned once.
        self.turn = self.legs[0].sets_off - (self.head - self.legs[0].turns_at);
    }

    /// A leg turns at the start of a file that it reads. Of an aggregate, of which a member may be wanted and the first may not, every member has
    /// the aggregate's time.
    fn lay_leg(&self, number: usize) -> Leg {
        let detour = self.detours.get(number - 1);
        let first = match detour {
            None => self.done.first(),
            Some(detour) => self.done.iter().find(|read| read.leg == number && self.left_of(read.file) == self.left_of(detour.from)),
        };
        let (file, time) = first.map_or((0, 0), |read| (read.file, read.time));
        // Where the file lies right of the head's first place, the leg turns at that place.
        let turns_at = self.left_of(file).min(self.head);
        let runs_to = detour.map_or(self.last_place, |detour| self.right_of(detour.to));
        let sets_off = time - (self.right_of(file) - turns_at);
        Leg {
            comes_from: self.legs.last().map_or(self.head, |before| before.runs_to),
            turns_at,
            sets_off,
            runs_to,
            ends_at: sets_off + (runs_to - turns_at),
        }
    }

    /// The rightmost place that the head comes to.
    fn furthest(&self) -> i64 {
        self.legs.iter().map(|leg| leg.runs_to).chain([self.head]).max().unwrap_or(self.head)
    }

    fn wanted(&self) -> BTreeSet<usize> {
        self.waiting.keys().copied().collect()
    }

    fn waited(&self, file: usize) -> &str {
        self.waiting.get(&file).map_or("", String::as_str)
    }
}
