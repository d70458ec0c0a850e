//! The book that follows the journal: each boarding is an entry of it. The journal decides what has happened. A boarding that could not be written to the book is
//! owed, and goes there when the book can be written, or when the server is started again: the journal says which boardings there are, and the book
//! which of them it has. Its entries of one journal stand in the journal's order, each once.

use crate::boarding::Boarding;
use crate::book::Book;
use crate::say::say;
use std::collections::VecDeque;
use std::time::{Duration, Instant};

/// A boarding as the journal has it, and its answer.
pub struct Boarded {
    /// The line above the event, without its `# `: when, at which window, and who.
    pub by: String,
    pub event: Vec<u8>,
    pub answer: Vec<u8>,
}

pub struct Follower {
    book: Book,
    sheet: String,
    /// In the journal, and not known to be in the book.
    owed: VecDeque<Boarded>,
    /// Entries up to this one were looked at, or are later than all that could be owed.
    seen: u64,
    /// None that is owed can be in the book.
    is_sure: bool,
    /// When the book could not be written last, as long as that is so.
    failed_at: Option<Instant>,
}

/// How long after a failure the book is left alone.
pub const PAUSE: Duration = Duration::from_secs(1);

impl Follower {
    pub fn new(book: Book, sheet: &[u8]) -> Follower {
        Follower { book, sheet: String::from_utf8_lossy(sheet).into_owned(), owed: VecDeque::new(), seen: 0, is_sure: false, failed_at: None }
    }

    pub fn owe(&mut self, boarded: Boarded) {
        self.owed.push_back(boarded);
    }

    pub fn owes(&self) -> usize {
        self.owed.len()
    }

    /// Every boarding that is owed becomes an entry, and is on the disk when this returns; or why not.
    pub fn follow(&mut self) -> Result<(), String> {
        if !std::mem::replace(&mut self.is_sure, false) && self.find()? {
            self.book.settle()?;
        }
        while let Some(first) = self.owed.front() {
            let (run, plan) = self.sheets(first);
            self.seen = self.book.add_by(&first.by, run.as_bytes(), plan.as_bytes())?;
            self.owed.pop_front();
        }
        self.is_sure = true;
        Ok(())
    }

    /// Of those that are owed the first may be in the book: a server was ended, or the book could not be synced. Whether any was.
    fn find(&mut self) -> Result<bool, String> {
        let before = self.owed.len();
        for number in self.book.behind(self.seen)? {
            let first = match self.owed.front() {
                Some(first) => first,
                None => break,
            };
            let is_first = self.book.has(number, |entry| {
                let (run, plan) = if entry.by == first.by { self.sheets(first) } else { return false };
                entry.run == run.as_bytes() && entry.plan == plan.as_bytes()
            })?;
            if is_first {
                self.owed.pop_front();
            }
            self.seen = number;
        }
        Ok(self.owed.len() < before)
    }

    fn sheets(&self, boarded: &Boarded) -> (String, String) {
        let boarding = Boarding::read(&boarded.event, &boarded.answer);
        (boarding.run(&self.sheet), boarding.plan(&self.sheet))
    }

    /// At work: what cannot be written is told once, and tried again after a pause.
    pub fn go_on(&mut self) {
        if self.owed.is_empty() || self.failed_at.map_or(false, |at| at.elapsed() < PAUSE) {
            return;
        }
        match (self.follow(), self.failed_at.is_some()) {
            (Err(why), was_failing) => {
                if !was_failing {
                    say(&format!("{why}; boardings go on, they are in the journal, and follow in the book when it can be written"));
                }
                self.failed_at = Some(Instant::now());
            }
            (Ok(()), was_failing) => {
                if was_failing {
                    say("the book is written again, and has every boarding of the journal");
                }
                self.failed_at = None;
            }
        }
    }
}
