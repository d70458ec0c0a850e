//! The desk: the waiting table in memory and the journal on the disk, which say the same whenever an answer leaves.

use super::follower::{Boarded, Follower, PAUSE};
use super::journal::{Damage, Journal};
use super::window::{Line, Window};
use crate::answers::Refusal;
use crate::boarding::boards;
use crate::clock::utc;
use crate::library::{Calls, Table, Tape, Told};
use crate::say::{reason, say};
use crate::status::{failed, Stop};
use std::time::{Duration, SystemTime};

pub struct Desk<C> {
    calls: C,
    tape: Tape,
    table: Table,
    journal: Journal,
    /// The last text was not written.
    is_failing: bool,
    book: Option<Follower>,
}

/// What a round has accepted.
#[derive(Default)]
struct Accepted {
    /// As the journal has it.
    text: Vec<u8>,
    boardings: Vec<Boarded>,
}

/// A line that somebody has sent.
pub struct Request {
    pub window: Window,
    /// Of the asker: uid and pid.
    pub who: String,
    /// Without its LF.
    pub line: Vec<u8>,
}

const NO_EVENT: u64 = 11;
const OTHER_WINDOW: u64 = 43;
const FAILED: &[u8] = b"failed=journal\n";

impl<C: Calls> Desk<C> {
    /// Where the journal ends; how many events it has. A book has every boarding of the journal when this returns.
    pub fn open(mut calls: C, tape: Tape, mut journal: Journal, sheet: &[u8], mut book: Option<Follower>) -> Result<(Desk<C>, u64), Stop> {
        let (mut table, mut count) = (Table::default(), 0);
        let front = [format!("{}\n", sheet.len()).as_bytes(), sheet].concat();
        journal.begin(&front, |above, event| {
            let window = Window::named(above).ok_or(Damage::Above)?;
            count += 1;
            match calls.event(&tape, &mut table, event) {
                Told::Accepted(answer) if window.owns(event) => {
                    if let (Some(book), true) = (&mut book, boards(&answer)) {
                        book.owe(Boarded { by: said_above(above), event: event.to_vec(), answer });
                    }
                    Ok(())
                }
                _ => Err(Damage::Event),
            }
        })?;
        if let Some(book) = &mut book {
            book.follow().or_else(failed)?;
        }
        Ok((Desk { calls, tape, table, journal, is_failing: false, book }, count))
    }

    /// The answer to each. What they show is on the disk when this returns; one write and one sync serve all of them. The book follows before they leave,
    /// where it can be written.
    pub fn answer(&mut self, requests: &[Request]) -> Vec<Vec<u8>> {
        let before = self.table.clone();
        let (now, mut accepted) = (utc(SystemTime::now()), Accepted::default());
        let answers = requests.iter().map(|request| self.take(request, &now, &mut accepted)).collect();
        if accepted.text.is_empty() {
            self.follow(Vec::new());
            return answers;
        }
        let written = self.journal.add(&accepted.text);
        self.tell(&written);
        if written.is_ok() {
            self.follow(accepted.boardings);
            return answers;
        }
        self.table = before;
        requests.iter().map(|request| self.take_unwritten(request)).collect()
    }

    fn follow(&mut self, boardings: Vec<Boarded>) {
        if let Some(book) = &mut self.book {
            boardings.into_iter().for_each(|boarded| book.owe(boarded));
            book.go_on();
        }
    }

    /// How long nothing need be done where nobody asks.
    pub fn patience(&self) -> Option<Duration> {
        self.book.as_ref().filter(|book| book.owes() > 0).map(|_| PAUSE)
    }

    /// One answer; where the event is accepted, the table and the text of the journal have it.
    fn take(&mut self, request: &Request, now: &str, accepted: &mut Accepted) -> Vec<u8> {
        let told = match request.window.understand(&request.line) {
            Line::Waiting => self.calls.waiting(&self.table),
            Line::Event(event) => {
                let told = self.calls.event(&self.tape, &mut self.table, &event);
                if let Told::Accepted(answer) = &told {
                    let above = format!("# {now} {} {}\n", request.window.name(), request.who);
                    accepted.text.extend_from_slice(&[above.as_bytes(), &event].concat());
                    if boards(answer) {
                        accepted.boardings.push(Boarded { by: said_above(above.trim_end().as_bytes()), event, answer: answer.clone() });
                    }
                }
                told
            }
            // The form is judged at a table of nobody.
            Line::Elsewhere(event) => match self.calls.event(&self.tape, &mut Table::default(), &event) {
                Told::Refused(Refusal { number: NO_EVENT, .. }) => refused(NO_EVENT),
                _ => refused(OTHER_WINDOW),
            },
            Line::Nothing => refused(NO_EVENT),
        };
        match told {
            Told::Accepted(answer) => answer,
            Told::Refused(Refusal { number, place }) => format!("refused={number}\nplace={place}\n").into_bytes(),
        }
    }

    /// The same where nothing can be written: what would be accepted is not, and changes nothing.
    fn take_unwritten(&mut self, request: &Request) -> Vec<u8> {
        let (before, mut accepted) = (self.table.clone(), Accepted::default());
        let answer = self.take(request, "", &mut accepted);
        if accepted.text.is_empty() {
            return answer;
        }
        self.table = before;
        FAILED.to_vec()
    }

    fn tell(&mut self, written: &Result<(), String>) {
        match written {
            Err(why) if !self.is_failing => say(&format!("{why}; until it can be written nothing is accepted")),
            Ok(()) if self.is_failing => say("the journal is written again"),
            _ => {}
        }
        self.is_failing = written.is_err();
    }

    /// What could not be taken back when it was not written is taken back now, and what the book is owed is written.
    pub fn close(&mut self) -> Result<(), Stop> {
        if let Err(error) = self.journal.repair() {
            return failed(format!("what was not accepted may stand in the journal, and could not be taken back: {}", reason(&error)));
        }
        match self.book.as_mut().map_or(Ok(()), Follower::follow) {
            Ok(()) => Ok(()),
            Err(why) => failed(format!("{why}; some boardings are in the journal alone, and follow in the book when the server is started again")),
        }
    }
}

/// What stands above an event, for a book.
fn said_above(above: &[u8]) -> String {
    String::from_utf8_lossy(above).trim_start_matches("# ").to_string()
}

fn refused(number: u64) -> Told {
    Told::Refused(Refusal { number, place: 0 })
}

#[cfg(test)]
mod tests {
    use super::*;
    use crate::library::Ticket;
    use std::fs;

    /// Gives numbers, up to three of office 1.
    struct Counting;

    impl Calls for Counting {
        fn event(&mut self, _: &Tape, table: &mut Table, line: &[u8]) -> Told {
            match line {
                b"file=1,1,1\n" if table.lasts[0] < 3 => {
                    table.lasts[0] += 1;
                    table.tickets[table.lasts[0] as usize] = Ticket { office: 1, file: 1, count: 1, number: table.lasts[0] };
                    Told::Accepted(format!("filed=1,{}\n", table.lasts[0]).into_bytes())
                }
                b"file=1,1,1\n" => refused(16),
                _ => refused(NO_EVENT),
            }
        }

        fn waiting(&mut self, table: &Table) -> Told {
            Told::Accepted(format!("waiting={},0\n", table.lasts[0]).into_bytes())
        }
    }

    fn asked(line: &str) -> Request {
        Request { window: Window::Office1, who: "uid=1 pid=2".to_string(), line: line.as_bytes().to_vec() }
    }

    fn answers(desk: &mut Desk<Counting>, lines: &[&str]) -> Vec<String> {
        let requests: Vec<Request> = lines.iter().map(|line| asked(line)).collect();
        desk.answer(&requests).into_iter().map(|answer| String::from_utf8_lossy(&answer).into_owned()).collect()
    }

    #[test]
    fn what_is_not_written_has_not_been() {
        let path = std::env::temp_dir().join(format!("violstream-desk-{}", std::process::id()));
        let moved = path.with_extension("moved");
        let open = || Desk::open(Counting, Tape::default(), Journal::open(&path).unwrap(), b"sheet\n", None).unwrap();
        let (mut desk, count) = open();
        assert_eq!(count, 0);
        assert_eq!(answers(&mut desk, &["file=1,1", "waiting", "x"]), ["filed=1,1\n", "waiting=1,0\n", "refused=11\nplace=0\n"]);
        fs::rename(&path, &moved).unwrap();
        assert_eq!(
            answers(&mut desk, &["file=1,1", "waiting", "file=1,1", "file=1,1", "board=1"]),
            ["failed=journal\n", "waiting=1,0\n", "failed=journal\n", "failed=journal\n", "refused=11\nplace=0\n"]
        );
        fs::rename(&moved, &path).unwrap();
        assert_eq!(
            answers(&mut desk, &["file=1,1", "file=1,1", "file=1,1", "waiting"]),
            ["filed=1,2\n", "filed=1,3\n", "refused=16\nplace=0\n", "waiting=3,0\n"]
        );
        drop(desk);
        let (mut desk, count) = open();
        assert_eq!((count, answers(&mut desk, &["waiting"])), (3, vec!["waiting=3,0\n".to_string()]));
        fs::remove_file(&path).unwrap();
    }
}
