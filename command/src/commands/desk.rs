//! desk: a day of two offices. Each event goes to the program when the answer to the one before has been written: after an answer that nobody
//! could be given, nothing more happens. A line that is no event ends the day, but for a person at a keyboard: then the program is started again
//! and given the events before.

use super::replay::Keeper;
use super::{say_refused, told, Call, SHEET};
use crate::answers::{lines, refusal, Refusal};
use crate::input::{self, cannot_read, take, tell_if_keyboard, Input};
use crate::output::{self, put, write_all};
use crate::programs::Program;
use crate::say::{reason, shown};
use crate::status::{failed, Status, Stop};
use crate::words;
use nix::errno::Errno;
use nix::poll::{poll, PollFd, PollFlags};
use nix::unistd::isatty;
use std::ffi::OsStr;
use std::io;
use std::os::unix::io::{AsRawFd, RawFd};
use std::process::{Child, Stdio};

pub fn answer(sheet_file: &OsStr, events_file: &OsStr, call: &Call) -> Result<Status, Stop> {
    let sheet = match take(sheet_file, SHEET, &call.began) {
        Ok(sheet) => sheet,
        Err(sentence) => return Ok(told(&sentence)),
    };
    let events = match input::open(events_file, &call.began) {
        Ok(events) => events,
        Err(sentence) => return Ok(told(&sentence)),
    };
    let program = Program::ready("cmd_desk", call)?;
    let framed = super::frame_pair(&sheet, b"");
    // The sheet alone first, so that what is refused later is an event.
    let morning = match program.ask(&framed) {
        Ok(printed) => printed.answer,
        Err(sentence) => return Ok(told(&sentence)),
    };
    if let Some(refused) = refusal(&morning) {
        put(&morning)?;
        say_refused(&shown(sheet_file), &refused, &words::of_sheet(&refused, &sheet));
        return Ok(Status::Refused);
    }
    tell_if_keyboard(&events, "events are read from the keyboard, one a line; Ctrl-D on a new line ends the day");
    let child = match program.start(Stdio::inherit()) {
        Ok(child) => child,
        Err(sentence) => return Ok(told(&sentence)),
    };
    let is_typed = matches!(events, Input::Standard) && isatty(events.as_raw_fd()) == Ok(true);
    let events = Events { input: &events, held: Vec::new() };
    Day { program: &program, child, sheet: &sheet, name: events_file, number: 0, typed: is_typed.then(Vec::new), keeper: None }.whole(events)
}

/// Where events come from, and what has come and was not handed over yet.
pub struct Events<'a> {
    pub input: &'a Input,
    pub held: Vec<u8>,
}

pub struct Day<'a> {
    pub program: &'a Program,
    pub child: Child,
    pub sheet: &'a [u8],
    pub name: &'a OsStr,
    /// Events that were handed over.
    pub number: u64,
    /// What was typed by now, for a person at a keyboard.
    pub typed: Option<Vec<Vec<u8>>>,
    pub keeper: Option<Keeper<'a>>,
}

/// A line longer than any event is handed over without its end.
const LONGEST: usize = 4096;

impl Day<'_> {
    pub fn whole(mut self, events: Events<'_>) -> Result<Status, Stop> {
        let ended = self.send(&super::frame_pair(self.sheet, b"")).and_then(|()| self.hold(events));
        self.end();
        ended
    }

    /// Event by event, to the end of the day.
    fn hold(&mut self, events: Events<'_>) -> Result<Status, Stop> {
        let (from, mut held) = (events.input.as_raw_fd(), events.held);
        let mut room = vec![0; 65536];
        // Whether what comes next still belongs to a line that begins with #. The program passes over such a line and says nothing.
        let mut in_remark = false;
        loop {
            let mut done = 0;
            while let Some(length) = length_of_event(&held[done..]) {
                let line = &held[done..done + length];
                if in_remark || line.starts_with(b"#") {
                    self.send(line)?;
                    in_remark = !line.ends_with(b"\n");
                } else if let Some(status) = self.event(line)? {
                    return Ok(status);
                }
                done += length;
            }
            held.drain(..done);
            self.wait_for(from)?;
            match input::read(from, &mut room) {
                Ok(0) => return self.evening(&held),
                Ok(count) => held.extend_from_slice(&room[..count]),
                Err(errno) => return failed(cannot_read(self.name, &io::Error::from(errno))),
            }
        }
    }

    /// One event and its answer; the status where it ends the day.
    fn event(&mut self, line: &[u8]) -> Result<Option<Status>, Stop> {
        self.number += 1;
        self.send(line)?;
        let answer = self.receive(is_whole)?;
        put(&answer)?;
        match refusal(&answer) {
            Some(refused) if refused.number == 11 => {
                self.no_event(&refused);
                self.again()
            }
            Some(refused) => {
                let event = format!("{}: event {}, {}", shown(self.name), self.number, words::in_quotes(&words::visible(&line[..line.len() - 1])));
                say_refused(&event, &refused, &words::desk::words(&refused, line, self.sheet));
                self.remember(line);
                Ok(None)
            }
            None => {
                self.remember(line);
                self.keeper.as_mut().map_or(Ok(()), |keeper| keeper.keep(line, &answer))?;
                Ok(None)
            }
        }
    }

    fn remember(&mut self, line: &[u8]) {
        if let Some(typed) = &mut self.typed {
            typed.push(line.to_vec());
        }
    }

    /// After a line that is no event the program has ended. At a keyboard another takes its place, and the events before bring it to where that was; such a
    /// line does not count.
    fn again(&mut self) -> Result<Option<Status>, Stop> {
        let typed = match self.typed.take() {
            Some(typed) => typed,
            None => return Ok(Some(Status::Refused)),
        };
        self.end();
        self.child = self.program.start(Stdio::inherit()).or_else(failed)?;
        self.send(&super::frame_pair(self.sheet, b""))?;
        for line in &typed {
            self.send(line)?;
            self.receive(is_whole)?;
        }
        self.number = typed.len() as u64;
        self.typed = Some(typed);
        Ok(None)
    }

    /// What is left without a line feed is no event.
    fn evening(&mut self, rest: &[u8]) -> Result<Status, Stop> {
        self.send(rest)?;
        self.child.stdin = None;
        let answer = self.receive(|_| false)?;
        put(&answer)?;
        match refusal(&answer) {
            Some(refused) => {
                self.no_event(&refused);
                Ok(Status::Refused)
            }
            None if answer.starts_with(b"waiting=") && answer.ends_with(b"\n") => Ok(Status::Answered),
            None => self.no_answer(),
        }
    }

    fn no_event(&self, refused: &Refusal) {
        let words = format!(
            "event {} is not file=OFFICE,FILE,COUNT, withdraw=OFFICE,NUMBER or board=HEAD,TURN and a line feed; the day {}",
            refused.place,
            if self.typed.is_some() { "goes on" } else { "ends there" }
        );
        say_refused(&shown(self.name), refused, &words);
    }

    // ---- With the program ----

    /// A program that takes no more has ended the day, and its answer says why.
    fn send(&mut self, text: &[u8]) -> Result<(), Stop> {
        match self.child.stdin.as_ref().map_or(Ok(()), |to| write_all(to.as_raw_fd(), text)) {
            Ok(()) | Err(Errno::EPIPE) => Ok(()),
            Err(errno) => failed(format!("cannot speak with a program: {}", reason(&io::Error::from(errno)))),
        }
    }

    fn receive(&mut self, is_whole: fn(&[u8]) -> bool) -> Result<Vec<u8>, Stop> {
        let mut answer = Vec::new();
        let mut room = [0; 8192];
        while !is_whole(&answer) {
            let from = self.child.stdout.as_ref().map_or(-1, AsRawFd::as_raw_fd);
            match input::read(from, &mut room) {
                Ok(0) => break,
                Ok(count) => answer.extend_from_slice(&room[..count]),
                Err(errno) => return failed(format!("cannot speak with a program: {}", reason(&io::Error::from(errno)))),
            }
        }
        if answer.is_empty() {
            return self.no_answer();
        }
        Ok(answer)
    }

    fn no_answer<T>(&mut self) -> Result<T, Stop> {
        match self.child.wait() {
            Ok(ended) => failed(self.program.no_answer(ended)),
            Err(error) => failed(format!("cannot wait for a program: {}", reason(&error))),
        }
    }

    /// Until there is an event, or its end; or nobody reads the answers any more, or the program has ended.
    fn wait_for(&mut self, events: RawFd) -> Result<(), Stop> {
        let program = self.child.stdout.as_ref().map_or(-1, AsRawFd::as_raw_fd);
        loop {
            let mut ends = [PollFd::new(events, PollFlags::POLLIN), PollFd::new(program, PollFlags::empty()), PollFd::new(1, PollFlags::empty())];
            match poll(&mut ends, -1) {
                Ok(_) => {}
                Err(Errno::EINTR) => continue,
                Err(errno) => return failed(format!("cannot wait for events: {}", reason(&io::Error::from(errno)))),
            }
            if output::reader_has_gone() {
                return output::cannot_write(Errno::EPIPE);
            }
            let seen = |end: &PollFd| end.revents().map_or(false, |flags| !flags.is_empty());
            if seen(&ends[0]) {
                return Ok(());
            }
            if seen(&ends[1]) {
                return self.no_answer();
            }
        }
    }

    fn end(&mut self) {
        let _ = self.child.kill();
        let _ = self.child.wait();
    }
}

/// How long the first event is, where it is whole.
fn length_of_event(held: &[u8]) -> Option<usize> {
    match held.iter().position(|&byte| byte == b'\n') {
        Some(at) => Some(at + 1),
        None if held.len() >= LONGEST => Some(held.len()),
        None => None,
    }
}

/// Whether an answer is there to its end: its first lines say how many follow.
fn is_whole(answer: &[u8]) -> bool {
    if !answer.ends_with(b"\n") {
        return false;
    }
    let lines: Vec<&[u8]> = lines(answer).collect();
    let numbers = |line: &[u8]| -> usize {
        let text = String::from_utf8_lossy(line);
        text.split_once('=').map_or(0, |(_, value)| value.split(',').filter_map(|part| part.parse::<usize>().ok()).sum())
    };
    let first = lines.first().copied().unwrap_or_default();
    if first.starts_with(b"refused=") {
        return lines.len() >= 2;
    }
    if first.starts_with(b"boarded=") {
        return lines.get(4).map_or(false, |detours| lines.len() >= 5 + numbers(detours) + numbers(first));
    }
    true
}

#[cfg(test)]
mod tests {
    use super::*;

    #[test]
    fn answers_by_parts() {
        let whole = b"boarded=1,1\nsum=1\nfinish=1\nend=1\ndetours=1\ndetour=2,2\nticket=1,1,2,3,55,1\nticket=2,2,3,1,91,1\n";
        for at in 0..whole.len() {
            assert!(!is_whole(&whole[..at]), "{at}");
        }
        assert!(is_whole(whole));
        assert!(!is_whole(b"refused=11\n") && is_whole(b"refused=11\nplace=1\n") && is_whole(b"filed=1,1\n"));
    }
}
