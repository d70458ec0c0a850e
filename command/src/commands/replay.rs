//! desk --replay: a journal of the server once more, by the proved desk alone, which passes over the lines that begin with #. With --keep the run sheet
//! and the plan sheet of each boarding are left for check.

use super::desk::{Day, Events};
use super::{say_refused, told, Call, SHEET};
use crate::answers::refusal;
use crate::boarding::{boards, Boarding};
use crate::input::{self, cannot_read, Input};
use crate::output::put;
use crate::programs::{Fault, Program};
use crate::say::{quoted, reason, shown};
use crate::status::{failed, Status, Stop};
use crate::words;
use std::ffi::OsStr;
use std::fs::OpenOptions;
use std::io::{self, Write};
use std::os::unix::io::AsRawFd;
use std::path::Path;
use std::process::Stdio;

pub fn answer(journal_file: &OsStr, keep: Option<&OsStr>, call: &Call) -> Result<Status, Stop> {
    let journal = match input::open(journal_file, &call.began) {
        Ok(journal) => journal,
        Err(sentence) => return Ok(told(&sentence)),
    };
    if let Some(folder) = keep.filter(|folder| !Path::new(folder).is_dir()) {
        return failed(format!("there is no folder {} to keep sheets in", quoted(folder)));
    }
    let program = Program::ready("cmd_desk", call)?;
    let mut held = Vec::new();
    let sheet = match front(&journal, &mut held) {
        Ok(sheet) => sheet,
        Err(error) => return Ok(told(&cannot_read(journal_file, &error))),
    };
    let judged = match &sheet {
        Some(sheet) => program.ask_pair(sheet, b""),
        // The program says what it is.
        None => program.answer(&held, Some(journal.as_raw_fd())).map_err(|fault| match fault {
            Fault::Program(sentence) => sentence,
            Fault::Reading(errno) => cannot_read(journal_file, &io::Error::from(errno)),
        }),
    };
    let morning = match judged {
        Ok(printed) => printed.answer,
        Err(sentence) => return Ok(told(&sentence)),
    };
    let sheet = sheet.unwrap_or_default();
    if let Some(refused) = refusal(&morning) {
        put(&morning)?;
        say_refused(&shown(journal_file), &refused, &words::of_sheet(&refused, &sheet));
        return Ok(Status::Refused);
    }
    let child = match program.start(Stdio::inherit()) {
        Ok(child) => child,
        Err(sentence) => return Ok(told(&sentence)),
    };
    let keeper = keep.map(|folder| Keeper { folder: Path::new(folder), sheet: &sheet, number: 0 });
    let events = Events { input: &journal, held };
    Day { program: &program, child, sheet: &sheet, name: journal_file, number: 0, typed: None, keeper }.whole(events)
}

/// The run sheet at the front of a journal; `held` has what was read behind it. None where there is no such sheet, and `held` has all that was read.
fn front(journal: &Input, held: &mut Vec<u8>) -> io::Result<Option<Vec<u8>>> {
    let count = match until(journal, held, |held| held.iter().position(|&byte| byte == b'\n').map(|at| at + 1).filter(|&at| at < 10))? {
        Some(count) => count,
        None => return Ok(None),
    };
    let number = std::str::from_utf8(&held[..count - 1]).ok().filter(|text| words::is_number(text)).and_then(|text| text.parse::<usize>().ok());
    let size = match number {
        Some(size) if size < SHEET => count + size,
        _ => return Ok(None),
    };
    if until(journal, held, |held| (held.len() >= size).then_some(size))?.is_none() {
        return Ok(None);
    }
    let sheet = held[count..size].to_vec();
    held.drain(..size);
    Ok(Some(sheet))
}

/// Reads until something is found in what was read, as long as a sheet may be.
fn until(journal: &Input, held: &mut Vec<u8>, found: impl Fn(&[u8]) -> Option<usize>) -> io::Result<Option<usize>> {
    let mut room = [0; 8192];
    loop {
        if let Some(at) = found(held) {
            return Ok(Some(at));
        }
        if held.len() > SHEET + 10 {
            return Ok(None);
        }
        match input::read(journal.as_raw_fd(), &mut room)? {
            0 => return Ok(None),
            count => held.extend_from_slice(&room[..count]),
        }
    }
}

/// Writes down what boards, by the answer to it.
pub struct Keeper<'a> {
    folder: &'a Path,
    sheet: &'a [u8],
    number: u64,
}

impl Keeper<'_> {
    pub fn keep(&mut self, event: &[u8], answer: &[u8]) -> Result<(), Stop> {
        if !boards(answer) {
            return Ok(());
        }
        self.number += 1;
        let boarding = Boarding::read(event, answer);
        self.write("run", &boarding.run(&String::from_utf8_lossy(self.sheet)))?;
        self.write("plan", &boarding.plan(&String::from_utf8_lossy(self.sheet)))
    }

    /// Nothing that is there already is overwritten.
    fn write(&self, kind: &str, text: &str) -> Result<(), Stop> {
        let path = self.folder.join(format!("{}.{kind}", self.number));
        let written = OpenOptions::new().write(true).create_new(true).open(&path).and_then(|mut file| file.write_all(text.as_bytes()));
        written.or_else(|error| failed(format!("cannot write {}: {}", quoted(path.as_os_str()), reason(&error))))
    }
}
