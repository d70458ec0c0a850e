//! month: one page over many run sheets. They come as one input, each behind a line with its byte count, or as files of their own.

use super::{say_refused, told, Call, SHEET};
use crate::answers::{refusal, refusal_at_end, Refusal};
use crate::input::{self, cannot_read, take, tell_if_keyboard, Input};
use crate::json;
use crate::output::put;
use crate::programs::{Fault, Printed, Program};
use crate::say::{say, shown};
use crate::status::{Status, Stop};
use crate::words;
use std::ffi::{OsStr, OsString};
use std::io;
use std::os::unix::io::AsRawFd;

pub fn answer(files: &[OsString], as_json: bool, call: &Call) -> Result<Status, Stop> {
    match files {
        [file] => one(file, as_json, call),
        _ => several(files, as_json, call),
    }
}

/// A file that begins as a run sheet does is one; any other is the input of a month, which is read part by part and may be of any length.
fn one(file: &OsStr, as_json: bool, call: &Call) -> Result<Status, Stop> {
    let opened = match input::open(file, &call.began) {
        Ok(opened) => opened,
        Err(sentence) => return Ok(told(&sentence)),
    };
    if let Input::Named(handle) = &opened {
        if handle.metadata().map_or(false, |about| about.is_dir()) {
            return Ok(told(&format!("cannot read {}: it is a folder", shown(file))));
        }
    } else {
        tell_if_keyboard(&opened, "reading standard input, which is the keyboard; Ctrl-D on a new line ends it");
    }
    let begin = match first_bytes(&opened) {
        Ok(begin) => begin,
        Err(error) => return Ok(told(&cannot_read(file, &error))),
    };
    if begin == b"tape=" && file != "-" {
        return several(&[file.to_os_string()], as_json, call);
    }
    let program = Program::ready("cmd_month", call)?;
    let printed = program.answer(&begin, Some(opened.as_raw_fd()));
    give(printed, file, as_json)
}

fn first_bytes(opened: &Input) -> io::Result<Vec<u8>> {
    let mut begin = Vec::new();
    let mut room = [0; 5];
    while begin.len() < room.len() {
        let most = room.len() - begin.len();
        match input::read(opened.as_raw_fd(), &mut room[..most])? {
            0 => break,
            count => begin.extend_from_slice(&room[..count]),
        }
    }
    Ok(begin)
}

fn give(printed: Result<Printed, Fault>, file: &OsStr, as_json: bool) -> Result<Status, Stop> {
    let page = match printed {
        Ok(printed) => printed.answer,
        Err(Fault::Reading(errno)) => return Ok(told(&cannot_read(file, &io::Error::from(errno)))),
        Err(Fault::Program(sentence)) => return Ok(told(&sentence)),
    };
    let refused = refusal_at_end(&page).filter(|refused| refused.number == 25);
    let words = refused.as_ref().map(words_of);
    if as_json {
        put(json::month(&page, words.as_deref()).as_bytes())?;
    } else {
        put(&page)?;
    }
    Ok(match (refused, words) {
        (Some(refused), Some(words)) => {
            say_refused(&shown(file), &refused, &words);
            Status::Refused
        }
        _ => Status::Answered,
    })
}

fn words_of(refused: &Refusal) -> String {
    format!(
        "sheet {}: no byte count and an LF stand there, or fewer bytes than it says, or it is the 1,001st; the page covers the sheets before it",
        refused.place
    )
}

// ---- Run sheets as files ----

/// A page that lacks a sheet would be no page of the month: where one cannot be read, none is printed.
fn several(files: &[OsString], as_json: bool, call: &Call) -> Result<Status, Stop> {
    let mut sheets = Vec::new();
    let mut worst = Status::Answered;
    for file in files {
        match take(file, SHEET, &call.began) {
            Ok(sheet) => sheets.push((file.as_os_str(), sheet)),
            Err(sentence) => worst = worst.and(told(&sentence)),
        }
    }
    if worst != Status::Answered {
        return Ok(worst);
    }
    let text: Vec<u8> = sheets.iter().flat_map(|(_, sheet)| super::frame_pair(sheet, b"")).collect();
    let printed = Program::ready("cmd_month", call)?.answer(&text, None);
    let status = give(printed, OsStr::new("the files"), as_json)?;
    if status == Status::Failed {
        return Ok(status);
    }
    Ok(status.and(tell_of_each(&sheets, call)?))
}

/// Names the sheets that were refused, and warns of two units. A refused sheet is counted on the page, and is no refusal of the month.
fn tell_of_each(sheets: &[(&OsStr, Vec<u8>)], call: &Call) -> Result<Status, Stop> {
    let program = Program::ready("cmd_plan", call)?;
    let mut planned = Vec::new();
    for (file, sheet) in sheets.iter().take(1000) {
        let answer = match program.ask(sheet) {
            Ok(printed) => printed.answer,
            Err(sentence) => return Ok(told(&sentence)),
        };
        match refusal(&answer) {
            Some(refused) => {
                say_refused(&shown(file), &refused, &words::of_sheet(&refused, sheet));
            }
            None => planned.push((*file, turn_of(sheet))),
        }
    }
    warn_of_two_units(&planned);
    Ok(Status::Answered)
}

/// The turn price is the one number on a sheet that is the drive's own and not the run's.
fn turn_of(sheet: &[u8]) -> String {
    let line = sheet.split(|&byte| byte == b'\n').nth(2).and_then(|line| line.strip_prefix(b"turn=")).unwrap_or_default();
    if line.is_empty() {
        "12000".to_string()
    } else {
        words::visible(line)
    }
}

fn warn_of_two_units(planned: &[(&OsStr, String)]) {
    let first = match planned.first() {
        Some(first) => first,
        None => return,
    };
    if let Some((file, turn)) = planned.iter().find(|(_, turn)| *turn != first.1) {
        say(&format!(
            "warning: {} has turn={} and {} turn={turn}: where both are of one drive they are written in two units, and the page adds them up all the same",
            shown(first.0),
            first.1,
            shown(file)
        ));
    }
}
