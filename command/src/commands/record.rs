//! record: each run is planned as plan --any plans it, and what was asked and answered goes into a book before it is printed.

use super::sheets::Sheets;
use super::{told, Call, SHEET};
use crate::book::{Book, MOST_KEPT};
use crate::input::take;
use crate::programs::Program;
use crate::say::shown;
use crate::status::{Status, Stop};
use std::ffi::{OsStr, OsString};

pub fn answer(book: &OsStr, by: Option<&str>, files: &[OsString], call: &Call) -> Result<Status, Stop> {
    let book = Book::of(book, by, call)?;
    let sheets = Sheets::of_plan_any(files.len() > 1, call);
    let mut program = None;
    let mut worst = Status::Answered;
    for file in files {
        worst = worst.and(one(file, &book, &sheets, &mut program)?);
    }
    Ok(worst)
}

fn one(file: &OsStr, book: &Book, sheets: &Sheets, program: &mut Option<Program>) -> Result<Status, Stop> {
    let run = match take(file, MOST_KEPT + 1, &sheets.call.began) {
        Ok(run) if run.len() > MOST_KEPT => return Ok(told(&format!("{} has over {MOST_KEPT} bytes, and no book takes that", shown(file)))),
        Ok(run) => run,
        Err(sentence) => return Ok(told(&sentence)),
    };
    let printed = Program::kept(program, "cmd_plan_any", sheets.call)?.ask(&run[..run.len().min(SHEET)]);
    match printed.and_then(|printed| book.add(&run, &printed.answer).map(|_| printed)) {
        Ok(printed) => Ok(sheets.put_aside(file, &printed.aside).and(sheets.give(file, &run[..run.len().min(SHEET)], &printed.answer)?)),
        Err(sentence) => Ok(told(&sentence)),
    }
}
