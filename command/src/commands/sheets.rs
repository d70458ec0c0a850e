//! plan, field, buys, rewrite and mend: each run sheet by a program of its own; plan --any and buys --any by others than without.

use super::{say_refused, told, Call, SHEET};
use crate::answers::{refusal, Refusal};
use crate::input::take;
use crate::output::put;
use crate::programs::Program;
use crate::say::{quoted, reason, shown};
use crate::status::{Status, Stop};
use crate::words::sheet::By;
use crate::{json, say, words};
use std::ffi::{OsStr, OsString};

pub struct Sheets<'a> {
    command: &'a str,
    /// plan --any, buys --any.
    any: bool,
    several: bool,
    json: bool,
    program: Option<Program>,
    pub call: &'a Call,
}

pub fn answer(command: &str, any: bool, files: &[OsString], json: bool, call: &Call) -> Result<Status, Stop> {
    let mut sheets = Sheets { command, any, several: files.len() > 1, json, program: None, call };
    let mut worst = Status::Answered;
    for file in files {
        worst = worst.and(sheets.answer(file)?);
    }
    Ok(worst)
}

fn program_of(command: &str, any: bool) -> &'static str {
    match command {
        "field" => "cmd_field",
        "buys" if any => "cmd_buys_any",
        "buys" => "cmd_buys",
        "rewrite" => "cmd_rewrite",
        "mend" => "cmd_mend",
        _ if any => "cmd_plan_any",
        _ => "cmd_plan",
    }
}

impl<'a> Sheets<'a> {
    /// For whoever plans by itself, and gives its answers as plan --any does.
    pub fn of_plan_any(several: bool, call: &'a Call) -> Sheets<'a> {
        Sheets { command: "plan", any: true, several, json: false, program: None, call }
    }

    fn answer(&mut self, file: &OsStr) -> Result<Status, Stop> {
        let sheet = match take(file, SHEET, &self.call.began) {
            Ok(sheet) => sheet,
            Err(sentence) => return Ok(told(&sentence)),
        };
        // Nothing is built for a call that cannot be answered.
        let program = Program::kept(&mut self.program, program_of(self.command, self.any), self.call)?;
        match program.ask(&sheet) {
            Err(sentence) => Ok(told(&sentence)),
            Ok(printed) => {
                let aside = self.put_aside(file, &printed.aside);
                Ok(aside.and(self.give(file, &sheet, &printed.answer)?))
            }
        }
    }

    /// What the program says on standard error is part of its answer.
    pub fn put_aside(&self, file: &OsStr, aside: &[u8]) -> Status {
        if aside.is_empty() {
            return Status::Answered;
        }
        let text = [self.heading(file).as_bytes(), aside].concat();
        match say::bytes(&text) {
            Ok(()) => Status::Answered,
            Err(error) => told(&format!("cannot write to standard error: {}", reason(&error))),
        }
    }

    fn heading(&self, file: &OsStr) -> String {
        if self.several {
            format!("sheet={}\n", quoted(file))
        } else {
            String::new()
        }
    }

    pub fn give(&self, file: &OsStr, sheet: &[u8], answer: &[u8]) -> Result<Status, Stop> {
        let why = refusal(answer).map(|refused| (self.words(&refused, sheet), refused));
        if self.json {
            let name = if self.several { Some(quoted(file)) } else { None };
            put(json::sheet(self.command, answer, name, why.as_ref().map(|(words, _)| words.as_str())).as_bytes())?;
        } else {
            put(&[self.heading(file).as_bytes(), answer].concat())?;
        }
        Ok(match why {
            None => Status::Answered,
            Some((words, refused)) => {
                say_refused(&shown(file), &refused, &words);
                Status::Refused
            }
        })
    }

    fn words(&self, refused: &Refusal, sheet: &[u8]) -> String {
        match self.command {
            "mend" => words::loose::words(refused, sheet),
            "plan" => words::of_plan(refused, sheet, if self.any { By::PlanAny } else { By::Plan }),
            "buys" => words::of_plan(refused, sheet, if self.any { By::BuysAny } else { By::Buys }),
            _ => words::of_sheet(refused, sheet),
        }
    }
}
