//! explain: what the programs print of a run, arranged for a person.

use super::{say_refused, told, Call, Explain, SHEET};
use crate::answers::refusal;
use crate::explain::picture::Beside;
use crate::explain::schedule::{self, Names};
use crate::explain::{picture, table, Plan, Texts};
use crate::input::take;
use crate::output::put;
use crate::programs::Program;
use crate::say::{reason, shown};
use crate::status::{Status, Stop};
use crate::words;
use crate::words::sheet::By;
use std::ffi::OsStr;

/// More than any text of names has.
const NAMES: usize = 1 << 26;

pub fn answer(asked: &Explain, call: &Call) -> Result<Status, Stop> {
    let run = &asked.run;
    let (sheet, names) = match take(run, SHEET, &call.began).and_then(|sheet| Ok((sheet, names(asked.names.as_deref(), call)?))) {
        Ok(texts) => texts,
        Err(sentence) => return Ok(told(&sentence)),
    };
    let mut answers = Vec::new();
    for name in ["cmd_plan_any", "cmd_buys_any", "cmd_price"] {
        let program = Program::ready(name, call)?;
        let asked = if name == "cmd_price" { program.ask_pair(&sheet, b"") } else { program.ask(&sheet) };
        let answer = match asked {
            Ok(printed) => printed.answer,
            Err(sentence) => return Ok(told(&sentence)),
        };
        // What the plan takes, the figures and the price of the empty list take.
        if let Some(refused) = refusal(&answer) {
            put(&answer)?;
            say_refused(&shown(run), &refused, &words::of_plan(&refused, &sheet, By::Explain));
            return Ok(Status::Refused);
        }
        answers.push(answer);
    }
    let plan = Plan::read(&Texts { run: &sheet, plan: &answers[0], buys: &answers[1], sweep: &answers[2] });
    if let (Some(file), Err(why)) = (&asked.names, names.fit(&plan)) {
        return Ok(told(&format!("{}: {why}", shown(file))));
    }
    if let Some(file) = &asked.picture {
        if let Err(error) = std::fs::write(file, picture::draw(&plan, &Beside { names: &names, speed: asked.speed, in_bytes: false })) {
            return Ok(told(&format!("cannot write {}: {}", shown(file), reason(&error))));
        }
    }
    put(table::draw(&plan).as_bytes())?;
    if asked.names.is_some() || asked.speed.is_given() {
        put(format!("\n{}", schedule::draw(&plan, &names, asked.speed)).as_bytes())?;
    }
    Ok(Status::Answered)
}

fn names(file: Option<&OsStr>, call: &Call) -> Result<Names, String> {
    match file {
        None => Ok(Names::default()),
        Some(file) => Names::read(&take(file, NAMES, &call.began)?).map_err(|why| format!("{}, {why}", shown(file))),
    }
}
