//! price and check: a run sheet, and a list or a plan sheet beside it.

use super::{say_refused, told, Call, SHEET};
use crate::answers::{refusal, says_no, Refusal};
use crate::input::take;
use crate::json;
use crate::output::put;
use crate::programs::Program;
use crate::say::shown;
use crate::status::{Status, Stop};
use crate::words;
use crate::words::sheet::By;
use std::ffi::OsStr;

pub fn answer(command: &str, run: &OsStr, other: &OsStr, as_json: bool, call: &Call) -> Result<Status, Stop> {
    let (sheet, list) = match (take(run, SHEET, &call.began), take(other, SHEET, &call.began)) {
        (Ok(sheet), Ok(list)) => (sheet, list),
        (sheet, list) => {
            let faults = [sheet.err(), list.err()];
            return Ok(faults.iter().flatten().fold(Status::Failed, |worst, sentence| worst.and(told(sentence))));
        }
    };
    let program = Program::ready(if command == "price" { "cmd_price" } else { "cmd_check" }, call)?;
    let answer = match program.ask_pair(&sheet, &list) {
        Ok(printed) => printed.answer,
        Err(sentence) => return Ok(told(&sentence)),
    };
    let refused = refusal(&answer);
    let words = match &refused {
        Some(refused) => Some(words_of(refused, &sheet, &list, &shown(other), call)?),
        None => None,
    };
    if as_json {
        put(json::check(&answer, words.as_deref()).as_bytes())?;
    } else {
        put(&answer)?;
    }
    Ok(match (refused, words) {
        (Some(refused), Some(words)) => {
            say_refused(&shown(run), &refused, &words);
            Status::Refused
        }
        _ if says_no(&answer) => Status::Refused,
        _ => Status::Answered,
    })
}

/// Whose a refusal is, the run sheet's or the other's, price says of the run sheet with no list.
fn words_of(refused: &Refusal, sheet: &[u8], list: &[u8], name: &str, call: &Call) -> Result<String, Stop> {
    let of_list = match refused.number {
        10 => true,
        11 | 12 => {
            let alone = Program::ready("cmd_price", call)?.ask_pair(sheet, b"");
            alone.map_or(true, |printed| refusal(&printed.answer).as_ref() != Some(refused))
        }
        _ => false,
    };
    Ok(if of_list { words::list::words(refused, list, name) } else { words::of_plan(refused, sheet, By::Check) })
}
