//! ltfs: the run sheet of a tape, from its name, its label and its index.

use super::{say_refused, told, Call};
use crate::answers::{refusal, Refusal};
use crate::input::take;
use crate::output::put;
use crate::programs::Program;
use crate::say::{self, reason, shown};
use crate::status::{Status, Stop};
use crate::words;
use std::ffi::OsStr;
use std::os::unix::ffi::OsStrExt;

/// The most that is read of either text: a byte more than both may have.
const MOST: usize = 524_289;

pub fn answer(tape: &OsStr, label: &OsStr, index: &OsStr, call: &Call) -> Result<Status, Stop> {
    let (first, second) = match (take(label, MOST, &call.began), take(index, MOST, &call.began)) {
        (Ok(first), Ok(second)) => (first, second),
        (first, second) => {
            let faults = [first.err(), second.err()];
            return Ok(faults.iter().flatten().fold(Status::Failed, |worst, sentence| worst.and(told(sentence))));
        }
    };
    let framed = frame(tape, &first, &second);
    let printed = match Program::ready("cmd_ltfs", call)?.ask(&framed) {
        Ok(printed) => printed,
        Err(sentence) => return Ok(told(&sentence)),
    };
    let aside = match say::bytes(&printed.aside) {
        Ok(()) => Status::Answered,
        Err(error) => told(&format!("cannot write to standard error: {}", reason(&error))),
    };
    put(&printed.answer)?;
    Ok(aside.and(match refusal(&printed.answer) {
        None => Status::Answered,
        Some(refused) => {
            let texts =
                words::ltfs::Tape { label: &first, label_name: shown(label), index: &second, index_name: shown(index), bytes_in_all: framed.len() };
            say_refused(&shown(tape), &refused, &words_of(&refused, tape, &texts));
            Status::Refused
        }
    }))
}

fn words_of(refused: &Refusal, tape: &OsStr, texts: &words::ltfs::Tape) -> String {
    if refused.number == 13 {
        return format!("the tape name {} is not 1 to 16 of A-Z and 0-9", words::in_quotes(&words::visible(tape.as_bytes())));
    }
    words::ltfs::words(refused, texts)
}

/// Each text behind a line with its size. A name of several lines is handed on in one, which is no tape's name either.
fn frame(tape: &OsStr, label: &[u8], index: &[u8]) -> Vec<u8> {
    let name: Vec<u8> = tape.as_bytes().iter().map(|&byte| if byte == b'\n' { b' ' } else { byte }).collect();
    let before_label = format!("\nlabel={}\n", label.len());
    let before_index = format!("index={}\n", index.len());
    [&b"tape="[..], &name, before_label.as_bytes(), label, before_index.as_bytes(), index].concat()
}
