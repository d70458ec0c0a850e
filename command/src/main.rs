//! violstream: plan the recall of files from tape, at a terminal.
//!
//! The answers are the proved programs' (`cmd_plan` and the others): they are run as they are, and what they print goes through byte for byte.
//! What stands here reads files, says refusals in words, draws, builds and installs. No planning is done here, and nothing is worked out that an
//! answer depends on.
//!
//! Exit status: 0 answered; 3 refused, or a check that answers no; 1 something could not be read, written or built; 2 wrong usage.
#![cfg_attr(not(test), no_main)]
#![deny(unsafe_code)]

mod answers;
mod boarding;
mod book;
mod build;
mod clock;
mod commands;
mod deb;
mod explain;
mod help;
mod input;
mod install;
mod json;
mod library;
mod output;
mod places;
mod programs;
mod say;
mod serve;
mod status;
mod system;
mod usage;
mod violstream;
mod words;

use status::{Status, Stop};

/// The whole of a call; the number with which it ends. It is called once `system` has looked at what was given.
#[cfg_attr(test, allow(dead_code))]
fn run(began: system::Began) -> i32 {
    answer(began).unwrap_or_else(tell).number()
}

fn answer(began: system::Began) -> Result<Status, Stop> {
    if !began.output_is_open {
        return status::failed("standard output is closed");
    }
    let places = places::Places::find()?;
    let asked = usage::read(std::env::args_os().skip(1), &places)?;
    let status = commands::answer(&asked, &commands::Call { began, places })?;
    output::finish()?;
    Ok(status)
}

fn tell(stop: Stop) -> Status {
    match stop {
        Stop::Failed(sentence) => {
            say::say(&sentence);
            Status::Failed
        }
        Stop::Misused { sentence, usage } => {
            say::say(&sentence);
            say::line(&usage);
            Status::Misused
        }
    }
}
