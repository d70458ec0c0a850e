//! serve: the sheet is judged by the proved desk, the journal replayed, the windows opened; then the server is at work.

use super::{say_refused, told, Call, Serve, SHEET};
use crate::answers::refusal;
use crate::book::Book;
use crate::build;
use crate::input::take;
use crate::library::Library;
use crate::output::put;
use crate::programs::Program;
use crate::say::{quoted, reason, say, shown};
use crate::serve::{hold_signals, serve, tape_of, Desk, Follower, Journal, Windows};
use crate::status::{failed, Status, Stop};
use crate::words;
use nix::unistd::{Gid, Group};
use std::ffi::OsString;
use std::path::Path;

pub fn answer(asked: &Serve, call: &Call) -> Result<Status, Stop> {
    let sheet = match take(&asked.sheet, SHEET, &call.began) {
        Ok(sheet) => sheet,
        Err(sentence) => return Ok(told(&sentence)),
    };
    let folder = Path::new(&asked.windows);
    if !folder.is_dir() {
        return failed(format!("there is no folder {} for the windows", quoted(&asked.windows)));
    }
    let groups = [group(&asked.groups[0])?, group(&asked.groups[1])?, group(&asked.groups[2])?];
    let library = library(call)?;
    let morning = match Program::ready("cmd_desk", call)?.ask_pair(&sheet, b"") {
        Ok(printed) => printed.answer,
        Err(sentence) => return Ok(told(&sentence)),
    };
    if let Some(refused) = refusal(&morning) {
        put(&morning)?;
        say_refused(&shown(&asked.sheet), &refused, &words::of_sheet(&refused, &sheet));
        return Ok(Status::Refused);
    }
    let signals = hold_signals()?;
    let journal = Journal::open(Path::new(&asked.journal))?;
    let book = asked.book.as_ref().map(|book| Book::of(book, Some("serve"), call)).transpose()?;
    let follower = book.map(|book| Follower::new(book, &sheet));
    let (desk, events) = Desk::open(library, tape_of(&sheet), journal, &sheet, follower)?;
    let windows = Windows::open(folder, groups)?;
    let where_ = quoted(&asked.windows);
    say(&format!("serving at {where_}/office1, {where_}/office2 and {where_}/operator; events in the journal: {events}"));
    serve(desk, windows, &signals)
}

/// A group of the system by its name.
fn group(name: &Option<OsString>) -> Result<Option<Gid>, Stop> {
    let name = match name {
        Some(name) => name,
        None => return Ok(None),
    };
    match Group::from_name(&name.to_string_lossy()) {
        Ok(Some(group)) => Ok(Some(group.gid)),
        Ok(None) => failed(format!("there is no group {}", quoted(name))),
        Err(errno) => failed(format!("cannot look up the group {}: {}", quoted(name), reason(&errno.into()))),
    }
}

/// The proved calls, or what to do for them.
fn library(call: &Call) -> Result<Library, Stop> {
    if !call.places.installed {
        build::linked(call)?;
    }
    match Library::open() {
        Some(library) => Ok(library),
        None if !cfg!(target_arch = "x86_64") => {
            failed(format!("serve needs the proved library, which is for x86-64, and this machine is {}", std::env::consts::ARCH))
        }
        None if call.places.installed => failed(
            "this command was installed without the library's calls that serve needs; ./violstream install, in a checkout, installs it with them",
        ),
        None => {
            failed("the library has no calls for serve: update the sources; serve then has the library made anew, and the command compiled with it")
        }
    }
}
