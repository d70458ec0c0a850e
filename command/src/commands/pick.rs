//! pick: from file names to a run sheet. The proved call does it all; what stands here has the texts lie in memory and says refusals in words.

use super::{say_refused, told, Call};
use crate::answers::Refusal;
use crate::build;
use crate::input::{whole, Bytes};
use crate::library::{pick, Picked, Picking, LINKED};
use crate::output::put;
use crate::say::{reason, shown};
use crate::status::{failed, Status, Stop};
use crate::words;
use std::ffi::{OsStr, OsString};
use std::os::unix::ffi::OsStrExt;

/// The words that pick and recall share.
pub struct Pick {
    pub tape: OsString,
    pub label: OsString,
    pub index: OsString,
    pub list: OsString,
    pub blocks: bool,
    pub head: Option<u64>,
    pub turn: Option<u64>,
}

/// The three texts of a call.
pub struct Texts {
    label: Bytes,
    index: Bytes,
    pub list: Bytes,
}

pub fn answer(asked: &Pick, names: Option<&OsStr>, call: &Call) -> Result<Status, Stop> {
    let texts = match asked.texts(call)? {
        Ok(texts) => texts,
        Err(status) => return Ok(status),
    };
    let picked = match asked.pick(&texts) {
        Ok(picked) => picked,
        Err(refused) => {
            put(&refused.text())?;
            say_refused(&shown(&asked.tape), &refused, &asked.words(&refused, &texts));
            return Ok(Status::Refused);
        }
    };
    if let Some(file) = names {
        if let Err(error) = std::fs::write(file, &picked.names) {
            return Ok(told(&format!("cannot write {}: {}", shown(file), reason(&error))));
        }
    }
    put(&picked.run)?;
    Ok(Status::Answered)
}

impl Pick {
    /// Once the call is there, and each can be read; every one that cannot is told.
    pub fn texts(&self, call: &Call) -> Result<Result<Texts, Status>, Stop> {
        ready(call)?;
        let took = [&self.label, &self.index, &self.list].map(|name| whole(name, &call.began));
        Ok(match took {
            [Ok(label), Ok(index), Ok(list)] => Ok(Texts { label, index, list }),
            faults => Err(faults.into_iter().filter_map(Result::err).fold(Status::Failed, |worst, sentence| worst.and(told(&sentence)))),
        })
    }

    pub fn pick(&self, texts: &Texts) -> Result<Picked, Refusal> {
        let Pick { blocks, head, turn, .. } = *self;
        pick(&Picking { tape: self.tape.as_bytes(), label: &texts.label, index: &texts.index, list: &texts.list, blocks, head, turn })
    }

    pub fn words(&self, refused: &Refusal, texts: &Texts) -> String {
        if refused.number == 13 {
            return format!("the tape name {} is not 1 to 16 of A-Z and 0-9", words::in_quotes(&words::visible(self.tape.as_bytes())));
        }
        let (label_name, index_name, name) = (shown(&self.label), shown(&self.index), shown(&self.list));
        let tape = words::ltfs::Tape { label: &texts.label, label_name, index: &texts.index, index_name, bytes_in_all: 0 };
        words::ltfs::list::words(refused, &words::ltfs::list::List { tape, text: &texts.list, name, blocks: self.blocks })
    }
}

/// In a checkout the library is made, and this command compiled with it, where that has not been.
fn ready(call: &Call) -> Result<(), Stop> {
    if !call.places.installed {
        build::linked(call)?;
    }
    if LINKED {
        return Ok(());
    }
    failed("this command was compiled without the library's call for files by name, which is for x86-64")
}
