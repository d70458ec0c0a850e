//! recall: who gets which file when. It picks, plans any run, and prints a table in the order in which the files are read.

use super::pick::Pick;
use super::{say_refused, told, Call};
use crate::answers::{refusal, Refusal};
use crate::book::Book;
use crate::explain::picture::{self, Beside};
use crate::explain::schedule::{self, Names, Speed};
use crate::explain::{Plan, Texts};
use crate::json;
use crate::library::{in_room, Picked};
use crate::output::put;
use crate::programs::Program;
use crate::say::{quoted, reason, shown};
use crate::status::{failed, Status, Stop};
use crate::words;
use crate::words::sheet::By;
use std::ffi::{OsStr, OsString};
use std::fs::{self, OpenOptions};
use std::io::{self, Write};
use std::path::{Path, PathBuf};

pub struct Recall {
    pub pick: Pick,
    pub speed: Speed,
    pub picture: Option<OsString>,
    pub keep: Option<OsString>,
    pub book: Option<OsString>,
    pub json: bool,
}

pub fn answer(asked: &Recall, call: &Call) -> Result<Status, Stop> {
    if let Some(folder) = asked.keep.as_ref().filter(|folder| !Path::new(folder).is_dir()) {
        return failed(format!("there is no folder {} to keep texts in", quoted(folder)));
    }
    let texts = match asked.pick.texts(call)? {
        Ok(texts) => texts,
        Err(status) => return Ok(status),
    };
    let picked = match asked.pick.pick(&texts) {
        Ok(picked) => picked,
        Err(refused) => return asked.refuse(&refused, &asked.pick.words(&refused, &texts)),
    };
    let book = asked.book.as_ref().map(|book| Book::of(book, None, call)).transpose()?;
    let add = |answer: &[u8]| book.as_ref().map_or(Ok(0), |book| book.add(&picked.run, answer));
    let sheet = in_room("cmd_plan_any", &picked.run, b"").expect("the library that picks plans too");
    if let Some(refused) = refusal(&sheet) {
        add(&sheet).or_else(failed)?;
        return asked.refuse(&refused, &words::of_plan(&refused, &picked.run, By::PlanAny));
    }
    let table = match asked.table(&picked, &sheet, call)? {
        Ok(table) => table,
        Err(sentence) => return Ok(told(&sentence)),
    };
    // What is kept is kept before anybody is told; what is not in the book is not kept either.
    let kept = match &asked.keep {
        Some(folder) => {
            Kept::write(folder, &asked.pick.tape, [("list", &texts.list), ("run", &picked.run), ("names", &picked.names), ("plan", &sheet)])?
        }
        None => Kept::default(),
    };
    if let Err(sentence) = add(&sheet) {
        kept.remove();
        return failed(sentence);
    }
    put(table.as_bytes())?;
    Ok(Status::Answered)
}

impl Recall {
    fn refuse(&self, refused: &Refusal, words: &str) -> Result<Status, Stop> {
        if self.json {
            put(json::sheet("plan", &refused.text(), None, Some(words)).as_bytes())?;
        } else {
            put(&refused.text())?;
        }
        say_refused(&shown(&self.pick.tape), refused, words);
        Ok(Status::Refused)
    }

    /// What is printed, once the picture is written; or why that is not.
    fn table(&self, picked: &Picked, sheet: &[u8], call: &Call) -> Result<Result<String, String>, Stop> {
        let sweep = match self.picture {
            Some(_) => Program::ready("cmd_price", call)?.ask_pair(&picked.run, b"").or_else(failed)?.answer,
            None => Vec::new(),
        };
        let plan = Plan::read(&Texts { run: &picked.run, plan: sheet, buys: b"", sweep: &sweep });
        let names = Names::read(&picked.names).or_else(failed)?;
        if let Some(file) = &self.picture {
            let drawn = picture::draw(&plan, &Beside { names: &names, speed: self.speed, in_bytes: !self.pick.blocks });
            if let Err(error) = fs::write(file, drawn) {
                return Ok(Err(format!("cannot write {}: {}", shown(file), reason(&error))));
            }
        }
        Ok(Ok(match self.json {
            true => json::recall(sheet, &schedule::rows(&plan, &names), self.speed),
            false => schedule::draw(&plan, &names, self.speed),
        }))
    }
}

/// The files that were made: TAPE.list and so on, all or none; nothing that is there already is overwritten.
#[derive(Default)]
struct Kept(Vec<PathBuf>);

impl Kept {
    fn write(folder: &OsStr, tape: &OsStr, texts: [(&str, &[u8]); 4]) -> Result<Kept, Stop> {
        let mut kept = Kept::default();
        for (kind, text) in texts {
            let path = Path::new(folder).join(format!("{}.{kind}", tape.to_string_lossy()));
            if let Err(error) = kept.add(&path, text) {
                kept.remove();
                return failed(format!("cannot write {}: {}; nothing is kept", quoted(path.as_os_str()), reason(&error)));
            }
        }
        Ok(kept)
    }

    fn add(&mut self, path: &Path, text: &[u8]) -> io::Result<()> {
        let mut file = OpenOptions::new().write(true).create_new(true).open(path)?;
        self.0.push(path.to_path_buf());
        file.write_all(text)?;
        file.sync_all()
    }

    fn remove(&self) {
        for path in &self.0 {
            let _ = fs::remove_file(path);
        }
    }
}
