//! audit: whether a book is right, and what it says of a tape or of a file.

use super::{told, Call, Sought};
use crate::book::audit::{go, Audit, Seen};
use crate::book::entry::written;
use crate::book::page::Page;
use crate::book::wants::Wants;
use crate::output::put;
use crate::say::{reason, shown};
use crate::status::{Status, Stop};
use std::ffi::OsStr;
use std::fmt::Write as _;

pub fn answer(book: &OsStr, sought: Option<&Sought>, page_file: Option<&OsStr>, call: &Call) -> Result<Status, Stop> {
    let mut found = String::new();
    let mut page = match page_file {
        Some(_) => Some(Page::of(book, call)?),
        None => None,
    };
    let audit = go(book, call, &mut |seen| {
        if let Some(sought) = sought {
            find(sought, seen, &mut found);
        }
        page.as_mut().map_or(Ok(()), |page| page.add(seen))
    })?;
    if let (Some(page), Some(file)) = (page, page_file) {
        if let Err(error) = std::fs::write(file, page.whole(&audit)) {
            return Ok(told(&format!("cannot write {}: {}", shown(file), reason(&error))));
        }
    }
    put(&[found.as_bytes(), lines(&audit).as_bytes()].concat())?;
    Ok(if audit.wrong.is_some() { Status::Refused } else { Status::Answered })
}

fn lines(audit: &Audit) -> String {
    match &audit.wrong {
        Some(wrong) => format!("wrong={}\n{}\n", written(wrong.number), wrong.why),
        None => format!("entries={}\nplans={}\nrefusals={}\nlast={}\n", audit.entries, audit.plans, audit.refusals, audit.last),
    }
}

/// A line for each want of an accepted entry that is asked for.
fn find(sought: &Sought, seen: &Seen, found: &mut String) {
    let wants = match seen.refused {
        Some(_) => return,
        None => Wants::read(seen.entry.run, seen.entry.plan),
    };
    if wants.tape != sought.tape {
        return;
    }
    let (number, made, by) = (written(seen.entry.number), &seen.entry.made, &seen.entry.by);
    for want in &wants.wants {
        let _ = match sought.file {
            Some(file) if file != want.file => Ok(()),
            Some(_) => writeln!(found, "found={number},{made},{},{},{},{by}", want.time, want.leg, want.reads),
            None => writeln!(found, "found={number},{made},{},{},{},{},{by}", want.file, want.time, want.leg, want.reads),
        };
    }
}
