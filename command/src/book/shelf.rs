//! The folder of a book. An entry is written aside, synced, and linked to its number: link fails where the number is taken, so of two at once
//! each gets its own, and whatever happens an entry is there whole or not at all. Nothing here changes or removes an entry.

use super::entry::written;
use super::{digest, MOST_KEPT, NOTHING};
use crate::say::{quoted, reason};
use std::ffi::OsStr;
use std::fs::{self, File, OpenOptions};
use std::io::{self, Read, Write};
use std::os::unix::fs::OpenOptionsExt;
use std::path::{Path, PathBuf};

/// More than any entry has.
const MOST: u64 = MOST_KEPT as u64 + (1 << 21);

/// What a name says: the number of an entry; something that is like one, and is none; or nothing.
enum Name {
    Entry(u64),
    Almost,
    Other,
}

fn name_of(name: &OsStr) -> Name {
    let stem = match name.to_str().map(|name| name.strip_suffix(".record")) {
        Some(Some(stem)) => stem,
        _ => return Name::Other,
    };
    match stem.parse::<u64>() {
        Ok(number) if number > 0 && written(number) == stem => Name::Entry(number),
        _ => Name::Almost,
    }
}

pub fn path(folder: &OsStr, number: u64) -> PathBuf {
    Path::new(folder).join(format!("{}.record", written(number)))
}

/// The numbers of a book in their order, and names that are like an entry's.
pub fn numbers(folder: &OsStr) -> Result<(Vec<u64>, Vec<String>), String> {
    let cannot = |error: &io::Error| format!("cannot read the book {}: {}", quoted(folder), reason(error));
    let (mut numbers, mut almost) = (Vec::new(), Vec::new());
    for entry in fs::read_dir(folder).map_err(|error| cannot(&error))? {
        let name = entry.map_err(|error| cannot(&error))?.file_name();
        match name_of(&name) {
            Name::Entry(number) => numbers.push(number),
            Name::Almost => almost.push(quoted(&name)),
            Name::Other => {}
        }
    }
    numbers.sort_unstable();
    almost.sort_unstable();
    Ok((numbers, almost))
}

/// What reading an entry has come to.
pub enum Taken {
    Text(Vec<u8>),
    /// It is there, and cannot be an entry: why, in words that go behind "entry NUMBER".
    NoEntry(&'static str),
    Missing,
}

pub fn take(folder: &OsStr, number: u64) -> Result<Taken, String> {
    let path = path(folder, number);
    let cannot = |error: &io::Error| format!("cannot read {}: {}", quoted(path.as_os_str()), reason(error));
    match fs::symlink_metadata(&path) {
        Err(error) if error.kind() == io::ErrorKind::NotFound => return Ok(Taken::Missing),
        Err(error) => return Err(cannot(&error)),
        Ok(about) if !about.is_file() => return Ok(Taken::NoEntry("is not a file of its own")),
        Ok(about) if about.len() > MOST => return Ok(Taken::NoEntry("is longer than any entry")),
        Ok(_) => {}
    }
    let mut text = Vec::new();
    File::open(&path).and_then(|file| file.take(MOST).read_to_end(&mut text)).map_err(|error| cannot(&error))?;
    Ok(Taken::Text(text))
}

/// Adds an entry, whose text depends on its number and on the digest of the one before.
pub fn add(folder: &OsStr, entry_at: impl Fn(u64, &str) -> Vec<u8>) -> Result<u64, String> {
    make(folder)?;
    loop {
        let last = numbers(folder)?.0.last().copied().unwrap_or(0);
        let previous = match (last, last.checked_sub(1).map(|_| take(folder, last)).transpose()?) {
            (0, _) => NOTHING.to_string(),
            (_, Some(Taken::Text(text))) => digest(&text),
            _ => return Err(format!("entry {} of the book {} is no entry, so none can follow it", written(last), quoted(folder))),
        };
        let next = last.checked_add(1).ok_or_else(|| format!("the book {} has no number left", quoted(folder)))?;
        if Aside::write(folder, &entry_at(next, &previous))?.link(folder, next)? {
            return Ok(next);
        }
        // Somebody else was quicker: the next number, behind theirs.
    }
}

/// A book that is not there yet, on the disk before anything is in it.
fn make(folder: &OsStr) -> Result<(), String> {
    let cannot = |error: io::Error| format!("cannot make the book {}: {}", quoted(folder), reason(&error));
    match fs::create_dir(folder) {
        Err(error) if error.kind() == io::ErrorKind::AlreadyExists => return Ok(()),
        made => made.map_err(cannot)?,
    }
    let parent = match Path::new(folder).parent() {
        Some(parent) if !parent.as_os_str().is_empty() => parent,
        _ => Path::new("."),
    };
    sync(parent).map_err(cannot)
}

/// The entries that are there, and their names, on the disk: of those that somebody has linked and could not sync too.
pub fn settle(folder: &OsStr) -> Result<(), String> {
    sync(Path::new(folder)).map_err(|error| format!("cannot write to the book {}: {}", quoted(folder), reason(&error)))
}

fn sync(folder: &Path) -> io::Result<()> {
    File::open(folder)?.sync_all()
}

/// An entry before it has its number. It goes when it has been linked or could not be; what a call leaves that was ended has a name of no entry.
struct Aside(PathBuf);

impl Drop for Aside {
    fn drop(&mut self) {
        let _ = fs::remove_file(&self.0);
    }
}

impl Aside {
    fn write(folder: &OsStr, text: &[u8]) -> Result<Aside, String> {
        let cannot = |error: io::Error| format!("cannot write to the book {}: {}", quoted(folder), reason(&error));
        let (aside, mut file) = Aside::open(folder).map_err(cannot)?;
        file.write_all(text).and_then(|()| file.sync_all()).map_err(cannot)?;
        Ok(aside)
    }

    /// A name that nobody has: by the number of this process, and one more where an ended call has left it.
    fn open(folder: &OsStr) -> io::Result<(Aside, File)> {
        let mut count = 0;
        loop {
            let path = Path::new(folder).join(format!(".aside-{}-{count}", std::process::id()));
            match OpenOptions::new().write(true).create_new(true).mode(0o444).open(&path) {
                Err(error) if error.kind() == io::ErrorKind::AlreadyExists => count += 1,
                opened => return opened.map(|file| (Aside(path), file)),
            }
        }
    }

    /// Whether the number was free. Linked and synced, the entry is in the book for good.
    fn link(&self, folder: &OsStr, number: u64) -> Result<bool, String> {
        let path = path(folder, number);
        match fs::hard_link(&self.0, &path) {
            Err(error) if error.kind() == io::ErrorKind::AlreadyExists => return Ok(false),
            Err(error) => return Err(format!("cannot write {}: {}", quoted(path.as_os_str()), reason(&error))),
            Ok(()) => {}
        }
        match sync(Path::new(folder)) {
            Ok(()) => Ok(true),
            Err(error) => Err(format!(
                "entry {} is in the book {}, but whether it stays there is not sure: {}",
                written(number),
                quoted(folder),
                reason(&error)
            )),
        }
    }
}
