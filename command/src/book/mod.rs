//! The record book: a folder of entries, one file each, chained by SHA-256. Entries are added and never changed.

pub mod audit;
pub mod entry;
pub mod page;
mod shelf;
pub mod wants;

use crate::clock;
use crate::commands::Call;
use crate::help;
use crate::say::is_plain;
use crate::status::{failed, Stop};
use entry::Entry;
use nix::unistd::{geteuid, User};
use sha2::{Digest, Sha256};
use std::ffi::{OsStr, OsString};
use std::fmt::Write as _;
use std::path::Path;

/// What stands for the digest of the entry before the first.
pub const NOTHING: &str = "0000000000000000000000000000000000000000000000000000000000000000";

/// The most bytes of a run sheet that are kept: one of over 16,384 is refused by 12, and is in the book all the same.
pub const MOST_KEPT: usize = 1 << 26;

/// A book that is written to, and who asks.
pub struct Book {
    folder: OsString,
    by: String,
    program: String,
}

impl Book {
    /// Nothing is made yet. Without a WHO it is the user by whom the call runs.
    pub fn of(folder: &OsStr, by: Option<&str>, call: &Call) -> Result<Book, Stop> {
        let by = match by {
            Some(by) => by.to_string(),
            None => user()?,
        };
        let program = help::version(&call.places)?.lines().next().unwrap_or_default().to_string();
        Ok(Book { folder: folder.to_os_string(), by, program })
    }

    /// Adds an entry with a run sheet and the answer to it, on the disk before this returns. Its number, or the sentence that says why there is none.
    pub fn add(&self, run: &[u8], plan: &[u8]) -> Result<u64, String> {
        self.add_by(&self.by, run, plan)
    }

    /// The same for somebody else who asks.
    pub fn add_by(&self, by: &str, run: &[u8], plan: &[u8]) -> Result<u64, String> {
        let made = clock::now()?;
        let entry_at = |number: u64, previous: &str| {
            Entry { number, made: made.clone(), by: by.to_string(), program: self.program.clone(), previous: previous.to_string(), run, plan }.text()
        };
        shelf::add(&self.folder, entry_at)
    }

    /// The numbers of the entries behind one, in their order; a book that is not there has none.
    pub fn behind(&self, number: u64) -> Result<Vec<u64>, String> {
        if !Path::new(&self.folder).exists() {
            return Ok(Vec::new());
        }
        Ok(shelf::numbers(&self.folder)?.0.into_iter().filter(|&other| other > number).collect())
    }

    /// Whether an entry is such; what is no entry is not.
    pub fn has(&self, number: u64, is_such: impl Fn(&Entry) -> bool) -> Result<bool, String> {
        match shelf::take(&self.folder, number)? {
            shelf::Taken::Text(text) => Ok(Entry::read(&text).map_or(false, |entry| is_such(&entry))),
            _ => Ok(false),
        }
    }

    /// What was found there stays there.
    pub fn settle(&self) -> Result<(), String> {
        shelf::settle(&self.folder)
    }
}

/// Whether a name can stand on a line: some characters, and none that ends the line or does something to a terminal.
pub fn is_name(text: &str) -> bool {
    !text.is_empty() && !text.chars().any(char::is_control) && !text.contains(['\u{2028}', '\u{2029}'])
}

fn user() -> Result<String, Stop> {
    let uid = geteuid();
    match User::from_uid(uid) {
        Ok(Some(user)) if is_name(&user.name) => Ok(user.name),
        Ok(_) => Ok(uid.to_string()),
        Err(errno) => failed(format!("cannot find the user's name: {}; --by gives one", errno.desc())),
    }
}

/// SHA-256 in hexadecimal digits.
pub fn digest(text: &[u8]) -> String {
    let mut out = String::with_capacity(64);
    for byte in Sha256::digest(text) {
        let _ = write!(out, "{byte:02x}");
    }
    out
}

/// A name from a book, for a line at a terminal.
pub fn shown(name: &str) -> String {
    name.chars().map(|c| if is_plain(c) { c } else { '?' }).collect()
}

#[cfg(test)]
mod tests {
    use super::*;

    #[test]
    fn digests() {
        assert_eq!(digest(b""), "e3b0c44298fc1c149afbf4c8996fb92427ae41e4649b934ca495991b7852b855");
        assert_eq!(digest(b"abc"), "ba7816bf8f01cfea414140de5dae2223b00361a396177a9cb410ff61f20015ad");
    }

    #[test]
    fn names() {
        for name in ["archive", "b\u{e4}nder, 2", "\u{6d4b}"] {
            assert!(is_name(name), "{name}");
        }
        for name in ["", "a\nb", "a\tb", "\u{7f}", "\u{85}", "a\u{2028}b"] {
            assert!(!is_name(name), "{name:?}");
        }
    }
}
