//! The list of what is installed below a root, `libexec/violstream/installed`: a line for each file, `SIZE TIME NAME`, and for each folder that was
//! made, `NAME/`. Until a file is in its place it stands there by its name alone; so does every file of version 3.0.0.

use std::collections::{BTreeMap, BTreeSet};
use std::fs::{self, File};
use std::io::{self, Write};
use std::os::unix::fs::MetadataExt;
use std::path::Path;

pub const NAME: &str = "libexec/violstream/installed";

/// By what a file is known again.
#[derive(Clone, Debug, Default, PartialEq, Eq)]
pub struct Entry {
    known: Option<(u64, i64, i64)>,
}

impl Entry {
    pub fn of(path: &Path) -> Entry {
        Entry { known: fs::symlink_metadata(path).ok().map(|about| (about.size(), about.mtime(), about.mtime_nsec())) }
    }

    pub fn is_known(&self) -> bool {
        self.known.is_some()
    }
}

#[derive(Default)]
pub struct List {
    files: BTreeMap<String, Entry>,
    folders: BTreeSet<String>,
}

impl List {
    /// Where there is no list, nothing is installed.
    pub fn read(root: &Path) -> io::Result<List> {
        match List::read_present(root) {
            Err(error) if error.kind() == io::ErrorKind::NotFound => Ok(List::default()),
            read => read,
        }
    }

    pub fn read_present(root: &Path) -> io::Result<List> {
        let mut list = List::default();
        for line in fs::read_to_string(root.join(NAME))?.lines() {
            if let Some(folder) = line.strip_suffix('/') {
                list.folders.insert(folder.to_string());
            } else if line != NAME && line != super::lock::NAME {
                let (name, entry) = read_file(line);
                list.files.insert(name, entry);
            }
        }
        Ok(list)
    }

    pub fn write(&self, root: &Path) -> io::Result<()> {
        let files = self.files.iter().map(|(name, entry)| match entry.known {
            Some((size, seconds, parts)) => format!("{size} {seconds}.{parts:09} {name}\n"),
            None => format!("{name}\n"),
        });
        let own = [format!("{NAME}\n{}\n", super::lock::NAME)];
        let text: String = files.chain(own).chain(self.folders().map(|folder| format!("{folder}/\n"))).collect();
        let beside = root.join(super::beside(NAME));
        put_in_place(&beside, &root.join(NAME), text.as_bytes()).map_err(|error| {
            let _ = fs::remove_file(&beside);
            error
        })
    }

    /// Known by its name, until it is in its place.
    pub fn add_file(&mut self, name: &str) {
        self.files.insert(name.to_string(), Entry::default());
    }

    pub fn add_entry(&mut self, name: &str, entry: Entry) {
        self.files.insert(name.to_string(), entry);
    }

    pub fn add_folder(&mut self, name: &str) {
        self.folders.insert(name.to_string());
    }

    pub fn forget(&mut self, name: &str) {
        self.files.remove(name);
    }

    pub fn entry(&self, name: &str) -> Option<&Entry> {
        self.files.get(name)
    }

    pub fn files(&self) -> impl Iterator<Item = &str> {
        self.files.keys().map(String::as_str)
    }

    /// The inner ones before those around them.
    pub fn folders(&self) -> impl Iterator<Item = &str> {
        self.folders.iter().rev().map(String::as_str)
    }
}

fn put_in_place(beside: &Path, place: &Path, text: &[u8]) -> io::Result<()> {
    let mut file = File::create(beside)?;
    file.write_all(text)?;
    file.sync_all()?;
    fs::rename(beside, place)
}

fn read_file(line: &str) -> (String, Entry) {
    let whole = || (line.to_string(), Entry::default());
    let mut words = line.splitn(3, ' ');
    match (words.next(), words.next().and_then(|time| time.split_once('.')), words.next()) {
        (Some(size), Some((seconds, parts)), Some(name)) => match (size.parse(), seconds.parse(), parts.parse()) {
            (Ok(size), Ok(seconds), Ok(parts)) => (name.to_string(), Entry { known: Some((size, seconds, parts)) }),
            _ => whole(),
        },
        _ => whole(),
    }
}

#[cfg(test)]
mod tests {
    use super::*;

    #[test]
    fn lines() {
        assert_eq!(read_file("12 34.000000005 bin/a b"), ("bin/a b".to_string(), Entry { known: Some((12, 34, 5)) }));
        assert_eq!(read_file("bin/a"), ("bin/a".to_string(), Entry::default()));
    }
}
