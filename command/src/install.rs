//! Installing and removing. The list of what is installed is written before the first file, so that whatever happens then can be removed; every file
//! is put in place by a rename; a file that is not ours is neither overwritten nor removed.

pub mod contents;
mod list;
mod lock;

use crate::commands::Call;
use crate::output::put;
use crate::places::OWN;
use crate::say::{quoted, reason, say};
use crate::status::{failed, Status, Stop};
use contents::Item;
use list::{Entry, List};
use std::ffi::OsStr;
use std::fs::{self, File};
use std::io::{self, Write};
use std::os::unix::ffi::OsStrExt;
use std::os::unix::fs::{symlink, OpenOptionsExt, PermissionsExt};
use std::path::{Path, PathBuf};

/// The folder below which everything goes: DESTDIR, for packages, before the prefix.
fn root_for(prefix: &Path) -> PathBuf {
    let stage = std::env::var_os("DESTDIR").unwrap_or_default();
    let joined = [stage.as_bytes(), prefix.as_os_str().as_bytes()].concat();
    PathBuf::from(OsStr::from_bytes(&joined))
}

pub fn install(prefix: Option<&OsStr>, call: &Call) -> Result<Status, Stop> {
    let prefix = prefix.map_or_else(|| Path::new("/usr/local"), Path::new);
    can_carry(prefix)?;
    let items = contents::everything(prefix, call)?;
    let root = root_for(prefix);
    let mut installation = Installation { root: &root, list: List::default(), _lock: None };
    installation.begin(&items)?;
    for item in &items {
        installation.put(item)?;
    }
    installation.finish(&items)?;
    Ok(Status::Answered)
}

/// What violstream.pc could not carry is no prefix.
fn can_carry(prefix: &Path) -> Result<(), Stop> {
    let text = prefix.to_str().unwrap_or("\n");
    if text.chars().any(|c| c.is_whitespace() || c.is_control() || "\"'\\$#".contains(c)) {
        return failed(format!(
            "PREFIX may not contain blanks, quotes, $, # or \\, which violstream.pc could not carry: '{}'",
            quoted(prefix.as_os_str())
        ));
    }
    Ok(())
}

struct Installation<'a> {
    root: &'a Path,
    list: List,
    /// One call installs below a root at a time.
    _lock: Option<File>,
}

impl Installation<'_> {
    fn path(&self, name: &str) -> PathBuf {
        self.root.join(name)
    }

    fn cannot<T>(&self, what: &str, name: &str, error: &io::Error) -> Result<T, Stop> {
        failed(format!("cannot {what} {}: {}", quoted(self.path(name).as_os_str()), reason(error)))
    }

    /// Nothing is written but the list until it is clear that everything may be.
    fn begin(&mut self, items: &[Item]) -> Result<(), Stop> {
        let made = self.make_folder(OWN)?;
        let begun = self.lock().and_then(|()| self.announce(items, &made));
        if begun.is_err() && !self.path(list::NAME).exists() {
            self.leave(&made);
        }
        begun
    }

    fn announce(&mut self, items: &[Item], made: &[String]) -> Result<(), Stop> {
        self.list = match List::read(self.root) {
            Ok(list) => list,
            Err(error) => return self.cannot("read", list::NAME, &error),
        };
        self.nothing_foreign(items)?;
        made.iter().for_each(|folder| self.list.add_folder(folder));
        // From here on each of them may be the old one or the new.
        items.iter().for_each(|item| self.list.add_file(&item.to));
        self.write_list()
    }

    fn nothing_foreign(&self, items: &[Item]) -> Result<(), Stop> {
        for item in items {
            let path = self.path(&item.to);
            let how = match self.list.entry(&item.to) {
                _ if path.symlink_metadata().is_err() => continue,
                None => "was not installed by this command",
                Some(entry) if entry.is_known() && *entry != Entry::of(&path) => "was changed since it was installed",
                Some(_) => continue,
            };
            return failed(format!("{} is there, and {how}; nothing was installed", quoted(path.as_os_str())));
        }
        Ok(())
    }

    /// What was made for nothing.
    fn leave(&self, made: &[String]) {
        let _ = fs::remove_file(self.path(lock::NAME));
        made.iter().rev().for_each(|folder| drop(fs::remove_dir(self.path(folder))));
    }

    fn lock(&mut self) -> Result<(), Stop> {
        match lock::take(self.root) {
            Ok(lock) => self._lock = Some(lock),
            Err(error) => return self.cannot("lock", lock::NAME, &error),
        }
        Ok(())
    }

    /// With those around it; which of them are new.
    fn make_folder(&mut self, name: &str) -> Result<Vec<String>, Stop> {
        let mut new = Vec::new();
        if let Err(error) = make_all_for_all(self.root) {
            return self.cannot("make", "", &error);
        }
        let parts: Vec<&str> = name.split('/').collect();
        for length in 1..=parts.len() {
            let folder = parts[..length].join("/");
            if self.path(&folder).is_dir() {
                continue;
            }
            match make_for_all(&self.path(&folder)) {
                Ok(()) => new.push(folder),
                Err(error) if error.kind() == io::ErrorKind::AlreadyExists => {}
                Err(error) => return self.cannot("make", &folder, &error),
            }
        }
        Ok(new)
    }

    /// Written beside its place, synced, and put there at once.
    fn put(&mut self, item: &Item) -> Result<(), Stop> {
        if let Some((folder, _)) = item.to.rsplit_once('/') {
            let new = self.make_folder(folder)?;
            if !new.is_empty() {
                new.iter().for_each(|folder| self.list.add_folder(folder));
                self.write_list()?;
            }
        }
        let beside = beside(&item.to);
        if let Err(error) = self.write(item, &beside).and_then(|()| fs::rename(self.path(&beside), self.path(&item.to))) {
            let _ = fs::remove_file(self.path(&beside));
            return self.cannot("write", &item.to, &error);
        }
        self.list.add_entry(&item.to, Entry::of(&self.path(&item.to)));
        put(format!("installed {}\n", quoted(self.path(&item.to).as_os_str())).as_bytes())
    }

    fn write(&self, item: &Item, beside: &str) -> io::Result<()> {
        let path = self.path(beside);
        match fs::remove_file(&path) {
            Err(error) if error.kind() != io::ErrorKind::NotFound => return Err(error),
            _ => {}
        }
        if let Some(other) = &item.other_name_of {
            return symlink(other, path);
        }
        let mut file = fs::OpenOptions::new().write(true).create_new(true).mode(item.mode).open(path)?;
        file.write_all(&item.bytes)?;
        // Whatever the umask is.
        file.set_permissions(fs::Permissions::from_mode(item.mode))?;
        file.sync_all()
    }

    /// What an older version had installed and this one has not goes; then the list is that of this one.
    fn finish(&mut self, items: &[Item]) -> Result<(), Stop> {
        let old: Vec<String> = self.list.files().filter(|name| !items.iter().any(|item| item.to == *name)).map(str::to_string).collect();
        for name in old {
            match remove(self.root, &name, self.list.entry(&name)) {
                Ok(Removed::Foreign) => say(&format!("{} was changed since it was installed, and stays", quoted(self.path(&name).as_os_str()))),
                Ok(Removed::Gone) => {}
                Err(error) => return self.cannot("remove", &name, &error),
            }
            self.list.forget(&name);
        }
        self.write_list()
    }

    fn write_list(&mut self) -> Result<(), Stop> {
        match self.list.write(self.root) {
            Ok(()) => Ok(()),
            Err(error) => self.cannot("write", list::NAME, &error),
        }
    }
}

/// A folder that everybody can enter, whatever the umask is.
fn make_for_all(path: &Path) -> io::Result<()> {
    fs::create_dir(path)?;
    fs::set_permissions(path, fs::Permissions::from_mode(0o755))
}

/// With those around it.
fn make_all_for_all(path: &Path) -> io::Result<()> {
    if path.is_dir() {
        return Ok(());
    }
    if let Some(around) = path.parent() {
        make_all_for_all(around)?;
    }
    match make_for_all(path) {
        Err(error) if error.kind() == io::ErrorKind::AlreadyExists && path.is_dir() => Ok(()),
        made => made,
    }
}

/// The name under which a file is written, before it is put in its place.
fn beside(name: &str) -> String {
    format!("{name}.violstream-new")
}

enum Removed {
    Gone,
    Foreign,
}

/// A file that is not as it was put there is somebody else's.
fn remove(root: &Path, name: &str, entry: Option<&Entry>) -> io::Result<Removed> {
    let path = root.join(name);
    if let Some(entry) = entry.filter(|entry| entry.is_known()) {
        if path.symlink_metadata().is_ok() && *entry != Entry::of(&path) {
            return Ok(Removed::Foreign);
        }
    }
    match fs::remove_file(&path) {
        Err(error) if error.kind() != io::ErrorKind::NotFound => Err(error),
        _ => Ok(Removed::Gone),
    }
}

/// What the list says; a folder only where nothing else is in it.
pub fn uninstall(prefix: Option<&OsStr>, call: &Call) -> Result<Status, Stop> {
    let default = if call.places.installed { call.places.root.clone() } else { PathBuf::from("/usr/local") };
    let root = root_for(&prefix.map_or(default, PathBuf::from));
    let shown = quoted(root.as_os_str());
    // There must be a list, and be it still when the call that was waited for has ended.
    let read = List::read_present(&root).and_then(|_| lock::take(&root)).and_then(|lock| Ok((List::read_present(&root)?, lock)));
    let (list, _lock) = match read {
        Ok(read) => read,
        Err(error) => {
            let path = quoted(root.join(list::NAME).as_os_str());
            return failed(format!("nothing that this command knows of is installed below {shown}: {path}: {}", reason(&error)));
        }
    };
    let mut worst = Status::Answered;
    let mut stays = |sentence: String| {
        say(&sentence);
        worst = Status::Failed;
    };
    for name in list.files() {
        let path = quoted(root.join(name).as_os_str());
        match remove(&root, name, list.entry(name)) {
            Ok(Removed::Gone) => {}
            Ok(Removed::Foreign) => stays(format!("{path} was changed since it was installed, and stays")),
            Err(error) => stays(format!("cannot remove {path}: {}", reason(&error))),
        }
        // Of an installation that was cut off.
        let _ = fs::remove_file(root.join(beside(name)));
    }
    let _ = fs::remove_file(root.join(beside(list::NAME)));
    if worst == Status::Answered {
        // The list last: a removal that was cut off can be done again.
        if let Err(error) = fs::remove_file(root.join(list::NAME)) {
            return failed(format!("cannot remove {}: {}", quoted(root.join(list::NAME).as_os_str()), reason(&error)));
        }
        let _ = fs::remove_file(root.join(lock::NAME));
        list.folders().for_each(|folder| drop(fs::remove_dir(root.join(folder))));
        put(format!("removed what was installed below {shown}\n").as_bytes())?;
    }
    Ok(worst)
}
