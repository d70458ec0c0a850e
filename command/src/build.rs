//! In a checkout: what a call needs is proved and built by rt on first use, and again when a source is newer.

mod lock;

use crate::commands::Call;
use crate::places::{Places, BUILT};
use crate::programs::on_path;
use crate::say::{line, quoted, reason, say};
use crate::status::{failed, Stop};
use crate::system;
pub use lock::Lock;
use nix::libc;
use nix::poll::{poll, PollFd, PollFlags};
use nix::sys::stat::{utimensat, UtimensatFlags};
use nix::sys::time::TimeSpec;
use nix::unistd::{access, AccessFlags};
use std::ffi::OsStr;
use std::fs::{self, DirEntry, Metadata};
use std::io::{ErrorKind, Read};
use std::os::unix::io::AsRawFd;
use std::os::unix::process::CommandExt;
use std::path::{Path, PathBuf};
use std::process::{Child, Command, Stdio};
use std::time::{Duration, Instant, SystemTime};

/// The programs, and for how many minutes at most everything under each is proved on two idle cores (docs/landings).
pub const PROGRAMS: [(&str, u32); 12] = [
    ("cmd_plan", 3),
    ("cmd_plan_any", 4),
    ("cmd_field", 5),
    ("cmd_buys", 5),
    ("cmd_buys_any", 5),
    ("cmd_price", 5),
    ("cmd_check", 5),
    ("cmd_rewrite", 3),
    ("cmd_mend", 5),
    ("cmd_month", 5),
    ("cmd_ltfs", 4),
    ("cmd_desk", 6),
];

/// A program, where it is not there or a source is newer.
pub fn program(name: &'static str, call: &Call) -> Result<(), Stop> {
    let minutes = PROGRAMS.iter().find(|(known, _)| *known == name).map_or(5, |(_, minutes)| *minutes);
    let made = call.places.program(name);
    let stamp = call.places.root.join("target/stamp").join(name);
    Build { places: &call.places, minutes, made, stamp: Some(stamp), words: ["check", name] }.run()
}

/// The library for C.
fn library(call: &Call) -> Result<(), Stop> {
    let made = call.places.archive();
    Build { places: &call.places, minutes: 6, made, stamp: None, words: ["library", "violstream"] }.run()
}

/// All that any command needs; and this command with the library.
pub fn everything(call: &Call) -> Result<(), Stop> {
    for (name, _) in PROGRAMS {
        program(name, call)?;
    }
    linked(call)
}

/// The library, and this command with it. Where it was compiled with another or none, the script at the top of the checkout compiles it again, and this
/// call becomes that one.
pub fn linked(call: &Call) -> Result<(), Stop> {
    library(call)?;
    let read = |path: PathBuf| match fs::read(&path) {
        Err(error) if error.kind() == ErrorKind::NotFound => Ok(None),
        Err(error) => failed(format!("cannot read {}: {}", quoted(path.as_os_str()), reason(&error))),
        Ok(bytes) => Ok(Some(bytes)),
    };
    if !cfg!(target_arch = "x86_64") || read(call.places.archive())? == read(call.places.linked())? {
        return Ok(());
    }
    let (script, built) = (call.places.root.join("violstream"), call.places.root.join(BUILT));
    let removed = fs::remove_file(&built).or_else(|error| if error.kind() == ErrorKind::NotFound { Ok(()) } else { Err(error) });
    let (path, error) = match removed {
        Ok(()) => (&script, Command::new(&script).args(std::env::args_os().skip(1)).exec()),
        Err(error) => (&built, error),
    };
    failed(format!("cannot compile this command with the library: {}: {}", quoted(path.as_os_str()), reason(&error)))
}

/// The gate, alone in this checkout.
pub fn test(call: &Call) -> Result<bool, Stop> {
    let _lock = alone(call)?;
    let gate = call.places.root.join(".ci/run");
    let mut command = Command::new(&gate);
    match command.status() {
        Ok(ended) => Ok(ended.success()),
        Err(error) => failed(format!("cannot run {}: {}", quoted(gate.as_os_str()), reason(&error))),
    }
}

/// Nobody else builds in this checkout as long as it is held.
pub fn alone(call: &Call) -> Result<Lock, Stop> {
    Lock::take(&call.places.root)
}

/// Seconds after which a call that waits or builds says that it does.
fn silence() -> Duration {
    let seconds = std::env::var("VIOLSTREAM_SILENCE").ok().and_then(|text| text.parse().ok()).filter(|seconds| *seconds > 0);
    Duration::from_secs(seconds.unwrap_or(20))
}

struct Build<'a> {
    places: &'a Places,
    minutes: u32,
    made: PathBuf,
    /// What tools/build.sh writes when a program has been proved and has run as recorded, and not before.
    stamp: Option<PathBuf>,
    words: [&'static str; 2],
}

impl Build<'_> {
    fn run(&self) -> Result<(), Stop> {
        if self.is_fresh() {
            return Ok(());
        }
        if on_path("rt").is_none() {
            return failed("the Rattle toolchain (rt) is not on PATH; nothing can be built without it");
        }
        self.can_write()?;
        let _lock = Lock::take(&self.places.root)?;
        // The call that was waited for may have made it.
        if self.is_fresh() {
            return Ok(());
        }
        self.make()
    }

    fn is_fresh(&self) -> bool {
        let (sources, order) = (self.places.root.join("crates"), self.places.root.join("crates.txt"));
        let stamped = self.stamp.as_ref().map_or(true, |stamp| stamp.exists());
        match fs::metadata(&self.made).and_then(|about| about.modified()) {
            Ok(made) => stamped && !is_newer(fs::metadata(order), made) && !any_newer(&sources, made),
            Err(_) => false,
        }
    }

    /// The folders that rt writes must be such as can be written, or made.
    fn can_write(&self) -> Result<(), Stop> {
        let target = self.places.root.join("target");
        if let Err(error) = fs::create_dir_all(&target) {
            return failed(format!("cannot write {}/: {}", quoted(target.as_os_str()), reason(&error)));
        }
        for name in ["", "bin", "log", "stamp", "staticlib"] {
            let folder = target.join(name);
            let exists = folder.symlink_metadata().is_ok();
            if exists && !(folder.is_dir() && access(&folder, AccessFlags::W_OK).is_ok()) {
                return failed(format!("cannot write {}/", quoted(folder.as_os_str()).trim_end_matches('/')));
            }
        }
        Ok(())
    }

    fn make(&self) -> Result<(), Stop> {
        let name = self.made.file_name().unwrap_or_default().to_string_lossy().into_owned();
        say(&format!("first call, or an update: proving and building {name}; at most some {} minutes on two idle cores", self.minutes));
        // One without the other is of a call that was cut short.
        if !self.made.exists() {
            let _ = fs::remove_file(self.places.root.join("target/stamp").join(&name));
        }
        let said = self.prove()?;
        let words = self.words.join(" ");
        if !said.succeeded {
            return self.tell_why(&said.text, &words);
        }
        if !self.made.exists() {
            return failed(format!("'tools/build.sh {words}' made no {}", quoted(self.made.as_os_str())));
        }
        // From now on it is newer than the sources.
        let now = TimeSpec::new(0, libc::UTIME_NOW);
        match utimensat(None, &self.made, &now, &now, UtimensatFlags::FollowSymlink) {
            Ok(()) => Ok(()),
            Err(errno) => failed(format!("cannot write {}: {}", quoted(self.made.as_os_str()), reason(&errno.into()))),
        }
    }

    fn tell_why(&self, text: &str, words: &str) -> Result<(), Stop> {
        text.lines().filter(|said| said.contains("error")).take(5).for_each(|said| line(&crate::words::shown(said)));
        let disk = ["Permission denied", "Read-only file system", "No space left on device"];
        let root = quoted(self.places.root.as_os_str());
        match disk.into_iter().find(|fault| text.contains(fault)) {
            Some(fault) => failed(format!("cannot write {root}/target/: {fault}")),
            None => failed(format!("'tools/build.sh {words}' failed in {root}; what it said is above")),
        }
    }

    fn prove(&self) -> Result<Said, Stop> {
        let script = self.places.root.join("tools/build.sh");
        let mut command = Command::new("bash");
        command.args(["-c", "exec \"$0\" \"$@\" 2>&1"]).arg(&script).args(self.words).stdin(Stdio::null()).stdout(Stdio::piped());
        system::ask_to_end_together(&mut command);
        match command.spawn() {
            Ok(child) => Progress::new(child, &self.places.root).follow(),
            Err(error) => failed(format!("cannot run {}: {}", quoted(script.as_os_str()), reason(&error))),
        }
    }
}

/// Whether any file below a folder was written after a time. What was built is proved by the proofs that stood there then, whatever becomes of them;
/// wrong programs are built by nobody, and what rt makes stands beside the sources.
fn any_newer(folder: &Path, than: SystemTime) -> bool {
    let is_newer = |entry: DirEntry| match entry.file_type() {
        Ok(kind) if kind.is_dir() => {
            !["proofs", "must-fail", "out"].contains(&&*entry.file_name().to_string_lossy()) && any_newer(&entry.path(), than)
        }
        Ok(kind) => kind.is_file() && is_newer(entry.metadata(), than),
        Err(_) => true,
    };
    fs::read_dir(folder).map_or(true, |mut entries| entries.any(|entry| entry.map_or(true, is_newer)))
}

fn is_newer(about: std::io::Result<Metadata>, than: SystemTime) -> bool {
    about.and_then(|about| about.modified()).map_or(true, |time| time > than)
}

// ---- What rt says ----

struct Said {
    text: String,
    succeeded: bool,
}

/// A line for each crate that rt has proved, as it says so, and one where it has said nothing for a while.
struct Progress<'a> {
    child: Child,
    root: &'a Path,
    began: Instant,
    began_by_clock: SystemTime,
    text: String,
    /// How much of the text has been looked at.
    told: usize,
}

impl Progress<'_> {
    fn new(child: Child, root: &Path) -> Progress<'_> {
        // A clock's tick is no order.
        let began_by_clock = SystemTime::now() - Duration::from_secs(2);
        Progress { child, root, began: Instant::now(), began_by_clock, text: String::new(), told: 0 }
    }

    fn follow(mut self) -> Result<Said, Stop> {
        let mut from = match self.child.stdout.take() {
            Some(from) => from,
            None => return failed("rt was started without a pipe"),
        };
        let mut room = [0; 4096];
        loop {
            let waited = poll(&mut [PollFd::new(from.as_raw_fd(), PollFlags::POLLIN)], silence().as_millis().min(i32::MAX as u128) as i32);
            if waited == Ok(0) {
                self.still();
                continue;
            }
            match from.read(&mut room) {
                Ok(0) => break,
                Ok(count) => self.take(&String::from_utf8_lossy(&room[..count])),
                Err(error) if error.kind() == std::io::ErrorKind::Interrupted => {}
                Err(error) => return failed(format!("cannot read what rt says: {}", reason(&error))),
            }
        }
        match self.child.wait() {
            Ok(ended) => Ok(Said { text: self.text, succeeded: ended.success() }),
            Err(error) => failed(format!("cannot wait for rt: {}", reason(&error))),
        }
    }

    fn take(&mut self, more: &str) {
        self.text.push_str(more);
        while let Some(length) = self.text[self.told..].find('\n') {
            let said = self.text[self.told..self.told + length].to_string();
            self.told += length + 1;
            if let Some(said) = said.strip_prefix("rt: ") {
                say(&crate::words::shown(said));
            }
        }
    }

    fn still(&self) {
        let crates = self.at_work();
        let crates = if crates.is_empty() { String::new() } else { format!(" {}", crates.join(" ")) };
        say(&format!("still proving{crates}, {} s by now", self.began.elapsed().as_secs()));
    }

    /// The crates that rt is proving just now: tools/build.sh has begun to write down what is said of them, and nothing has been said yet.
    fn at_work(&self) -> Vec<String> {
        let log = fs::read_dir(self.root.join("target/log"));
        let begun = |path: &PathBuf| {
            let about = fs::metadata(path).ok();
            let written = about.as_ref().and_then(|about| about.modified().ok());
            path.extension() == Some(OsStr::new("out")) && about.map_or(false, |about| about.len() == 0) && written > Some(self.began_by_clock)
        };
        let files = log.into_iter().flatten().flatten().map(|entry| entry.path()).filter(begun);
        let mut names: Vec<String> = files.filter_map(|path| Some(path.file_stem()?.to_string_lossy().into_owned())).collect();
        names.sort();
        names.dedup();
        names
    }
}
