//! The journal: what was accepted, on the disk. Its front is the run sheet behind a line with its byte count; then each event stands below a line that says
//! when and who. So the proved desk reads it.

use crate::say::{quoted, reason};
use crate::status::{failed, Stop};
use nix::errno::Errno;
use nix::fcntl::{flock, FlockArg};
use std::fs::{self, File, OpenOptions};
use std::io::{self, BufRead, BufReader, Read, Seek, SeekFrom};
use std::os::unix::fs::{FileExt, MetadataExt, OpenOptionsExt};
use std::os::unix::io::AsRawFd;
use std::path::{Path, PathBuf};

pub struct Journal {
    path: PathBuf,
    file: File,
    /// Its device, and its number there.
    place: (u64, u64),
    /// How long it is with all that was answered, which is on the disk.
    length: u64,
    /// Whether nothing stands behind that.
    is_whole: bool,
}

/// Which of the two lines of an event cannot stand in a journal.
pub enum Damage {
    Above,
    Event,
}

enum Front {
    Whole,
    /// A server was ended while it made the journal.
    Begun,
    Other,
    Damaged,
}

impl Journal {
    /// Opened, for one server at a time; made where it is not there.
    pub fn open(path: &Path) -> Result<Journal, Stop> {
        let opened = OpenOptions::new().read(true).write(true).create(true).truncate(false).mode(0o640).open(path);
        let file = opened.or_else(|error| failed(format!("cannot open {}: {}", quoted(path.as_os_str()), reason(&error))))?;
        let place = match file.metadata() {
            Ok(about) if about.is_file() => (about.dev(), about.ino()),
            _ => return failed(format!("{} is no file", quoted(path.as_os_str()))),
        };
        let journal = Journal { path: path.to_path_buf(), file, place, length: 0, is_whole: true };
        match flock(journal.file.as_raw_fd(), FlockArg::LockExclusiveNonblock) {
            Ok(()) => Ok(journal),
            Err(Errno::EWOULDBLOCK) => failed(format!("another server is at work with {}", journal.name())),
            Err(errno) => journal.cannot("lock", &errno.into()),
        }
    }

    fn name(&self) -> String {
        quoted(self.path.as_os_str())
    }

    fn cannot<T>(&self, what: &str, error: &io::Error) -> Result<T, Stop> {
        failed(format!("cannot {what} {}: {}", self.name(), reason(error)))
    }

    // ---- At the start ----

    /// Hands each event with what stands above it to `take`, and goes on behind the last one; or begins with this front. Before anything is answered, all of
    /// it is on the disk, whatever became of the server before.
    pub fn begin(&mut self, front: &[u8], take: impl FnMut(&[u8], &[u8]) -> Result<(), Damage>) -> Result<(), Stop> {
        match self.front(front).or_else(|error| self.cannot("read", &error))? {
            Front::Whole => self.length = self.replay(front, take)?,
            Front::Begun => self.make(front).or_else(|error| self.cannot("write", &error))?,
            Front::Other => return failed(format!("{} is the journal of another run sheet; with this one it is not gone on with", self.name())),
            Front::Damaged => return failed(format!("{}, line 1: it is not the byte count of a run sheet; nothing was written", self.name())),
        }
        self.settle().or_else(|error| self.cannot("write", &error))
    }

    fn front(&mut self, front: &[u8]) -> io::Result<Front> {
        let mut there = Vec::new();
        self.file.seek(SeekFrom::Start(0))?;
        (&self.file).take(front.len() as u64).read_to_end(&mut there)?;
        Ok(if there == front {
            Front::Whole
        } else if front.starts_with(&there) {
            Front::Begun
        } else if is_count(&there) {
            Front::Other
        } else {
            Front::Damaged
        })
    }

    fn make(&mut self, front: &[u8]) -> io::Result<()> {
        self.file.write_all_at(front, 0)?;
        self.length = front.len() as u64;
        Ok(())
    }

    /// The length up to the end of the last whole event.
    fn replay(&self, front: &[u8], mut take: impl FnMut(&[u8], &[u8]) -> Result<(), Damage>) -> Result<u64, Stop> {
        let damaged = |line: u64, what: &str| failed(format!("{}, line {line}: {what}; nothing was written", self.name()));
        let mut lines = Lines { from: BufReader::new(&self.file), line: front.iter().filter(|&&byte| byte == b'\n').count() as u64 };
        let mut length = front.len() as u64;
        loop {
            let above = match lines.next().or_else(|error| self.cannot("read", &error))? {
                Some(above) => above,
                None => return Ok(length),
            };
            if !above.starts_with(b"#") {
                return damaged(lines.line, "it does not say when and who");
            }
            let event = match lines.next().or_else(|error| self.cannot("read", &error))? {
                Some(event) => event,
                None => return Ok(length),
            };
            match take(&above[..above.len() - 1], &event) {
                Ok(()) => {}
                Err(Damage::Above) => return damaged(lines.line - 1, "it does not say when and who"),
                Err(Damage::Event) => return damaged(lines.line, "such an event is not accepted there, or not at that window"),
            }
            length += (above.len() + event.len()) as u64;
        }
    }

    /// What stands behind the last whole event was never answered, and goes; the rest is on the disk when this returns, and so is the file's name.
    fn settle(&mut self) -> io::Result<()> {
        self.cut()?;
        let folder = match self.path.parent() {
            Some(folder) if folder != Path::new("") => folder,
            _ => Path::new("."),
        };
        File::open(folder)?.sync_all()
    }

    // ---- At work ----

    /// Adds a text, which is on the disk when this returns; or the journal is as it was, and why is said.
    pub fn add(&mut self, text: &[u8]) -> Result<(), String> {
        let added = self.repair().and_then(|()| self.is_in_place()).and_then(|()| {
            self.is_whole = false;
            self.file.write_all_at(text, self.length)?;
            self.file.sync_data()
        });
        match added {
            Ok(()) => {
                self.length += text.len() as u64;
                self.is_whole = true;
                Ok(())
            }
            Err(error) => {
                let why = format!("cannot write {}: {}", self.name(), reason(&error));
                // Where this fails too, the next event tries again before anything else.
                let _ = self.repair();
                Err(why)
            }
        }
    }

    /// Nothing behind what was answered, on the disk.
    pub fn repair(&mut self) -> io::Result<()> {
        if self.is_whole {
            return Ok(());
        }
        self.cut()?;
        self.is_whole = true;
        Ok(())
    }

    fn cut(&self) -> io::Result<()> {
        self.file.set_len(self.length)?;
        self.file.sync_all()
    }

    /// A journal that somebody has moved, put another in the place of, or changed is not written to.
    fn is_in_place(&self) -> io::Result<()> {
        let there = fs::metadata(&self.path)?;
        if (there.dev(), there.ino(), there.len()) != (self.place.0, self.place.1, self.length) {
            return Err(io::Error::new(io::ErrorKind::Other, "it was changed, or another file is in its place"));
        }
        Ok(())
    }
}

/// A number and an LF at the front.
fn is_count(there: &[u8]) -> bool {
    let line = there.split(|&byte| byte == b'\n').next().unwrap_or_default();
    line.len() < there.len() && std::str::from_utf8(line).map_or(false, crate::words::is_number)
}

// ---- Lines ----

/// No line of a journal is longer.
const LONGEST: u64 = 200;

struct Lines<R> {
    from: BufReader<R>,
    /// How many lines there were by now.
    line: u64,
}

impl<R: Read> Lines<R> {
    /// The next line with its LF, of one that is too long only its front and an LF; none at the end, and none for what is left without an LF.
    fn next(&mut self) -> io::Result<Option<Vec<u8>>> {
        let mut line = Vec::new();
        self.from.by_ref().take(LONGEST).read_until(b'\n', &mut line)?;
        while !line.ends_with(b"\n") {
            let there = self.from.fill_buf()?;
            if there.is_empty() {
                return Ok(None);
            }
            match there.iter().position(|&byte| byte == b'\n') {
                Some(at) => {
                    line.push(b'\n');
                    self.from.consume(at + 1);
                }
                None => {
                    let all = there.len();
                    self.from.consume(all);
                }
            }
        }
        self.line += 1;
        Ok(Some(line))
    }
}
