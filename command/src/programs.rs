//! Running a proved program: its input is handed over and its answer taken at the same time, so that neither waits for the other, and every
//! error of reading and writing is seen here. Nothing is written to a file.

use crate::answers;
use crate::build;
use crate::commands::{frame_pair, Call};
use crate::input;
use crate::library;
use crate::say::{quoted, reason, say};
use crate::status::{failed, Stop};
use crate::system;
use nix::errno::Errno;
use nix::fcntl::{fcntl, FcntlArg, OFlag};
use nix::poll::{poll, PollFd, PollFlags};
use nix::unistd;
use std::ffi::OsString;
use std::os::unix::io::{AsRawFd, RawFd};
use std::os::unix::process::ExitStatusExt;
use std::path::{Path, PathBuf};
use std::process::{Child, Command, ExitStatus, Stdio};
use std::time::{Duration, Instant};

/// The refusal of a run for which there is not room enough.
pub const NO_ROOM: u64 = 9;

/// A program that can be started.
pub struct Program {
    pub name: &'static str,
    path: PathBuf,
    /// What stands before it where this machine needs an emulator.
    before: Vec<OsString>,
}

/// What a program has printed.
pub struct Printed {
    pub answer: Vec<u8>,
    /// Its lines on standard error, which belong to the answer.
    pub aside: Vec<u8>,
}

/// Why a program has given no answer, in a sentence.
pub enum Fault {
    /// What was handed over could not be read.
    Reading(Errno),
    Program(String),
}

impl Program {
    /// Built, where it must be.
    pub fn ready(name: &'static str, call: &Call) -> Result<Program, Stop> {
        let path = call.places.program(name);
        if !call.places.installed {
            build::program(name, call)?;
        } else if !path.exists() {
            return failed(format!("there is no {}, which was installed with this command", quoted(path.as_os_str())));
        }
        Ok(Program { name, before: starter(&path)?, path })
    }

    /// One that is started again and again.
    pub fn kept<'a>(kept: &'a mut Option<Program>, name: &'static str, call: &Call) -> Result<&'a Program, Stop> {
        match kept {
            Some(program) => Ok(program),
            None => Ok(kept.insert(Program::ready(name, call)?)),
        }
    }

    /// The answer to a run sheet, or to another text.
    pub fn ask(&self, text: &[u8]) -> Result<Printed, String> {
        self.ask_with_room(text, text, b"")
    }

    /// The answer to a run sheet and a text beside it.
    pub fn ask_pair(&self, run: &[u8], other: &[u8]) -> Result<Printed, String> {
        self.ask_with_room(&frame_pair(run, other), run, other)
    }

    /// Where the program has no room for a run, the library is lent more, and answers in its stead.
    fn ask_with_room(&self, text: &[u8], run: &[u8], other: &[u8]) -> Result<Printed, String> {
        let mut printed = self.ask_alone(text)?;
        if answers::refusal(&printed.answer).map_or(false, |refused| refused.number == NO_ROOM) {
            printed.answer = library::in_room(self.name, run, other).unwrap_or(printed.answer);
        }
        Ok(printed)
    }

    /// The answer of the program, with the room that it has itself.
    pub fn ask_alone(&self, text: &[u8]) -> Result<Printed, String> {
        match self.answer(text, None) {
            Ok(printed) => Ok(printed),
            Err(Fault::Program(sentence)) => Err(sentence),
            Err(Fault::Reading(errno)) => Err(format!("cannot read: {}", errno.desc())),
        }
    }

    /// The answer to a text and what follows it on a descriptor, of any length.
    pub fn answer(&self, text: &[u8], more: Option<RawFd>) -> Result<Printed, Fault> {
        let child = self.start(Stdio::piped()).map_err(Fault::Program)?;
        let (printed, ended) = Pump::new(child, text, more)?.run()?;
        if ended.success() && answers::is_answer(self.name, &printed.answer) {
            return Ok(printed);
        }
        Err(Fault::Program(self.no_answer(ended)))
    }

    pub fn no_answer(&self, ended: ExitStatus) -> String {
        let how = match (ended.code(), ended.signal()) {
            (Some(status), _) => format!("ended with status {status}"),
            (_, Some(signal)) => format!("was ended by signal {signal}"),
            _ => "has not ended".to_string(),
        };
        format!("{} gave no answer and {how}", quoted(self.path.as_os_str()))
    }

    /// Started, with pipes for its input and its answer.
    pub fn start(&self, aside: Stdio) -> Result<Child, String> {
        let mut words = self.before.iter().cloned().chain([self.path.clone().into_os_string()]);
        let mut command = Command::new(words.next().unwrap_or_default());
        command.args(words).stdin(Stdio::piped()).stdout(Stdio::piped()).stderr(aside);
        system::end_together(&mut command);
        command.spawn().map_err(|error| format!("{} gave no answer: it could not be started: {}", quoted(self.path.as_os_str()), reason(&error)))
    }
}

/// The words that stand before a program for x86-64: none on such a machine. Elsewhere Debian's emulator, with the loader and the C library of its cross compilers.
fn starter(program: &Path) -> Result<Vec<OsString>, Stop> {
    if cfg!(target_arch = "x86_64") {
        return Ok(Vec::new());
    }
    let machine = std::env::consts::ARCH;
    let libraries = PathBuf::from("/usr/x86_64-linux-gnu/lib");
    let loader = libraries.join("ld-linux-x86-64.so.2");
    match on_path("qemu-x86_64") {
        Some(runner) if loader.is_file() => Ok(vec![runner.into(), loader.into(), "--library-path".into(), libraries.into()]),
        _ => failed(format!(
            "{} is for x86-64, this machine is {machine}, and there is nothing to run it by: qemu-x86_64 is not on PATH, or there is no C library for it \
             (on Debian, as root: apt-get install qemu-user libc6-amd64-cross)",
            quoted(program.as_os_str())
        )),
    }
}

/// A program of that name, by PATH.
pub fn on_path(name: &str) -> Option<PathBuf> {
    let folders = std::env::var_os("PATH")?;
    std::env::split_paths(&folders)
        .map(|folder| folder.join(name))
        .find(|path| unistd::access(path, unistd::AccessFlags::X_OK).is_ok() && path.is_file())
}

// ---- Handing over and taking at once ----

/// No answer is longer, of any program.
const MOST: usize = 1 << 20;

struct Pump {
    child: Child,
    /// What is still to be handed over, and where it goes on.
    waiting: Vec<u8>,
    handed: usize,
    more: Option<RawFd>,
    taken: u64,
    told: Instant,
    printed: Printed,
}

impl Pump {
    fn new(child: Child, text: &[u8], more: Option<RawFd>) -> Result<Pump, Fault> {
        let mut pump = Pump {
            child,
            waiting: text.to_vec(),
            handed: 0,
            more,
            taken: 0,
            told: Instant::now(),
            printed: Printed { answer: Vec::new(), aside: Vec::new() },
        };
        let ends = [pump.to(), pump.from(), pump.aside()];
        for end in ends.into_iter().flatten() {
            if let Err(errno) = fcntl(end, FcntlArg::F_SETFL(OFlag::O_NONBLOCK)) {
                return Err(pump.fault(errno));
            }
        }
        Ok(pump)
    }

    fn to(&self) -> Option<RawFd> {
        self.child.stdin.as_ref().map(AsRawFd::as_raw_fd)
    }

    fn from(&self) -> Option<RawFd> {
        self.child.stdout.as_ref().map(AsRawFd::as_raw_fd)
    }

    fn aside(&self) -> Option<RawFd> {
        self.child.stderr.as_ref().map(AsRawFd::as_raw_fd)
    }

    fn run(mut self) -> Result<(Printed, ExitStatus), Fault> {
        while self.from().is_some() || self.aside().is_some() {
            self.close_when_done();
            self.wait()?;
            self.hand_over()?;
            self.take_in()?;
        }
        match self.child.wait() {
            Ok(ended) => Ok((self.printed, ended)),
            Err(error) => Err(Fault::Program(format!("cannot wait for a program: {}", reason(&error)))),
        }
    }

    /// The program sees the end of its input once all of it has been handed over.
    fn close_when_done(&mut self) {
        if self.handed == self.waiting.len() && self.more.is_none() {
            self.child.stdin = None;
        }
    }

    /// Until something can be read or written.
    fn wait(&mut self) -> Result<(), Fault> {
        let mut ends = Vec::new();
        match (self.to(), self.more) {
            (Some(to), _) if self.handed < self.waiting.len() => ends.push(PollFd::new(to, PollFlags::POLLOUT)),
            (Some(_), Some(more)) => ends.push(PollFd::new(more, PollFlags::POLLIN)),
            _ => {}
        }
        ends.extend([self.from(), self.aside()].into_iter().flatten().map(|end| PollFd::new(end, PollFlags::POLLIN)));
        match poll(&mut ends, 5000) {
            Ok(_) | Err(Errno::EINTR) => self.tell(),
            Err(errno) => return Err(self.fault(errno)),
        }
        Ok(())
    }

    /// How far a long input has been read, for a person at a terminal.
    fn tell(&mut self) {
        if self.more.is_some() && self.told.elapsed() >= Duration::from_secs(5) && unistd::isatty(2) == Ok(true) {
            self.told = Instant::now();
            say(&format!("still reading, {} bytes by now", self.taken));
        }
    }

    fn hand_over(&mut self) -> Result<(), Fault> {
        let to = match self.to() {
            Some(to) => to,
            None => return Ok(()),
        };
        if self.handed == self.waiting.len() {
            self.read_more()?;
        }
        if self.handed < self.waiting.len() {
            match unistd::write(to, &self.waiting[self.handed..]) {
                Ok(count) => self.handed += count,
                // It needs no more: what it has found so far decides the answer.
                Err(Errno::EPIPE) => self.child.stdin = None,
                Err(Errno::EAGAIN | Errno::EINTR) => {}
                Err(errno) => return Err(self.fault(errno)),
            }
        }
        Ok(())
    }

    fn read_more(&mut self) -> Result<(), Fault> {
        let more = match self.more {
            Some(more) if is_ready(more) => more,
            _ => return Ok(()),
        };
        let mut room = vec![0; 65536];
        match input::read(more, &mut room) {
            Ok(0) => self.more = None,
            Ok(count) => {
                room.truncate(count);
                self.taken += count as u64;
                self.waiting = room;
                self.handed = 0;
            }
            Err(errno) => {
                self.end();
                return Err(Fault::Reading(errno));
            }
        }
        Ok(())
    }

    fn take_in(&mut self) -> Result<(), Fault> {
        if let Some(from) = self.from() {
            match take_some(from, &mut self.printed.answer) {
                Ok(true) => {}
                Ok(false) => self.child.stdout = None,
                Err(errno) => return Err(self.fault(errno)),
            }
        }
        if let Some(aside) = self.aside() {
            match take_some(aside, &mut self.printed.aside) {
                Ok(true) => {}
                Ok(false) => self.child.stderr = None,
                Err(errno) => return Err(self.fault(errno)),
            }
        }
        Ok(())
    }

    fn fault(&mut self, errno: Errno) -> Fault {
        self.end();
        Fault::Program(format!("cannot speak with a program: {}", reason(&std::io::Error::from(errno))))
    }

    fn end(&mut self) {
        let _ = self.child.kill();
        let _ = self.child.wait();
    }
}

fn is_ready(descriptor: RawFd) -> bool {
    matches!(poll(&mut [PollFd::new(descriptor, PollFlags::POLLIN)], 0), Ok(1))
}

/// Whether more may come.
fn take_some(from: RawFd, text: &mut Vec<u8>) -> Result<bool, Errno> {
    let mut room = [0; 8192];
    match unistd::read(from, &mut room) {
        Ok(0) => Ok(false),
        Ok(count) => {
            text.extend_from_slice(&room[..count]);
            if text.len() > MOST {
                return Err(Errno::EFBIG);
            }
            Ok(true)
        }
        Err(Errno::EAGAIN | Errno::EINTR) => Ok(true),
        Err(errno) => Err(errno),
    }
}
