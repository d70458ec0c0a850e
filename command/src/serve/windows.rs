//! The windows and who stands there. Nobody waits for another: nothing is read of an asker who does not take his answers, no line grows beyond what an event
//! can have, and in a round everybody gets a few lines in.

use super::desk::Request;
use super::window::{Window, WINDOWS};
use crate::say::{quoted, reason, say};
use crate::status::{failed, Stop};
use crate::system;
use nix::errno::Errno;
use nix::fcntl::{flock, FlockArg};
use nix::poll::{poll, PollFd, PollFlags};
use nix::sys::resource::{getrlimit, Resource};
use nix::sys::stat::{umask, Mode};
use nix::unistd::{chown, Gid};
use std::fs::{self, File, Permissions};
use std::io::{self, ErrorKind, Read, Write};
use std::net::Shutdown;
use std::os::unix::fs::{FileTypeExt, PermissionsExt};
use std::os::unix::io::{AsRawFd, RawFd};
use std::os::unix::net::{UnixListener, UnixStream};
use std::path::{Path, PathBuf};
use std::time::{Duration, Instant};

/// A longer line is no event.
const LONGEST: usize = 200;
/// Bytes of answers that an asker has not taken, above which he is asked for no more.
const HELD: usize = 16384;
/// Lines of one asker in a round, and askers who come to a window in a round.
const LINES: usize = 32;
const COMING: usize = 64;
/// Bytes that are heard at once.
const MOST: usize = 4096;
/// Askers at a window.
const ASKERS: usize = 256;
/// So long the next line is looked for before the server sleeps: who was answered alone often asks again at once, and to be woken takes longer than to look.
const SOON: Duration = Duration::from_micros(100);

pub struct Windows {
    windows: Vec<(Window, PathBuf, UnixListener)>,
    askers: Vec<Asker>,
    most: usize,
    /// How many answers the last round gave.
    given: usize,
    /// Two servers do not share a folder.
    _lock: File,
}

struct Asker {
    stream: UnixStream,
    window: Window,
    who: String,
    /// What has come and is no whole line yet, or was not asked for.
    heard: Vec<u8>,
    /// How much of it lies at the socket still: taking it from there wakes an asker who sleeps until his answer, so the answer goes first.
    lies: usize,
    /// The line that is coming is too long, and its front is forgotten.
    is_long: bool,
    /// Answers that are not taken yet.
    held: Vec<u8>,
    /// Nothing more will come.
    has_ended: bool,
    /// Nobody takes answers any more; what was asked before is done all the same.
    is_deaf: bool,
    /// When the last line was taken.
    at: Instant,
}

impl Windows {
    pub fn open(folder: &Path, groups: [Option<Gid>; 3]) -> Result<Windows, Stop> {
        let locked = File::open(folder).and_then(|file| match flock(file.as_raw_fd(), FlockArg::LockExclusiveNonblock) {
            Ok(()) => Ok(file),
            Err(Errno::EWOULDBLOCK) => Err(io::Error::new(ErrorKind::Other, "another server has its windows there")),
            Err(errno) => Err(errno.into()),
        });
        let lock = locked.or_else(|error| failed(format!("cannot use {}: {}", quoted(folder.as_os_str()), reason(&error))))?;
        let descriptors = getrlimit(Resource::RLIMIT_NOFILE).map_or(1024, |(soft, _)| soft);
        let most = ASKERS.min((descriptors.saturating_sub(32) / 3) as usize).max(1);
        let mut opened = Windows { windows: Vec::new(), askers: Vec::new(), most, given: 0, _lock: lock };
        for (window, group) in WINDOWS.into_iter().zip(groups) {
            let path = folder.join(window.name());
            match listen(&path, group) {
                Ok(listener) => opened.windows.push((window, path, listener)),
                Err(error) => {
                    opened.close();
                    return failed(format!("cannot open the window {}: {}", quoted(path.as_os_str()), reason(&error)));
                }
            }
        }
        Ok(opened)
    }

    /// Until somebody comes, asks or takes, or the patience is over; true where the descriptor of signals has something.
    pub fn wait(&mut self, signals: RawFd, patience: Option<Duration>) -> Result<bool, Stop> {
        let mut ends = vec![PollFd::new(signals, PollFlags::POLLIN)];
        ends.extend(self.windows.iter().map(|(_, _, listener)| PollFd::new(listener.as_raw_fd(), PollFlags::POLLIN)));
        ends.extend(self.askers.iter().map(|asker| PollFd::new(asker.stream.as_raw_fd(), asker.wishes())));
        let limit = if self.askers.iter().any(Asker::has_line) { 0 } else { patience.map_or(-1, |patience| patience.as_millis() as i32) };
        match self.watch(&mut ends, limit) {
            Ok(_) | Err(Errno::EINTR) => {}
            Err(errno) => return failed(format!("cannot wait for events: {}", reason(&errno.into()))),
        }
        let seen = |end: &PollFd| end.revents().unwrap_or_else(PollFlags::empty);
        let here = 1 + self.windows.len();
        for (asker, end) in self.askers.iter_mut().zip(&ends[here..]) {
            asker.see(seen(end));
        }
        for at in 0..self.windows.len() {
            if !seen(&ends[1 + at]).is_empty() {
                self.let_in(at);
            }
        }
        Ok(!seen(&ends[0]).is_empty())
    }

    /// Behind a single answer it looks for a while, and then sleeps.
    fn watch(&self, ends: &mut [PollFd], limit: i32) -> nix::Result<i32> {
        let began = Instant::now();
        while self.given == 1 && limit != 0 && began.elapsed() < SOON {
            let seen = poll(ends, 0)?;
            if seen > 0 {
                return Ok(seen);
            }
        }
        poll(ends, limit)
    }

    fn let_in(&mut self, at: usize) {
        for _ in 0..COMING {
            let (window, _, listener) = &self.windows[at];
            let window = *window;
            match listener.accept().and_then(|(stream, _)| Asker::new(stream, window)) {
                Ok(asker) => {
                    if self.askers.iter().filter(|other| other.window == window).count() >= self.most {
                        self.send_away(window);
                    }
                    self.askers.push(asker);
                }
                Err(error) if error.kind() == ErrorKind::WouldBlock => return,
                Err(error) if error.kind() == ErrorKind::ConnectionAborted => {}
                Err(error) => {
                    // Too many files are open in the whole system, or the like.
                    say(&format!("cannot let an asker in at {}: {}", window.name(), reason(&error)));
                    self.send_away(window);
                    std::thread::sleep(Duration::from_millis(50));
                    return;
                }
            }
        }
    }

    /// Whoever has been silent longest at a window makes room.
    fn send_away(&mut self, window: Window) {
        let silent = (0..self.askers.len()).filter(|&at| self.askers[at].window == window).min_by_key(|&at| self.askers[at].at);
        if let Some(at) = silent {
            self.askers.remove(at);
        }
    }

    /// The next lines of everybody, a few of each, with the place of the asker.
    pub fn lines(&mut self) -> (Vec<usize>, Vec<Request>) {
        let (mut places, mut requests) = (Vec::new(), Vec::new());
        for (at, asker) in self.askers.iter_mut().enumerate() {
            for _ in 0..LINES {
                let line = match asker.line() {
                    Some(line) => line,
                    None => break,
                };
                places.push(at);
                requests.push(Request { window: asker.window, who: asker.who.clone(), line });
            }
        }
        (places, requests)
    }

    /// Hands over what can be taken, and lets those go who have all and ask no more.
    pub fn give(&mut self, places: &[usize], answers: &[Vec<u8>]) {
        for (at, answer) in places.iter().zip(answers) {
            let asker = &mut self.askers[*at];
            if !asker.is_deaf {
                asker.held.extend_from_slice(answer);
                asker.held.push(b'\n');
            }
        }
        self.given = answers.len();
        self.askers.iter_mut().for_each(Asker::give);
        self.askers.iter_mut().for_each(Asker::take);
        self.askers.retain(|asker| !(asker.has_ended && asker.held.is_empty() && !asker.has_line()));
    }

    pub fn close(&self) {
        for (_, path, _) in &self.windows {
            let _ = fs::remove_file(path);
        }
    }
}

/// A socket that a server left which was killed makes room; anything else that stands there does not.
fn listen(path: &Path, group: Option<Gid>) -> io::Result<UnixListener> {
    match fs::symlink_metadata(path) {
        Err(error) if error.kind() == ErrorKind::NotFound => {}
        Err(error) => return Err(error),
        Ok(about) if !about.file_type().is_socket() => return Err(io::Error::new(ErrorKind::Other, "something that is no window is there")),
        Ok(_) if UnixStream::connect(path).is_ok() => return Err(io::Error::new(ErrorKind::Other, "another program listens there")),
        Ok(_) => fs::remove_file(path)?,
    }
    // Nobody may speak there until it is clear who may.
    let before = umask(Mode::from_bits_truncate(0o777));
    let bound = UnixListener::bind(path);
    umask(before);
    let listener = bound?;
    let opened = chown(path, None, group).map_err(io::Error::from).and_then(|()| fs::set_permissions(path, Permissions::from_mode(0o660)));
    match opened.and_then(|()| listener.set_nonblocking(true)) {
        Ok(()) => Ok(listener),
        Err(error) => {
            let _ = fs::remove_file(path);
            Err(error)
        }
    }
}

impl Asker {
    fn new(stream: UnixStream, window: Window) -> io::Result<Asker> {
        stream.set_nonblocking(true)?;
        let (uid, pid) = system::other_end(stream.as_raw_fd())?;
        let who = format!("uid={uid} pid={pid}");
        let (heard, held) = (Vec::new(), Vec::new());
        Ok(Asker { stream, window, who, heard, lies: 0, is_long: false, held, has_ended: false, is_deaf: false, at: Instant::now() })
    }

    fn may_ask(&self) -> bool {
        self.held.len() < HELD
    }

    fn has_line(&self) -> bool {
        self.may_ask() && self.heard.contains(&b'\n')
    }

    /// What to wait for.
    fn wishes(&self) -> PollFlags {
        let mut wishes = PollFlags::empty();
        wishes.set(PollFlags::POLLIN, self.may_ask() && !self.has_ended && !self.heard.contains(&b'\n'));
        wishes.set(PollFlags::POLLOUT, !self.held.is_empty());
        wishes
    }

    fn see(&mut self, seen: PollFlags) {
        if !seen.is_empty() && self.wishes().contains(PollFlags::POLLIN) {
            self.hear();
        }
        // Gone, with answers not taken; the next write would say so.
        if seen.intersects(PollFlags::POLLHUP | PollFlags::POLLERR) {
            self.give();
        }
    }

    fn hear(&mut self) {
        let mut room = [0; MOST];
        let heard = match system::peek(self.stream.as_raw_fd(), &mut room) {
            Ok(count) if count > 0 => {
                self.lies = count;
                Ok(count)
            }
            // The end, an error, or something that is no text: it goes.
            _ => self.stream.read(&mut room),
        };
        match heard {
            Ok(0) => self.has_ended = true,
            Ok(count) => self.heard.extend_from_slice(&room[..count]),
            Err(error) if matches!(error.kind(), ErrorKind::WouldBlock | ErrorKind::Interrupted) => {}
            Err(_) => self.has_ended = true,
        }
        if self.heard.len() > LONGEST && !self.heard.contains(&b'\n') {
            self.heard.clear();
            self.is_long = true;
        }
    }

    /// What was heard is taken from the socket.
    fn take(&mut self) {
        let mut room = [0; MOST];
        while self.lies > 0 {
            match self.stream.read(&mut room[..self.lies]) {
                Ok(count) if count > 0 => self.lies -= count,
                Err(error) if error.kind() == ErrorKind::Interrupted => {}
                _ => {
                    self.has_ended = true;
                    self.lies = 0;
                }
            }
        }
    }

    /// The next whole line, without its LF; for one that is too long an empty one, which is no event either.
    fn line(&mut self) -> Option<Vec<u8>> {
        if !self.may_ask() {
            return None;
        }
        let length = self.heard.iter().position(|&byte| byte == b'\n')?;
        let mut line: Vec<u8> = self.heard.drain(..=length).collect();
        line.truncate(if self.is_long || length > LONGEST { 0 } else { length });
        self.is_long = false;
        self.at = Instant::now();
        Some(line)
    }

    fn give(&mut self) {
        while !self.held.is_empty() {
            match self.stream.write(&self.held) {
                Ok(count) if count > 0 => drop(self.held.drain(..count)),
                Err(error) if error.kind() == ErrorKind::Interrupted => {}
                Err(error) if error.kind() == ErrorKind::WouldBlock => return,
                _ => {
                    // Should he be there after all, he sees that no answer comes.
                    let _ = self.stream.shutdown(Shutdown::Write);
                    self.is_deaf = true;
                    self.held.clear();
                }
            }
        }
    }
}
