//! Files, and standard input for `-`: read once, and no further than it can matter.

use crate::output::wait_until;
use crate::say::{reason, say, shown};
use crate::system::{map, Began};
use memmap2::Mmap;
use nix::errno::Errno;
use nix::poll::PollFlags;
use nix::unistd;
use std::ffi::OsStr;
use std::fs::File;
use std::io;
use std::ops::Deref;
use std::os::unix::io::{AsRawFd, RawFd};

pub enum Input {
    Standard,
    Named(File),
}

impl AsRawFd for Input {
    fn as_raw_fd(&self) -> RawFd {
        match self {
            Input::Standard => 0,
            Input::Named(file) => file.as_raw_fd(),
        }
    }
}

/// Opened, or the sentence that says why not.
pub fn open(name: &OsStr, began: &Began) -> Result<Input, String> {
    if name != "-" {
        return File::open(name).map(Input::Named).map_err(|error| cannot_read(name, &error));
    }
    if !began.input_is_open {
        return Err("cannot read standard input: it is closed".to_string());
    }
    Ok(Input::Standard)
}

/// Tells a person at a keyboard that somebody waits for them.
pub fn tell_if_keyboard(input: &Input, sentence: &str) {
    if unistd::isatty(input.as_raw_fd()) == Ok(true) {
        say(sentence);
    }
}

pub fn cannot_read(name: &OsStr, error: &io::Error) -> String {
    format!("cannot read {}: {}", shown(name), reason(error))
}

/// What there is; 0 at the end.
pub fn read(descriptor: RawFd, room: &mut [u8]) -> Result<usize, Errno> {
    loop {
        match unistd::read(descriptor, room) {
            Err(Errno::EINTR) => {}
            Err(Errno::EAGAIN) => wait_until(descriptor, PollFlags::POLLIN)?,
            ended => return ended,
        }
    }
}

/// A whole text of any length: a file lies in memory as it is, anything else is read to its end.
pub enum Bytes {
    Mapped(Mmap),
    Held(Vec<u8>),
}

impl Deref for Bytes {
    type Target = [u8];

    fn deref(&self) -> &[u8] {
        match self {
            Bytes::Mapped(bytes) => bytes,
            Bytes::Held(bytes) => bytes,
        }
    }
}

pub fn whole(name: &OsStr, began: &Began) -> Result<Bytes, String> {
    let input = open(name, began)?;
    if let Input::Named(file) = &input {
        let about = file.metadata().map_err(|error| cannot_read(name, &error))?;
        if about.is_file() && about.len() > 0 {
            return map(file).map(Bytes::Mapped).map_err(|error| cannot_read(name, &error));
        }
    }
    drain(&input, name, usize::MAX).map(Bytes::Held)
}

/// The first bytes of a file, at most `limit`.
pub fn take(name: &OsStr, limit: usize, began: &Began) -> Result<Vec<u8>, String> {
    drain(&open(name, began)?, name, limit)
}

fn drain(input: &Input, name: &OsStr, limit: usize) -> Result<Vec<u8>, String> {
    if let Input::Standard = input {
        tell_if_keyboard(input, "reading standard input, which is the keyboard; Ctrl-D on a new line ends it");
    }
    let mut text = Vec::new();
    let mut room = vec![0; limit.min(65536)];
    while text.len() < limit {
        let most = room.len().min(limit - text.len());
        match read(input.as_raw_fd(), &mut room[..most]) {
            Ok(0) => break,
            Ok(count) => text.extend_from_slice(&room[..count]),
            Err(errno) => return Err(cannot_read(name, &io::Error::from(errno))),
        }
    }
    Ok(text)
}
