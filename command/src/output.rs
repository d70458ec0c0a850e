//! Standard output: whole, or the call fails.

use crate::say::reason;
use crate::status::{failed, Stop};
use crate::system;
use nix::errno::Errno;
use nix::poll::{poll, PollFd, PollFlags};
use nix::unistd;
use std::io;
use std::sync::atomic::{AtomicBool, Ordering};

const OUTPUT: i32 = 1;
static DIES_OF_BROKEN_PIPE: AtomicBool = AtomicBool::new(true);

pub fn begin(dies_of_broken_pipe: bool) {
    DIES_OF_BROKEN_PIPE.store(dies_of_broken_pipe, Ordering::Relaxed);
}

pub fn put(text: &[u8]) -> Result<(), Stop> {
    write_all(OUTPUT, text).or_else(cannot_write)
}

/// At the end of a call that has answered: some errors come only here.
pub fn finish() -> Result<(), Stop> {
    match unistd::close(OUTPUT) {
        Ok(()) | Err(Errno::EINTR) => Ok(()),
        Err(errno) => cannot_write(errno),
    }
}

/// Where the reader has gone, the call ends as other programs do; nobody is told.
pub fn cannot_write<T>(errno: Errno) -> Result<T, Stop> {
    if errno == Errno::EPIPE && DIES_OF_BROKEN_PIPE.load(Ordering::Relaxed) {
        system::end_by_broken_pipe();
    }
    failed(format!("cannot write to standard output: {}", reason(&io::Error::from(errno))))
}

/// Whether whoever reads standard output has gone.
pub fn reader_has_gone() -> bool {
    let mut asked = [PollFd::new(OUTPUT, PollFlags::empty())];
    matches!(poll(&mut asked, 0), Ok(1)) && asked[0].revents().map_or(false, |seen| seen.contains(PollFlags::POLLERR))
}

pub fn write_all(descriptor: i32, mut text: &[u8]) -> Result<(), Errno> {
    while !text.is_empty() {
        match unistd::write(descriptor, text) {
            Ok(0) => return Err(Errno::EIO),
            Ok(written) => text = &text[written..],
            Err(Errno::EINTR) => {}
            Err(Errno::EAGAIN) => wait_until(descriptor, PollFlags::POLLOUT)?,
            Err(errno) => return Err(errno),
        }
    }
    Ok(())
}

/// For a descriptor that somebody else has set not to wait.
pub fn wait_until(descriptor: i32, ready: PollFlags) -> Result<(), Errno> {
    match poll(&mut [PollFd::new(descriptor, ready)], -1) {
        Ok(_) | Err(Errno::EINTR) => Ok(()),
        Err(errno) => Err(errno),
    }
}
