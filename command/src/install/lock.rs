//! One call installs or removes below a root at a time. The lock is on a file that only its owner can open, and goes with the call.

use crate::say::say;
use nix::errno::Errno;
use nix::fcntl::{flock, FlockArg};
use nix::libc;
use std::fs::{self, File, OpenOptions};
use std::io;
use std::os::unix::fs::{MetadataExt, OpenOptionsExt};
use std::os::unix::io::AsRawFd;
use std::path::Path;

pub const NAME: &str = "libexec/violstream/lock";

pub fn take(root: &Path) -> io::Result<File> {
    let path = root.join(NAME);
    loop {
        let file = OpenOptions::new().read(true).write(true).create(true).mode(0o600).custom_flags(libc::O_NOFOLLOW).open(&path)?;
        wait(&file)?;
        // The call that was waited for may have removed the file, and then another is the lock.
        match fs::symlink_metadata(&path) {
            Ok(about) if about.ino() == file.metadata()?.ino() => return Ok(file),
            Ok(_) => {}
            Err(error) if error.kind() == io::ErrorKind::NotFound => {}
            Err(error) => return Err(error),
        }
    }
}

fn wait(file: &File) -> io::Result<()> {
    match flock(file.as_raw_fd(), FlockArg::LockExclusiveNonblock) {
        Err(Errno::EWOULDBLOCK) => say("another call is installing or removing there; waiting for it"),
        ended => return ended.map_err(Into::into),
    }
    loop {
        match flock(file.as_raw_fd(), FlockArg::LockExclusive) {
            Err(Errno::EINTR) => {}
            ended => return ended.map_err(Into::into),
        }
    }
}
