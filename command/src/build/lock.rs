//! One call builds at a time. The lock goes with the call, however that ends, and is on a file that nobody else can open.

use super::silence;
use crate::say::{quoted, reason, say};
use crate::status::{failed, Stop};
use nix::errno::Errno;
use nix::fcntl::{flock, FlockArg};
use nix::libc;
use nix::unistd::geteuid;
use std::fs::{self, DirBuilder, File, OpenOptions};
use std::io::{self, Read};
use std::os::unix::fs::{DirBuilderExt, MetadataExt, OpenOptionsExt, PermissionsExt};
use std::os::unix::io::AsRawFd;
use std::path::Path;
use std::time::{Duration, Instant};

pub struct Lock {
    _file: File,
}

impl Lock {
    pub fn take(root: &Path) -> Result<Lock, Stop> {
        let folder = root.join("target/lock");
        let file = match open(&folder) {
            Ok(file) => file,
            Err(error) => return failed(format!("cannot write {}/: {}", quoted(folder.as_os_str()), reason(&error))),
        };
        let (mut told, mut ours): (Option<Instant>, bool) = (None, false);
        let began = Instant::now();
        loop {
            match flock(file.as_raw_fd(), FlockArg::LockExclusiveNonblock) {
                Ok(()) => return Ok(Lock { _file: file }),
                Err(Errno::EWOULDBLOCK | Errno::EINTR) => {}
                Err(errno) => return failed(format!("cannot lock {}/: {}", quoted(folder.as_os_str()), reason(&io::Error::from(errno)))),
            }
            match told {
                None => {
                    ours = began_here(&file);
                    if !ours {
                        say("another call is building here; waiting for it");
                    }
                    told = Some(Instant::now());
                }
                Some(at) if at.elapsed() >= silence() => {
                    let what = if ours { "still proving" } else { "still waiting for the other call" };
                    say(&format!("{what}, {} s by now", began.elapsed().as_secs()));
                    told = Some(Instant::now());
                }
                Some(_) => {}
            }
            std::thread::sleep(Duration::from_millis(200));
        }
    }
}

/// The script that became this command has begun to prove while the command was compiled (tools/beside.sh), and has written down its number.
fn began_here(file: &File) -> bool {
    let mut text = String::new();
    file.take(20).read_to_string(&mut text).is_ok() && text.trim_end() == std::process::id().to_string()
}

fn open(folder: &Path) -> io::Result<File> {
    match DirBuilder::new().mode(0o700).create(folder) {
        Err(error) if error.kind() != io::ErrorKind::AlreadyExists => return Err(error),
        _ => {}
    }
    let about = fs::symlink_metadata(folder)?;
    if !about.is_dir() || about.uid() != geteuid().as_raw() || about.permissions().mode() & 0o077 != 0 {
        return Err(io::Error::new(io::ErrorKind::Other, "it is not a folder of this user alone"));
    }
    OpenOptions::new().read(true).write(true).create(true).mode(0o600).custom_flags(libc::O_NOFOLLOW).open(folder.join("build"))
}
