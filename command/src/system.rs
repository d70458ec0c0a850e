//! What must be asked of the system in its own terms, by safe calls; the four things for which there is none stand in `violstream::host`.

use crate::violstream::host::{end_with_caller, ignore};
use nix::fcntl::{fcntl, open, FcntlArg, OFlag};
use nix::sys::signal::{raise, Signal};
use nix::sys::socket::{getsockopt, recv, sockopt::PeerCredentials, MsgFlags};
use nix::sys::stat::Mode;
use std::io;
use std::os::unix::io::RawFd;
use std::process::Command;

pub use crate::violstream::host::map;

/// What the call was given by whoever started it.
pub struct Began {
    pub input_is_open: bool,
    pub output_is_open: bool,
}

/// A descriptor that is closed would be taken by the next file that is opened. From a folder nothing can be read, by any name.
#[cfg_attr(test, allow(dead_code))]
pub fn begin() -> Began {
    let input_is_open = is_open(0);
    if !input_is_open {
        hold("/", OFlag::O_RDONLY);
    }
    let output_is_open = is_open(1);
    if !output_is_open {
        hold("/dev/null", OFlag::O_RDWR);
    }
    if !is_open(2) {
        hold("/dev/null", OFlag::O_RDWR);
    }
    // A file that may not grow is an error like others; a program that has ended is waited for, whatever whoever started this has said.
    ignore(Signal::SIGXFSZ, true);
    ignore(Signal::SIGCHLD, false);
    // A broken pipe ends the call as it ends any other program, unless whoever started it has said otherwise.
    crate::output::begin(!ignore(Signal::SIGPIPE, true));
    Began { input_is_open, output_is_open }
}

fn is_open(descriptor: RawFd) -> bool {
    fcntl(descriptor, FcntlArg::F_GETFD).is_ok()
}

/// Takes the lowest descriptor that is free, and keeps it.
fn hold(path: &str, how: OFlag) {
    let _ = open(path, how, Mode::empty());
}

/// Ends as a program ends whose reader has gone.
pub fn end_by_broken_pipe() -> ! {
    ignore(Signal::SIGPIPE, false);
    let _ = raise(Signal::SIGPIPE);
    // Where the signal was blocked.
    std::process::exit(128 + Signal::SIGPIPE as i32)
}

/// The user and the process at the other end of a socket, when they connected: the system says so, and not they.
pub fn other_end(socket: RawFd) -> io::Result<(u32, i32)> {
    let who = getsockopt(socket, PeerCredentials)?;
    Ok((who.uid(), who.pid()))
}

/// What has come at a socket, which stays there.
pub fn peek(socket: RawFd, room: &mut [u8]) -> io::Result<usize> {
    Ok(recv(socket, room, MsgFlags::MSG_PEEK)?)
}

/// However this call ends, what it has started ends with it.
pub fn end_together(command: &mut Command) {
    end_with_caller(command, Signal::SIGKILL);
}

/// The same for a program that has something to put away first.
pub fn ask_to_end_together(command: &mut Command) {
    end_with_caller(command, Signal::SIGTERM);
}
