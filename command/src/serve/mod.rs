//! serve: the desk for two offices in two rooms. What an event does is the proved call's; what stands here is windows, journal and clock.
//!
//! One round: whoever has asked is heard, all that was asked is judged in turn, what was accepted is written to the journal and synced once, and then the
//! answers leave. So no answer shows what is not on the disk, and a table that could not be written is the one before. A record book, where there is one, follows
//! the journal before the answers leave, or as soon as it can be written.

mod desk;
mod follower;
mod journal;
mod window;
mod windows;

use crate::library::{Calls, Tape};
use crate::say::reason;
use crate::status::{failed, Status, Stop};
pub use desk::Desk;
pub use follower::Follower;
pub use journal::Journal;
use nix::sys::signal::{SigSet, Signal};
use nix::sys::signalfd::{SfdFlags, SignalFd};
use std::os::unix::io::AsRawFd;
pub use windows::Windows;

/// From here on what would end the server is waited for like an event.
pub fn hold_signals() -> Result<SignalFd, Stop> {
    let mut ending = SigSet::empty();
    [Signal::SIGTERM, Signal::SIGINT, Signal::SIGHUP].into_iter().for_each(|signal| ending.add(signal));
    let held = ending.thread_block().and_then(|()| SignalFd::with_flags(&ending, SfdFlags::SFD_CLOEXEC));
    held.or_else(|errno| failed(format!("cannot wait for signals: {}", reason(&errno.into()))))
}

/// Round by round, until a signal ends it.
pub fn serve<C: Calls>(mut desk: Desk<C>, mut windows: Windows, signals: &SignalFd) -> Result<Status, Stop> {
    let ended = rounds(&mut desk, &mut windows, signals);
    windows.close();
    let closed = desk.close();
    ended?;
    closed.map(|()| Status::Answered)
}

fn rounds<C: Calls>(desk: &mut Desk<C>, windows: &mut Windows, signals: &SignalFd) -> Result<(), Stop> {
    while !windows.wait(signals.as_raw_fd(), desk.patience())? {
        let (places, requests) = windows.lines();
        let answers = desk.answer(&requests);
        windows.give(&places, &answers);
    }
    Ok(())
}

/// The files of a run sheet that the proved desk has accepted.
pub fn tape_of(sheet: &[u8]) -> Tape {
    let mut tape = Tape::default();
    for line in String::from_utf8_lossy(sheet).lines().filter_map(|line| line.strip_prefix("file=")) {
        let numbers: Vec<u64> = line.split(',').filter_map(|number| number.parse().ok()).collect();
        if let [start, length, aggregate] = numbers[..] {
            tape.starts.push(start);
            tape.lengths.push(length);
            tape.aggregates.push(aggregate);
        }
    }
    tape
}
