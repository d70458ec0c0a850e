//! ask: a person, or a script, at a window of the server. Events are sent one by one, and each answer is printed before the next is sent.

use super::{say_refused, Call};
use crate::answers::{refusal, Refusal};
use crate::input::{self, Input};
use crate::output::put;
use crate::programs::on_path;
use crate::say::{bytes, quoted, reason};
use crate::status::{failed, Status, Stop};
use crate::words::{in_quotes, table, visible};
use nix::unistd::isatty;
use std::ffi::{OsStr, OsString};
use std::io::{self, Read, Write};
use std::os::unix::ffi::OsStrExt;
use std::os::unix::io::AsRawFd;
use std::os::unix::net::UnixStream;
use std::os::unix::process::CommandExt;
use std::path::Path;
use std::process::Command;

pub fn answer(window: &OsStr, events: &[OsString], plain: bool, call: &Call) -> Result<Status, Stop> {
    let is_typed = events.is_empty() && isatty(0) == Ok(true);
    if is_typed && !plain && on_path("rlwrap").is_some() {
        return with_history(window);
    }
    let stream = match UnixStream::connect(window) {
        Ok(stream) => stream,
        Err(error) => return failed(format!("nobody can be asked at {}: {}", quoted(window), reason(&error))),
    };
    let mut asking = Asking { window, stream, held: Vec::new() };
    let mut worst = Status::Answered;
    for event in events {
        worst = worst.and(asking.ask(event.as_bytes())?);
    }
    if events.is_empty() {
        worst = asking.all(&input::open(OsStr::new("-"), &call.began).or_else(failed)?, is_typed)?;
    }
    Ok(worst)
}

/// The same call again, with keys for what was typed before.
fn with_history<T>(window: &OsStr) -> Result<T, Stop> {
    let me = std::env::current_exe().unwrap_or_else(|_| "violstream".into());
    let error = Command::new("rlwrap").args(["-C", "violstream"]).arg(me).args(["ask", "--plain", "--"]).arg(window).exec();
    failed(format!("cannot start rlwrap: {}; ask --plain does without", reason(&error)))
}

struct Asking<'a> {
    window: &'a OsStr,
    stream: UnixStream,
    /// What has come and is no whole answer yet.
    held: Vec<u8>,
}

impl Asking<'_> {
    /// The lines of an input.
    fn all(&mut self, input: &Input, is_typed: bool) -> Result<Status, Stop> {
        let prompt = format!("{}> ", quoted(Path::new(self.window).file_name().unwrap_or(self.window)));
        let (mut text, mut room, mut worst) = (Vec::new(), [0; 4096], Status::Answered);
        loop {
            while let Some(length) = text.iter().position(|&byte| byte == b'\n') {
                let line: Vec<u8> = text.drain(..=length).collect();
                worst = worst.and(self.ask(&line[..length])?);
            }
            if is_typed {
                let _ = bytes(prompt.as_bytes());
            }
            match input::read(input.as_raw_fd(), &mut room) {
                Ok(0) if text.is_empty() => return Ok(worst),
                Ok(0) => return failed(format!("standard input ends without a line feed; {} was not sent", shown(&text))),
                Ok(count) => text.extend_from_slice(&room[..count]),
                Err(errno) => return failed(input::cannot_read(OsStr::new("-"), &io::Error::from(errno))),
            }
        }
    }

    /// One event and its answer, which is printed.
    fn ask(&mut self, event: &[u8]) -> Result<Status, Stop> {
        let asked = self.stream.write_all(&[event, b"\n"].concat()).and_then(|()| self.answer());
        let answer = match asked {
            Ok(answer) => answer,
            Err(error) => {
                return failed(format!(
                    "{} has not answered {}: {}; waiting tells what was accepted",
                    quoted(self.window),
                    shown(event),
                    reason(&error)
                ))
            }
        };
        put(&answer)?;
        if answer.starts_with(b"failed=") {
            return failed(format!("{} could not write {} to its journal; nothing has changed", quoted(self.window), shown(event)));
        }
        match refusal(&answer) {
            Some(Refusal { number, place }) => {
                say_refused(&format!("{}: {}", quoted(self.window), shown(event)), &Refusal { number, place }, &table::words(number));
                Ok(Status::Refused)
            }
            None => Ok(Status::Answered),
        }
    }

    /// Up to the empty line, without it.
    fn answer(&mut self) -> io::Result<Vec<u8>> {
        let mut room = [0; 8192];
        loop {
            if let Some(at) = self.held.windows(2).position(|two| two == b"\n\n") {
                let mut answer: Vec<u8> = self.held.drain(..at + 2).collect();
                answer.pop();
                return Ok(answer);
            }
            match self.stream.read(&mut room) {
                Ok(0) => return Err(io::Error::new(io::ErrorKind::UnexpectedEof, "the server has ended")),
                Ok(count) => self.held.extend_from_slice(&room[..count]),
                Err(error) if error.kind() == io::ErrorKind::Interrupted => {}
                Err(error) => return Err(error),
            }
        }
    }
}

fn shown(event: &[u8]) -> String {
    in_quotes(&visible(event))
}
