//! A window, and what a line there is. Whether numbers are such as an event has, the proved call judges.

use crate::clock::is_utc;
use crate::words::is_number;

#[derive(Clone, Copy, Debug, PartialEq, Eq)]
pub enum Window {
    Office1,
    Office2,
    Operator,
}

pub const WINDOWS: [Window; 3] = [Window::Office1, Window::Office2, Window::Operator];

/// What is asked by a line, the events in the desk's own words.
#[derive(Debug, PartialEq, Eq)]
pub enum Line {
    Waiting,
    Event(Vec<u8>),
    /// Of another window, if its form is an event's at all.
    Elsewhere(Vec<u8>),
    Nothing,
}

impl Window {
    /// Its name is that of its socket.
    pub fn name(self) -> &'static str {
        match self {
            Window::Office1 => "office1",
            Window::Office2 => "office2",
            Window::Operator => "operator",
        }
    }

    /// How the desk's events of this window begin.
    fn beginnings(self) -> &'static [&'static str] {
        match self {
            Window::Office1 => &["file=1,", "withdraw=1,"],
            Window::Office2 => &["file=2,", "withdraw=2,"],
            Window::Operator => &["board="],
        }
    }

    /// The event of this window that a line without its LF is: the office, which is not written there, is put in.
    fn event(self, line: &[u8]) -> Option<Vec<u8>> {
        self.beginnings().iter().find_map(|beginning| {
            let written = beginning.find('=').map_or(beginning.len(), |at| at + 1);
            let rest = line.strip_prefix(&beginning.as_bytes()[..written])?;
            Some([beginning.as_bytes(), rest, b"\n"].concat())
        })
    }

    pub fn understand(self, line: &[u8]) -> Line {
        if line == b"waiting" {
            return Line::Waiting;
        }
        if let Some(event) = self.event(line) {
            return Line::Event(event);
        }
        WINDOWS.iter().find_map(|other| other.event(line)).map_or(Line::Nothing, Line::Elsewhere)
    }

    /// The window that a line above an event in the journal names; it says when and who, and nothing else.
    pub fn named(above: &[u8]) -> Option<Window> {
        let text = std::str::from_utf8(above).ok()?.strip_prefix("# ")?;
        let parts: Vec<&str> = text.split(' ').collect();
        let numbered = |at: usize, name: &str| parts.get(at).and_then(|part| part.strip_prefix(name)).map_or(false, is_number);
        let is_whole = parts.len() == 4 && is_utc(parts[0]) && numbered(2, "uid=") && numbered(3, "pid=");
        WINDOWS.into_iter().find(|window| is_whole && parts[1] == window.name())
    }

    /// Whether an event of the journal, if it is one, is of this window.
    pub fn owns(self, event: &[u8]) -> bool {
        self.beginnings().iter().any(|beginning| event.starts_with(beginning.as_bytes()))
    }
}

#[cfg(test)]
mod tests {
    use super::*;

    #[test]
    fn lines() {
        let event = |text: &str| Line::Event(text.as_bytes().to_vec());
        let elsewhere = |text: &str| Line::Elsewhere(text.as_bytes().to_vec());
        assert_eq!(Window::Office2.understand(b"file=3,4"), event("file=2,3,4\n"));
        assert_eq!(Window::Office1.understand(b"withdraw=7"), event("withdraw=1,7\n"));
        assert_eq!(Window::Operator.understand(b"board=60,1"), event("board=60,1\n"));
        assert_eq!(Window::Office1.understand(b"board=60,1"), elsewhere("board=60,1\n"));
        assert_eq!(Window::Operator.understand(b"withdraw=7"), elsewhere("withdraw=1,7\n"));
        for window in WINDOWS {
            assert_eq!(window.understand(b"waiting"), Line::Waiting);
            for nothing in [&b""[..], b"waiting ", b"# file=1,1", b"File=1,1", b" file=1,1", b"file", b"stop"] {
                assert_eq!(window.understand(nothing), Line::Nothing);
            }
        }
    }

    #[test]
    fn entries() {
        let above = b"# 2026-11-16T08:00:00Z office1 uid=1001 pid=4711";
        assert_eq!(Window::named(above), Some(Window::Office1));
        for wrong in
            ["# 2026-11-16T08:00:00Z office1 uid=1001", "# 2026-11-16 office1 uid=1 pid=1", "# 2026-11-16T08:00:00Z office3 uid=1 pid=1", "#", ""]
        {
            assert_eq!(Window::named(wrong.as_bytes()), None);
        }
        assert!(Window::Office1.owns(b"file=1,2,3\n") && !Window::Office1.owns(b"file=2,2,3\n") && !Window::Office1.owns(b"board=2,2\n"));
    }
}
