//! The text of an entry: seven lines, with the bytes of a run sheet behind the sixth and those of the answer behind the seventh.

use super::is_name;
use crate::clock;

pub struct Entry<'a> {
    pub number: u64,
    pub made: String,
    pub by: String,
    pub program: String,
    pub previous: String,
    pub run: &'a [u8],
    pub plan: &'a [u8],
}

/// A number of an entry as it is written: six digits, or more where it needs them.
pub fn written(number: u64) -> String {
    format!("{number:06}")
}

impl Entry<'_> {
    pub fn text(&self) -> Vec<u8> {
        let head = format!(
            "entry={}\nmade={}\nby={}\nprogram={}\nprevious={}\nrun={}\n",
            written(self.number),
            self.made,
            self.by,
            self.program,
            self.previous,
            self.run.len()
        );
        [head.as_bytes(), self.run, format!("plan={}\n", self.plan.len()).as_bytes(), self.plan].concat()
    }

    /// An entry from its text, or what is wrong with it, in words that go behind "entry NUMBER".
    pub fn read(text: &[u8]) -> Result<Entry<'_>, String> {
        let mut rest = Rest(text);
        let number = rest.line("entry")?;
        let made = rest.line("made")?.to_string();
        let by = rest.line("by")?.to_string();
        let program = rest.line("program")?.to_string();
        let previous = rest.line("previous")?.to_string();
        let run = rest.bytes("run")?;
        let plan = rest.bytes("plan")?;
        if !rest.0.is_empty() {
            return Err(format!("has {} bytes behind its end", rest.0.len()));
        }
        let number = number.parse().ok().filter(|value| written(*value) == number).ok_or("has no number behind entry=")?;
        if !clock::is_time(&made) {
            return Err("has no time behind made=".to_string());
        }
        if !is_name(&by) || !is_name(&program) {
            return Err("has no name behind by= or program=".to_string());
        }
        if previous.len() != 64 || !previous.bytes().all(|byte| matches!(byte, b'0'..=b'9' | b'a'..=b'f')) {
            return Err("has no digest behind previous=".to_string());
        }
        Ok(Entry { number, made, by, program, previous, run, plan })
    }
}

/// What is not read yet.
struct Rest<'a>(&'a [u8]);

impl<'a> Rest<'a> {
    /// What stands behind a key on the next line.
    fn line(&mut self, key: &str) -> Result<&'a str, String> {
        let fault = || format!("has no line {key}= where it must stand");
        let end = self.0.iter().position(|&byte| byte == b'\n').ok_or_else(fault)?;
        let (line, rest) = self.0.split_at(end);
        self.0 = &rest[1..];
        std::str::from_utf8(line).ok().and_then(|line| line.strip_prefix(key)?.strip_prefix('=')).ok_or_else(fault)
    }

    /// So many bytes as the next line says.
    fn bytes(&mut self, key: &str) -> Result<&'a [u8], String> {
        let text = self.line(key)?;
        let count = text.parse::<usize>().ok().filter(|count| count.to_string() == text).ok_or_else(|| format!("has no number behind {key}="))?;
        if count > self.0.len() {
            return Err(format!("ends before the {count} bytes of its {key}="));
        }
        let (bytes, rest) = self.0.split_at(count);
        self.0 = rest;
        Ok(bytes)
    }
}

#[cfg(test)]
mod tests {
    use super::super::NOTHING;
    use super::*;

    fn some() -> Vec<u8> {
        let (made, by, program) = ("2026-11-16T08:00:00Z".to_string(), "archive".to_string(), "violstream 3.0.0 (kit)".to_string());
        Entry { number: 12, made, by, program, previous: NOTHING.to_string(), run: b"tape=A\nplan=3\n", plan: b"refused=11\nplace=2\n" }.text()
    }

    #[test]
    fn what_is_written_reads_back() {
        let text = some();
        assert!(text.starts_with(b"entry=000012\nmade=2026-11-16T08:00:00Z\nby=archive\nprogram=violstream 3.0.0 (kit)\nprevious=0000"));
        let entry = Entry::read(&text).unwrap();
        assert_eq!((entry.number, entry.run, entry.plan), (12, &b"tape=A\nplan=3\n"[..], &b"refused=11\nplace=2\n"[..]));
        assert_eq!(entry.text(), text);
    }

    #[test]
    fn no_part_of_an_entry_is_one() {
        let text = some();
        for end in 0..text.len() {
            assert!(Entry::read(&text[..end]).is_err(), "{end}");
        }
        assert!(Entry::read(&[&text[..], b"\n"].concat()).is_err());
    }
}
