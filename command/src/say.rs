//! Sentences on standard error, and names from outside in a form that does nothing to a terminal.

use std::ffi::OsStr;
use std::fmt::Write as _;
use std::io::Write as _;
use std::os::unix::ffi::OsStrExt;

pub fn say(sentence: &str) {
    line(&format!("violstream: {sentence}"));
}

/// Whole and at once, so that lines of two programs do not mix. Where standard error cannot be written there is nobody to tell.
pub fn line(text: &str) {
    let _ = bytes(format!("{text}\n").as_bytes());
}

pub fn bytes(text: &[u8]) -> std::io::Result<()> {
    std::io::stderr().write_all(text)
}

/// The reason in an error of the system, in its words alone.
pub fn reason(error: &std::io::Error) -> String {
    let text = error.to_string();
    match text.find(" (os error ") {
        Some(at) => text[..at].to_string(),
        None => text,
    }
}

/// A name on one line: as it is, or as a shell would quote it where it holds what a terminal would not show.
pub fn quoted(name: &OsStr) -> String {
    match name.to_str() {
        Some(text) if text.chars().all(is_plain) => text.to_string(),
        _ => format!("$'{}'", in_dollar_quotes(name.as_bytes())),
    }
}

/// The name of a file in a message.
pub fn shown(name: &OsStr) -> String {
    if name == "-" {
        "standard input".to_string()
    } else {
        quoted(name)
    }
}

/// A character that a terminal shows, and that neither moves it nor turns the order of a line round.
pub fn is_plain(c: char) -> bool {
    !c.is_control() && !matches!(c, '\u{61c}' | '\u{200b}'..='\u{200f}' | '\u{2028}'..='\u{202e}' | '\u{2060}'..='\u{206f}' | '\u{feff}')
}

fn in_dollar_quotes(name: &[u8]) -> String {
    let mut out = String::new();
    for c in characters(name) {
        match c {
            Ok('\n') => out.push_str("\\n"),
            Ok('\t') => out.push_str("\\t"),
            Ok('\r') => out.push_str("\\r"),
            Ok(c @ ('\'' | '\\')) => out.extend(['\\', c]),
            Ok(c) if is_plain(c) => out.push(c),
            Ok(c) => c.encode_utf8(&mut [0; 4]).bytes().for_each(|byte| hex(&mut out, byte)),
            Err(byte) => hex(&mut out, byte),
        }
    }
    out
}

fn hex(out: &mut String, byte: u8) {
    let _ = write!(out, "\\x{byte:02x}");
}

/// The characters of a text, and each byte that is of none.
pub fn characters(mut text: &[u8]) -> Vec<Result<char, u8>> {
    let mut out = Vec::new();
    while !text.is_empty() {
        let whole = match std::str::from_utf8(text) {
            Ok(_) => text.len(),
            Err(error) => error.valid_up_to(),
        };
        out.extend(String::from_utf8_lossy(&text[..whole]).chars().map(Ok));
        text = &text[whole..];
        if let Some((&byte, rest)) = text.split_first() {
            out.push(Err(byte));
            text = rest;
        }
    }
    out
}

#[cfg(test)]
mod tests {
    use super::*;

    #[test]
    fn names() {
        let names: [(&[u8], &str); 7] = [
            (b"a b.run", "a b.run"),
            (b"a\nb.run", "$'a\\nb.run'"),
            (b"\x1b[2J'\\", "$'\\x1b[2J\\'\\\\'"),
            (b"\xffa", "$'\\xffa'"),
            ("b\u{e4}nder".as_bytes(), "b\u{e4}nder"),
            ("\u{202e}nur.a".as_bytes(), "$'\\xe2\\x80\\xaenur.a'"),
            ("\u{9b}".as_bytes(), "$'\\xc2\\x9b'"),
        ];
        for (name, text) in names {
            assert_eq!(quoted(OsStr::from_bytes(name)), text);
        }
    }
}
