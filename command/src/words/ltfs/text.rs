//! A label or an index as elements, one inside the other.

use super::files::{shown, Files};
use crate::words::{is_number, number_fault};
use std::collections::HashSet;

/// Nothing is told of a text with longer tags than anybody writes.
const LONGEST_TAG: usize = 8192;

/// No value that is read is long.
const LONGEST_VALUE: usize = 4096;

struct Element {
    name: Vec<u8>,
    line: usize,
    chars: Vec<u8>,
    path_above: Vec<u8>,
}

pub struct Text<'a> {
    part: &'static str,
    files: &'a mut Files,
    line: usize,
    open: Vec<Element>,
    path: Vec<u8>,
    /// A piece whose end lies behind a further `<`, as it is.
    held: Vec<u8>,
    /// The end that is waited for.
    waiting: &'static [u8],
    seen: HashSet<Vec<u8>>,
    /// Of a text that is not refused for its form, what cannot be read is passed over.
    looks_for_faults: bool,
    fault: Option<String>,
    given_up: bool,
}

impl<'a> Text<'a> {
    pub fn new(part: &'static str, looks_for_faults: bool, files: &'a mut Files) -> Text<'a> {
        let (open, path, held, seen) = (Vec::new(), Vec::new(), Vec::new(), HashSet::new());
        Text { part, files, line: 1, open, path, held, waiting: b"", seen, looks_for_faults, fault: None, given_up: false }
    }

    /// The first fault, if there is one; nothing where the text was given up.
    pub fn read(mut self, text: &[u8]) -> Option<Option<String>> {
        let text: Vec<u8> = text.iter().map(|&byte| if byte == 0 { 0x7f } else { byte }).chain([b'\n']).collect();
        let mut pieces = text.split(|&byte| byte == b'<');
        self.count_lines(pieces.next().unwrap_or_default());
        for piece in pieces {
            self.take(piece);
            if self.given_up {
                return None;
            }
            self.count_lines(piece);
        }
        if self.fault.is_none() {
            self.finish();
        }
        Some(self.fault)
    }

    fn count_lines(&mut self, text: &[u8]) {
        self.line += text.iter().filter(|&&byte| byte == b'\n').count();
    }

    fn found(&mut self, words: String) {
        if self.looks_for_faults && self.fault.is_none() {
            self.fault = Some(words);
        }
    }

    fn found_here(&mut self, words: &str) {
        let line = self.line;
        self.found(format!("line {line}: {words}"));
    }

    // ---- Pieces: what stands behind a `<`, up to the next ----

    fn take(&mut self, piece: &[u8]) {
        let mut held = std::mem::take(&mut self.held);
        if self.fault.is_some() {
            return;
        }
        if !self.waiting.is_empty() {
            let waiting = self.waiting;
            self.up_to(&[&b"<"[..], piece].concat(), waiting);
        } else if held.is_empty() {
            self.token(piece);
        } else {
            held.push(b'<');
            held.extend_from_slice(piece);
            self.token(&held);
        }
    }

    fn token(&mut self, piece: &[u8]) {
        if let Some(rest) = piece.strip_prefix(b"!--") {
            self.up_to(rest, b"-->");
        } else if let Some(rest) = piece.strip_prefix(b"![CDATA[") {
            self.up_to(rest, b"]]>");
        } else if let Some(rest) = piece.strip_prefix(b"?") {
            self.up_to(rest, b"?>");
        } else if piece.starts_with(b"!") {
            self.declaration(piece);
        } else if piece.starts_with(b"/") {
            self.end_tag(piece);
        } else if let Some(end) = end_of_tag(piece) {
            self.start_tag(&piece[..end], &piece[end + 1..]);
        } else if quote_is_open(piece) {
            self.hold(piece);
        } else {
            self.no_tag(piece);
        }
    }

    fn no_tag(&mut self, piece: &[u8]) {
        self.found_here(&format!("{} is no tag", shown(&[&b"<"[..], piece].concat())));
    }

    /// Declarations hold others in brackets.
    fn declaration(&mut self, piece: &[u8]) {
        let count = |bracket: u8| piece.iter().filter(|&&byte| byte == bracket).count();
        if count(b'[') > count(b']') {
            self.hold(piece);
        } else {
            self.up_to(&piece[1..], b">");
        }
    }

    fn hold(&mut self, piece: &[u8]) {
        self.held = piece.to_vec();
        self.given_up = piece.len() > LONGEST_TAG;
    }

    fn up_to(&mut self, piece: &[u8], end: &'static [u8]) {
        let at = piece.windows(end.len()).position(|window| window == end);
        self.waiting = if at.is_none() { end } else { b"" };
        if end == b"]]>" {
            self.add_chars(&piece[..at.unwrap_or(piece.len())]);
        }
        if let Some(at) = at {
            self.add_chars(&piece[at + end.len()..]);
        }
    }

    // ---- Elements ----

    fn add_chars(&mut self, text: &[u8]) {
        if let Some(element) = self.open.last_mut() {
            if element.chars.len() < LONGEST_VALUE {
                element.chars.extend_from_slice(text);
            }
        }
    }

    fn start_tag(&mut self, tag: &[u8], rest: &[u8]) {
        let name = &tag[..name_length(tag)];
        if self.open.len() == 32 {
            return self.found_here(&format!("<{}> stands inside 32 others, which is too deep", shown_name(name)));
        }
        let path_above = self.path.clone();
        self.path.push(b'/');
        self.path.extend_from_slice(name);
        self.open.push(Element { name: name.to_vec(), line: self.line, chars: Vec::new(), path_above });
        self.begin_element();
        if tag.ends_with(b"/") {
            self.close_element(rest);
        } else {
            self.add_chars(rest);
        }
    }

    fn end_tag(&mut self, piece: &[u8]) {
        let length = name_length(&piece[1..]);
        let behind = &piece[1 + length..];
        let blanks = behind.iter().take_while(|byte| b" \t\r\n".contains(byte)).count();
        if length == 0 || behind.get(blanks) != Some(&b'>') {
            return self.no_tag(piece);
        }
        let name = &piece[1..1 + length];
        match self.open.last() {
            None => self.found_here(&format!("</{}> closes nothing", shown_name(name))),
            Some(last) if last.name != name => {
                let words = format!("</{}> closes <{}>, which was opened in line {}", shown_name(name), shown_name(&last.name), last.line);
                self.found_here(&words);
            }
            Some(_) => self.close_element(&behind[blanks + 1..]),
        }
    }

    fn close_element(&mut self, rest: &[u8]) {
        self.end_element();
        if let Some(element) = self.open.pop() {
            self.path = element.path_above;
        }
        self.add_chars(rest);
    }

    /// The text is over.
    fn finish(&mut self) {
        if !self.waiting.is_empty() {
            let words = format!("the text ends before a {}", String::from_utf8_lossy(self.waiting));
            self.found(words);
        } else if !self.held.is_empty() {
            let words = format!("the text ends inside {}", shown(&[&b"<"[..], &self.held].concat()));
            self.found(words);
        } else if let Some(last) = self.open.last() {
            let words = format!("<{}> of line {} is not closed", shown_name(&last.name), last.line);
            self.found(words);
        }
        let seen = |path: &str| self.seen.contains(path.as_bytes());
        let (is_label, is_index) = (seen("/ltfslabel"), seen("/ltfsindex"));
        if self.part == "label" {
            let missing = ["ltfslabel/blocksize", "ltfslabel/partitions/data"].into_iter().find(|path| !seen(&format!("/{path}")));
            if let Some(path) = missing {
                self.found(format!("there is no {path} in it{}", if is_index { ": this is an index" } else { "" }));
            }
        } else if !is_index {
            self.found(format!("there is no ltfsindex in it{}", if is_label { ": this is a label" } else { "" }));
        }
    }

    // ---- What is read of them ----

    fn begin_element(&mut self) {
        self.seen.insert(self.path.clone());
        if self.part == "index" {
            self.files.begin(&self.path, self.line);
        }
    }

    fn end_element(&mut self) {
        let text = match self.open.last_mut() {
            Some(element) => std::mem::take(&mut element.chars),
            None => return,
        };
        if self.part == "label" {
            return self.label_value(&text);
        }
        if let Some(key) = self.files.value_of_extent(&self.path) {
            let whose = format!(" of {}", self.files.called_last());
            match key.as_str() {
                "partition" => self.must_be_letter(&key, &text, &whose),
                "startblock" | "byteoffset" | "bytecount" => self.must_be_number(&key, &text, &whose),
                _ => return,
            }
            self.files.give(key, &text);
        } else if let Some(missing) = self.files.end(&self.path, &text) {
            let words = format!("an extent of {} has no {missing}", self.files.called_last());
            self.found_here(&words);
        }
    }

    fn label_value(&mut self, text: &[u8]) {
        if self.path == b"/ltfslabel/volumeuuid" {
            self.files.volumes[0].get_or_insert_with(|| text.to_vec());
        }
        if self.path == b"/ltfslabel/blocksize" {
            self.must_be_number("blocksize", text, "");
            self.files.block_size.get_or_insert_with(|| text.to_vec());
        }
        if self.path == b"/ltfslabel/partitions/data" {
            self.must_be_letter("partitions/data", text, "");
            self.files.data.get_or_insert_with(|| text.to_vec());
        }
    }

    fn must_be_number(&mut self, what: &str, text: &[u8], whose: &str) {
        let value = String::from_utf8_lossy(text);
        if is_number(&value) {
            return;
        }
        let blank = |byte: Option<&u8>| byte.map_or(false, |byte| b" \t\r\n".contains(byte));
        let fault = if blank(text.first()) || blank(text.last()) { Some("there is a blank in it".to_string()) } else { number_fault(&value) };
        let fault = fault.map_or(String::new(), |fault| format!(": {fault}"));
        self.found_here(&format!("{what} {}{whose} is no number below 2^64 in digits alone{fault}", shown(text)));
    }

    fn must_be_letter(&mut self, what: &str, text: &[u8], whose: &str) {
        if !matches!(text, [b'a'..=b'z']) {
            self.found_here(&format!("{what} {}{whose} is not one letter a to z", shown(text)));
        }
    }
}

fn shown_name(name: &[u8]) -> String {
    shown(name).trim_matches('"').to_string()
}

// ---- The form of a tag ----

/// How long the name is that stands first.
fn name_length(text: &[u8]) -> usize {
    let begins = |byte: u8| byte.is_ascii_alphabetic() || byte == b'_' || byte == b':' || byte >= 0x80;
    let goes_on = |byte: u8| begins(byte) || byte.is_ascii_digit() || byte == b'-' || byte == b'.';
    match text.first() {
        Some(&first) if begins(first) => text.iter().take_while(|&&byte| goes_on(byte)).count(),
        _ => 0,
    }
}

/// Where the `>` of a start tag stands: the first outside quotes.
fn end_of_tag(piece: &[u8]) -> Option<usize> {
    let mut at = name_length(piece);
    if at == 0 {
        return None;
    }
    loop {
        match *piece.get(at)? {
            b'>' => return Some(at),
            b'<' => return None,
            quote @ (b'"' | b'\'') => at += 2 + closing(&piece[at + 1..], quote)?,
            _ => at += 1,
        }
    }
}

fn closing(text: &[u8], quote: u8) -> Option<usize> {
    text.iter().position(|&byte| byte == quote)
}

/// A tag that goes on behind a `<` in quotes.
fn quote_is_open(piece: &[u8]) -> bool {
    let (mut at, mut open) = (0, false);
    while let Some(&byte) = piece.get(at) {
        match byte {
            b'>' => return false,
            b'"' | b'\'' => match closing(&piece[at + 1..], byte) {
                Some(length) => at += 1 + length,
                None => open = true,
            },
            _ => {}
        }
        at += 1;
    }
    open
}
