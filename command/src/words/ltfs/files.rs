//! The files of an index, as far as a refusal speaks of them.

use crate::say::{characters, is_plain};
use crate::words::in_quotes;
use std::collections::HashMap;

const NEEDED: [&str; 4] = ["partition", "startblock", "byteoffset", "bytecount"];
const LIMIT: u128 = 1 << 40;

#[derive(Default)]
struct File {
    name: Option<Vec<u8>>,
    /// The folders around it, by their places among all folders.
    folders: Vec<usize>,
    has_bytes: bool,
    /// A partition that is not the label's, where some of its bytes lie.
    elsewhere: Option<Vec<u8>>,
    line: usize,
    extents: usize,
    partition: Vec<u8>,
    start: u128,
    bytes: u128,
}

/// Files in the order of the index, and what is known while it is read.
#[derive(Default)]
pub struct Files {
    pub block_size: Option<Vec<u8>>,
    pub data: Option<Vec<u8>>,
    /// Of which volume label and index are, as written.
    pub volumes: [Option<Vec<u8>>; 2],
    files: Vec<File>,
    /// The names of all folders, and those that are open, the volume itself first.
    folders: Vec<Option<Vec<u8>>>,
    open: Vec<usize>,
    /// The path of the file that is being read.
    inside: Option<Vec<u8>>,
    given: HashMap<String, Vec<u8>>,
}

/// A text with its control characters shown, in quotes.
pub fn shown(text: &[u8]) -> String {
    let out: String = characters(text)
        .into_iter()
        .map(|c| match c {
            Ok('\n') => "\\n".to_string(),
            Ok('\r') => "\\r".to_string(),
            Ok('\t') => "\\t".to_string(),
            Ok(c) if is_plain(c) => c.to_string(),
            Ok(_) => "?".to_string(),
            Err(byte) => format!("\\x{byte:02x}"),
        })
        .collect();
    in_quotes(&out)
}

fn is_file(path: &[u8]) -> bool {
    path.strip_suffix(b"/contents/file").map_or(false, is_folder)
}

fn is_folder(path: &[u8]) -> bool {
    let mut rest = match path.strip_prefix(b"/ltfsindex/directory") {
        Some(rest) => rest,
        None => return false,
    };
    while let Some(inner) = rest.strip_prefix(b"/contents/directory") {
        rest = inner;
    }
    rest.is_empty()
}

impl File {
    fn called(&self) -> String {
        let name = self.name.as_ref().map_or("without a name".to_string(), |name| shown(name));
        format!("file {name} (line {})", self.line)
    }

    fn end(&self) -> u128 {
        self.start.saturating_add(self.bytes)
    }

    fn reach(&self) -> String {
        format!("{}, from byte {} to {}", self.called(), self.start, self.end())
    }
}

impl Files {
    /// What stands below the file that is being read.
    fn below<'a>(&self, path: &'a [u8]) -> Option<&'a [u8]> {
        path.strip_prefix(&self.inside.as_ref()?[..])
    }

    pub fn begin(&mut self, path: &[u8], line: usize) {
        if self.inside.is_none() && is_folder(path) {
            self.open.push(self.folders.len());
            self.folders.push(None);
        }
        if self.inside.is_none() && is_file(path) {
            self.inside = Some(path.to_vec());
            self.files.push(File { line, folders: self.open.get(1..).unwrap_or_default().to_vec(), ..File::default() });
        }
        if self.below(path) == Some(&b"/extentinfo/extent"[..]) {
            self.given.clear();
            if let Some(file) = self.files.last_mut() {
                file.extents += 1;
            }
        }
    }

    /// The key of a value that stands in an extent.
    pub fn value_of_extent(&self, path: &[u8]) -> Option<String> {
        let key = self.below(path)?.strip_prefix(b"/extentinfo/extent/")?;
        Some(String::from_utf8_lossy(key).into_owned())
    }

    pub fn give(&mut self, key: String, text: &[u8]) {
        self.given.entry(key).or_insert_with(|| text.to_vec());
    }

    /// An element is over, other than a value of an extent; of an extent, the first value that it has not.
    pub fn end(&mut self, path: &[u8], text: &[u8]) -> Option<&'static str> {
        if path == b"/ltfsindex/volumeuuid" {
            self.volumes[1].get_or_insert_with(|| text.to_vec());
        }
        if self.inside.is_none() {
            self.end_in_folder(path, text);
        }
        let missing = match self.below(path)? {
            b"" => {
                self.inside = None;
                return None;
            }
            b"/name" => {
                self.files.last_mut()?.name.get_or_insert_with(|| text.to_vec());
                return None;
            }
            b"/extentinfo/extent" => NEEDED.into_iter().find(|key| !self.given.contains_key(*key)),
            _ => return None,
        };
        self.keep_extent();
        missing
    }

    fn end_in_folder(&mut self, path: &[u8], text: &[u8]) {
        if is_folder(path) {
            self.open.pop();
        }
        if let (Some(true), Some(&last)) = (path.strip_suffix(b"/name").map(is_folder), self.open.last()) {
            self.folders[last].get_or_insert_with(|| text.to_vec());
        }
    }

    fn keep_extent(&mut self) {
        let number = |text: Option<&Vec<u8>>| text.and_then(|text| std::str::from_utf8(text).ok()?.parse::<u128>().ok()).unwrap_or(0);
        let given = |key: &str| number(self.given.get(key));
        let start = given("startblock").saturating_mul(number(self.block_size.as_ref())).saturating_add(given("byteoffset"));
        let bytes = given("bytecount");
        let partition = self.given.get("partition").cloned().unwrap_or_default();
        if let (Some(file), true) = (self.files.last_mut(), bytes > 0) {
            file.has_bytes = true;
            file.elsewhere = file.elsewhere.take().or_else(|| Some(partition.clone()).filter(|partition| Some(partition) != self.data.as_ref()));
        }
        match self.files.last_mut() {
            Some(file) if file.extents == 1 => {
                file.start = start;
                file.bytes = bytes;
                file.partition = partition;
            }
            _ => {}
        }
    }

    pub fn called_last(&self) -> String {
        self.files.last().map_or(String::new(), File::called)
    }

    // ---- 41 and 42: the files by their paths ----

    /// The paths of all files, in the order of the index.
    pub fn paths(&self) -> impl Iterator<Item = Vec<u8>> + '_ {
        let name = |name: &Option<Vec<u8>>| name.as_ref().map_or(Vec::new(), |name| decoded(name));
        self.files.iter().map(move |file| {
            let folders = file.folders.iter().map(|&folder| name(&self.folders[folder]));
            folders.chain([name(&file.name)]).collect::<Vec<_>>().join(&b'/')
        })
    }

    /// Why the file at such a place among them cannot be read.
    pub fn no_bytes(&self, at: usize) -> Option<String> {
        let file = self.files.get(at)?;
        let data = self.data.as_ref().map_or(String::new(), |data| String::from_utf8_lossy(data).into_owned());
        match &file.elsewhere {
            Some(partition) => Some(format!("bytes of it lie in partition {}, and those that can be planned in {data}", shown(partition))),
            None if !file.has_bytes => Some("it has no bytes on the tape".to_string()),
            None => None,
        }
    }

    // ---- 21 to 23: the files as a whole ----

    fn left(&self) -> Vec<&File> {
        self.files.iter().filter(|file| file.extents > 0 && file.bytes > 0 && Some(&file.partition) == self.data.as_ref()).collect()
    }

    pub fn several_extents(&self) -> Option<String> {
        let file = self.files.iter().find(|file| file.extents > 1)?;
        Some(format!("{} lies in {} extents, and only a file in one piece has one time", file.called(), file.extents))
    }

    pub fn overlap(&self) -> Option<String> {
        let left = self.left();
        for (i, second) in left.iter().enumerate() {
            for first in &left[..i] {
                if second.start < first.end() && first.start < second.end() {
                    return Some(format!("these overlap: {}, and {}", first.reach(), second.reach()));
                }
            }
        }
        None
    }

    pub fn too_many_or_far(&self) -> Option<String> {
        let left = self.left();
        if left.len() > 256 {
            let data = self.data.as_ref().map_or(String::new(), |data| String::from_utf8_lossy(data).into_owned());
            return Some(format!("{} files are left in partition {data}; a run sheet has at most 256", left.len()));
        }
        let far = left.into_iter().find(|file| file.end() > LIMIT)?;
        Some(format!("{} ends above byte {LIMIT} (2^40, 1.1 TB)", far.called()))
    }
}

/// What a name stands for: the references in it mean their characters.
fn decoded(name: &[u8]) -> Vec<u8> {
    let (mut out, mut rest) = (Vec::with_capacity(name.len()), name);
    while let Some((&first, behind)) = rest.split_first() {
        let end = if first == b'&' { behind.iter().position(|&byte| byte == b';') } else { None };
        match end.and_then(|end| Some((character(&behind[..end])?, end))) {
            Some((character, end)) => {
                out.extend_from_slice(character.encode_utf8(&mut [0; 4]).as_bytes());
                rest = &behind[end + 1..];
            }
            None => {
                out.push(first);
                rest = behind;
            }
        }
    }
    out
}

fn character(reference: &[u8]) -> Option<char> {
    let number = |digits: &[u8], base: u32| {
        let digits = std::str::from_utf8(digits).ok().filter(|digits| !digits.is_empty() && digits.chars().all(|digit| digit.is_digit(base)))?;
        u32::from_str_radix(digits.trim_start_matches('0'), base).ok().filter(|&number| number > 0).and_then(char::from_u32)
    };
    match reference {
        b"amp" => Some('&'),
        b"lt" => Some('<'),
        b"gt" => Some('>'),
        b"quot" => Some('"'),
        b"apos" => Some('\''),
        [b'#', b'x', digits @ ..] => number(digits, 16),
        [b'#', digits @ ..] => number(digits, 10),
        _ => None,
    }
}

#[cfg(test)]
mod tests {
    use super::*;

    #[test]
    fn references() {
        let names: [(&str, &str); 5] = [
            ("a&amp;amp;&lt;&#65;&#x000e4;", "a&amp;<A\u{e4}"),
            ("&", "&"),
            ("&x;&#;&#xD800;&#0;", "&x;&#;&#xD800;&#0;"),
            ("&&amp;", "&&"),
            ("&#x110000;&quot;", "&#x110000;\""),
        ];
        for (written, name) in names {
            assert_eq!(decoded(written.as_bytes()), name.as_bytes());
        }
    }
}
