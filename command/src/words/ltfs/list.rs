//! A refused list of paths, or one that does not fit its tape, in words. The index is gone through for the words alone.

use super::files::{shown, Files};
use super::text::Text;
use super::{find, Tape};
use crate::answers::{lines, Refusal};
use crate::words::table;

/// So many names are told that are like the one that was not found.
const NEAREST: usize = 3;

pub struct List<'a> {
    pub tape: Tape<'a>,
    pub text: &'a [u8],
    pub name: String,
    pub blocks: bool,
}

/// The sentence without its beginning.
pub fn words(refusal: &Refusal, list: &List) -> String {
    let line = lines(list.text).nth(refusal.place.saturating_sub(1) as usize).unwrap_or_default();
    let here = format!("line {} of {}, {}", refusal.place, list.name, shown(line));
    let found = match refusal.number {
        3 => Some(format!("the files of {} lie in over 64 stretches of the tape, and a run has at most 64: make two lists of it", list.name)),
        5 => Some(format!("{} has {} lines, and a run has at most 1,024 reads", list.name, lines(list.text).count())),
        11 => Some(of_line(line, refusal.place, list)),
        20 => find(20, &list.tape).or_else(|| of_blocks(list)),
        23 => Some(format!("{here}: that file ends above 2^40{}", if list.blocks { "" } else { " bytes, which is 1.1 TB; --blocks counts blocks" })),
        41 => Some(format!("{here}: {}{}", of_path(line, list), carriage_returns(line, list))),
        42 => of_bytes(line, list).map(|why| format!("{here}: {why}")),
        44 => of_volumes(list),
        _ => None,
    };
    found.unwrap_or_else(|| table::words(refusal.number))
}

fn of_line(line: &[u8], place: u64, list: &List) -> String {
    let has_end = list.text.ends_with(b"\n") || place as usize != lines(list.text).count();
    let what = match line {
        _ if !has_end => "has no line feed at its end",
        b"" => "is empty",
        b"/" => "is / alone, and names no file",
        _ => "has an empty name in its path",
    };
    let said = if line.is_empty() { String::new() } else { format!(", {},", shown(line)) };
    format!("line {place} of {}{said} {what}", list.name)
}

/// Where nothing else is wrong with label and index.
fn of_blocks(list: &List) -> Option<String> {
    list.blocks.then(|| format!("label ({}): the block size is 0, and with --blocks a position counts blocks", list.tape.label_name))
}

fn files_of(list: &List) -> Files {
    let mut files = Files::default();
    let _ = Text::new("label", false, &mut files).read(list.tape.label);
    let _ = Text::new("index", false, &mut files).read(list.tape.index);
    files
}

fn path_of(line: &[u8]) -> &[u8] {
    line.strip_prefix(b"/").unwrap_or(line)
}

fn last_part(path: &[u8]) -> &[u8] {
    path.rsplit(|&byte| byte == b'/').next().unwrap_or_default()
}

/// None has that path, and what is like it; or several have.
fn of_path(line: &[u8], list: &List) -> String {
    let paths: Vec<Vec<u8>> = files_of(list).paths().collect();
    let count = paths.iter().filter(|other| &other[..] == path_of(line)).count();
    let path = path_of(line.strip_suffix(b"\r").unwrap_or(line));
    if count > 1 {
        return format!("{count} files of the index have that path");
    }
    // The same but for capitals comes first, then the same last part, then that but for capitals.
    let folded = |text: &[u8]| String::from_utf8_lossy(text).to_lowercase();
    let (whole, last) = (folded(path), folded(last_part(path)));
    let by_case = paths.iter().filter(|other| folded(other) == whole);
    let by_part = paths.iter().filter(|other| last_part(other) == last_part(path));
    let by_both = paths.iter().filter(|other| folded(last_part(other)) == last);
    let mut near: Vec<&Vec<u8>> = Vec::new();
    for other in by_case.chain(by_part).chain(by_both) {
        if !near.contains(&other) && near.len() <= NEAREST {
            near.push(other);
        }
    }
    let told: Vec<String> = near.iter().take(NEAREST).map(|other| shown(other)).collect();
    match near.len() {
        0 => format!("none of the {} files of the index has that path, nor that name in another folder", paths.len()),
        1..=NEAREST => format!("no file of the index has that path; there is {}", told.join(", ")),
        _ => format!("no file of the index has that path; there is {}, and more", told.join(", ")),
    }
}

fn carriage_returns(line: &[u8], list: &List) -> String {
    if !line.ends_with(b"\r") {
        return String::new();
    }
    let ended = match lines(list.text).filter(|line| line.ends_with(b"\r")).count() {
        1 => "this line ends".to_string(),
        count => format!("{count} lines of {} end", list.name),
    };
    format!("; {ended} in a carriage return, which is then part of the name (tr -d '\\r' takes it out)")
}

fn of_bytes(line: &[u8], list: &List) -> Option<String> {
    let files = files_of(list);
    let at = files.paths().position(|other| other == path_of(line))?;
    files.no_bytes(at)
}

fn of_volumes(list: &List) -> Option<String> {
    let files = files_of(list);
    let Tape { label_name, index_name, .. } = &list.tape;
    match &files.volumes {
        [Some(label), Some(index)] => {
            Some(format!("label ({label_name}) is of volume {}, and index ({index_name}) of volume {}", shown(label), shown(index)))
        }
        _ => None,
    }
}
