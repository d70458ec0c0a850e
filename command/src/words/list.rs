//! A refused list, or plan sheet, in words: 10 with its detour, 11 with its line, 12.

use super::{in_quotes, visible};
use crate::answers::Refusal;

/// `name` is that of the list's file, for the message.
pub fn words(refusal: &Refusal, list: &[u8], name: &str) -> String {
    let place = refusal.place;
    let mut lines: Vec<&[u8]> = list.split(|&byte| byte == b'\n').collect();
    if lines.last().map_or(false, |last| last.is_empty()) {
        lines.pop();
    }
    match refusal.number {
        12 => format!("{name} is over 16,384 bytes"),
        10 => {
            let detour = at(lines.into_iter().filter(|line| line.starts_with(b"detour=")), place);
            format!("detour {place} of {name}, {}, breaks a rule by itself or against an earlier one", shown(detour))
        }
        _ if place > lines.len() as u64 => format!("line {place} of {name} is missing"),
        _ => format!("line {place} of {name} is not as described: {}", shown(at(lines.into_iter(), place))),
    }
}

/// The line of a number, counted from 1.
fn at<'a>(mut lines: impl Iterator<Item = &'a [u8]>, number: u64) -> &'a [u8] {
    usize::try_from(number).ok().and_then(|number| lines.nth(number.wrapping_sub(1))).unwrap_or_default()
}

fn shown(line: &[u8]) -> String {
    in_quotes(&visible(&line[..line.len().min(4096)]))
}

#[cfg(test)]
mod tests {
    use super::*;

    #[test]
    fn places() {
        let list = b"detour=2,2\n\x1b]0;x\x07\ndetour=3,3\n";
        let ten = Refusal { number: 10, place: 2 };
        assert_eq!(words(&ten, list, "L"), "detour 2 of L, \"detour=3,3\", breaks a rule by itself or against an earlier one");
        let eleven = Refusal { number: 11, place: 2 };
        assert_eq!(words(&eleven, list, "L"), "line 2 of L is not as described: \"\\x1b]0;x\\x07\"");
        let missing = Refusal { number: 11, place: 4 };
        assert_eq!(words(&missing, list, "L"), "line 4 of L is missing");
    }
}
