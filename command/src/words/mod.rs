//! A refusal in a sentence, with what stands at the place. The judging is the program's: what stands here only looks up what it has judged.
//! Nothing here reads a file, and every byte that came from outside is shown so that it does nothing to a terminal.

pub mod desk;
pub mod list;
pub mod loose;
pub mod ltfs;
pub mod sheet;
pub mod table;

use crate::answers::Refusal;

/// Of a run sheet; where the reason is not found, the words of the table serve.
pub fn of_sheet(refusal: &Refusal, sheet: &[u8]) -> String {
    of_plan(refusal, sheet, sheet::By::Another)
}

/// Of a run sheet that plan, with or without --any, or check has refused.
pub fn of_plan(refusal: &Refusal, sheet: &[u8], by: sheet::By) -> String {
    sheet::words(refusal, sheet, by).unwrap_or_else(|| table::words(refusal.number))
}

/// At most 60 characters of a text, in quotes.
pub fn in_quotes(text: &str) -> String {
    let count = text.chars().count();
    if count > 60 {
        format!("\"{}...\"", text.chars().take(57).collect::<String>())
    } else {
        format!("\"{text}\"")
    }
}

/// A text with each byte that is not plain ASCII written out.
pub fn visible(text: &[u8]) -> String {
    text.iter()
        .map(|&byte| match byte {
            b'\t' => "\\t".to_string(),
            b'\r' => "\\r".to_string(),
            b'\n' => "\\n".to_string(),
            b'\\' => "\\\\".to_string(),
            b' '..=b'~' => char::from(byte).to_string(),
            _ => format!("\\x{byte:02x}"),
        })
        .collect()
}

/// A line of a program's own, with what a terminal would not show left out.
pub fn shown(text: &str) -> String {
    text.chars()
        .map(|c| {
            if c == '\t' {
                ' '
            } else if crate::say::is_plain(c) {
                c
            } else {
                '?'
            }
        })
        .collect()
}

/// A number without leading zeros is above another; both may be of any length.
pub fn above(a: &str, b: &str) -> bool {
    (a.len(), a) > (b.len(), b)
}

pub fn is_digits(text: &str) -> bool {
    !text.is_empty() && text.bytes().all(|byte| byte.is_ascii_digit())
}

/// In digits, without leading zeros, below 2^64.
pub fn is_number(text: &str) -> bool {
    is_digits(text) && (text == "0" || !text.starts_with('0')) && !above(text, "18446744073709551615")
}

/// What is wrong with a text that should be numbers parted by commas, where that can be said.
pub fn number_fault(text: &str) -> Option<String> {
    if text.contains([' ', '\t']) {
        return Some("there is a blank in it".to_string());
    }
    if text.is_empty() {
        return Some("the number is missing".to_string());
    }
    text.split(',').find_map(part_fault)
}

fn part_fault(part: &str) -> Option<String> {
    if part.is_empty() {
        return Some("a number is missing".to_string());
    }
    if part.starts_with(['-', '+']) {
        return Some("a number has a sign".to_string());
    }
    if part.len() > 1 && part.starts_with('0') && is_digits(part) {
        return Some("a number has a leading zero".to_string());
    }
    if is_digits(part) && !is_number(part) {
        return Some(format!("{part} is not below 2^64"));
    }
    None
}

#[cfg(test)]
mod tests {
    use super::*;

    #[test]
    fn numbers() {
        assert!(is_number("18446744073709551615") && !is_number("18446744073709551616"));
        assert!(!is_number("01") && !is_number("") && is_number("0"));
        assert_eq!(number_fault("1,02").as_deref(), Some("a number has a leading zero"));
        assert_eq!(number_fault("1,2"), None);
    }

    #[test]
    fn quotes() {
        assert_eq!(in_quotes(&"x".repeat(60)), format!("\"{}\"", "x".repeat(60)));
        assert_eq!(in_quotes(&"x".repeat(61)), format!("\"{}...\"", "x".repeat(57)));
        assert_eq!(visible(b"a\x00\x1b[2J\xff\\"), "a\\x00\\x1b[2J\\xff\\\\");
    }
}
