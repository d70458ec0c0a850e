//! A sheet that could not be mended, in words: as a run sheet's, but for how many `file` and `want` lines there may be.

use super::sheet::{self, Found, Line, FILE_FORM, FORMS, WANT_FORM};
use super::{in_quotes, table};
use crate::answers::Refusal;

pub fn words(refusal: &Refusal, text: &[u8]) -> String {
    let lines: Vec<Line> = text.split(|&byte| byte == b'\n').map(Line::read).collect();
    match refusal.number {
        11 => bad_line(&lines, usize::try_from(refusal.place).unwrap_or(usize::MAX)),
        12 if text.len() <= 16384 => "put in order, the sheet has over 16384 bytes, which no run sheet has".to_string(),
        12 => sheet::words(refusal, text, sheet::By::Another).unwrap_or_else(|| table::words(12)),
        5 => {
            let reads = lines.iter().filter(|line| line.key() == "want=").try_fold(0u64, |sum, line| sum.checked_add(line.part(1).parse().ok()?));
            let reads = reads.map_or("over 1024".to_string(), |reads| reads.to_string());
            format!("the wants have {reads} reads in all; at most 1024 can be planned")
        }
        number => table::words(number),
    }
}

fn bad_line(lines: &[Line], number: usize) -> String {
    let before = &lines[..lines.len().min(number.saturating_sub(1))];
    let files = before.iter().filter(|line| line.key() == "file=").count();
    let wants_stand_before = before.iter().skip(5).any(|line| line.key() == "wants=");
    let expected = match number {
        1..=5 => FORMS[number - 1].to_string(),
        _ if wants_stand_before => format!("{WANT_FORM} or the end of the sheet"),
        _ => format!("{FILE_FORM} or wants=NUMBER"),
    };
    let line = match lines.get(number.wrapping_sub(1)) {
        Some(line) if number < lines.len() || !line.text.is_empty() => line,
        _ => return format!("line {number}: expected {expected}; {}", if number == 1 { "the sheet is empty" } else { "the sheet ends before it" }),
    };
    let found = if line.text.is_empty() { "an empty line".to_string() } else { in_quotes(&line.text) };
    let words = format!("line {number}: expected {expected}; found {found}");
    let form = match (number, line.key()) {
        (1..=5, _) => FORMS[number - 1],
        (_, "file=") if !wants_stand_before => FILE_FORM,
        (_, "wants=") if !wants_stand_before => "wants=NUMBER",
        (_, "want=") if wants_stand_before => WANT_FORM,
        _ => "",
    };
    match line.fault(number, form) {
        Found::Fault(fault) => format!("{words}: {fault}"),
        Found::OtherKind => words,
        Found::Nothing if form == FILE_FORM && files >= 256 => format!("{words}: a sheet has at most 256 files"),
        Found::Nothing if number == lines.len() => format!("{words}: the line feed at its end is missing"),
        Found::Nothing => words,
    }
}

#[cfg(test)]
mod tests {
    use super::*;

    #[test]
    fn lines() {
        let words_at = |place, text: &str| words(&Refusal { number: 11, place }, text.as_bytes());
        let head = "tape=A\nhead=9\nturn=\nrule=least\nfiles=7\n";
        assert_eq!(words_at(3, "tape=A\nhead=9\nturn=x\n"), "line 3: expected turn=NUMBER; found \"turn=x\"");
        assert!(words_at(6, &format!("{head}file=1,2\n"))
            .ends_with("three numbers must stand there, with commas between them; the third is 0 for a file in no aggregate"));
        assert_eq!(words_at(6, head), "line 6: expected file=START,LENGTH,AGGREGATE or wants=NUMBER; the sheet ends before it");
        assert!(words_at(7, &format!("{head}wants=0\nx\n")).starts_with("line 7: expected want=FILE,READS or the end of the sheet; found \"x\""));
    }
}
