//! A refused event in words.

use super::{above, of_sheet, table};
use crate::answers::Refusal;

/// `event` is the line, with its line feed; `run` the run sheet of the tape.
pub fn words(refusal: &Refusal, event: &[u8], run: &[u8]) -> String {
    let text = String::from_utf8_lossy(event);
    let parts: Vec<&str> = text.trim_end().split_once('=').map_or("", |(_, value)| value).split(',').collect();
    let part = |at: usize| parts.get(at).copied().unwrap_or_default();
    match refusal.number {
        2 => of_sheet(refusal, run),
        6 => format!("the turn price {} is above 4294967296 (2^32)", part(1)),
        7 if above(part(0), "1099511627776") => format!("the head, {}, stands above 1099511627776 (2^40)", part(0)),
        7 => format!("the head, {}, stands left of the end of the rightmost file that would board, or of its aggregate", part(0)),
        15 => bad_ticket(part(0), part(1), part(2), run),
        16 => format!("office {} has 16 tickets waiting, and no place for another", part(0)),
        17 => format!("no ticket {} of office {} waits", part(1), part(0)),
        18 => format!("office {} has been given number 65,535, which is the last", part(0)),
        number => table::words(number),
    }
}

fn bad_ticket(office: &str, file: &str, count: &str, run: &[u8]) -> String {
    let files = run.split(|&byte| byte == b'\n').filter(|line| line.starts_with(b"file=")).count();
    if office != "1" && office != "2" {
        return format!("there is no office {office}, only 1 and 2");
    }
    if file == "0" || above(file, &files.to_string()) {
        let table = match files {
            0 => "no files".to_string(),
            1 => "file 1 only".to_string(),
            files => format!("files 1 to {files}"),
        };
        return format!("the tape has no file {file}: the table has {table}");
    }
    format!("a count is 1 to 128, and not {count}")
}

#[cfg(test)]
mod tests {
    use super::*;

    #[test]
    fn tickets() {
        let run = b"tape=A\nfile=0,1,0\nfile=1,1,0\n";
        let fifteen = Refusal { number: 15, place: 0 };
        assert_eq!(words(&fifteen, b"file=3,1,1\n", run), "there is no office 3, only 1 and 2");
        assert_eq!(words(&fifteen, b"file=1,3,1\n", run), "the tape has no file 3: the table has files 1 to 2");
        assert_eq!(words(&fifteen, b"file=1,2,129\n", run), "a count is 1 to 128, and not 129");
    }
}
