//! The time of day, as it stands in a file.

use std::time::{SystemTime, UNIX_EPOCH};

/// In UTC, to the second: 2026-11-16T08:00:00Z.
pub fn utc(time: SystemTime) -> String {
    let seconds = time.duration_since(UNIX_EPOCH).map_or(0, |since| since.as_secs());
    let (year, month, day) = date(seconds / 86400);
    let of_day = seconds % 86400;
    format!("{year:04}-{month:02}-{day:02}T{:02}:{:02}:{:02}Z", of_day / 3600, of_day / 60 % 60, of_day % 60)
}

/// A moment for a person: 2026-11-16 08:00:00. Years of more digits have them.
pub fn moment(seconds: u64) -> String {
    let (year, month, day) = date(seconds / 86400);
    format!("{year:04}-{month:02}-{day:02} {}", hours(seconds % 86400))
}

/// Hours, minutes and seconds: 08:14:55. The hours have as many digits as they need.
pub fn hours(seconds: u64) -> String {
    format!("{:02}:{:02}:{:02}", seconds / 3600, seconds / 60 % 60, seconds % 60)
}

/// The seconds from 1970 to a time like 2026-11-16T08:00:00, in whatever zone it is meant.
pub fn seconds(text: &str) -> Option<u64> {
    if !is_time(&format!("{text}Z")) {
        return None;
    }
    let at = |from: usize, to: usize| text[from..to].parse::<u64>().ok();
    let (year, month, day) = (at(0, 4)?, at(5, 7)?, at(8, 10)?);
    let before = (1970..year).map(|year| 365 + u64::from(days_of(year, 2) == 29)).sum::<u64>();
    let days = before + (1..month).map(|month| days_of(year, month)).sum::<u64>() + day - 1;
    (year >= 1970).then_some(days * 86400 + at(11, 13)? * 3600 + at(14, 16)? * 60 + at(17, 19)?)
}

/// This moment, where the machine's clock can tell it.
pub fn now() -> Result<String, String> {
    let time = SystemTime::now();
    if time < UNIX_EPOCH {
        return Err("the clock of this machine stands before 1970".to_string());
    }
    Ok(utc(time))
}

/// Of a day, counted from 1970-01-01. The year is taken to begin in March, so that a leap day is its last.
fn date(days: u64) -> (u64, u64, u64) {
    let days = days + 719_468;
    let (era, day) = (days / 146_097, days % 146_097);
    let year = (day - day / 1460 + day / 36_524 - day / 146_096) / 365;
    let day = day - (365 * year + year / 4 - year / 100);
    let month = (5 * day + 2) / 153;
    let day = day - (153 * month + 2) / 5 + 1;
    let (next, month) = if month < 10 { (0, month + 3) } else { (1, month - 9) };
    (400 * era + year + next, month, day)
}

/// Whether a text has that form.
pub fn is_utc(text: &str) -> bool {
    let form = "dddd-dd-ddTdd:dd:ddZ";
    text.len() == form.len() && text.chars().zip(form.chars()).all(|(c, must)| if must == 'd' { c.is_ascii_digit() } else { c == must })
}

/// Whether it has that form and is a time: a day that there is, and an hour, a minute and a second of it.
pub fn is_time(text: &str) -> bool {
    let at = |from: usize, to: usize| text[from..to].parse::<u64>().unwrap_or(u64::MAX);
    is_utc(text)
        && (1..=12).contains(&at(5, 7))
        && (1..=days_of(at(0, 4), at(5, 7))).contains(&at(8, 10))
        && at(11, 13) < 24
        && at(14, 16) < 60
        && at(17, 19) < 60
}

fn days_of(year: u64, month: u64) -> u64 {
    match month {
        2 => 28 + u64::from(year % 4 == 0 && (year % 100 != 0 || year % 400 == 0)),
        4 | 6 | 9 | 11 => 30,
        _ => 31,
    }
}

#[cfg(test)]
mod tests {
    use super::*;
    use std::time::Duration;

    #[test]
    fn times() {
        for (seconds, text) in [
            (0, "1970-01-01T00:00:00Z"),
            (951_782_399, "2000-02-28T23:59:59Z"),
            (951_782_400, "2000-02-29T00:00:00Z"),
            (951_868_800, "2000-03-01T00:00:00Z"),
            (1_794_816_000, "2026-11-16T08:00:00Z"),
            (4_107_542_400, "2100-03-01T00:00:00Z"),
            (1_735_689_599, "2024-12-31T23:59:59Z"),
        ] {
            assert_eq!(utc(UNIX_EPOCH + Duration::from_secs(seconds)), text);
            assert!(is_utc(text) && is_time(text));
        }
        for day in ["2026-02-29", "1900-02-29", "2026-04-31", "2026-13-01", "2026-00-01", "2026-01-00"] {
            assert!(!is_time(&format!("{day}T00:00:00Z")), "{day}");
        }
        assert!(!is_time("2026-01-01T24:00:00Z") && !is_time("2026-01-01T00:60:00Z") && !is_time("\u{e4}026-01-01T00:00:0Z"));
        for text in ["1970-01-01T00:00:00", "2000-02-29T23:59:59", "2026-11-16T08:00:00", "2100-03-01T00:00:01", "9999-12-31T23:59:59"] {
            assert_eq!(seconds(text).map(moment), Some(text.replace('T', " ")));
        }
        for text in ["1969-12-31T23:59:59", "2026-02-29T00:00:00", "2026-11-16T08:00:00Z", "2026-11-16 08:00:00", ""] {
            assert_eq!(seconds(text), None);
        }
        assert_eq!((hours(0), hours(29695), hours(1 << 58)), ("00:00:00".into(), "08:14:55".into(), "80063993375475:29:04".into()));
        assert_eq!(moment(1 << 58), "9133658989-08-04 03:29:04");
        assert!(!is_utc("2026-11-16T08:00:00") && !is_utc("2026-11-16 08:00:00Z") && !is_utc(""));
    }
}
