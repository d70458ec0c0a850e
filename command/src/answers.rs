//! What the proved programs print, looked at from outside.

/// A refusal's number and place, as they were printed: they go through as texts.
#[derive(Clone, Debug, PartialEq, Eq)]
pub struct Refusal {
    pub number: u64,
    pub place: u64,
}

impl Refusal {
    /// As a program prints it.
    pub fn text(&self) -> Vec<u8> {
        format!("refused={}\nplace={}\n", self.number, self.place).into_bytes()
    }
}

/// The answer as a whole is a refusal.
pub fn refusal(answer: &[u8]) -> Option<Refusal> {
    let mut lines = lines(answer);
    let number = number_after(lines.next()?, "refused=")?;
    let place = number_after(lines.next()?, "place=")?;
    Some(Refusal { number, place })
}

/// The refusal that stands at the end of an answer.
pub fn refusal_at_end(answer: &[u8]) -> Option<Refusal> {
    let lines: Vec<&[u8]> = lines(answer).collect();
    let last = lines.len().checked_sub(2)?;
    let number = number_after(lines[last], "refused=")?;
    let place = number_after(lines[last + 1], "place=")?;
    Some(Refusal { number, place })
}

pub fn lines(text: &[u8]) -> impl Iterator<Item = &[u8]> {
    text.strip_suffix(b"\n").unwrap_or(text).split(|&byte| byte == b'\n')
}

fn number_after(line: &[u8], key: &str) -> Option<u64> {
    std::str::from_utf8(line.strip_prefix(key.as_bytes())?).ok()?.parse().ok()
}

/// The first word of a whole answer, by the program that gives it. Whatever else is printed, or not to its end, is no answer.
pub fn is_answer(program: &str, answer: &[u8]) -> bool {
    if !answer.ends_with(b"\n") {
        return false;
    }
    match program {
        "cmd_month" => answer.starts_with(b"accepted=") && lines(answer).any(|line| line.starts_with(b"saved=")),
        "cmd_check" => answer.starts_with(b"formed=") || refusal(answer).is_some(),
        "cmd_desk" => answer.starts_with(b"waiting=") || refusal(answer).is_some(),
        _ => answer.starts_with(b"tape=") || refusal(answer).is_some(),
    }
}

/// A check that answers no somewhere.
pub fn says_no(answer: &[u8]) -> bool {
    lines(answer).any(|line| [&b"formed=no"[..], b"walk=no", b"least=no"].iter().any(|no| line.starts_with(no)))
}

#[cfg(test)]
mod tests {
    use super::*;

    #[test]
    fn refusals() {
        assert_eq!(refusal(b"refused=11\nplace=3\n"), Some(Refusal { number: 11, place: 3 }));
        assert_eq!(refusal(b"tape=A\nrefused=11\n"), None);
        assert_eq!(refusal(b"refused=11\n"), None);
        assert_eq!(refusal_at_end(b"saved=0\nrefused=25\nplace=1\n"), Some(Refusal { number: 25, place: 1 }));
        assert_eq!(refusal_at_end(b"saved=0\n"), None);
    }

    #[test]
    fn halves_are_no_answers() {
        assert!(is_answer("cmd_plan", b"tape=A\n"));
        assert!(!is_answer("cmd_plan", b"tape=A"));
        assert!(!is_answer("cmd_plan", b""));
        assert!(!is_answer("cmd_plan", b"refused=11\n"));
    }
}
