//! A refused run sheet in words.

use super::{above, in_quotes, is_number, number_fault, visible};
use crate::answers::Refusal;
use crate::library::LINKED;

const LIMIT: &str = "1099511627776";
pub const FORMS: [&str; 5] = ["tape=NAME", "head=NUMBER", "turn=NUMBER", "rule=least", "files=NUMBER"];
pub const FILE_FORM: &str = "file=START,LENGTH,AGGREGATE";
pub const WANT_FORM: &str = "want=FILE,READS";

/// Words of working room that plan and the others have; that the programs of plan --any and check have by themselves, 5 MiB; and that every run has with the library.
const ROOM: u64 = 5120;
const ROOM_ANY: u64 = 655360;
const ROOM_MOST: u64 = 4198400;

/// What has refused: plan names plan --any, which takes more; plan --any and check have more room.
#[derive(Clone, Copy, PartialEq, Eq)]
pub enum By {
    Plan,
    PlanAny,
    Check,
    Buys,
    BuysAny,
    Explain,
    Another,
}

/// The sentence without its beginning; none where the reason is not found.
pub fn words(refusal: &Refusal, sheet: &[u8], by: By) -> Option<String> {
    if refusal.number == 12 {
        return Some("the sheet has over 16384 bytes, which no run sheet has".to_string());
    }
    let place = usize::try_from(refusal.place).ok()?;
    Sheet::read(sheet, refusal.number, place).words(refusal.number, place, by)
}

/// A sheet as it stands, line by line, each shown as in a message. Lines and files count from 1.
struct Sheet {
    lines: Vec<Line>,
    files: usize,
    wants: usize,
}

/// A line, shown as in a message.
pub struct Line {
    pub text: String,
    ends_in_return: bool,
}

impl Line {
    pub fn read(bytes: &[u8]) -> Line {
        let bytes = &bytes[..bytes.len().min(4096)];
        Line { text: visible(bytes), ends_in_return: bytes.ends_with(b"\r") }
    }

    pub fn key(&self) -> &str {
        key(&self.text)
    }

    pub fn value(&self) -> &str {
        &self.text[self.key().len()..]
    }

    pub fn part(&self, number: usize) -> &str {
        self.value().split(',').nth(number).unwrap_or_default()
    }

    /// What is wrong with a line, by its number, that should have a form; none fits an empty one.
    pub fn fault(&self, number: usize, form: &str) -> Found {
        if self.ends_in_return {
            return Found::fault("it ends in a carriage return, and a line must end in a line feed alone");
        }
        if number == 1 && self.text.starts_with("\\xef\\xbb\\xbf") {
            return Found::fault("a byte order mark stands before it");
        }
        if number == 1 && self.text.starts_with("refused=") {
            return Found::fault("this is a refusal and no run sheet");
        }
        if form.is_empty() || self.key() != key(form) {
            return if self.text.starts_with(' ') { Found::fault("there is a blank in it") } else { Found::OtherKind };
        }
        let value = self.value();
        let parts = value.split(',').count();
        if number == 1 && !is_name(value) {
            return Found::fault(fault_of_name(value));
        }
        if number != 1 && number != 4 && !(number == 3 && value.is_empty()) {
            if let Some(words) = number_fault(value) {
                return Found::Fault(words);
            }
        }
        if form == FILE_FORM && parts != 3 {
            return Found::fault("three numbers must stand there, with commas between them; the third is 0 for a file in no aggregate");
        }
        if form == WANT_FORM && parts != 2 {
            return Found::fault("two numbers must stand there, with a comma between them");
        }
        Found::Nothing
    }
}

/// What looking at a line by itself has found.
pub enum Found {
    Fault(String),
    /// It is a line of another kind.
    OtherKind,
    Nothing,
}

impl Found {
    fn fault(words: &str) -> Found {
        Found::Fault(words.to_string())
    }
}

/// What stands before the first `=`, with it.
fn key(text: &str) -> &str {
    text.find('=').map_or("", |at| &text[..=at])
}

impl Sheet {
    /// The numbers after `files=` and `wants=` count where the program has passed them.
    fn read(sheet: &[u8], number: u64, place: usize) -> Sheet {
        let lines: Vec<Line> = sheet.split(|&byte| byte == b'\n').map(Line::read).collect();
        let mut read = Sheet { lines, files: 0, wants: 0 };
        let at = read.lines.len();
        if at >= 5 && (place > 5 || number != 11) {
            read.files = read.count(5);
        }
        if at > 6 + read.files && (place > 6 + read.files || number != 11) {
            read.wants = read.count(6 + read.files);
        }
        read
    }

    fn count(&self, line: usize) -> usize {
        self.line(line).value().parse().unwrap_or(0)
    }

    fn line(&self, number: usize) -> &Line {
        static NONE: Line = Line { text: String::new(), ends_in_return: false };
        number.checked_sub(1).and_then(|at| self.lines.get(at)).unwrap_or(&NONE)
    }

    fn stands(&self, line: usize) -> String {
        format!("line {line}, {}", in_quotes(&self.line(line).text))
    }

    fn words(&self, number: u64, place: usize, by: By) -> Option<String> {
        Some(match number {
            2 => self.bad_file(place),
            4 => self.bad_want(place),
            5 => {
                let reads = self.reads().map_or("over 1024".to_string(), |reads| reads.to_string());
                format!("the wants have {reads} reads in all; at most 1024 can be planned")
            }
            6 => format!("the turn price ({}) is above 4294967296 (2^32)", self.stands(3)),
            7 => self.bad_head(by),
            9 => self.no_room(by),
            11 => self.bad_line(place),
            19 => format!("the rule ({}) is retired; write rule=least", self.stands(place)),
            24 => format!("the sheet has {} wants; this engine plans at most 8", self.wants),
            _ => return None,
        })
    }

    // ---- 11 ----

    fn expected(&self, line: usize) -> &'static str {
        if line <= 5 {
            FORMS[line.max(1) - 1]
        } else if line <= 5 + self.files {
            FILE_FORM
        } else if line == 6 + self.files {
            "wants=NUMBER"
        } else if line <= 6 + self.files + self.wants {
            WANT_FORM
        } else {
            "the end of the sheet"
        }
    }

    /// How many lines of a kind were announced, for a line of another kind there or none.
    fn announced(&self, line: usize) -> String {
        if line > 5 && line <= 6 + self.files {
            format!("; line 5 says files={}", self.files)
        } else if line > 6 + self.files {
            format!("; line {} says wants={}", 6 + self.files, self.wants)
        } else {
            String::new()
        }
    }

    fn bad_line(&self, number: usize) -> String {
        let text = &self.line(number).text;
        let expected = self.expected(number);
        if number >= self.lines.len() && text.is_empty() {
            let missing = if number == 1 { "the sheet is empty" } else { "the sheet ends before it" };
            return format!("line {number}: expected {expected}; {missing}{}", self.announced(number));
        }
        let found = if text.is_empty() { "an empty line".to_string() } else { in_quotes(text) };
        let words = format!("line {number}: expected {expected}; found {found}");
        match self.fault(number) {
            Some(fault) => format!("{words}: {fault}"),
            None if !text.is_empty() && key(text) == key(expected) => words,
            None => words + &self.announced(number),
        }
    }

    fn fault(&self, number: usize) -> Option<String> {
        let line = self.line(number);
        let behind = number > 6 + self.files + self.wants;
        match line.fault(number, if behind { "" } else { self.expected(number) }) {
            Found::Fault(words) => Some(words),
            Found::OtherKind => None,
            Found::Nothing => self.fault_of_count(number).map(str::to_string),
        }
    }

    fn fault_of_count(&self, number: usize) -> Option<&'static str> {
        let value = self.line(number).value();
        let too_many = |most: &str| is_number(value) && above(value, most);
        if number == 5 && too_many("256") {
            Some("a sheet has at most 256 files")
        } else if number == 6 + self.files && too_many("64") {
            Some("a sheet has at most 64 wants")
        } else if number == self.lines.len() {
            Some("the line feed at its end is missing")
        } else {
            None
        }
    }

    // ---- The others ----

    fn file(&self, number: usize) -> &Line {
        self.line(number + 5)
    }

    fn want(&self, number: usize) -> &Line {
        self.line(number + 6 + self.files)
    }

    fn end_of(&self, file: usize) -> u128 {
        let part = |number| self.file(file).part(number).parse::<u128>().unwrap_or(0);
        part(0) + part(1)
    }

    fn bad_file(&self, file: usize) -> String {
        let line = self.file(file);
        let (start, length, aggregate) = (line.part(0), line.part(1), line.part(2));
        let words = format!("file {file} ({})", self.stands(file + 5));
        if length == "0" {
            return format!("{words} has length 0");
        }
        let limit: u128 = 1 << 40;
        let begins: u128 = start.parse().unwrap_or(0);
        if file > 1 && begins <= limit && begins < self.end_of(file - 1) {
            return format!("{words} starts at {start}, before the end of file {}, which is {}", file - 1, self.end_of(file - 1));
        }
        if above(start, LIMIT) || above(length, LIMIT) || self.end_of(file) > limit {
            return format!("{words} ends above {LIMIT} (2^40)");
        }
        if above(aggregate, "4096") {
            return format!("{words} has an aggregate number above 4096");
        }
        format!("{words} lies in aggregate {aggregate} again, after a file that does not")
    }

    fn bad_want(&self, want: usize) -> String {
        let line = self.want(want);
        let file = line.part(0);
        let words = format!("want {want} ({})", self.stands(want + 6 + self.files));
        if file == "0" || above(file, &self.files.to_string()) {
            let table = match self.files {
                0 => "no files".to_string(),
                1 => "file 1 only".to_string(),
                files => format!("files 1 to {files}"),
            };
            return format!("{words} names file {file}, and the table has {table}");
        }
        if want > 1 && !above(file, self.want(want - 1).part(0)) {
            let before = in_quotes(&self.want(want - 1).text);
            return format!("{words} does not name a larger file number than the want before it, {before}");
        }
        format!("{words} has 0 reads")
    }

    /// The reads of all wants, where they can be counted.
    fn reads(&self) -> Option<u64> {
        (1..=self.wants).map(|want| self.want(want).part(1)).try_fold(0, |sum, reads| {
            if reads.len() > 12 {
                None
            } else {
                Some(sum + reads.parse::<u64>().unwrap_or(0))
            }
        })
    }

    /// The last file of a file's aggregate.
    fn last_of(&self, file: usize) -> usize {
        let aggregate = self.file(file).part(2);
        let together = |next: &usize| aggregate != "0" && *next <= self.files && self.file(*next).part(2) == aggregate;
        (file + 1..).take_while(together).last().unwrap_or(file)
    }

    /// How many stops the wants make: those of one aggregate are one.
    fn stops(&self) -> u64 {
        let mut lasts: Vec<usize> = (1..=self.wants).map(|want| self.last_of(self.want(want).part(0).parse().unwrap_or(0))).collect();
        lasts.dedup();
        lasts.len() as u64
    }

    fn bad_head(&self, by: By) -> String {
        let words = format!("the head ({})", self.stands(2));
        if above(self.line(2).value(), LIMIT) {
            return format!("{words} stands above {LIMIT} (2^40)");
        }
        let wanted: usize = self.want(self.wants).part(0).parse().unwrap_or(0);
        let rightmost = self.last_of(wanted);
        let whose = if rightmost == wanted {
            "the rightmost wanted file".to_string()
        } else {
            format!("the last of the aggregate of file {wanted}, which is the rightmost wanted")
        };
        let advice = match by {
            By::Plan => "; plan --any takes the head where it stands",
            By::Buys => "; buys --any takes the head where it stands",
            _ => "",
        };
        format!("{words} stands left of {}, the end of file {rightmost}, {whose} ({}){advice}", self.end_of(rightmost), self.stands(rightmost + 5))
    }

    fn no_room(&self, by: By) -> String {
        let stops = self.stops();
        let reads = self.reads().unwrap_or(0);
        let at_stops = if stops == self.wants as u64 { String::new() } else { format!(" at {stops} stops") };
        let room = match by {
            By::Plan => format!("there are {ROOM}, and {}", room_of("plan --any")),
            By::Buys => format!("there are {ROOM}, and {}", room_of("buys --any")),
            By::Another => format!("there are {ROOM}"),
            _ if LINKED => "there were not so many".to_string(),
            By::PlanAny => room_of("plan --any"),
            By::BuysAny => room_of("buys --any"),
            By::Check => room_of("check"),
            By::Explain => room_of("explain"),
        };
        format!(
            "{} wants{at_stops} with {reads} reads in all ask for {stops} * {stops} * {} = {} words of working room; {room}",
            self.wants,
            reads + 1,
            stops * stops * (reads + 1)
        )
    }
}

/// How much room a command has that takes any run, and what to do for more.
fn room_of(command: &str) -> String {
    if LINKED {
        return format!("{command} has {ROOM_MOST}");
    }
    let remedy = if cfg!(target_arch = "x86_64") { "./violstream build gives it the library, and with that" } else { "on x86-64, with the library," };
    format!("{command} has {ROOM_ANY} (5 MiB); {remedy} it has {ROOM_MOST}")
}

fn is_name(text: &str) -> bool {
    (1..=16).contains(&text.len()) && text.bytes().all(|byte| byte.is_ascii_uppercase() || byte.is_ascii_digit())
}

fn fault_of_name(name: &str) -> &'static str {
    if name.is_empty() {
        "the name is missing"
    } else if name.contains(|c: char| c.is_ascii_lowercase()) {
        "a tape's name has capitals and digits only"
    } else if name.len() > 16 {
        "the name has over 16 characters"
    } else {
        "a tape's name is 1 to 16 of A-Z and 0-9"
    }
}
