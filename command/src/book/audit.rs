//! Going through a book: numbers without a gap, every digest, and every answer judged anew by the proved programs.

use super::entry::{written, Entry};
use super::shelf::{self, Taken};
use super::{digest, NOTHING};
use crate::answers::{lines, refusal, says_no, Refusal};
use crate::commands::{Call, SHEET};
use crate::programs::{Program, NO_ROOM};
use crate::say::say;
use crate::status::{failed, Stop};
use crate::words;
use crate::words::sheet::By;
use std::ffi::OsStr;

/// What going through a book has come to: of the entries before the first that cannot be right, or of all.
pub struct Audit {
    pub entries: u64,
    pub plans: u64,
    pub refusals: u64,
    /// The digest of the last of these.
    pub last: String,
    pub wrong: Option<Wrong>,
}

pub struct Wrong {
    pub number: u64,
    pub why: String,
    /// Entries from this one on.
    pub left: usize,
}

/// An entry that is right.
pub struct Seen<'a> {
    pub entry: &'a Entry<'a>,
    pub digest: &'a str,
    /// The refusal with its words, of a run that has one.
    pub refused: Option<(Refusal, String)>,
}

/// Looks at one entry after the other, and hands over each that is right.
pub fn go(folder: &OsStr, call: &Call, each: &mut dyn FnMut(&Seen) -> Result<(), Stop>) -> Result<Audit, Stop> {
    let (numbers, almost) = shelf::numbers(folder).map_err(Stop::Failed)?;
    almost.iter().for_each(|name| say(&format!("{name} is no entry: its name is not a number as entries have it")));
    let mut judge = Judge { call, check: None, plan: None };
    let mut audit = Audit { entries: 0, plans: 0, refusals: 0, last: NOTHING.to_string(), wrong: None };
    for (at, &number) in numbers.iter().enumerate() {
        if let Some((number, why)) = look(folder, number, &mut audit, &mut judge, each)? {
            audit.wrong = Some(Wrong { number, why, left: numbers.len() - at });
            break;
        }
    }
    Ok(audit)
}

/// The next entry by the numbers that there are: counted where it is right, else which cannot be right, and why.
fn look(
    folder: &OsStr,
    number: u64,
    audit: &mut Audit,
    judge: &mut Judge,
    each: &mut dyn FnMut(&Seen) -> Result<(), Stop>,
) -> Result<Option<(u64, String)>, Stop> {
    let (due, name) = (audit.entries + 1, written(number));
    if number != due {
        return Ok(Some((due, format!("entry {} is not there, though entry {name} is", written(due)))));
    }
    let text = match shelf::take(folder, number).map_err(Stop::Failed)? {
        Taken::Text(text) => text,
        Taken::NoEntry(why) => return Ok(Some((number, format!("entry {name} {why}")))),
        Taken::Missing => return Ok(Some((number, format!("entry {name} was there, and is not there any more")))),
    };
    let entry = match Entry::read(&text) {
        Ok(entry) => entry,
        Err(why) => return Ok(Some((number, format!("entry {name} {why}")))),
    };
    if let Some(why) = out_of_place(&entry, number, &audit.last) {
        return Ok(Some((number, why)));
    }
    let refused = refusal(entry.plan);
    if let Some(why) = judge.fault(&entry, refused.as_ref())? {
        return Ok(Some((number, why)));
    }
    audit.entries += 1;
    *(if refused.is_some() { &mut audit.refusals } else { &mut audit.plans }) += 1;
    audit.last = digest(&text);
    let refused = refused.map(|refused| (refused.clone(), words::of_plan(&refused, start_of(entry.run), By::PlanAny)));
    each(&Seen { entry: &entry, digest: &audit.last, refused })?;
    Ok(None)
}

fn out_of_place(entry: &Entry, number: u64, before: &str) -> Option<String> {
    let name = written(number);
    if entry.number != number {
        return Some(format!("entry {name} calls itself {}", written(entry.number)));
    }
    if entry.previous == before {
        return None;
    }
    Some(match number {
        1 => format!("entry {name} does not begin a book: its previous= is not 64 zeros"),
        _ => format!("previous= of entry {name} is not the digest of entry {}: one of the two is not as it was recorded", written(number - 1)),
    })
}

/// As much of a run sheet as a program looks at.
fn start_of(run: &[u8]) -> &[u8] {
    &run[..run.len().min(SHEET)]
}

/// The proved programs, each started when it is first needed.
struct Judge<'a> {
    call: &'a Call,
    check: Option<Program>,
    plan: Option<Program>,
}

impl Judge<'_> {
    /// Why an answer cannot be that to its run; nothing where it is.
    fn fault(&mut self, entry: &Entry, refused: Option<&Refusal>) -> Result<Option<String>, Stop> {
        let name = written(entry.number);
        if refused.is_some() {
            // By the room of the program itself: who recorded a 9 had no more.
            let answer = Program::kept(&mut self.plan, "cmd_plan_any", self.call)?.ask_alone(start_of(entry.run)).or_else(failed)?.answer;
            let now = refusal(&answer).map_or("a plan".to_string(), |now| format!("refusal {} at place {}", now.number, now.place));
            return Ok((answer != entry.plan).then(|| format!("the run of entry {name} is not refused as the entry says; the answer to it is {now}")));
        }
        if entry.plan.len() >= SHEET {
            return Ok(Some(format!("the plan sheet of entry {name} is longer than any")));
        }
        let answer = Program::kept(&mut self.check, "cmd_check", self.call)?.ask_pair(start_of(entry.run), entry.plan).or_else(failed)?.answer;
        if let Some(refused) = refusal(&answer) {
            if refused.number == NO_ROOM {
                return failed(format!("entry {name} cannot be judged here: {}", words::of_plan(&refused, start_of(entry.run), By::Check)));
            }
            let words = words::table::words(refused.number);
            return Ok(Some(format!("entry {name} is refused by check ({} at place {}: {words})", refused.number, refused.place)));
        }
        Ok(says_no(&answer).then(|| format!("the plan sheet of entry {name} is not that of its run: {}", no_of(&answer))))
    }
}

/// What a check has answered no to, in words.
fn no_of(answer: &[u8]) -> String {
    let known = [
        ("formed=no", "its list of detours is not well formed"),
        ("walk=no", "its numbers are not those of the head's walk"),
        ("least=no", "another plan is the least"),
    ];
    let said: Vec<String> = lines(answer).map(|line| String::from_utf8_lossy(line).into_owned()).collect();
    let told = |(key, words): &(&str, &str)| Some(format!("{words} ({})", said.iter().find(|line| line.starts_with(key))?));
    known.iter().filter_map(told).collect::<Vec<_>>().join("; ")
}
