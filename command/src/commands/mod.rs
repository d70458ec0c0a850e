//! What each command does, a module each.

mod ask;
mod audit;
mod desk;
mod explain;
mod ltfs;
mod month;
mod pair;
mod pick;
mod recall;
mod record;
mod replay;
mod serve;
mod sheets;

use crate::answers::Refusal;
use crate::build;
use crate::deb;
use crate::explain::schedule::Speed;
use crate::help;
use crate::install;
use crate::output::put;
use crate::places::Places;
use crate::say::say;
use crate::status::{Status, Stop};
use crate::system::Began;
pub use pick::Pick;
pub use recall::Recall;
use std::ffi::OsString;

/// What every command may look at.
pub struct Call {
    pub began: Began,
    pub places: Places,
}

/// What a call asks for, with its words.
pub enum Asked {
    Sheets { command: &'static str, any: bool, files: Vec<OsString>, json: bool },
    Pair { command: &'static str, run: OsString, other: OsString, json: bool },
    Explain(Explain),
    Month { files: Vec<OsString>, json: bool },
    Pick { pick: Pick, names: Option<OsString> },
    Recall(Recall),
    Ltfs { tape: OsString, label: OsString, index: OsString },
    Desk { sheet: OsString, events: OsString },
    Record { book: OsString, by: Option<String>, files: Vec<OsString> },
    Audit { book: OsString, sought: Option<Sought>, page: Option<OsString> },
    Replay { journal: OsString, keep: Option<OsString> },
    Serve(Serve),
    Ask { window: OsString, events: Vec<OsString>, plain: bool },
    Build,
    Test,
    Install { prefix: Option<OsString> },
    Uninstall { prefix: Option<OsString> },
    Completions { shell: String },
    Deb,
    Version,
    Help(Option<&'static str>),
}

/// What is looked for in a book: a tape, and a file of it or every file.
pub struct Sought {
    pub tape: String,
    pub file: Option<usize>,
}

/// The words of explain.
pub struct Explain {
    pub run: OsString,
    pub picture: Option<OsString>,
    pub names: Option<OsString>,
    pub speed: Speed,
}

/// The words of serve; the groups are those of office 1, office 2 and the operator.
pub struct Serve {
    pub journal: OsString,
    pub windows: OsString,
    pub book: Option<OsString>,
    pub groups: [Option<OsString>; 3],
    pub sheet: OsString,
}

/// The most that is read of a sheet: a byte more than it may have.
pub const SHEET: usize = 16385;

pub fn answer(asked: &Asked, call: &Call) -> Result<Status, Stop> {
    match asked {
        Asked::Sheets { command, any, files, json } => sheets::answer(command, *any, files, *json, call),
        Asked::Pair { command, run, other, json } => pair::answer(command, run, other, *json, call),
        Asked::Explain(asked) => explain::answer(asked, call),
        Asked::Month { files, json } => month::answer(files, *json, call),
        Asked::Pick { pick, names } => pick::answer(pick, names.as_deref(), call),
        Asked::Recall(asked) => recall::answer(asked, call),
        Asked::Ltfs { tape, label, index } => ltfs::answer(tape, label, index, call),
        Asked::Desk { sheet, events } => desk::answer(sheet, events, call),
        Asked::Record { book, by, files } => record::answer(book, by.as_deref(), files, call),
        Asked::Audit { book, sought, page } => audit::answer(book, sought.as_ref(), page.as_deref(), call),
        Asked::Replay { journal, keep } => replay::answer(journal, keep.as_deref(), call),
        Asked::Serve(asked) => serve::answer(asked, call),
        Asked::Ask { window, events, plain } => ask::answer(window, events, *plain, call),
        Asked::Version => print(&help::version(&call.places)?),
        Asked::Help(None) => print(&help::whole(&call.places)),
        Asked::Help(Some(command)) => print(&help::of(command, &call.places)),
        Asked::Completions { shell } => print(&help::completions(shell, &call.places)),
        Asked::Build => {
            build::everything(call)?;
            say("built: what plan, field, buys, price, check, explain, rewrite, mend, month, ltfs, desk, serve, record, audit and install need");
            Ok(Status::Answered)
        }
        Asked::Test => Ok(if build::test(call)? { Status::Answered } else { Status::Failed }),
        Asked::Install { prefix } => {
            build::everything(call)?;
            install::install(prefix.as_deref(), call)
        }
        Asked::Deb => {
            build::everything(call)?;
            deb::make(call)
        }
        Asked::Uninstall { prefix } => install::uninstall(prefix.as_deref(), call),
    }
}

fn print(text: &str) -> Result<Status, Stop> {
    put(text.as_bytes())?;
    Ok(Status::Answered)
}

/// The refusal in words, on standard error.
fn say_refused(what: &str, refusal: &Refusal, words: &str) {
    say(&format!("{what}: refused ({}): {words}", refusal.number));
}

/// Told, and counted as a failure; the call goes on.
fn told(sentence: &str) -> Status {
    say(sentence);
    Status::Failed
}

/// A run sheet and another text as a program takes them: the former behind a line with its size.
pub fn frame_pair(run: &[u8], other: &[u8]) -> Vec<u8> {
    [format!("{}\n", run.len()).as_bytes(), run, other].concat()
}
