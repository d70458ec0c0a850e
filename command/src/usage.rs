//! The words of a call, read by clap, and what to say of those that are wrong.

use crate::book::is_name;
use crate::clock;
use crate::commands::{Asked, Explain, Pick, Recall, Serve, Sought};
use crate::explain::schedule::Speed;
use crate::library::LINKED;
use crate::places::Places;
use crate::say::quoted;
use crate::status::Stop;
use crate::words::is_number;
use clap::error::{ContextKind, ContextValue, ErrorKind};
use clap::{value_parser, Arg, ArgAction, ArgMatches, Command, ValueHint};
use std::ffi::{OsStr, OsString};
use std::os::unix::ffi::OsStrExt;

/// A command's name, the words that it takes, and a line on what it does.
pub struct Known {
    pub name: &'static str,
    pub synopsis: &'static str,
    pub about: &'static str,
    options: &'static [&'static str],
    words: Words,
}

#[derive(Clone, Copy, PartialEq)]
enum Words {
    Files,
    Folder,
    None,
    Other,
}

const fn known(name: &'static str, synopsis: &'static str, about: &'static str, options: &'static [&'static str], words: Words) -> Known {
    Known { name, synopsis, about, options, words }
}

pub const COMMANDS: [Known; 25] = [
    known("plan", "[--any] [--json] [FILE...]", "the plan sheet of each run sheet", &["any", "json"], Words::Files),
    known("field", "[FILE...]", "the same by the plain engine, for at most eight wants", &[], Words::Files),
    known("buys", "[--any] [--json] [FILE...]", "what each detour of a plan buys", &["any", "json"], Words::Files),
    known("price", "RUN LIST", "the plan sheet of a list of your own", &[], Words::Files),
    known("check", "[--json] RUN PLAN", "whether a plan sheet is right", &["json"], Words::Files),
    known(
        "explain",
        "[--svg FILE] [--names FILE] [--speed UNITS [--begin TIME]] RUN",
        "the plan for a person, and its picture",
        &["svg", "names", "speed", "begin"],
        Words::Files,
    ),
    known("rewrite", "[FILE...]", "each run sheet with turn=0 for an empty turn=", &[], Words::Files),
    known("mend", "[FILE...]", "each run sheet put in order", &[], Words::Files),
    known("month", "[--json] [FILE...]", "one page over up to 1,000 run sheets", &["json"], Words::Files),
    known("ltfs", "NAME LABEL INDEX", "the run sheet of a tape from its LTFS label and index", &[], Words::Files),
    known(
        "pick",
        "[--blocks] [--head PLACE] [--turn PRICE] [--names FILE] TAPE LABEL INDEX [LIST]",
        "the run sheet of the files that a list names",
        &["blocks", "head", "turn", "names"],
        Words::Files,
    ),
    known(
        "recall",
        "[--blocks] [--head PLACE] [--turn PRICE] [--speed UNITS [--begin TIME]] [--svg FILE] [--keep FOLDER] [--book BOOK] [--json] TAPE LABEL INDEX [LIST]",
        "when each file that a list names is there",
        &["blocks", "head", "turn", "speed", "begin", "svg", "keep", "book", "json"],
        Words::Files,
    ),
    known("desk", "SHEET [EVENTS] | --replay JOURNAL [--keep FOLDER]", "a day at the desk of two offices", &["replay", "keep"], Words::Files),
    known(
        "serve",
        "--journal FILE --windows FOLDER [--book BOOK] [--group1 NAME] [--group2 NAME] [--group NAME] SHEET",
        "the desk for two offices in two rooms",
        &["journal", "windows", "book", "group1", "group2", "group"],
        Words::Files,
    ),
    known("ask", "[--plain] WINDOW [EVENT...]", "events at a window of serve", &["plain"], Words::Files),
    known("record", "[--by WHO] BOOK RUN...", "plan each run, and keep what was asked and answered in a book", &["by"], Words::Files),
    known(
        "audit",
        "[--tape NAME [--file N]] [--html FILE] BOOK",
        "whether a book is right, and what it says",
        &["tape", "file", "html"],
        Words::Folder,
    ),
    known("build", "", "prove and build what the others need", &[], Words::None),
    known("test", "", "prove everything from nothing and run every test", &[], Words::None),
    known("install", "[PREFIX]", "install this command and the library", &[], Words::Folder),
    known("deb", "", "a Debian package of what install puts in place", &[], Words::None),
    known("uninstall", "[PREFIX]", "remove what was installed", &[], Words::Folder),
    known("completions", "SHELL", "completions for bash, zsh or fish", &[], Words::Other),
    known("version", "", "the version of the product", &[], Words::None),
    known("help", "[COMMAND]", "all commands, or one", &[], Words::Other),
];

/// Commands that need a call of the library.
const BY_NAME: [&str; 2] = ["pick", "recall"];

/// Whether files by name are offered: the call is linked, or in this checkout it can be.
pub fn by_name(places: &Places) -> bool {
    LINKED || !places.installed && places.root.join("crates/boundary_pick").is_dir()
}

/// The commands that there are.
pub fn offered(places: &Places) -> impl Iterator<Item = &'static Known> {
    let by_name = by_name(places);
    COMMANDS.iter().filter(move |known| by_name || !BY_NAME.contains(&known.name))
}

/// Commands that need the sources.
pub const FOR_CHECKOUTS: [&str; 4] = ["build", "test", "install", "deb"];

// ---- For clap ----

/// Options that take a value, and what it is.
const VALUES: [(&str, &str); 10] = [
    ("--svg", "the name of a file"),
    ("--html", "the name of a file"),
    ("--names", "the name of a file"),
    ("--speed", "a whole number of units of tape in a second, 1 or more"),
    ("--begin", "a time like 2026-11-16T08:00:00, from 1970 on"),
    ("--head", "a whole number below 2^64, the head's place"),
    ("--turn", "a whole number below 2^64, the price of a turn"),
    ("--by", "a name of whoever asks, on one line"),
    ("--tape", "the name of a tape, 1 to 16 of A-Z and 0-9"),
    ("--file", "the number of a file, 1 to 256"),
];

fn needs(option: &str) -> String {
    let value = VALUES.iter().find(|(known, _)| *known == option).map_or("a value", |(_, value)| value);
    format!("{option} needs {value}")
}

fn option(name: &str) -> Arg {
    match name {
        "any" => Arg::new("any").long("any").action(ArgAction::SetTrue).help("any run: the head anywhere, and more room"),
        "json" => Arg::new("json").long("json").action(ArgAction::SetTrue).help("one object of JSON for each answer"),
        "svg" => valued("svg", "FILE", ValueHint::FilePath, "a picture too"),
        "blocks" => Arg::new("blocks").long("blocks").action(ArgAction::SetTrue).help("positions in blocks of the tape, not in bytes"),
        "head" => valued("head", "PLACE", ValueHint::Other, "where the head stands; without it at the end of the last file"),
        "turn" => valued("turn", "PRICE", ValueHint::Other, "the price of a turn; without it the drives' own"),
        "names" => valued("names", "FILE", ValueHint::FilePath, "the names of the files, as pick writes them"),
        "speed" => valued("speed", "UNITS", ValueHint::Other, "units of tape in a second: times by the clock too"),
        "begin" => valued("begin", "TIME", ValueHint::Other, "when the run begins: the time of day too"),
        "by" => valued("by", "WHO", ValueHint::Other, "who asks; without it the user's name"),
        "tape" => valued("tape", "NAME", ValueHint::Other, "when files of this tape were read"),
        "file" => valued("file", "N", ValueHint::Other, "this file of it alone"),
        "html" => valued("html", "FILE", ValueHint::FilePath, "a page for a browser too"),
        "plain" => Arg::new("plain").long("plain").action(ArgAction::SetTrue).help("without keys for what was typed before"),
        "journal" => valued("journal", "FILE", ValueHint::FilePath, "where accepted events are written"),
        "windows" => valued("windows", "FOLDER", ValueHint::DirPath, "where the windows are"),
        "book" => valued("book", "BOOK", ValueHint::DirPath, "a record book that takes each of them"),
        "group1" => valued("group1", "NAME", ValueHint::Other, "who may speak for office 1"),
        "group2" => valued("group2", "NAME", ValueHint::Other, "who may speak for office 2"),
        "group" => valued("group", "NAME", ValueHint::Other, "who may speak for the operator"),
        "replay" => valued("replay", "JOURNAL", ValueHint::FilePath, "the journal of a server once more"),
        "keep" => valued("keep", "FOLDER", ValueHint::DirPath, "a folder where the sheets are left, for check"),
        _ => unreachable!("no option {name}"),
    }
}

fn valued(name: &'static str, value: &'static str, hint: ValueHint, help: &'static str) -> Arg {
    Arg::new(name).long(name).value_name(value).value_parser(value_parser!(OsString)).value_hint(hint).help(help)
}

fn definition(known: &Known) -> Command {
    let hint = match known.words {
        Words::Files => ValueHint::FilePath,
        Words::Folder => ValueHint::DirPath,
        Words::None | Words::Other => ValueHint::Other,
    };
    let words = Arg::new("words").num_args(0..).action(ArgAction::Append).value_parser(value_parser!(OsString)).value_hint(hint);
    Command::new(known.name)
        .about(known.about)
        .no_binary_name(true)
        .disable_help_flag(true)
        .args_override_self(true)
        .arg(Arg::new("help").long("help").short('h').action(ArgAction::Help).help("what this command does"))
        .arg(Arg::new("version").long("version").action(ArgAction::Version).help("the version of the product"))
        .version("0")
        .args(known.options.iter().map(|name| option(name)))
        .arg(words)
}

/// All commands, for completions.
pub fn whole(places: &Places) -> Command {
    Command::new("violstream").disable_help_subcommand(true).subcommands(offered(places).map(|known| definition(known).no_binary_name(false)))
}

// ---- Reading ----

pub struct Usage<'a> {
    known: &'a Known,
    places: &'a Places,
}

/// What is asked, or what to say of it.
pub fn read(words: impl Iterator<Item = OsString>, places: &Places) -> Result<Asked, Stop> {
    let mut words = words;
    let first = match words.next() {
        None => return Ok(Asked::Help(None)),
        Some(first) => first,
    };
    if first == "--help" || first == "-h" {
        return Ok(Asked::Help(None));
    }
    if first == "--version" {
        return Ok(Asked::Version);
    }
    match offered(places).find(|known| first == known.name) {
        Some(known) => Usage { known, places }.read(words.collect()),
        None => Err(misused(format!("unknown command '{}'", quoted(&first)), places.me(), &every_name(places))),
    }
}

fn every_name(places: &Places) -> String {
    let here = |known: &&Known| known.name != "completions" && !(places.installed && FOR_CHECKOUTS.contains(&known.name));
    offered(places).filter(here).map(|known| known.name).collect::<Vec<_>>().join(" | ")
}

fn misused(sentence: String, me: &str, synopsis: &str) -> Stop {
    Stop::Misused { sentence, usage: format!("usage: {me} {synopsis}   (more: {me} help)") }
}

impl Usage<'_> {
    pub fn misused<T>(&self, sentence: impl Into<String>) -> Result<T, Stop> {
        let synopsis = format!("{} {}", self.known.name, self.known.synopsis);
        Err(misused(sentence.into(), self.places.me(), synopsis.trim_end()))
    }

    fn read(&self, words: Vec<OsString>) -> Result<Asked, Stop> {
        match definition(self.known).try_get_matches_from(words) {
            Ok(matches) => self.understand(&matches),
            Err(error) => match error.kind() {
                ErrorKind::DisplayHelp => Ok(Asked::Help(Some(self.known.name))),
                ErrorKind::DisplayVersion => Ok(Asked::Version),
                _ => self.misused(self.fault(&error)),
            },
        }
    }

    fn fault(&self, error: &clap::Error) -> String {
        let about = match error.get(ContextKind::InvalidArg) {
            Some(ContextValue::String(about)) => about.split([' ', '=']).next().unwrap_or_default().to_string(),
            _ => String::new(),
        };
        let shown = quoted(OsStr::new(&about));
        match error.kind() {
            ErrorKind::UnknownArgument => format!("{} has no option {shown} (a file of that name is ./{shown})", self.known.name),
            ErrorKind::TooManyValues => format!("{shown} takes no value"),
            _ if VALUES.iter().any(|(option, _)| *option == about) => needs(&about),
            _ if self.known.options.contains(&about.trim_start_matches("--")) => format!("{about} needs a name"),
            _ => error.to_string().lines().next().unwrap_or_default().trim_start_matches("error: ").to_string(),
        }
    }

    fn understand(&self, matches: &ArgMatches) -> Result<Asked, Stop> {
        let name = self.known.name;
        if self.places.installed && FOR_CHECKOUTS.contains(&name) {
            return self.misused(format!("{name} is for a checkout of the sources, and this command is installed"));
        }
        let words: Vec<OsString> = matches.get_many::<OsString>("words").unwrap_or_default().cloned().collect();
        let given = |option: &str| self.known.options.contains(&option) && matches.get_flag(option);
        let (any, json) = (given("any"), given("json"));
        let value = |option: &str| matches.get_one::<OsString>(option).cloned();
        // A tape's name is judged by the program, and an event by the server.
        let names = words.iter().skip(usize::from(["ltfs", "pick", "recall"].contains(&name))).take(if name == "ask" { 1 } else { words.len() });
        if names.into_iter().any(|word| word.is_empty()) {
            return self.misused("an empty word is no name");
        }
        match name {
            "plan" | "field" | "buys" | "rewrite" | "mend" => self.sheets(words, any, json),
            "month" => self.month(words, json),
            "price" | "check" => self.pair(words, json),
            "explain" => self.explain(words, value),
            "pick" => {
                let names = self.named("names", &value)?;
                Ok(Asked::Pick { pick: self.pick(words, given("blocks"), &value)?, names })
            }
            "recall" => self.recall(words, given("blocks"), json, &value),
            "ltfs" => self.ltfs(words),
            "desk" => self.desk(words, value("replay"), value("keep")),
            "serve" => self.serve(words, value),
            "ask" => self.ask(words, given("plain")),
            "record" => self.record(words, matches.get_one::<OsString>("by")),
            "audit" => self.audit(words, matches),
            "install" | "uninstall" => self.folder(words),
            "completions" => self.completions(words),
            "help" => self.help(words),
            _ => self.nothing(&words),
        }
    }

    /// Standard input can be read once.
    fn only_once(&self, names: &[&OsString]) -> Result<(), Stop> {
        if names.iter().filter(|name| **name == "-").count() > 1 {
            return self.misused("- is standard input, and can be given once only");
        }
        Ok(())
    }

    fn sheets(&self, mut files: Vec<OsString>, any: bool, json: bool) -> Result<Asked, Stop> {
        self.only_once(&files.iter().collect::<Vec<_>>())?;
        if files.is_empty() {
            files.push("-".into());
        }
        Ok(Asked::Sheets { command: self.known.name, any, files, json })
    }

    fn month(&self, mut files: Vec<OsString>, json: bool) -> Result<Asked, Stop> {
        self.only_once(&files.iter().collect::<Vec<_>>())?;
        if files.is_empty() {
            files.push("-".into());
        }
        Ok(Asked::Month { files, json })
    }

    fn pair(&self, words: Vec<OsString>, json: bool) -> Result<Asked, Stop> {
        let command = self.known.name;
        let other = if command == "price" { "a list" } else { "a plan sheet" };
        match <[OsString; 2]>::try_from(words) {
            Ok([run, other]) => {
                self.only_once(&[&run, &other])?;
                Ok(Asked::Pair { command, run, other, json })
            }
            Err(_) => self.misused(format!("{command} takes two files: a run sheet, and {other}")),
        }
    }

    fn explain(&self, words: Vec<OsString>, value: impl Fn(&str) -> Option<OsString>) -> Result<Asked, Stop> {
        let (picture, names, speed) = (self.named("svg", &value)?, self.named("names", &value)?, self.speed(&value)?);
        match <[OsString; 1]>::try_from(words) {
            Ok([run]) => {
                self.only_once(&[&run].into_iter().chain(&names).collect::<Vec<_>>())?;
                Ok(Asked::Explain(Explain { run, picture, names, speed }))
            }
            Err(_) => self.misused("explain takes one run sheet"),
        }
    }

    /// A value that is the name of something.
    fn named(&self, option: &str, value: &impl Fn(&str) -> Option<OsString>) -> Result<Option<OsString>, Stop> {
        match value(option) {
            Some(name) if name.is_empty() => self.misused(needs(&format!("--{option}"))),
            name => Ok(name),
        }
    }

    fn number(&self, option: &str, value: &impl Fn(&str) -> Option<OsString>) -> Result<Option<u64>, Stop> {
        match value(option).map(|text| text.to_str().filter(|text| is_number(text)).and_then(|text| text.parse::<u64>().ok())) {
            Some(None) => self.misused(needs(&format!("--{option}"))),
            number => Ok(number.flatten()),
        }
    }

    fn pick(&self, words: Vec<OsString>, blocks: bool, value: &impl Fn(&str) -> Option<OsString>) -> Result<Pick, Stop> {
        let mut words = words.into_iter();
        match (words.next(), words.next(), words.next(), words.next(), words.next()) {
            (Some(tape), Some(label), Some(index), list, None) => {
                let list = list.unwrap_or_else(|| "-".into());
                self.only_once(&[&label, &index, &list])?;
                Ok(Pick { tape, label, index, list, blocks, head: self.number("head", value)?, turn: self.number("turn", value)? })
            }
            _ => self.misused(format!(
                "{} takes a tape name, a file with the label, one with the index and, if not standard input, one with a list of paths",
                self.known.name
            )),
        }
    }

    fn recall(&self, words: Vec<OsString>, blocks: bool, json: bool, value: &impl Fn(&str) -> Option<OsString>) -> Result<Asked, Stop> {
        let pick = self.pick(words, blocks, value)?;
        let (picture, keep, book) = (self.named("svg", value)?, self.named("keep", value)?, self.named("book", value)?);
        Ok(Asked::Recall(Recall { pick, speed: self.speed(value)?, picture, keep, book, json }))
    }

    fn speed(&self, value: &impl Fn(&str) -> Option<OsString>) -> Result<Speed, Stop> {
        let units = match self.number("speed", value)? {
            Some(0) => return self.misused(needs("--speed")),
            units => units,
        };
        match (units, value("begin").map(|text| text.to_str().and_then(clock::seconds))) {
            (_, Some(None)) => self.misused(needs("--begin")),
            (None, Some(_)) => self.misused("--begin needs --speed, by which times become seconds"),
            (units, begin) => Ok(Speed { units, begin: begin.flatten() }),
        }
    }

    fn ltfs(&self, words: Vec<OsString>) -> Result<Asked, Stop> {
        match <[OsString; 3]>::try_from(words) {
            Ok([tape, label, index]) => {
                self.only_once(&[&label, &index])?;
                Ok(Asked::Ltfs { tape, label, index })
            }
            Err(_) => self.misused("ltfs takes a tape name, a file with the label and a file with the index"),
        }
    }

    fn desk(&self, words: Vec<OsString>, journal: Option<OsString>, keep: Option<OsString>) -> Result<Asked, Stop> {
        if [&journal, &keep].into_iter().flatten().any(|name| name.is_empty()) {
            return self.misused("an empty word is no name");
        }
        match (journal, keep) {
            (Some(journal), keep) if words.is_empty() => return Ok(Asked::Replay { journal, keep }),
            (Some(_), _) => return self.misused("with --replay desk takes no other file: the run sheet stands in the journal"),
            (None, Some(_)) => return self.misused("--keep goes with --replay"),
            (None, None) => {}
        }
        let mut words = words.into_iter();
        match (words.next(), words.next(), words.next()) {
            (Some(sheet), events, None) => {
                let events = events.unwrap_or_else(|| "-".into());
                self.only_once(&[&sheet, &events])?;
                Ok(Asked::Desk { sheet, events })
            }
            _ => self.misused("desk takes a file with a run sheet and, if not standard input, one with the events"),
        }
    }

    fn record(&self, words: Vec<OsString>, by: Option<&OsString>) -> Result<Asked, Stop> {
        let by = match by.map(|by| by.to_str().filter(|by| is_name(by)).map(str::to_string)) {
            Some(None) => return self.misused(needs("--by")),
            Some(by) => by,
            None => None,
        };
        let mut words = words.into_iter();
        match (words.next(), words.collect::<Vec<_>>()) {
            (Some(book), files) if !files.is_empty() => {
                self.only_once(&files.iter().collect::<Vec<_>>())?;
                Ok(Asked::Record { book, by, files })
            }
            _ => self.misused("record takes the folder of a book and the files of one run sheet or more"),
        }
    }

    fn audit(&self, words: Vec<OsString>, matches: &ArgMatches) -> Result<Asked, Stop> {
        let given = |name: &str| matches.get_one::<OsString>(name);
        let page = given("html").cloned();
        if page.as_ref().map_or(false, |page| page.is_empty() || page == "-") {
            return self.misused(needs("--html"));
        }
        let book = match <[OsString; 1]>::try_from(words) {
            Ok([book]) => book,
            Err(_) => return self.misused("audit takes the folder of one book"),
        };
        Ok(Asked::Audit { book, sought: self.sought(given("tape"), given("file"))?, page })
    }

    fn sought(&self, tape: Option<&OsString>, file: Option<&OsString>) -> Result<Option<Sought>, Stop> {
        let is_tape = |tape: &&str| (1..=16).contains(&tape.len()) && tape.bytes().all(|byte| byte.is_ascii_uppercase() || byte.is_ascii_digit());
        let tape = match tape.map(|tape| tape.to_str().filter(is_tape)) {
            Some(None) => return self.misused(needs("--tape")),
            Some(tape) => tape,
            None => None,
        };
        let number = |file: &OsString| {
            file.to_str().and_then(|text| text.parse().ok().filter(|number: &usize| (1..=256).contains(number) && number.to_string() == text))
        };
        match (tape, file.map(number)) {
            (_, Some(None)) => self.misused(needs("--file")),
            (None, Some(_)) => self.misused("--file needs --tape, since every tape has files of its own"),
            (tape, file) => Ok(tape.map(|tape| Sought { tape: tape.to_string(), file: file.flatten() })),
        }
    }

    fn serve(&self, words: Vec<OsString>, value: impl Fn(&str) -> Option<OsString>) -> Result<Asked, Stop> {
        let groups = [value("group1"), value("group2"), value("group")];
        let sheet = <[OsString; 1]>::try_from(words);
        match (value("journal"), value("windows"), sheet) {
            (Some(journal), Some(windows), Ok([sheet])) => {
                let book = value("book");
                if groups.iter().flatten().chain(&book).chain([&journal, &windows]).any(|name| name.is_empty()) {
                    return self.misused("an empty word is no name");
                }
                Ok(Asked::Serve(Serve { journal, windows, book, groups, sheet }))
            }
            (None, _, _) => self.misused("serve needs --journal, the file that it writes accepted events to"),
            (_, None, _) => self.misused("serve needs --windows, the folder where it listens"),
            _ => self.misused("serve takes one run sheet, of which the files alone are used"),
        }
    }

    fn ask(&self, words: Vec<OsString>, plain: bool) -> Result<Asked, Stop> {
        let mut words = words.into_iter();
        let window = match words.next() {
            Some(window) => window,
            None => return self.misused("ask takes the path of a window and, if not standard input, events"),
        };
        let events: Vec<OsString> = words.collect();
        if events.iter().any(|event| event.as_bytes().contains(&b'\n')) {
            return self.misused("an event is one line");
        }
        Ok(Asked::Ask { window, events, plain })
    }

    fn folder(&self, words: Vec<OsString>) -> Result<Asked, Stop> {
        let name = self.known.name;
        if words.len() > 1 {
            return self.misused(format!("{name} takes one folder"));
        }
        let prefix = words.into_iter().next();
        if let Some(prefix) = prefix.as_ref().filter(|prefix| !std::path::Path::new(prefix).is_absolute()) {
            return self.misused(format!("the folder must be an absolute path, not '{}'", quoted(prefix)));
        }
        Ok(if name == "install" { Asked::Install { prefix } } else { Asked::Uninstall { prefix } })
    }

    fn completions(&self, words: Vec<OsString>) -> Result<Asked, Stop> {
        match words.first().and_then(|shell| shell.to_str()) {
            Some(shell @ ("bash" | "zsh" | "fish")) if words.len() == 1 => Ok(Asked::Completions { shell: shell.to_string() }),
            _ => self.misused("completions takes the name of a shell: bash, zsh or fish"),
        }
    }

    fn help(&self, words: Vec<OsString>) -> Result<Asked, Stop> {
        match words.first() {
            None => Ok(Asked::Help(None)),
            Some(word) => match offered(self.places).find(|known| word == known.name) {
                Some(known) if words.len() == 1 => Ok(Asked::Help(Some(known.name))),
                _ => self.misused("help takes the name of one command"),
            },
        }
    }

    fn nothing(&self, words: &[OsString]) -> Result<Asked, Stop> {
        let name = self.known.name;
        if !words.is_empty() {
            return self.misused(format!("{name} takes no words"));
        }
        Ok(match name {
            "build" => Asked::Build,
            "test" => Asked::Test,
            "deb" => Asked::Deb,
            _ => Asked::Version,
        })
    }
}

#[cfg(test)]
mod tests {
    use super::*;
    use std::path::Path;

    #[test]
    fn clap_finds_no_fault_in_the_definitions() {
        let places = Places { installed: false, root: Path::new(env!("CARGO_MANIFEST_DIR")).join("..") };
        whole(&places).debug_assert();
        COMMANDS.iter().for_each(|known| definition(known).debug_assert());
    }
}
