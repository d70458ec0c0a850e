//! When each file is there: the plan's own numbers, in the order in which the files are read, with clock times and names beside them.

use super::Plan;
use crate::answers::lines;
use crate::clock;
use crate::say::quoted;
use std::ffi::OsStr;
use std::fmt::Write as _;
use std::os::unix::ffi::OsStrExt;

/// What turns a plan's times into a clock's. Without a speed there is no clock.
#[derive(Clone, Copy, Default)]
pub struct Speed {
    /// Units of tape in a second, at least 1.
    pub units: Option<u64>,
    /// When the run begins, in seconds from 1970; with a speed alone.
    pub begin: Option<u64>,
}

impl Speed {
    pub fn is_given(self) -> bool {
        self.units.is_some()
    }

    /// Whole seconds, rounded up: nobody is told a time before the file is there.
    pub fn seconds(self, time: u64) -> Option<u64> {
        self.units.map(|units| time / units + u64::from(time % units > 0))
    }

    /// The clock at that second, where it is known when the run begins.
    pub fn moment(self, seconds: u64) -> Option<String> {
        self.begin.map(|begin| clock::moment(begin.saturating_add(seconds)))
    }
}

impl Speed {
    /// A time as a clock shows it: of the day where it is known when the run begins, or since then.
    pub fn clock(self, time: u64) -> Option<String> {
        self.seconds(time).map(|seconds| self.moment(seconds).unwrap_or_else(|| clock::hours(seconds)))
    }
}

/// A line of a text of names: an entry of the run sheet, and a path in it with its reads.
struct Name {
    entry: usize,
    reads: u64,
    path: Vec<u8>,
}

#[derive(Default)]
pub struct Names(Vec<Name>);

impl Names {
    /// The text that `pick` writes: lines name=ENTRY,READS,PATH.
    pub fn read(text: &[u8]) -> Result<Names, String> {
        if text.is_empty() {
            return Ok(Names::default());
        }
        let read = |(at, line)| name(line).ok_or_else(|| format!("line {}: not name=ENTRY,READS,PATH", at + 1));
        lines(text).enumerate().map(read).collect::<Result<Vec<Name>, String>>().map(Names)
    }

    /// Whether they are of this run: entries that it wants, each with the reads that wait for it.
    pub fn fit(&self, plan: &Plan) -> Result<(), String> {
        if let Some(at) = self.0.iter().position(|name| !plan.waiting.contains_key(&name.entry)) {
            return Err(format!("line {}: the run does not want file {}, so these are not its names", at + 1, self.0[at].entry));
        }
        let reads_of = |entry: usize| self.0.iter().filter(|name| name.entry == entry).map(|name| u128::from(name.reads)).sum::<u128>();
        match self.0.iter().find(|name| reads_of(name.entry).to_string() != plan.waited(name.entry)) {
            None => Ok(()),
            Some(Name { entry, .. }) => Err(format!(
                "the names of file {entry} have {} reads together, and in the run {} wait for it, so these are not its names",
                reads_of(*entry),
                plan.waited(*entry)
            )),
        }
    }

    /// The first path of an entry, and how many others it has.
    pub fn first(&self, entry: usize) -> Option<(&[u8], usize)> {
        let mut of_it = self.0.iter().filter(|name| name.entry == entry);
        of_it.next().map(|first| (&first.path[..], of_it.count()))
    }
}

fn name(line: &[u8]) -> Option<Name> {
    let mut values = line.strip_prefix(b"name=")?.splitn(3, |&byte| byte == b',');
    let mut number = || std::str::from_utf8(values.next()?).ok().filter(|text| crate::words::is_number(text))?.parse::<u64>().ok();
    let (entry, reads) = (number()?, number()?);
    let path = values.next().filter(|path| !path.is_empty())?.to_vec();
    Some(Name { entry: usize::try_from(entry).ok()?, reads, path })
}

/// One that is read, for somebody who waits for it.
pub struct Row<'a> {
    pub time: u64,
    pub leg: usize,
    pub file: usize,
    pub reads: String,
    /// Without a name the number has to do.
    pub path: Option<&'a [u8]>,
}

/// In the order in which they are read; those that are read together by number, and paths of one entry as the names have them.
pub fn rows<'a>(plan: &Plan, names: &'a Names) -> Vec<Row<'a>> {
    let mut done: Vec<&super::Read> = plan.done.iter().collect();
    done.sort_by_key(|read| (read.time, read.file));
    let mut rows = Vec::new();
    for read in done {
        let row = |reads: String, path| Row { time: read.time.unsigned_abs(), leg: read.leg, file: read.file, reads, path };
        let before = rows.len();
        rows.extend(names.0.iter().filter(|name| name.entry == read.file).map(|name| row(name.reads.to_string(), Some(&name.path[..]))));
        if rows.len() == before {
            rows.push(row(plan.waited(read.file).to_string(), None));
        }
    }
    rows
}

/// The table. What is not given has no column.
pub fn draw(plan: &Plan, names: &Names, speed: Speed) -> String {
    let mut table = vec![heading(speed)];
    for row in rows(plan, names) {
        let mut cells = vec![row.time.to_string()];
        if let Some(seconds) = speed.seconds(row.time) {
            cells.push(clock::hours(seconds));
            cells.extend(speed.moment(seconds));
        }
        cells.extend([row.leg.to_string(), row.reads]);
        cells.push(row.path.map_or_else(|| format!("file {}", row.file), |path| quoted(OsStr::from_bytes(path))));
        table.push(cells);
    }
    written(&table)
}

fn heading(speed: Speed) -> Vec<String> {
    let clocks = ["after", "at"].into_iter().take(usize::from(speed.units.is_some()) + usize::from(speed.begin.is_some()));
    ["time"].into_iter().chain(clocks).chain(["leg", "reads", "file"]).map(str::to_string).collect()
}

/// All columns but the last end at the right.
fn written(table: &[Vec<String>]) -> String {
    let columns = table[0].len() - 1;
    let width = |column: usize| table.iter().map(|cells| cells[column].len()).max().unwrap_or(0);
    let widths: Vec<usize> = (0..columns).map(width).collect();
    let mut out = String::new();
    for cells in table {
        for (cell, width) in cells.iter().zip(&widths) {
            let _ = write!(out, "{cell:>width$}  ");
        }
        let _ = writeln!(out, "{}", cells[columns]);
    }
    out
}

#[cfg(test)]
mod tests {
    use super::super::Texts;
    use super::*;

    fn plan() -> Plan {
        let run =
            b"tape=VX0041\nhead=60\nturn=1\nrule=least\nfiles=3\nfile=0,10,0\nfile=10,4,0\nfile=20,30,0\nwants=3\nwant=1,1\nwant=2,3\nwant=3,1\n";
        let plan = b"tape=VX0041\nsum=367\nreads=5\nfinish=121\nend=50\ndetours=1\ndetour=2,2\ntime=1,81,2\ntime=2,55,1\ntime=3,121,2\n";
        Plan::read(&Texts { run, plan, buys: b"", sweep: b"" })
    }

    #[test]
    fn whole_seconds_rounded_up() {
        let speed = |units| Speed { units: Some(units), begin: Some(0) };
        for (time, units, seconds) in
            [(0, 7, 0), (1, 7, 1), (7, 7, 1), (8, 7, 2), (1 << 58, 1, 1 << 58), ((1 << 58) - 1, 3, 96_076_792_050_570_581), (1, u64::MAX, 1)]
        {
            assert_eq!(speed(units).seconds(time), Some(seconds));
        }
    }

    #[test]
    fn the_table_is_in_the_order_of_reading() {
        let names = Names::read(b"name=1,1,a, b/\xc3\xa4\nname=2,1,x\nname=2,2,y\x1b\n").unwrap();
        names.fit(&plan()).unwrap();
        let speed = Speed { units: Some(10), begin: clock::seconds("2026-11-16T23:59:50") };
        let text = "time     after                   at  leg  reads  file\n  55  00:00:06  2026-11-16 23:59:56    1      1  x\n  55  00:00:06  2026-11-16 23:59:56    1      2  $'y\\x1b'\n  \
                    81  00:00:09  2026-11-16 23:59:59    2      1  a, b/\u{e4}\n 121  00:00:13  2026-11-17 00:00:03    2      1  file 3\n";
        assert_eq!(draw(&plan(), &names, speed), text);
        assert_eq!(draw(&plan(), &Names::default(), Speed::default()).lines().nth(1), Some("  55    1      3  file 2"));
    }

    #[test]
    fn names_of_another_run() {
        for wrong in ["name=4,1,x\n", "name=2,2,x\n", "name=1,1,x\nname=1,1,y\n"] {
            assert!(Names::read(wrong.as_bytes()).unwrap().fit(&plan()).is_err(), "{wrong}");
        }
        for wrong in ["\n", "name=1,1\n", "name=1,1,\n", "name=01,1,x\n", "name=1,,x\n", "name=1,1,x\n\n", "x"] {
            assert!(Names::read(wrong.as_bytes()).is_err(), "{wrong}");
        }
    }
}
