//! The picture of a plan: place from left to right as on the tape, clock from top to bottom. Files are bands, wanted ones darker; the line is the
//! head, thick where it reads, and a dot where a file has been read, from which a thin line leads to its words at the right. These stand one below the
//! other, however close the dots are. SVG for a browser and for print; nothing in it is told by colour alone.

use super::measure::{bytes, escaped, room_of, shortened, spaced, spread, step_for, step_of};
use super::schedule::{Names, Speed};
use super::Plan;
use crate::say::quoted;
use std::ffi::OsStr;
use std::fmt::Write as _;
use std::os::unix::ffi::OsStrExt;

const TOP_EDGE: f64 = 128.0;
const WIDE: f64 = 800.0;
/// From the plot to the words beside it, and from one of them to the next.
const BESIDE: f64 = 34.0;
const LINE: f64 = 16.0;
/// A longer name is shortened; the picture tells it whole when it is pointed at.
const LONGEST: usize = 48;

const STYLE: &str = "<style>
text { font-family: sans-serif; font-size: 12px; fill: #222; }
.title { font-size: 16px; font-weight: bold; } .name { font-weight: bold; } .tick { fill: #444; }
.note { paint-order: stroke; stroke: #fff; stroke-width: 3px; stroke-linejoin: round; }
.file { fill: #f3f3f3; } .wanted { fill: #dedede; stroke: #b4b4b4; stroke-width: 0.5; }
.grid { stroke: #e2e2e2; stroke-width: 0.7; } .axis { stroke: #444; stroke-width: 1; }
.lead { fill: none; stroke: #8a8a8a; stroke-width: 0.6; stroke-dasharray: 1 3; }
.head { fill: none; stroke: #1f4e8c; stroke-width: 1.5; stroke-linejoin: round; } .mark { stroke: #1f4e8c; stroke-width: 2; }
.reading { stroke: #b03a00; stroke-width: 4; stroke-linecap: round; } .read { fill: #fff; stroke: #b03a00; stroke-width: 2; }
</style>
";

/// What is known beside the plan.
pub struct Beside<'a> {
    pub names: &'a Names,
    pub speed: Speed,
    /// Places are bytes; otherwise in a unit that the sheet does not tell.
    pub in_bytes: bool,
}

pub fn draw(plan: &Plan, beside: &Beside) -> String {
    let mut picture = Picture::new(plan, beside);
    picture.frame();
    picture.bands();
    picture.names();
    picture.axes();
    picture.leads();
    picture.path();
    picture.marks();
    picture.out.push_str("</svg>\n");
    picture.out
}

struct Picture<'a> {
    plan: &'a Plan,
    beside: &'a Beside<'a>,
    /// The places at the two edges.
    low: i64,
    high: i64,
    /// Where the plot begins, so that every number of the clock has room before it.
    left: f64,
    tall: f64,
    /// What was read, in its order, with its words.
    notes: Vec<(super::Read, String)>,
    out: String,
}

impl Picture<'_> {
    fn new<'a>(plan: &'a Plan, beside: &'a Beside<'a>) -> Picture<'a> {
        let low = plan.done.iter().map(|read| plan.left_of(read.file)).chain([plan.head]).min().unwrap_or(plan.head);
        let high = plan.furthest().max(low + 1);
        let left = 36.0 + room_of(&spaced(plan.finish)).max(room_of("00 000"));
        let mut done = plan.done.clone();
        done.sort_by_key(|read| (read.time, read.file));
        let notes: Vec<_> = done.into_iter().map(|read| (read.clone(), note(plan, beside, &read))).collect();
        let tall = (420.0 + 24.0 * plan.legs.len().min(12) as f64).max(LINE * (notes.len() + 2) as f64);
        Picture { plan, beside, low, high, left, tall, notes, out: String::new() }
    }

    fn x_of(&self, place: i64) -> f64 {
        self.left + (place - self.low) as f64 * WIDE / (self.high - self.low) as f64
    }

    /// Some room is left below the finish.
    fn y_of(&self, clock: i64) -> f64 {
        TOP_EDGE + clock as f64 * (self.tall - 20.0) / self.plan.finish.max(1) as f64
    }

    fn line(&mut self, from: (f64, f64), to: (f64, f64), kind: &str) {
        let _ = writeln!(self.out, "<line class=\"{kind}\" x1=\"{:.1}\" y1=\"{:.1}\" x2=\"{:.1}\" y2=\"{:.1}\"/>", from.0, from.1, to.0, to.1);
    }

    fn text(&mut self, at: (f64, f64), anchor: &str, kind: &str, what: &str) {
        let _ = writeln!(self.out, "<text class=\"{kind}\" x=\"{:.1}\" y=\"{:.1}\" text-anchor=\"{anchor}\">{}</text>", at.0, at.1, escaped(what));
    }

    fn frame(&mut self) {
        let plan = self.plan;
        let lines = [
            format!("Tape {}: the head's path", plan.tape),
            format!("The head starts at {}. Sum {}; without detours {}.", spaced(plan.head), digits(&plan.sum), digits(&plan.sum_of_sweep)),
            "Bands are files, the darker ones wanted. The line is the head, thick where it reads.".to_string(),
            "A dot: read. Beside it, the file, its time and, in brackets, the reads that waited.".to_string(),
        ];
        let words = self.notes.iter().map(|(_, note)| room_of(note)).fold(0.0, f64::max);
        let above = lines.iter().map(|line| room_of(line)).fold(0.0, f64::max);
        let width = self.left + above.max(WIDE + BESIDE + words) + 16.0;
        let height = TOP_EDGE + self.tall + 60.0;
        let _ = writeln!(
            self.out,
            "<svg xmlns=\"http://www.w3.org/2000/svg\" viewBox=\"0 0 {width:.0} {height:.0}\" width=\"{width:.0}\" height=\"{height:.0}\" role=\"img\" aria-label=\"the head's path on tape {}\">",
            plan.tape
        );
        self.out.push_str(STYLE);
        let _ = writeln!(self.out, "<rect width=\"{width:.0}\" height=\"{height:.0}\" fill=\"#fff\"/>");
        for (at, line) in lines.iter().enumerate() {
            let (y, kind) = if at == 0 { (24.0, "title") } else { (26.0 + 16.0 * at as f64, "tick") };
            self.text((self.left, y), "start", kind, line);
        }
    }

    fn bands(&mut self) {
        let wanted = self.plan.wanted();
        for (at, file) in self.plan.files.iter().enumerate() {
            if file.end < self.low || file.start > self.high {
                continue;
            }
            let x1 = self.x_of(file.start.max(self.low));
            let x2 = self.x_of(file.end.min(self.high));
            let kind = if wanted.contains(&(at + 1)) { "wanted" } else { "file" };
            let _ = writeln!(
                self.out,
                "<rect class=\"{kind}\" x=\"{x1:.1}\" y=\"{TOP_EDGE:.1}\" width=\"{:.1}\" height=\"{:.1}\"><title>file {}: {} to {}{}</title></rect>",
                (x2 - x1).max(1.5),
                self.tall,
                at + 1,
                file.start,
                file.end,
                escaped(&self.whole_name(at + 1))
            );
        }
    }

    /// The numbers of the wanted files above their bands, in up to three rows where they stand close, each with the last part of its name where there
    /// is room for that too.
    fn names(&mut self) {
        let mut rows: [Vec<(f64, usize)>; 3] = Default::default();
        for number in self.plan.wanted() {
            let file = match self.plan.file(number) {
                Some(file) => file,
                None => continue,
            };
            let x = (self.x_of(file.start) + self.x_of(file.end)) / 2.0 - half(number);
            let free = |row: &Vec<(f64, usize)>| row.last().map_or(true, |(other, before)| other + 2.0 * half(*before) + 6.0 <= x);
            if let Some(row) = rows.iter().position(free) {
                rows[row].push((x, number));
            }
        }
        for (at, row) in rows.iter().enumerate() {
            let ends = row.iter().skip(1).map(|(x, _)| x - 8.0).chain([self.left + WIDE + BESIDE]);
            for ((x, number), end) in row.iter().zip(ends) {
                let long = self.last_part(*number).map(|name| format!("{number} {name}")).filter(|long| x + 1.15 * room_of(long) <= end);
                self.text((*x, TOP_EDGE - 6.0 - 14.0 * at as f64), "start", "name", &long.unwrap_or_else(|| number.to_string()));
            }
        }
    }

    /// The last part of the only path of a file.
    fn last_part(&self, file: usize) -> Option<String> {
        match self.beside.names.first(file) {
            Some((path, 0)) => path.rsplit(|&byte| byte == b'/').next().map(|part| quoted(OsStr::from_bytes(part))),
            _ => None,
        }
    }

    fn whole_name(&self, file: usize) -> String {
        self.beside.names.first(file).map_or(String::new(), |(path, others)| format!(", {}{}", quoted(OsStr::from_bytes(path)), and_others(others)))
    }

    fn place(&self, place: i64) -> String {
        if self.beside.in_bytes {
            bytes(place)
        } else {
            spaced(place)
        }
    }

    fn axes(&mut self) {
        let right = self.left + WIDE;
        let bottom = TOP_EDGE + self.tall;
        let step = step_for(self.plan.finish.max(1));
        for clock in (0..=self.plan.finish).step_by(step as usize) {
            let y = self.y_of(clock);
            self.line((self.left - 4.0, y), (right, y), "grid");
            self.text((self.left - 8.0, y + 4.0), "end", "tick", &spaced(clock));
        }
        // So few numbers that each has its room.
        let widest = room_of(&spaced(self.high)).max(room_of("00.00 TB")) + 24.0;
        let step = step_of(self.high - self.low, (WIDE / widest).min(10.0));
        let first = step * ((self.low + step - 1) / step);
        for place in (first..=self.high).step_by(step as usize) {
            let x = self.x_of(place);
            self.line((x, bottom), (x, bottom + 4.0), "axis");
            self.text((x, bottom + 17.0), "middle", "tick", &self.place(place));
        }
        self.line((self.left, TOP_EDGE), (self.left, bottom), "axis");
        self.line((self.left, bottom), (right, bottom), "axis");
        self.text((self.left + WIDE / 2.0, bottom + 36.0), "middle", "tick", "place on the tape");
        let middle = TOP_EDGE + self.tall / 2.0;
        let _ = writeln!(
            self.out,
            "<text class=\"tick\" transform=\"translate(16 {middle:.1}) rotate(-90)\" text-anchor=\"middle\">clock, from top to bottom</text>"
        );
    }

    /// From each dot to its words.
    fn leads(&mut self) {
        let right = self.left + WIDE;
        let levels: Vec<f64> = self.notes.iter().map(|(read, _)| self.y_of(read.time)).collect();
        let heights = spread(&levels, LINE, TOP_EDGE + self.tall);
        let notes = std::mem::take(&mut self.notes);
        for (((read, note), level), height) in notes.iter().zip(levels).zip(heights) {
            let x = self.x_of(self.plan.right_of(read.file));
            let _ = writeln!(
                self.out,
                "<polyline class=\"lead\" points=\"{x:.1},{level:.1} {right:.1},{level:.1} {:.1},{height:.1}\"/>",
                right + BESIDE - 6.0
            );
            self.text((right + BESIDE, height + 4.0), "start", "note", note);
        }
        self.notes = notes;
    }

    /// The head's path: left, a turn, right, and a turn before the next leg.
    fn path(&mut self) {
        let plan = self.plan;
        let points: Vec<String> = plan.way().into_iter().map(|(place, clock)| format!("{:.1},{:.1}", self.x_of(place), self.y_of(clock))).collect();
        let _ = writeln!(self.out, "<polyline class=\"head\" points=\"{}\"/>", points.join(" "));
        let (x, y) = (self.x_of(plan.head), self.y_of(0));
        self.line((x, y - 5.0), (x, y + 5.0), "mark");
    }

    /// Every read: the stretch on which the head reads, and a dot.
    fn marks(&mut self) {
        let plan = self.plan;
        for read in &plan.done {
            let (left, right) = (plan.left_of(read.file), plan.right_of(read.file));
            let from = (self.x_of(left), self.y_of(read.time - (right - left)));
            let to = (self.x_of(right), self.y_of(read.time));
            self.line(from, to, "reading");
        }
        let radius = if plan.done.len() > 24 { 3 } else { 4 };
        for read in &plan.done {
            let (x, y) = (self.x_of(plan.right_of(read.file)), self.y_of(read.time));
            let (file, waited) = (read.file, plan.waited(read.file));
            let _ = writeln!(
                self.out,
                "<circle class=\"read\" cx=\"{x:.1}\" cy=\"{y:.1}\" r=\"{radius}\"><title>file {file} read at {} on leg {}; {waited} waited{}</title></circle>",
                read.time,
                read.leg,
                escaped(&self.whole_name(file))
            );
        }
    }
}

/// Half of the room of a number in bold.
fn half(number: usize) -> f64 {
    room_of(&number.to_string()) * 0.55
}

/// Digits in groups, where a text is such.
fn digits(text: &str) -> String {
    text.parse().map_or_else(|_| text.to_string(), spaced)
}

fn and_others(others: usize) -> String {
    if others == 0 {
        String::new()
    } else {
        format!(" and {others} more")
    }
}

/// The words beside a dot.
fn note(plan: &Plan, beside: &Beside, read: &super::Read) -> String {
    let clock = beside.speed.clock(read.time.unsigned_abs()).map_or(String::new(), |clock| format!(", {clock}"));
    let name = beside
        .names
        .first(read.file)
        .map_or(String::new(), |(path, others)| format!(" {}{}", shortened(&quoted(OsStr::from_bytes(path)), LONGEST), and_others(others)));
    format!("file {} at {}{clock} ({}){name}", read.file, spaced(read.time), plan.waited(read.file))
}
