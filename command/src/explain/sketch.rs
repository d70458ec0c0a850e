//! A plan's picture for a page with many: place from left to right, clock from top to bottom, as `picture` has it. It is short, takes its colours
//! from the page's own style, and says nothing by colour alone; the numbers stand in a table beside it.

use super::measure::{room_of, spaced, step_of};
use super::Plan;
use std::fmt::Write as _;

const LEFT: f64 = 84.0;
const WIDE: f64 = 480.0;
const TOP: f64 = 60.0;
/// How much larger than those of a picture letters are on a telephone.
const TELEPHONE: f64 = 19.0 / 12.0;
/// With more files than this, or longer times, their dots have no words.
const NAMED: usize = 8;
const LONG: usize = 9;

pub fn draw(plan: &Plan) -> String {
    if plan.legs.is_empty() {
        return String::new();
    }
    let mut sketch = Sketch::new(plan);
    sketch.bands();
    sketch.axes();
    sketch.path();
    sketch.names();
    sketch.out.push_str("</svg>");
    sketch.out
}

/// The step between the numbers of an axis, and how many thousands it is of: the numbers stay short.
fn steps(length: i64, most: f64) -> (i64, i64) {
    let step = step_of(length, most);
    let mut unit = 1;
    while step % (unit * 1000) == 0 {
        unit *= 1000;
    }
    (step, unit)
}

/// The same for an axis up to a number, so that each number has its room there, on a telephone too, where letters are larger.
fn roomy_steps(length: i64, high: i64) -> (i64, i64) {
    let fits = |(step, unit): &(i64, i64)| {
        let room = room_of(&spaced(high / unit)) * TELEPHONE + 10.0;
        *step as f64 * WIDE / length as f64 >= room
    };
    (1..=5).rev().map(|most| steps(length, f64::from(most))).find(fits).unwrap_or_else(|| steps(length, 1.0))
}

fn in_units(unit: i64) -> String {
    if unit == 1 {
        String::new()
    } else {
        format!(", in units of {}", spaced(unit))
    }
}

struct Sketch<'a> {
    plan: &'a Plan,
    low: i64,
    high: i64,
    tall: f64,
    out: String,
}

impl Sketch<'_> {
    fn new(plan: &Plan) -> Sketch<'_> {
        let ends = plan.done.iter().flat_map(|read| [plan.left_of(read.file), plan.right_of(read.file)]);
        let places: Vec<i64> = ends.chain([plan.head]).collect();
        let low = places.iter().min().copied().unwrap_or(0);
        let high = places.iter().max().copied().unwrap_or(0).max(low + 1);
        let tall = 170.0 + 20.0 * plan.legs.len().min(10) as f64;
        let mut out = String::new();
        let _ = write!(
            out,
            "<svg viewBox=\"0 0 640 {:.0}\" role=\"img\" aria-label=\"The head's path on tape {}, in {} legs; the table says the same in numbers\">",
            TOP + tall + 48.0,
            plan.tape,
            plan.legs.len()
        );
        Sketch { plan, low, high, tall, out }
    }

    fn x(&self, place: i64) -> f64 {
        LEFT + (place - self.low) as f64 * WIDE / (self.high - self.low) as f64
    }

    fn y(&self, clock: i64) -> f64 {
        TOP + 6.0 + clock as f64 * (self.tall - 32.0) / self.plan.finish.max(1) as f64
    }

    fn text(&mut self, at: (f64, f64), anchor: &str, kind: &str, what: &str) {
        let _ = write!(self.out, "<text class=\"{kind}\" x=\"{:.0}\" y=\"{:.0}\" text-anchor=\"{anchor}\">{what}</text>", at.0, at.1);
    }

    /// All files as one shape, and all wanted ones as another.
    fn bands(&mut self) {
        let wanted = self.plan.wanted();
        let mut shapes = [String::new(), String::new()];
        for (at, file) in self.plan.files.iter().enumerate().filter(|(_, file)| file.end > self.low && file.start < self.high) {
            let (from, to) = (self.x(file.start.max(self.low)), self.x(file.end.min(self.high)));
            let shape = &mut shapes[usize::from(wanted.contains(&(at + 1)))];
            let _ = write!(shape, "M{from:.1} {TOP}h{:.1}v{:.0}H{from:.1}z", (to - from).max(1.0), self.tall);
        }
        for (kind, shape) in ["sf", "sw"].into_iter().zip(shapes) {
            if !shape.is_empty() {
                let _ = write!(self.out, "<path class=\"{kind}\" d=\"{shape}\"/>");
            }
        }
    }

    fn axes(&mut self) {
        let (bottom, right) = (TOP + self.tall, LEFT + WIDE);
        let mut lines = format!("M{LEFT} {TOP}V{bottom:.0}H{right:.0}");
        let (step, unit) = steps(self.plan.finish.max(1), 5.0);
        for clock in (0..=self.plan.finish).step_by(step as usize) {
            let y = self.y(clock);
            let _ = write!(lines, "M{:.0} {y:.0}h5", LEFT - 5.0);
            self.text((LEFT - 9.0, y + 4.0), "end", "st", &spaced(clock / unit));
        }
        self.text((4.0, 18.0), "start", "st", &format!("clock{}", in_units(unit)));
        let (step, unit) = roomy_steps(self.high - self.low, self.high);
        let first = step * ((self.low + step - 1) / step);
        for place in (first..=self.high).step_by(step as usize) {
            let x = self.x(place);
            let _ = write!(lines, "M{x:.0} {bottom:.0}v5");
            self.text((x, bottom + 19.0), "middle", "st", &spaced(place / unit));
        }
        let _ = write!(self.out, "<path class=\"sa\" d=\"{lines}\"/>");
        self.text((LEFT + WIDE / 2.0, bottom + 41.0), "middle", "st", &format!("place on the tape{}", in_units(unit)));
    }

    /// The head's path, the stretches on which it reads, and a dot where a file has been read.
    fn path(&mut self) {
        let plan = self.plan;
        let way: Vec<String> = plan.way().into_iter().map(|(place, clock)| format!("{:.1} {:.1}", self.x(place), self.y(clock))).collect();
        let (mut reading, mut dots) = (String::new(), String::new());
        for read in &plan.done {
            let (left, right) = (plan.left_of(read.file), plan.right_of(read.file));
            let (x, y) = (self.x(right), self.y(read.time));
            let _ = write!(reading, "M{:.1} {:.1}L{x:.1} {y:.1}", self.x(left), self.y(read.time - (right - left)));
            let _ = write!(dots, "M{x:.1} {y:.1}h0");
        }
        let _ =
            write!(self.out, "<path class=\"sh\" d=\"M{}\"/><path class=\"sr\" d=\"{reading}\"/><path class=\"sd\" d=\"{dots}\"/>", way.join("L"));
        let (x, y) = (self.x(plan.head), self.y(0));
        let _ = write!(self.out, "<path class=\"sh\" d=\"M{x:.1} {:.1}v12\"/>", y - 6.0);
    }

    /// The numbers of the wanted files above their bands, in up to two rows where they stand close; of few files the time beside the dot too, where
    /// there is room for it. On a telephone letters are larger, and what has no room there is not shown.
    fn names(&mut self) {
        let (mut taken, mut on_telephone) = ([-100.0; 2], [-100.0; 2]);
        for number in self.plan.wanted() {
            let file = match self.plan.file(number) {
                Some(file) => file,
                None => continue,
            };
            let name = number.to_string();
            let x = (self.x(file.start) + self.x(file.end)) / 2.0;
            if let Some(row) = (0..2).find(|row| x - taken[*row] >= 8.0 + 8.0 * name.len() as f64) {
                let is_small = x - on_telephone[row] < 6.0 + 13.0 * name.len() as f64;
                taken[row] = x;
                if !is_small {
                    on_telephone[row] = x;
                }
                self.text((x, TOP - 6.0 - 18.0 * row as f64), "middle", if is_small { "sn sm" } else { "sn" }, &name);
            }
        }
        if self.plan.done.len() > NAMED || spaced(self.plan.finish).len() > LONG {
            return;
        }
        let mut taken: Vec<(f64, f64)> = Vec::new();
        for read in &self.plan.done {
            let (x, y) = (self.x(self.plan.right_of(read.file)), self.y(read.time));
            if taken.iter().any(|(other, above)| (x - other).abs() < 70.0 && (y - above).abs() < 15.0) {
                continue;
            }
            taken.push((x, y));
            let name = format!("{} at {}", read.file, spaced(read.time));
            // Beside the dot, or where that is over the edge below the line that comes to it.
            let fits = x + 9.0 + 7.5 * name.len() as f64 <= 640.0;
            let (at, anchor, below) = if fits { (x + 9.0, "start", -5.0) } else { (x + 4.0, "end", 20.0) };
            self.text((at, y + below), anchor, "sn sm", &name);
        }
    }
}
