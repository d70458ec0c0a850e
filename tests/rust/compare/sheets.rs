//! Accepted plans that a run sheet can hold, written down for the programs that read sheets: the run sheet, an empty line, the
//! plan sheet that must come of it, an empty line. field.py runs the plain engine's program on them.

use crate::call::*;
use crate::rows::Written;
use std::fmt::Write;

const MOST_SHEETS: u64 = 400;
const MOST_FILES: usize = 256;
const MOST_WANTS: usize = 8;

#[derive(Default)]
pub struct Sheets {
    pub text: String,
    written: u64,
}

/// A line for each entry of some rows: the key, and the entries between commas.
fn lines(text: &mut String, key: &str, rows: &[&[u64]]) {
    for i in 0..rows[0].len() {
        let entries: Vec<String> = rows.iter().map(|row| row[i].to_string()).collect();
        writeln!(text, "{}={}", key, entries.join(",")).expect("a string takes every line");
    }
}

fn run_sheet(call: &Call, name: &str) -> String {
    let mut text = format!("tape={}\nhead={}\nturn={}\nrule=least\nfiles={}\n", name, call.head, call.turn, call.len(STARTS));
    lines(&mut text, "file", &[&call.rows[STARTS], &call.rows[LENGTHS], &call.rows[AGGREGATES]]);
    text += &format!("wants={}\n", call.len(NUMBERS));
    lines(&mut text, "want", &[&call.rows[NUMBERS], &call.rows[COUNTS]]);
    text
}

fn plan_sheet(call: &Call, written: &Written, name: &str) -> String {
    let sums = &written.first[SUMS];
    let reads: u64 = call.rows[COUNTS].iter().sum();
    let mut text = format!(
        "tape={}\nsum={}\nreads={}\nfinish={}\nend={}\ndetours={}\n",
        name, sums[0], reads, sums[1], sums[2], sums[3]
    );
    lines(&mut text, "detour", &[&written.first[FROM], &written.first[TO]]);
    lines(&mut text, "time", &[&call.rows[NUMBERS], &written.first[TIMES], &written.first[LEGS]]);
    text
}

impl Sheets {
    /// An accepted call, with what it must write.
    pub fn note(&mut self, call: &Call, written: &Written) {
        if !call.plan || self.written == MOST_SHEETS || call.len(STARTS) > MOST_FILES || call.len(NUMBERS) > MOST_WANTS {
            return;
        }
        let name = format!("R{}", self.written);
        self.text += &format!("{}\n{}\n", run_sheet(call, &name), plan_sheet(call, written, &name));
        self.written += 1;
    }
}
