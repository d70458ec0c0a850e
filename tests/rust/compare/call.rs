//! A call: its parameters and its rows.

use std::fmt;

pub const STARTS: usize = 0;
pub const LENGTHS: usize = 1;
pub const AGGREGATES: usize = 2;
pub const NUMBERS: usize = 3;
pub const COUNTS: usize = 4;
pub const FROM: usize = 5;
pub const TO: usize = 6;
pub const TIMES: usize = 7;
pub const LEGS: usize = 8;
pub const SUMS: usize = 9;
pub const ROOM: usize = 10;
pub const ROWS: usize = 11;
pub const NAMES: [&str; ROWS] = [
    "starts", "lengths", "aggregates", "numbers", "counts", "detour_starts", "detour_ends", "times", "legs", "sums", "room",
];

/// The parameters, with every row as it stands before the call.
#[derive(Clone, Default)]
pub struct Call {
    pub plan: bool,
    pub any: bool, // one of the calls for a head anywhere
    pub head: u64,
    pub turn: u64,
    pub rule: u64,
    pub rows: [Vec<u64>; ROWS],
    pub nulls: [bool; ROWS], // lend a null pointer if the row is empty
}

impl Call {
    pub fn len(&self, row: usize) -> usize {
        self.rows[row].len()
    }

    /// Whether a row is lent to be read.
    pub fn is_input(&self, row: usize) -> bool {
        row <= COUNTS || (row <= TO && !self.plan)
    }
}

impl fmt::Display for Call {
    fn fmt(&self, f: &mut fmt::Formatter) -> fmt::Result {
        let name = if self.plan { "violstream_plan" } else { "violstream_price" };
        let anywhere = if self.any { "_any" } else { "" };
        write!(f, "  {}{}: head {}, turn {}", name, anywhere, self.head, self.turn)?;
        if self.plan && !self.any {
            write!(f, ", rule {}", self.rule)?;
        }
        for row in 0..if self.plan { ROWS } else { ROOM } {
            write!(f, "\n  {} [{}]", NAMES[row], self.len(row))?;
            if self.is_input(row) {
                let shown: Vec<String> = self.rows[row].iter().take(70).map(u64::to_string).collect();
                write!(f, " {}{}", shown.join(" "), if self.len(row) > 70 { " ..." } else { "" })?;
            } else if self.len(row) == 0 && self.nulls[row] {
                write!(f, " null")?;
            }
        }
        Ok(())
    }
}
