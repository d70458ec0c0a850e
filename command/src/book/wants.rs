//! What an accepted run asks for, and what its plan sheet says of it. Both are looked at only when the proved check has said yes to them.

use crate::explain::entries;

pub struct Wants {
    pub tape: String,
    pub head: String,
    /// The price of a turn; the drive's own, where the sheet leaves it out.
    pub turn: String,
    pub sum: String,
    pub reads: String,
    pub finish: String,
    pub end: String,
    pub detours: usize,
    /// By file number.
    pub wants: Vec<Want>,
}

pub struct Want {
    pub file: usize,
    pub start: i64,
    pub end: i64,
    pub in_aggregate: bool,
    pub reads: String,
    pub time: String,
    pub leg: String,
}

/// What an empty turn= stands for.
const OWN_TURN: &str = "12000";

fn number(text: Option<&String>) -> i64 {
    text.and_then(|text| text.parse().ok()).unwrap_or(0)
}

impl Wants {
    pub fn read(run: &[u8], plan: &[u8]) -> Wants {
        let (run, plan) = (entries(run), entries(plan));
        let first =
            |of: &[(String, Vec<String>)], name: &str| of.iter().find(|(key, _)| key == name).map(|(_, values)| values.concat()).unwrap_or_default();
        let files: Vec<&Vec<String>> = run.iter().filter(|(key, _)| key == "file").map(|(_, values)| values).collect();
        let times: Vec<&Vec<String>> = plan.iter().filter(|(key, _)| key == "time").map(|(_, values)| values).collect();
        let want = |values: &Vec<String>| {
            let file = number(values.first());
            let table = files.get((file - 1) as usize);
            let time = times.iter().find(|time| number(time.first()) == file);
            let start = number(table.and_then(|table| table.first()));
            Want {
                file: file as usize,
                start,
                end: start + number(table.and_then(|table| table.get(1))),
                in_aggregate: table.and_then(|table| table.get(2)).map_or(false, |aggregate| aggregate != "0"),
                reads: values.get(1).cloned().unwrap_or_default(),
                time: time.and_then(|time| time.get(1)).cloned().unwrap_or_default(),
                leg: time.and_then(|time| time.get(2)).cloned().unwrap_or_default(),
            }
        };
        Wants {
            tape: first(&run, "tape"),
            head: first(&run, "head"),
            turn: Some(first(&run, "turn")).filter(|turn| !turn.is_empty()).unwrap_or_else(|| OWN_TURN.to_string()),
            sum: first(&plan, "sum"),
            reads: first(&plan, "reads"),
            finish: first(&plan, "finish"),
            end: first(&plan, "end"),
            detours: plan.iter().filter(|(key, _)| key == "detour").count(),
            wants: run.iter().filter(|(key, _)| key == "want").map(|(_, values)| want(values)).collect(),
        }
    }
}

#[cfg(test)]
mod tests {
    use super::*;

    #[test]
    fn a_want_has_its_time_and_leg() {
        let run = b"tape=VX0041\nhead=60\nturn=1\nrule=least\nfiles=3\nfile=0,10,0\nfile=10,4,0\nfile=20,30,7\nwants=2\nwant=2,3\nwant=3,1\n";
        let plan = b"tape=VX0041\nsum=9\nreads=4\nfinish=121\nend=50\ndetours=1\ndetour=2,2\ntime=2,55,1\ntime=3,121,2\n";
        let wants = Wants::read(run, plan);
        let rows: Vec<_> =
            wants.wants.iter().map(|want| (want.file, want.start, want.end, want.in_aggregate, &*want.reads, &*want.time, &*want.leg)).collect();
        assert_eq!(rows, [(2, 10, 14, false, "3", "55", "1"), (3, 20, 50, true, "1", "121", "2")]);
        assert_eq!((&*wants.tape, &*wants.turn, &*wants.sum, wants.detours), ("VX0041", "1", "9", 1));
        assert_eq!(Wants::read(b"turn=\n", b"").turn, "12000");
    }
}
