//! A boarding of the desk as a run sheet and its plan sheet, for `check` and for a record book: put together from what was said and answered, with
//! nothing worked out but the reads of a file, which are added up.

use crate::answers::lines;
use std::collections::BTreeMap;

/// Whether an answer is that of an accepted boarding.
pub fn boards(answer: &[u8]) -> bool {
    answer.starts_with(b"boarded=")
}

/// What the operator said, and what was answered.
pub struct Boarding {
    head: String,
    turn: String,
    /// sum, finish, end, detours and each detour, as they stand in the answer.
    plan: Vec<String>,
    /// Of each file its reads, and its time and leg.
    wants: BTreeMap<u64, (u64, String)>,
}

impl Boarding {
    pub fn read(event: &[u8], answer: &[u8]) -> Boarding {
        let event = String::from_utf8_lossy(event);
        let (head, turn) = event.trim_end().trim_start_matches("board=").split_once(',').unwrap_or_default();
        let (mut plan, mut wants) = (Vec::new(), BTreeMap::new());
        for line in lines(answer).skip(1).map(String::from_utf8_lossy) {
            match line.strip_prefix("ticket=").map(|ticket| ticket.splitn(5, ',').collect::<Vec<_>>()).as_deref() {
                Some([_, _, file, count, read]) => {
                    let want = wants.entry(file.parse().unwrap_or(0)).or_insert((0, read.to_string()));
                    want.0 += count.parse::<u64>().unwrap_or(0);
                }
                _ => plan.push(line.to_string()),
            }
        }
        Boarding { head: head.to_string(), turn: turn.to_string(), plan, wants }
    }

    pub fn run(&self, sheet: &str) -> String {
        let files: String = sheet.lines().filter(|line| line.starts_with("file")).map(|line| format!("{line}\n")).collect();
        let wants: String = self.wants.iter().map(|(file, (reads, _))| format!("want={file},{reads}\n")).collect();
        format!("{}\nhead={}\nturn={}\nrule=least\n{files}wants={}\n{wants}", tape(sheet), self.head, self.turn, self.wants.len())
    }

    pub fn plan(&self, sheet: &str) -> String {
        let reads: u64 = self.wants.values().map(|(reads, _)| reads).sum();
        let (sum, rest) = self.plan.split_first().map_or((String::new(), Vec::new()), |(sum, rest)| (sum.clone(), rest.to_vec()));
        let times = self.wants.iter().map(|(file, (_, read))| format!("time={file},{read}"));
        let all = [tape(sheet).to_string(), sum, format!("reads={reads}")].into_iter().chain(rest).chain(times);
        all.map(|line| format!("{line}\n")).collect()
    }
}

fn tape(sheet: &str) -> &str {
    sheet.lines().next().unwrap_or_default()
}

#[cfg(test)]
mod tests {
    use super::*;

    #[test]
    fn boardings() {
        let answer =
            b"boarded=2,1\nsum=288\nfinish=85\nend=16\ndetours=1\ndetour=6,6\nticket=1,1,3,2,85,2\nticket=1,2,6,1,33,1\nticket=2,1,3,1,85,2\n";
        let boarding = Boarding::read(b"board=70,3\n", answer);
        let sheet = "tape=A\nhead=0\nturn=\nrule=least\nfiles=2\nfile=0,1,0\nfile=1,1,0\nwants=1\nwant=1,1\n";
        assert_eq!(boarding.run(sheet), "tape=A\nhead=70\nturn=3\nrule=least\nfiles=2\nfile=0,1,0\nfile=1,1,0\nwants=2\nwant=3,3\nwant=6,1\n");
        assert_eq!(boarding.plan(sheet), "tape=A\nsum=288\nreads=4\nfinish=85\nend=16\ndetours=1\ndetour=6,6\ntime=3,85,2\ntime=6,33,1\n");
    }
}
