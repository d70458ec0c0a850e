//! The library for C, from Rust: its calls as violstream.h declares them, and `Library`, which makes them safely. Every row is lent with its own length, and a row
//! that an answer needs is made here. A program of your own takes this file as it is and links libviolstream.a or libviolstream.so.
//!
//! Of the command this is the only file with `unsafe` in it. So what the command itself needs `unsafe` for stands here too, at the end, in `host`. That part is
//! there with the command's own feature alone: no other program has it.
#![allow(unsafe_code)]
#![allow(dead_code)] // the command makes some of the calls, other programs others
#![allow(unknown_lints, unexpected_cfgs)] // nor has any other program the feature

pub const PLACES: usize = 32;
pub const VERSION: u64 = 40000;
const MOST_WANTS: usize = 64;
const MOST_READS: u64 = 1024;
const BOARDERS: usize = 8;
const BOARDING_ROOM: usize = BOARDERS * BOARDERS * (MOST_READS as usize + 1);
const ROOM_MOST: usize = MOST_WANTS * MOST_WANTS * (MOST_READS as usize + 1);
const PLAN_MOST: usize = 7644;
const BUYS_MOST: usize = 4492;
const CHECK_MOST: usize = 24115;
const SHEET_MOST: usize = 16384;
const CHANGES_MOST: usize = 98424;
/// Before a path in the names stand a word and two numbers; a list has at most 1,024 lines.
const NAMES_MOST: usize = 1024 * 32;
const TEXT_MOST: usize = 2677;

/// A ticket; all zero where nobody waits.
#[repr(C)]
#[derive(Clone, Copy, Debug, Default, PartialEq, Eq)]
pub struct Ticket {
    pub office: u64,
    pub file: u64,
    pub count: u64,
    pub number: u64,
}

#[rustfmt::skip]
mod calls {
    use super::Ticket;

    extern "C" {
        pub fn violstream_version() -> u64;
        pub fn violstream_plan(
            starts: *const u64, starts_len: usize, lengths: *const u64, lengths_len: usize, aggregates: *const u64, aggregates_len: usize,
            numbers: *const u64, numbers_len: usize, counts: *const u64, counts_len: usize, head: u64, turn: u64, rule: u64,
            detour_starts: *mut u64, detour_starts_len: usize, detour_ends: *mut u64, detour_ends_len: usize,
            times: *mut u64, times_len: usize, legs: *mut u64, legs_len: usize, sums: *mut u64, sums_len: usize, room: *mut u64, room_len: usize,
        ) -> u64;
        pub fn violstream_plan_any(
            starts: *const u64, starts_len: usize, lengths: *const u64, lengths_len: usize, aggregates: *const u64, aggregates_len: usize,
            numbers: *const u64, numbers_len: usize, counts: *const u64, counts_len: usize, head: u64, turn: u64,
            detour_starts: *mut u64, detour_starts_len: usize, detour_ends: *mut u64, detour_ends_len: usize,
            times: *mut u64, times_len: usize, legs: *mut u64, legs_len: usize, sums: *mut u64, sums_len: usize, room: *mut u64, room_len: usize,
        ) -> u64;
        pub fn violstream_price(
            starts: *const u64, starts_len: usize, lengths: *const u64, lengths_len: usize, aggregates: *const u64, aggregates_len: usize,
            numbers: *const u64, numbers_len: usize, counts: *const u64, counts_len: usize, head: u64, turn: u64,
            detour_starts: *const u64, detour_starts_len: usize, detour_ends: *const u64, detour_ends_len: usize,
            times: *mut u64, times_len: usize, legs: *mut u64, legs_len: usize, sums: *mut u64, sums_len: usize,
        ) -> u64;
        pub fn violstream_price_any(
            starts: *const u64, starts_len: usize, lengths: *const u64, lengths_len: usize, aggregates: *const u64, aggregates_len: usize,
            numbers: *const u64, numbers_len: usize, counts: *const u64, counts_len: usize, head: u64, turn: u64,
            detour_starts: *const u64, detour_starts_len: usize, detour_ends: *const u64, detour_ends_len: usize,
            times: *mut u64, times_len: usize, legs: *mut u64, legs_len: usize, sums: *mut u64, sums_len: usize,
        ) -> u64;
        pub fn violstream_answer(
            sheet: *const u8, sheet_len: usize, out: *mut u8, out_len: usize, room: *mut u64, room_len: usize, sizes: *mut u64, sizes_len: usize,
        ) -> u64;
        pub fn violstream_buys(
            sheet: *const u8, sheet_len: usize, out: *mut u8, out_len: usize, room: *mut u64, room_len: usize, sizes: *mut u64, sizes_len: usize,
        ) -> u64;
        pub fn violstream_check(
            sheet: *const u8, sheet_len: usize, plan: *const u8, plan_len: usize, out: *mut u8, out_len: usize, room: *mut u64, room_len: usize,
            sizes: *mut u64, sizes_len: usize,
        ) -> u64;
        pub fn violstream_mend(
            sheet: *const u8, sheet_len: usize, out: *mut u8, out_len: usize, changes: *mut u8, changes_len: usize, sizes: *mut u64, sizes_len: usize,
        ) -> u64;
        pub fn violstream_pick(
            tape: *const u8, tape_len: usize, label: *const u8, label_len: usize, index: *const u8, index_len: usize, list: *const u8, list_len: usize,
            unit: u64, head: *const u64, head_len: usize, turn: *const u64, turn_len: usize, out: *mut u8, out_len: usize, names: *mut u8, names_len: usize,
            sizes: *mut u64, sizes_len: usize,
        ) -> u64;
        pub fn violstream_file(
            tickets: *mut Ticket, tickets_len: usize, lasts: *mut u64, lasts_len: usize, office: u64, file: u64, count: u64, files: u64,
            given: *mut u64, given_len: usize,
        ) -> u64;
        pub fn violstream_withdraw(
            tickets: *mut Ticket, tickets_len: usize, lasts: *const u64, lasts_len: usize, office: u64, number: u64,
        ) -> u64;
        pub fn violstream_board(
            tickets: *mut Ticket, tickets_len: usize, lasts: *const u64, lasts_len: usize,
            starts: *const u64, starts_len: usize, lengths: *const u64, lengths_len: usize, aggregates: *const u64, aggregates_len: usize,
            head: u64, turn: u64, detour_starts: *mut u64, detour_starts_len: usize, detour_ends: *mut u64, detour_ends_len: usize,
            times: *mut u64, times_len: usize, legs: *mut u64, legs_len: usize, room: *mut u64, room_len: usize,
            taken: *mut u64, taken_len: usize, sums: *mut u64, sums_len: usize,
        ) -> u64;
        pub fn violstream_event(
            tickets: *mut Ticket, tickets_len: usize, lasts: *mut u64, lasts_len: usize,
            starts: *const u64, starts_len: usize, lengths: *const u64, lengths_len: usize, aggregates: *const u64, aggregates_len: usize,
            line: *const u8, line_len: usize, out: *mut u8, out_len: usize, room: *mut u64, room_len: usize, sizes: *mut u64, sizes_len: usize,
        ) -> u64;
        pub fn violstream_waiting(
            tickets: *const Ticket, tickets_len: usize, out: *mut u8, out_len: usize, sizes: *mut u64, sizes_len: usize,
        ) -> u64;
    }
}

/// What the library refuses, by the refusal table; nothing has changed then. The place counts from 1; 0 where there is none.
#[derive(Clone, Copy, Debug, PartialEq, Eq)]
pub struct Refused {
    pub number: u64,
    pub place: u64,
}

/// The files of a tape, a row for each column.
#[derive(Clone, Copy, Debug)]
pub struct Tape<'a> {
    pub starts: &'a [u64],
    pub lengths: &'a [u64],
    pub aggregates: &'a [u64],
}

#[derive(Clone, Copy, Debug)]
pub struct Run<'a> {
    pub tape: Tape<'a>,
    pub numbers: &'a [u64],
    pub counts: &'a [u64],
    pub head: u64,
    pub turn: u64,
}

/// Where the head may stand: as violstream_plan and violstream_price ask, or anywhere.
#[derive(Clone, Copy, Debug, PartialEq, Eq)]
pub enum Head {
    AtTheRight,
    Anywhere,
}

#[derive(Clone, Debug, Default, PartialEq, Eq)]
pub struct Plan {
    pub sum: u64,
    pub finish: u64,
    pub end: u64,
    pub detours: Vec<(u64, u64)>,
    pub times: Vec<u64>,
    pub legs: Vec<u64>,
}

/// A ticket that has left, with the time and the leg of its own want.
#[derive(Clone, Copy, Debug, PartialEq, Eq)]
pub struct Closed {
    pub ticket: Ticket,
    pub time: u64,
    pub leg: u64,
}

/// Who waits, and the last number given to each office.
#[derive(Clone, Debug, Default, PartialEq, Eq)]
pub struct Desk {
    pub tickets: [Ticket; PLACES],
    pub lasts: [u64; 2],
}

fn judged(result: u64) -> Result<(), Refused> {
    match result {
        0 => Ok(()),
        refused => Err(Refused { number: refused % 256, place: refused / 256 }),
    }
}

/// The rows that calls are lent again and again.
#[derive(Default)]
pub struct Library {
    room: Vec<u64>,
    out: Vec<u8>,
    changes: Vec<u8>,
}

impl Library {
    pub fn new() -> Library {
        Library::default()
    }

    pub fn version() -> u64 {
        // SAFETY: takes nothing.
        unsafe { calls::violstream_version() }
    }

    /// Where there is no memory for it, it stays short, and the call refuses by 9.
    fn need_room(&mut self, words: usize) {
        let more = words.saturating_sub(self.room.len());
        if more > 0 && self.room.try_reserve_exact(more).is_ok() {
            self.room.resize(words, 0);
        }
    }

    fn need_out(&mut self, bytes: usize) {
        if self.out.len() < bytes {
            self.out.resize(bytes, 0);
        }
    }

    fn text(&self, size: u64) -> Vec<u8> {
        self.out.iter().copied().take(size as usize).collect()
    }

    /// Over the limits of a run the call refuses before it looks at the room.
    fn room_for(&mut self, run: &Run) {
        let reads = run.counts.iter().fold(0u64, |sum, count| sum.saturating_add(*count));
        if run.numbers.len() <= MOST_WANTS && reads <= MOST_READS {
            self.need_room(run.numbers.len() * run.numbers.len() * (reads as usize + 1));
        }
    }

    /// The best list of detours, and what it costs.
    #[rustfmt::skip]
    pub fn plan(&mut self, run: &Run, head: Head) -> Result<Plan, Refused> {
        self.room_for(run);
        let (wants, most, t) = (run.numbers.len(), run.numbers.len().saturating_sub(1), run.tape);
        let (mut from, mut to, mut times, mut legs, mut sums) = (vec![0; most], vec![0; most], vec![0; wants], vec![0; wants], [0; 4]);
        // SAFETY: every row is lent with its own length, no two that are written overlap, and each is alive until the call returns.
        judged(unsafe {
            match head {
                Head::AtTheRight => calls::violstream_plan(
                    t.starts.as_ptr(), t.starts.len(), t.lengths.as_ptr(), t.lengths.len(), t.aggregates.as_ptr(), t.aggregates.len(),
                    run.numbers.as_ptr(), run.numbers.len(), run.counts.as_ptr(), run.counts.len(), run.head, run.turn, 1,
                    from.as_mut_ptr(), from.len(), to.as_mut_ptr(), to.len(), times.as_mut_ptr(), times.len(), legs.as_mut_ptr(), legs.len(),
                    sums.as_mut_ptr(), sums.len(), self.room.as_mut_ptr(), self.room.len(),
                ),
                Head::Anywhere => calls::violstream_plan_any(
                    t.starts.as_ptr(), t.starts.len(), t.lengths.as_ptr(), t.lengths.len(), t.aggregates.as_ptr(), t.aggregates.len(),
                    run.numbers.as_ptr(), run.numbers.len(), run.counts.as_ptr(), run.counts.len(), run.head, run.turn,
                    from.as_mut_ptr(), from.len(), to.as_mut_ptr(), to.len(), times.as_mut_ptr(), times.len(), legs.as_mut_ptr(), legs.len(),
                    sums.as_mut_ptr(), sums.len(), self.room.as_mut_ptr(), self.room.len(),
                ),
            }
        })?;
        let detours = from.into_iter().zip(to).take(sums[3] as usize).collect();
        Ok(Plan { sum: sums[0], finish: sums[1], end: sums[2], detours, times, legs })
    }

    /// What a list of detours costs.
    #[rustfmt::skip]
    pub fn price(&mut self, run: &Run, detours: &[(u64, u64)], head: Head) -> Result<Plan, Refused> {
        let (wants, t) = (run.numbers.len(), run.tape);
        let (from, to): (Vec<u64>, Vec<u64>) = detours.iter().copied().unzip();
        let (mut times, mut legs, mut sums) = (vec![0; wants], vec![0; wants], [0; 4]);
        let call = if head == Head::Anywhere { calls::violstream_price_any } else { calls::violstream_price };
        // SAFETY: as above.
        judged(unsafe {
            call(
                t.starts.as_ptr(), t.starts.len(), t.lengths.as_ptr(), t.lengths.len(), t.aggregates.as_ptr(), t.aggregates.len(),
                run.numbers.as_ptr(), run.numbers.len(), run.counts.as_ptr(), run.counts.len(), run.head, run.turn,
                from.as_ptr(), from.len(), to.as_ptr(), to.len(), times.as_mut_ptr(), times.len(), legs.as_mut_ptr(), legs.len(),
                sums.as_mut_ptr(), sums.len(),
            )
        })?;
        Ok(Plan { sum: sums[0], finish: sums[1], end: sums[2], detours: detours.to_vec(), times, legs })
    }

    /// A run sheet's plan sheet, for a head anywhere.
    #[rustfmt::skip]
    pub fn answer(&mut self, sheet: &[u8]) -> Result<Vec<u8>, Refused> {
        self.need_room(ROOM_MOST);
        self.need_out(PLAN_MOST);
        let mut sizes = [0];
        // SAFETY: as above.
        judged(unsafe {
            calls::violstream_answer(
                sheet.as_ptr(), sheet.len(), self.out.as_mut_ptr(), self.out.len(), self.room.as_mut_ptr(), self.room.len(), sizes.as_mut_ptr(), sizes.len(),
            )
        })?;
        Ok(self.text(sizes[0]))
    }

    /// A run sheet's figure sheet, for a head anywhere: what each detour of its plan buys.
    #[rustfmt::skip]
    pub fn buys(&mut self, sheet: &[u8]) -> Result<Vec<u8>, Refused> {
        self.need_room(ROOM_MOST);
        self.need_out(BUYS_MOST);
        let mut sizes = [0];
        // SAFETY: as above.
        judged(unsafe {
            calls::violstream_buys(
                sheet.as_ptr(), sheet.len(), self.out.as_mut_ptr(), self.out.len(), self.room.as_mut_ptr(), self.room.len(), sizes.as_mut_ptr(), sizes.len(),
            )
        })?;
        Ok(self.text(sizes[0]))
    }

    /// The verdict on a plan sheet, in lines.
    #[rustfmt::skip]
    pub fn check(&mut self, sheet: &[u8], plan: &[u8]) -> Result<Vec<u8>, Refused> {
        self.need_room(ROOM_MOST);
        self.need_out(CHECK_MOST);
        let mut sizes = [0];
        // SAFETY: as above.
        judged(unsafe {
            calls::violstream_check(
                sheet.as_ptr(), sheet.len(), plan.as_ptr(), plan.len(), self.out.as_mut_ptr(), self.out.len(), self.room.as_mut_ptr(), self.room.len(),
                sizes.as_mut_ptr(), sizes.len(),
            )
        })?;
        Ok(self.text(sizes[0]))
    }

    /// A run sheet put in order, and a line for each change.
    #[rustfmt::skip]
    pub fn mend(&mut self, sheet: &[u8]) -> Result<(Vec<u8>, Vec<u8>), Refused> {
        self.need_out(SHEET_MOST);
        self.changes.resize(CHANGES_MOST, 0);
        let mut sizes = [0; 2];
        // SAFETY: as above.
        judged(unsafe {
            calls::violstream_mend(
                sheet.as_ptr(), sheet.len(), self.out.as_mut_ptr(), self.out.len(), self.changes.as_mut_ptr(), self.changes.len(),
                sizes.as_mut_ptr(), sizes.len(),
            )
        })?;
        Ok((self.text(sizes[0]), self.changes.iter().copied().take(sizes[1] as usize).collect()))
    }

    /// The run sheet of the files that a list asks for by their paths, and their names: from a tape's name, label and index, and the list.
    #[rustfmt::skip]
    pub fn pick(texts: [&[u8]; 4], unit: u64, head: &[u64], turn: &[u64]) -> Result<(Vec<u8>, Vec<u8>), Refused> {
        let [tape, label, index, list] = texts;
        let (mut out, mut names, mut sizes) = (vec![0; SHEET_MOST], vec![0; list.len() + NAMES_MOST], [0_u64; 2]);
        // SAFETY: every row is lent with its own length, and no two of them overlap.
        let result = unsafe {
            calls::violstream_pick(
                tape.as_ptr(), tape.len(), label.as_ptr(), label.len(), index.as_ptr(), index.len(), list.as_ptr(), list.len(),
                unit, head.as_ptr(), head.len(), turn.as_ptr(), turn.len(), out.as_mut_ptr(), out.len(), names.as_mut_ptr(), names.len(),
                sizes.as_mut_ptr(), sizes.len(),
            )
        };
        judged(result)?;
        out.truncate(sizes[0] as usize);
        names.truncate(sizes[1] as usize);
        Ok((out, names))
    }

    /// A ticket filed at an office of a tape with so many files; its number.
    #[rustfmt::skip]
    pub fn file(&mut self, desk: &mut Desk, office: u64, file: u64, count: u64, files: u64) -> Result<u64, Refused> {
        let mut given = [0];
        // SAFETY: as above.
        judged(unsafe {
            calls::violstream_file(
                desk.tickets.as_mut_ptr(), PLACES, desk.lasts.as_mut_ptr(), desk.lasts.len(), office, file, count, files, given.as_mut_ptr(), given.len(),
            )
        })?;
        Ok(given[0])
    }

    pub fn withdraw(&mut self, desk: &mut Desk, office: u64, number: u64) -> Result<(), Refused> {
        // SAFETY: as above.
        judged(unsafe { calls::violstream_withdraw(desk.tickets.as_mut_ptr(), PLACES, desk.lasts.as_ptr(), desk.lasts.len(), office, number) })
    }

    /// Up to eight tickets leave on one run: they, and its plan, with a time and a leg for each different file.
    #[rustfmt::skip]
    pub fn board(&mut self, desk: &mut Desk, tape: Tape, head: u64, turn: u64) -> Result<(Vec<Closed>, Plan), Refused> {
        self.need_room(BOARDING_ROOM);
        let before = desk.tickets;
        let (mut from, mut to, mut times, mut legs) = ([0; BOARDERS - 1], [0; BOARDERS - 1], [0; BOARDERS], [0; BOARDERS]);
        let (mut taken, mut sums) = ([0; 10], [0; 4]);
        // SAFETY: as above.
        judged(unsafe {
            calls::violstream_board(
                desk.tickets.as_mut_ptr(), PLACES, desk.lasts.as_ptr(), desk.lasts.len(),
                tape.starts.as_ptr(), tape.starts.len(), tape.lengths.as_ptr(), tape.lengths.len(), tape.aggregates.as_ptr(), tape.aggregates.len(),
                head, turn, from.as_mut_ptr(), from.len(), to.as_mut_ptr(), to.len(), times.as_mut_ptr(), times.len(), legs.as_mut_ptr(), legs.len(),
                self.room.as_mut_ptr(), self.room.len(), taken.as_mut_ptr(), taken.len(), sums.as_mut_ptr(), sums.len(),
            )
        })?;
        let left = before.iter().take(taken[0] as usize).chain(before.iter().skip(PLACES / 2).take(taken[1] as usize));
        let closed: Vec<Closed> =
            left.zip(&taken[2..]).map(|(ticket, want)| Closed { ticket: *ticket, time: times[*want as usize - 1], leg: legs[*want as usize - 1] }).collect();
        let wants = taken[2..2 + closed.len()].iter().copied().max().unwrap_or(0) as usize;
        let detours = from.into_iter().zip(to).take(sums[3] as usize).collect();
        Ok((closed, Plan { sum: sums[0], finish: sums[1], end: sums[2], detours, times: times[..wants].to_vec(), legs: legs[..wants].to_vec() }))
    }

    /// An event as the desk has it, with its LF, and the text that is answered. Where it is accepted the desk has changed, and only then.
    #[rustfmt::skip]
    pub fn event(&mut self, desk: &mut Desk, tape: Tape, line: &[u8]) -> Result<Vec<u8>, Refused> {
        self.need_room(BOARDING_ROOM);
        self.need_out(TEXT_MOST);
        let mut sizes = [0];
        // SAFETY: as above.
        judged(unsafe {
            calls::violstream_event(
                desk.tickets.as_mut_ptr(), PLACES, desk.lasts.as_mut_ptr(), desk.lasts.len(),
                tape.starts.as_ptr(), tape.starts.len(), tape.lengths.as_ptr(), tape.lengths.len(), tape.aggregates.as_ptr(), tape.aggregates.len(),
                line.as_ptr(), line.len(), self.out.as_mut_ptr(), self.out.len(), self.room.as_mut_ptr(), self.room.len(), sizes.as_mut_ptr(), sizes.len(),
            )
        })?;
        Ok(self.text(sizes[0]))
    }

    /// Who waits, in lines.
    #[rustfmt::skip]
    pub fn waiting(&mut self, desk: &Desk) -> Result<Vec<u8>, Refused> {
        self.need_out(TEXT_MOST);
        let mut sizes = [0];
        // SAFETY: as above.
        judged(unsafe {
            calls::violstream_waiting(desk.tickets.as_ptr(), PLACES, self.out.as_mut_ptr(), self.out.len(), sizes.as_mut_ptr(), sizes.len())
        })?;
        Ok(self.text(sizes[0]))
    }
}

// ---- For the command alone ----

/// What the command asks of the system that neither Rust's own library nor nix has without `unsafe`.
#[cfg(feature = "violstream-host")]
pub mod host {
    use memmap2::Mmap;
    use nix::libc;
    use nix::sys::signal::{signal, SigHandler, Signal};
    use nix::unistd::{getpid, getppid};
    use std::fs::File;
    use std::io;
    use std::os::unix::process::CommandExt;
    use std::process::Command;

    /// The call begins here and not in Rust's own start, which opens /dev/null for a descriptor that is closed, and ignores a broken pipe,
    /// before anybody could ask.
    #[cfg(not(test))]
    #[no_mangle]
    pub extern "C" fn main(_count: libc::c_int, _words: *const *const libc::c_char) -> libc::c_int {
        crate::run(crate::system::begin())
    }

    /// Has a signal ignored, or do what it does by itself; whether it was ignored before.
    pub fn ignore(number: Signal, ignored: bool) -> bool {
        let how = if ignored { SigHandler::SigIgn } else { SigHandler::SigDfl };
        // SAFETY: neither is a function that the signal could call, and there was none before.
        unsafe { signal(number, how) == Ok(SigHandler::SigIgn) }
    }

    /// A file as it lies in memory, whatever its length. Whoever cuts it off while it is looked at ends this call.
    pub fn map(file: &File) -> io::Result<Mmap> {
        // SAFETY: it is looked at as bytes alone, and nothing that is found there is taken for granted.
        unsafe { Mmap::map(file) }
    }

    /// The program gets the signal when this process ends, however it ends.
    pub fn end_with_caller(command: &mut Command, number: Signal) {
        let caller = getpid();
        let in_child = move || {
            // SAFETY: no memory is handed over.
            unsafe { libc::prctl(libc::PR_SET_PDEATHSIG, number as libc::c_int) };
            // The caller may have ended before it was asked.
            if getppid() == caller {
                Ok(())
            } else {
                Err(io::Error::from_raw_os_error(libc::ESRCH))
            }
        };
        // SAFETY: both calls are allowed between fork and exec; nothing is allocated there, and no lock taken.
        unsafe { command.pre_exec(in_child) };
    }
}
