//! The proved calls of the library for C that this command makes (`violstream`): the two of the server, behind a trait, so that its own tests need no library,
//! that of `pick`, and those that plan and check in room for every run. Where this command was compiled before the library was there, nothing is linked: `serve`
//! says so, `pick` and `recall` are not offered, and a run for which a proved program has no room stays refused.

use crate::answers::Refusal;
pub use crate::violstream::Desk as Table;
#[cfg(test)]
pub use crate::violstream::Ticket;

/// Whether the library is linked.
pub const LINKED: bool = cfg!(feature = "library");

/// The files of the tape, a row for each column.
#[derive(Clone, Debug, Default, PartialEq, Eq)]
pub struct Tape {
    pub starts: Vec<u64>,
    pub lengths: Vec<u64>,
    pub aggregates: Vec<u64>,
}

#[cfg_attr(not(feature = "library"), allow(dead_code))]
pub enum Told {
    Accepted(Vec<u8>),
    Refused(Refusal),
}

pub trait Calls {
    /// An event as the desk has it, with its LF. Where it is accepted the table has changed, and only then.
    fn event(&mut self, tape: &Tape, table: &mut Table, line: &[u8]) -> Told;
    /// Who waits, in lines.
    fn waiting(&mut self, table: &Table) -> Told;
}

/// What is picked from, and in which unit; a head place and a turn price where they are given.
#[cfg_attr(not(feature = "library"), allow(dead_code))]
pub struct Picking<'a> {
    pub tape: &'a [u8],
    pub label: &'a [u8],
    pub index: &'a [u8],
    pub list: &'a [u8],
    pub blocks: bool,
    pub head: Option<u64>,
    pub turn: Option<u64>,
}

/// The run sheet and the text of names.
pub struct Picked {
    pub run: Vec<u8>,
    pub names: Vec<u8>,
}

#[cfg(feature = "library")]
pub use linked::{in_room, pick, Library};

#[cfg(feature = "library")]
mod linked {
    use super::{Calls, Picked, Picking, Refusal, Table, Tape, Told};
    use crate::violstream::{self, Refused};

    #[link(name = "violstream", kind = "static")]
    extern "C" {}

    fn refusal(refused: Refused) -> Refusal {
        Refusal { number: refused.number, place: refused.place }
    }

    pub fn pick(asked: &Picking) -> Result<Picked, Refusal> {
        let (head, turn): (Vec<u64>, Vec<u64>) = (asked.head.into_iter().collect(), asked.turn.into_iter().collect());
        let picked = violstream::Library::pick([asked.tape, asked.label, asked.index, asked.list], u64::from(asked.blocks), &head, &turn);
        picked.map(|(run, names)| Picked { run, names }).map_err(refusal)
    }

    /// What a program would print of a run sheet, and of another text beside it, if it had room for every run: 64 wants with 1,024 reads.
    pub fn in_room(program: &str, run: &[u8], other: &[u8]) -> Option<Vec<u8>> {
        let mut library = violstream::Library::new();
        let answer = match program {
            "cmd_plan_any" => library.answer(run),
            "cmd_buys_any" => library.buys(run),
            "cmd_check" => library.check(run, other),
            _ => return None,
        };
        Some(answer.unwrap_or_else(|refused| refusal(refused).text()))
    }

    /// With the rows that every call is lent.
    pub struct Library(violstream::Library);

    impl Library {
        pub fn open() -> Option<Library> {
            Some(Library(violstream::Library::new()))
        }
    }

    fn told(answer: Result<Vec<u8>, Refused>) -> Told {
        answer.map_or_else(|refused| Told::Refused(refusal(refused)), Told::Accepted)
    }

    impl Calls for Library {
        fn event(&mut self, tape: &Tape, table: &mut Table, line: &[u8]) -> Told {
            let tape = violstream::Tape { starts: &tape.starts, lengths: &tape.lengths, aggregates: &tape.aggregates };
            told(self.0.event(table, tape, line))
        }

        fn waiting(&mut self, table: &Table) -> Told {
            told(self.0.waiting(table))
        }
    }
}

#[cfg(not(feature = "library"))]
pub use unlinked::{in_room, pick, Library};

#[cfg(not(feature = "library"))]
mod unlinked {
    use super::{Calls, Picked, Picking, Refusal, Table, Tape, Told};

    pub fn pick(_: &Picking) -> Result<Picked, Refusal> {
        unreachable!("nobody is offered a call that is not there")
    }

    pub fn in_room(_: &str, _: &[u8], _: &[u8]) -> Option<Vec<u8>> {
        None
    }

    pub enum Library {}

    impl Library {
        pub fn open() -> Option<Library> {
            None
        }
    }

    impl Calls for Library {
        fn event(&mut self, _: &Tape, _: &mut Table, _: &[u8]) -> Told {
            match *self {}
        }

        fn waiting(&mut self, _: &Table) -> Told {
            match *self {}
        }
    }
}
