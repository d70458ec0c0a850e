//! Makes every call of the library through command/src/violstream.rs, the file that the command links it by, and compares the answers with the examples of the
//! checkout and of violstream.h.
//!
//! rustc -O --edition 2021 tests/rust/calls/calls.rs -L native=DIR -l static=violstream     (DIR holds libviolstream.a)
//! ./calls     exit status: 0 all as it must be; else it says what is not

#[path = "../../../command/src/violstream.rs"]
mod violstream;

use violstream::{Closed, Desk, Head, Library, Plan, Refused, Run, Tape, Ticket, VERSION};

const RUN: &[u8] = include_bytes!("../../../examples/VX0041.run");
const PLAN: &[u8] = include_bytes!("../../../examples/VX0041.plan");
const DAMAGED: &[u8] = include_bytes!("../../../examples/VX0041-damaged.plan");
const EVENTS: &str = include_str!("../../../examples/day.events");
const ANSWERS: &str = include_str!("../../../examples/day.answers");
const DAY: Tape<'static> = Tape { starts: &[0, 10, 14, 20, 30, 45], lengths: &[10, 4, 2, 5, 10, 5], aggregates: &[0, 7, 7, 0, 0, 0] };

fn runs(library: &mut Library) {
    let tape = Tape { starts: &[0, 10, 16, 20], lengths: &[10, 4, 4, 30], aggregates: &[0, 7, 7, 0] };
    let run = Run { tape, numbers: &[1, 3, 4], counts: &[1, 3, 1], head: 60, turn: 1 };
    let best = Plan { sum: 409, finish: 133, end: 50, detours: vec![(2, 2)], times: vec![93, 61, 133], legs: vec![2, 1, 2] };
    assert_eq!(library.plan(&run, Head::AtTheRight), Ok(best.clone()));
    assert_eq!(library.plan(&run, Head::Anywhere), Ok(best.clone()));
    assert_eq!(library.price(&run, &[(2, 2)], Head::AtTheRight), Ok(best.clone()));
    assert_eq!(library.price(&run, &[(2, 2)], Head::Anywhere), Ok(best));
    assert_eq!(library.price(&run, &[(3, 3)], Head::AtTheRight), Err(Refused { number: 10, place: 1 }));
    let left = Run { head: 0, ..run };
    assert_eq!(library.plan(&left, Head::AtTheRight), Err(Refused { number: 7, place: 0 }));
    assert!(library.plan(&left, Head::Anywhere).is_ok());
    assert_eq!(library.plan(&Run { counts: &[1, 3], ..run }, Head::AtTheRight), Err(Refused { number: 3, place: 0 }));
    let none = Run { numbers: &[], counts: &[], ..run };
    assert_eq!(library.plan(&none, Head::AtTheRight), Ok(Plan { end: 60, ..Plan::default() }));
}

fn sheets(library: &mut Library) {
    assert_eq!(library.answer(RUN).as_deref(), Ok(PLAN));
    assert_eq!(library.buys(RUN).as_deref(), Ok(&b"tape=VX0041\nsum=367\ndetours=1\nbuys=2,2,40\n"[..]));
    assert_eq!(library.check(RUN, PLAN).as_deref(), Ok(&b"formed=yes\nwalk=yes\nleast=yes\n"[..]));
    let verdict = library.check(RUN, DAMAGED).expect("a no is an answer");
    assert!(verdict.starts_with(b"formed=yes\nwalk=no,"));
    assert_eq!(library.check(RUN, b"x\n"), Err(Refused { number: 11, place: 1 }));
    assert_eq!(library.answer(&RUN[..20]), Err(Refused { number: 11, place: 3 }));
    assert_eq!(library.buys(&RUN[..20]), Err(Refused { number: 11, place: 3 }));
    assert_eq!(library.mend(RUN), Ok((RUN.to_vec(), Vec::new())));
    let (sheet, changes) = library.mend(b"tape=A\nhead=9\nturn=\nrule=sweep\nfiles=1\nfile=0,9,0\nwants=2\nwant=1,1\nwant=1,2\n").expect("mended");
    assert_eq!(sheet, b"tape=A\nhead=9\nturn=12000\nrule=least\nfiles=1\nfile=0,9,0\nwants=1\nwant=1,3\n");
    assert_eq!(changes, b"change=3,turn\nchange=4,rule\nchange=7,wants\nchange=9,added\n");
    assert_eq!(library.mend(b"x"), Err(Refused { number: 11, place: 1 }));
}

/// As in violstream.h.
fn paths() {
    let label = b"<ltfslabel><partitions><index>a</index><data>b</data></partitions><blocksize>10</blocksize></ltfslabel>";
    let file = |name: &str, block: u64, bytes: u64| {
        let extent = format!("<partition>b</partition><startblock>{block}</startblock><byteoffset>0</byteoffset><bytecount>{bytes}</bytecount>");
        format!("<file><name>{name}</name><extentinfo><extent>{extent}</extent></extentinfo></file>")
    };
    let files = file("a.dpx", 4, 25) + &file("b.dpx", 9, 10);
    let folder = format!("<directory><name>reel 1</name><contents>{files}</contents></directory>");
    let index = format!("<ltfsindex><directory><name>VX0041</name><contents>{folder}</contents></directory></ltfsindex>");
    let pick = |list: &str, unit, head: &[u64], turn: &[u64]| Library::pick([b"VX0041", label, index.as_bytes(), list.as_bytes()], unit, head, turn);
    let told = |sheet: &str, names: &str| Ok((sheet.as_bytes().to_vec(), names.as_bytes().to_vec()));
    let names = "name=1,1,reel 1/a.dpx\nname=2,2,reel 1/b.dpx\n";
    let (list, wants) = ("reel 1/b.dpx\nreel 1/a.dpx\n/reel 1/b.dpx\n", "wants=2\nwant=1,1\nwant=2,2\n");
    let sheet = format!("tape=VX0041\nhead=0\nturn=12000\nrule=least\nfiles=2\nfile=40,25,0\nfile=90,10,0\n{wants}");
    assert_eq!(pick(list, 0, &[0], &[]), told(&sheet, names));
    let sheet = format!("tape=VX0041\nhead=10\nturn=7\nrule=least\nfiles=2\nfile=4,3,0\nfile=9,1,0\n{wants}");
    assert_eq!(pick(list, 1, &[], &[7]), told(&sheet, names));
    assert_eq!(pick("reel 1/a.dpx\nreel 1/c.dpx\n", 0, &[], &[]), Err(Refused { number: 41, place: 2 }));
    assert_eq!(pick("reel 1/a.dpx", 0, &[], &[]), Err(Refused { number: 11, place: 1 }));
}

/// A whole day by events, each answered as the desk answers it.
fn events(library: &mut Library) {
    let (mut desk, mut said) = (Desk::default(), String::new());
    for line in EVENTS.lines() {
        match library.event(&mut desk, DAY, format!("{line}\n").as_bytes()) {
            Ok(text) => said += std::str::from_utf8(&text).expect("a text of ASCII"),
            Err(refused) => said += &format!("refused={}\nplace={}\n", refused.number, refused.place),
        }
    }
    // The desk says at the end how many wait.
    assert_eq!(said + "waiting=0,0\n", ANSWERS);
    assert_eq!(library.event(&mut desk, DAY, b"waiting\n"), Err(Refused { number: 11, place: 0 }));
}

fn tickets(library: &mut Library) {
    let mut desk = Desk::default();
    assert_eq!(library.file(&mut desk, 1, 3, 2, 6), Ok(1));
    assert_eq!(library.file(&mut desk, 2, 5, 4, 6), Ok(1));
    assert_eq!(library.file(&mut desk, 2, 6, 1, 6), Ok(2));
    assert_eq!(library.file(&mut desk, 2, 7, 1, 6), Err(Refused { number: 15, place: 0 }));
    assert_eq!(library.withdraw(&mut desk, 2, 1), Ok(()));
    assert_eq!(library.withdraw(&mut desk, 2, 1), Err(Refused { number: 17, place: 0 }));
    assert_eq!(library.waiting(&desk).as_deref(), Ok(&b"waits=1,1,3,2,0,1\nwaits=2,2,6,1,0,1\nwaiting=1,1\n"[..]));
    assert_eq!(library.board(&mut desk, DAY, 10, 1), Err(Refused { number: 7, place: 0 }));
    let (closed, plan) = library.board(&mut desk, DAY, 70, 3).expect("boards");
    let tickets: Vec<Ticket> = closed.iter().map(|one| one.ticket).collect();
    assert_eq!(tickets, [Ticket { office: 1, file: 3, count: 2, number: 1 }, Ticket { office: 2, file: 6, count: 1, number: 2 }]);
    // By the pricer: a want's time and leg are those of its own file.
    let run = Run { tape: DAY, numbers: &[3, 6], counts: &[2, 1], head: 70, turn: 3 };
    assert_eq!(library.plan(&run, Head::AtTheRight), Ok(plan.clone()));
    assert_eq!(
        closed.iter().map(|one: &Closed| (one.time, one.leg)).collect::<Vec<_>>(),
        [(plan.times[0], plan.legs[0]), (plan.times[1], plan.legs[1])]
    );
    assert_eq!(desk, Desk { lasts: [1, 2], ..Desk::default() });
    let (none, empty) = library.board(&mut desk, DAY, 70, 3).expect("an empty boarding");
    assert!(none.is_empty() && empty == Plan { end: 70, ..Plan::default() });
    desk.tickets[1] = Ticket { office: 1, file: 1, count: 1, number: 1 };
    assert_eq!(library.waiting(&desk), Err(Refused { number: 26, place: 2 }));
}

fn main() {
    assert_eq!(Library::version(), VERSION);
    let mut library = Library::new();
    runs(&mut library);
    sheets(&mut library);
    paths();
    events(&mut library);
    tickets(&mut library);
    println!("rust/calls: every call as it must be");
}
