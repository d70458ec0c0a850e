#!/usr/bin/env python3
"""Runs the day of check_desk once more over a lent row of records, by the functions `file`, `withdraw` and `board` of the crate desk, and compares what is printed
with what desk.py works out.

usage: tests/python/desk_rows.py

check_desk goes by value, and cmd_desk by a function of desk_rows that holds the table.
This program is made in a temporary folder, from the text of check_desk with three calls replaced, and is run without a proof by `rt try`: on the interpreter, and
compiled with the compiler's assumptions checked. The lent row has 40 places, or what the event draws; records that are not lent, or stand past
the 32nd, are looked at after each call.
"""
import os
import re
import shutil
import subprocess
import sys
import tempfile

import desk
import programs

EVENTS = 350
LENT = """
// A row of records with a table in its first places, and a mark in each later one.
fn laid(table: [Ticket; 32]) -> [Ticket; 40] {
    let mut row = [Ticket { office: 77, file: 78, count: 79, number: 80 }; 40];
    let mut i: usize = 0;
    while i < 32 {
        row[i] = table[i];
        i += 1;
    }
    row
}

// The table in the first places; all zero where a later record has lost its mark, or one that was not lent has changed.
fn taken_up(row: [Ticket; 40], before: [Ticket; 32], len: usize) -> [Ticket; 32] {
    let mut table = before;
    let mut i: usize = 0;
    while i < 32 {
        table[i] = row[i];
        let t = row[i];
        let b = before[i];
        if len <= i {
            if t.office != b.office {
                return [Ticket { office: 0, file: 0, count: 0, number: 0 }; 32];
            }
        }
        i += 1;
    }
    while i < 40 {
        let t = row[i];
        if t.office + t.file + t.count + t.number != 314 {
            return [Ticket { office: 0, file: 0, count: 0, number: 0 }; 32];
        }
        i += 1;
    }
    table
}

"""
FILED = """    let mut row = laid(table);
    let filed = desk_rows::file(&mut row[..len], filing);
    let taken = taken_up(row, table, len);
    let done = desk_tickets::FiledRow { filed, row: taken };
"""
WITHDRAWN = """    let mut row = laid(table);
    let withdrawn = desk_rows::withdraw(&mut row[..len], withdrawal);
    let taken = taken_up(row, table, len);
    let done = desk_tickets::WithdrawnRow { withdrawn, row: taken };
"""
BOARDED = """    let mut row = laid(table);
    let boarded = desk_rows::board(
        &mut row[..len],
        boarding,
        &STARTS,
        &LENGTHS,
        &AGGREGATES,
        &mut froms,
        &mut tos,
        &mut times,
        &mut legs[..n],
        &mut room[..w],
    );
    let taken = taken_up(row, table, len);
    let done = BoardedRow { boarded, row: taken };
"""


def replaced(text, old, new, flags=0):
    made, times = re.subn(old, lambda _: new, text, flags=flags)
    if times != 1:
        sys.exit(f"desk_rows.py: check_desk does not have {old!r} once")
    return made


def lending(text):
    """The text of check_desk over a lent row."""
    text = replaced(text, r"    let done = desk_tickets::file_in\(len, table, filing\);\n", FILED)
    text = replaced(text, r"    let done = desk_tickets::withdraw_in\(len, table, withdrawal\);\n", WITHDRAWN)
    text = replaced(text, r"    let done = desk_boardings::board_in\(\n.*?\n    \);\n", BOARDED, re.S)
    text = replaced(text, rf"\(0\.\.{desk.EVENTS}\)", f"(0..{EVENTS})")
    return replaced(text, r"\n// A table with one record changed", LENT + "// A table with one record changed")


def main():
    crates = os.path.join(programs.ROOT, "crates")
    with open(os.path.join(programs.ROOT, "crates.txt"), encoding="utf-8") as handle:
        lines = {line.split(":")[0].strip(): line for line in handle if ":" in line.split("#")[0]}
    needed = [name for name in lines["desk_rows"].split(":")[1].split() if name in lines] + ["desk_rows"]
    with tempfile.TemporaryDirectory() as folder:
        for name in needed:
            shutil.copytree(os.path.join(crates, name), os.path.join(folder, "crates", name))
        os.makedirs(os.path.join(folder, "crates/lends/src"))
        with open(os.path.join(crates, "check_desk/src/main.rt"), encoding="utf-8") as handle:
            text = lending(handle.read())
        with open(os.path.join(folder, "crates/lends/src/main.rt"), "w", encoding="utf-8") as out:
            out.write(text)
        with open(os.path.join(folder, "crates.txt"), "w", encoding="utf-8") as out:
            out.writelines([lines[name] for name in needed] + [f"lends: {' '.join(needed)} io\n"])
        said = subprocess.run(["rt", "try", "--steps", "2000000000", "--seconds", "600"], cwd=os.path.join(folder, "crates/lends"), stdin=subprocess.DEVNULL, capture_output=True, text=True, check=False)
    must = "\n".join(desk.lines(desk.Day(), EVENTS)) + "\n"
    runs = re.findall(r"^(?:interpreter|checked): ended status=0\b", said.stderr, re.M)
    if said.returncode != 0 or said.stdout != must or len(runs) != 2:
        sys.exit(f"desk_rows.py: the day over a lent row is not as it must be:\n{said.stdout}{said.stderr}")
    print(f"desk_rows.py: {EVENTS} filings, withdrawals and boardings over a lent row of records as they must be, in {len(runs)} kinds of run")


if __name__ == "__main__":
    main()
