#!/usr/bin/env python3
"""Compares the rows that the programs lend with the numbers of promises/specs/Lengths, which is proved to take every answer whole.

usage: tests/python/rows.py

Judged is each cmd_X, and cmd_desk function by function, since each of its three has a row of its own: every row that it prints must be in the table below, have
as many bytes as the definition named there says, and be printed from its front; it may come from a function of the program that gives it. The row of an event is that of RowTakesEveryAnswer (DeskDays). The line of those
who wait must be put as WaitingIsWhole says. A row that is a byte short is planted in each program, and another text in these functions, and must be found.
"""
import os
import re
import sys

import programs

# For each program its rows, by the definitions of specs/Lengths.
ROWS = {
    "plan": {"out": "plan_row"},
    "plan_any": {"out": "plan_row"},
    "field": {"out": "plan_row"},
    "buys": {"out": "buys_row"},
    "buys_any": {"out": "buys_row"},
    "price": {"out": "price_row"},
    "check": {"out": "check_row"},
    "month": {"page": "month_row"},
    "mend": {"out": "sheet_row", "notes": "changes_row"},
    "rewrite": {"out": "sheet_row"},
    "ltfs": {"out": "sheet_row", "notes": "report_row"},
    "desk::print_refusal": {"out": "refusal_row"},
    "desk::print_waiting": {"out": "waiting_row"},
    "desk::take_event": {"out": "event_row"},
}
# What puts the text into a row, where a statement speaks of that text.
PUT = {
    "desk::print_refusal": "sheet_writer::write_refusal(verdict, &mut out)",
    "desk::print_waiting": 'text_pages::put_pair_line(&mut out, 0, b"waiting=", ones, twos)',
}
NUMBER = re.compile(r"^(\w+_row) = (\d+)$", re.M)
ROW = re.compile(r"let mut (\w+) = \[0u8; (\d+)\];")
GIVEN = re.compile(r"let mut (\w+) = (\w+)\(\);")
PRINTED = re.compile(r"io::write_all\(\s*STD\w+,\s*([^;]*)\);")
FRONT = re.compile(r"(?:text_inputs::)?front\(&(\w+),[^&]*\)$")
EVENT = re.compile(r"^RowTakesEveryAnswer =$.*?^    → (\d+) ≤ length out$", re.M | re.S)
FUNCTION = re.compile(r"^fn (\w+)\(.*?^\}$", re.M | re.S)


def read(path):
    with open(os.path.join(programs.ROOT, path), encoding="utf-8") as file:
        return file.read()


def judged(name, text, numbers):
    """What is wrong with the rows of a program, or of a function of one."""
    rows = dict(ROW.findall(text)) | {row: size for row, giver in GIVEN.findall(text)
                                      for size in re.findall(rf"fn {giver}\(\) -> \[u8; (\d+)\] {{\n    \[0u8; \1\]\n", text)}
    printed = [FRONT.match(what.strip()) for what in PRINTED.findall(text)]
    if not printed or None in printed or {p[1] for p in printed} != set(ROWS[name]):
        return [f"cmd_{name}: what it prints is not the fronts of {', '.join(ROWS[name])}"]
    if name in PUT and text.count(PUT[name]) != 1:
        return [f"cmd_{name}: {PUT[name]} does not stand there once"]
    return [f"cmd_{name}: the row {row} has {rows.get(row, 'no')} bytes, and {number} is {numbers[number]}"
            for row, number in ROWS[name].items() if rows.get(row) != numbers[number]]


def main():
    numbers = dict(NUMBER.findall(read("crates/promises/specs/Lengths.antt")), event_row=EVENT.search(read("crates/promises/specs/DeskDays.antt"))[1])
    texts = {folder[4:]: read(f"crates/{folder}/src/main.rt") for folder in os.listdir(os.path.join(programs.ROOT, "crates")) if folder.startswith("cmd_")}
    desk = texts.pop("desk")
    texts.update((f"desk::{part[1]}", part[0]) for part in FUNCTION.finditer(desk) if PRINTED.search(part[0]))
    if set(texts) != set(ROWS) or len(PRINTED.findall(desk)) != sum(len(PRINTED.findall(text)) for name, text in texts.items() if name.startswith("desk::")):
        sys.exit(f"rows.py: its table is not of these programs and functions: {', '.join(sorted(texts))}")
    found = [wrong for name in ROWS for wrong in judged(name, texts[name], numbers)]
    for name, rows in ROWS.items():
        for row, number in rows.items():
            short = re.sub(rf"\b{numbers[number]}\b", str(int(numbers[number]) - 1), texts[name])
            found += [] if judged(name, short, numbers) else [f"a row {row} of cmd_{name} that is a byte short is not found"]
    found += [f"another text of cmd_{name} is not found" for name, put in PUT.items() if not judged(name, texts[name].replace(put, put.replace("(", "s(")), numbers)]
    if found:
        sys.exit("\n".join(found))
    print(f"rows: {sum(map(len, ROWS.values()))} rows of {len({name.split('::')[0] for name in ROWS})} programs are as long as is proved to be enough")


if __name__ == "__main__":
    main()
