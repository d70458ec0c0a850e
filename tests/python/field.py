#!/usr/bin/env python3
"""Runs the program behind `./violstream field` on whole and damaged sheets and compares every byte it prints with an answer worked out here.

usage: tests/python/field.py [--native] [PROGRAM]           (default target/bin/cmd_field)
       tests/python/field.py [--native] --sheets FILE       on sheets that the comparisons in C and Rust wrote down, with their plans
       tests/python/field.py [--native] --time [PROGRAM]    how long one call takes on the sheet that costs it most, and on none

The sheets, the reader, the judging, the walk and the search over all well-formed lists are those of plan.py, and share nothing with the
program. So where a sheet has at most eight wants and `plan` prints a plan, the two print the same.
"""
import random
import subprocess
import sys

import plan
import programs
from runs import Refused, judge
from sheets import read


def answer(sheet):
    try:
        name, head, turn, table, asked = read(sheet)
        judge(head, turn, table, asked, most=8)
    except Refused as refusal:
        return refusal.args[0]
    return plan.sheet_of_plan(name, head, turn, table, asked)


def cases():
    yield from plan.cases()
    for wants, reads in ((8, 8), (8, 1024), (9, 9), (9, 1025), (64, 64)):
        yield plan.sheet_of(wants, reads)
    # Nine wants and a bad one; nine members of one aggregate; a bad file before them.
    nine = plan.sheet_of(9, 9)
    yield nine.replace(b"want=9,1", b"want=9,0")
    yield nine.replace(b"turn=3", b"turn=4294967297")
    yield nine.replace(b",10,0\n", b",10,7\n")
    yield nine.replace(b"file=10,10,0", b"file=10,0,0")
    draw = random.Random(2)
    for _ in range(60):
        wants = draw.randrange(1, 9)
        yield plan.drawn(draw, wants, draw.randrange(wants, draw.choice((12, 60, 1025))))


def compare(start):
    seen, tried = set(), 0
    for sheet in cases():
        must = answer(sheet)
        out = subprocess.run(start, input=sheet, capture_output=True).stdout
        tried += 1
        if out != must:
            sys.exit(f"field.py: for the sheet\n{sheet!r}\nthe program printed\n{out!r}\nand should have printed\n{must!r}")
        seen.add(out.split(b"\n")[0] if out.startswith(b"refused") else b"planned")
    missing = {b"planned"} | {b"refused=%d" % n for n in (2, 4, 5, 6, 7, 11, 12, 19, 24)}
    if missing != seen:
        sys.exit(f"field.py: the sheets tried met {sorted(seen)}")
    print(f"field.py: {tried} sheets answered as they must be, every refusal of the program among them, and no 9")


def compare_written(start, path):
    with open(path, "rb") as file:
        texts = [text + b"\n" for text in file.read().split(b"\n\n") if text]
    for sheet, must in zip(texts[::2], texts[1::2]):
        out = subprocess.run(start, input=sheet, capture_output=True).stdout
        if out != must:
            sys.exit(f"field.py: for the sheet\n{sheet!r}\nof {path} the program printed\n{out!r}\nand should have printed\n{must!r}")
    detours = sum(b"\ndetour=" in text for text in texts[1::2])
    if len(texts) < 400 or len(texts) % 2 or detours < 50:
        sys.exit(f"field.py: {path} holds {len(texts)} texts, {detours} of them plans with detours: too few to say anything")
    print(f"field.py: {len(texts) // 2} plans, {detours} of them with detours, are as {path.rsplit('/', 1)[-1]} has them")


def main():
    reader = programs.arguments(__doc__.split("\n")[0], "cmd_field")
    reader.add_argument("--sheets", metavar="FILE", action="append", default=[], help="sheets with their plans; may be given more than once")
    words = reader.parse_args()
    start = programs.started(words)
    for path in words.sheets:
        compare_written(start, path)
    if not words.time:
        if not words.sheets:
            compare(start)
        return
    programs.say_if_emulated(start)
    print(f"eight wants, 1,024 reads: {programs.timed(start, plan.sheet_of(8, 1024))}")
    print(f"empty sheet, refused at once: {programs.timed(start, b'')}")


if __name__ == "__main__":
    main()
