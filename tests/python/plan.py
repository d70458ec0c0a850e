#!/usr/bin/env python3
"""Runs the program behind `./violstream plan` on whole and damaged sheets and compares every byte it prints with an answer worked out here.

usage: tests/python/plan.py [--native] [--any] [PROGRAM]           (default target/bin/cmd_plan, with --any target/bin/cmd_plan_any)
       tests/python/plan.py [--native] [--any] --time [PROGRAM]    how long one call takes on a full sheet, and on none

With --any it is the program for a head anywhere, with more room; every sheet is tried with the head at other places too.

The program is for x86-64; on another processor it is started as tools/machine.sh says.

The reader (sheets.py), the judging, the walk and the search over all well-formed lists (runs.py) share nothing with the program.
"""
import os
import random
import subprocess
import sys

import programs
from runs import Refused, judge, least, stops, total, walk
from sheets import read


def accepted(sheet, anywhere=False):
    """Name, head, turn price, table and wants of a sheet that can be planned in 5,120 words; in 655,360 where the head may stand anywhere."""
    name, head, turn, table, asked = read(sheet)
    judge(head, turn, table, asked, anywhere=anywhere)
    if len(stops(table, asked)) ** 2 * (sum(count for _, count in asked) + 1) > (655360 if anywhere else 5120):
        raise Refused(9)
    return name, head, turn, table, asked


def answer(sheet, anywhere=False):
    try:
        name, head, turn, table, asked = accepted(sheet, anywhere)
    except Refused as refusal:
        return refusal.args[0]
    return None if len(stops(table, asked)) > (8 if anywhere else 10) else sheet_of_plan(name, head, turn, table, asked)


def sheet_of_plan(name, head, turn, table, asked):
    """The plan sheet of a run that is accepted, by a search over all lists."""
    best = least(head, turn, table, asked)
    times, legs, clock, place = walk(head, turn, table, asked, best)
    lines = [b"tape=" + name, b"sum=%d" % total(head, turn, table, asked, best), b"reads=%d" % sum(count for _, count in asked), b"finish=%d" % clock, b"end=%d" % place,
             b"detours=%d" % len(best)]
    lines += [b"detour=%d,%d" % d for d in best] + [b"time=%d,%d,%d" % (n, times[n], legs[n]) for n, _ in asked]
    return b"\n".join(lines) + b"\n"


def sheet_of(wants, reads):
    """A sheet with so many wants of one file each and so many reads in all."""
    files = b"".join(b"file=%d,10,0\n" % (i * 10) for i in range(wants))
    asked = b"".join(b"want=%d,%d\n" % (i + 1, reads - wants + 1 if i == 0 else 1) for i in range(wants))
    return b"tape=A\nhead=%d\nturn=3\nrule=least\nfiles=%d\n" % (wants * 10, wants) + files + b"wants=%d\n" % wants + asked


def aggregate_example(number):
    """Files 2 and 3 in one aggregate with a gap between them, of which file 3 is wanted; with 0 each by itself."""
    files = b"file=0,10,0\nfile=10,4,%s\nfile=16,4,%s\nfile=20,30,0\n" % (number, number)
    return b"tape=VX0041\nhead=60\nturn=1\nrule=least\nfiles=4\n" + files + b"wants=3\nwant=1,1\nwant=3,3\nwant=4,1\n"


def drawn(draw, wants, reads):
    """A sheet at random: so many wants among twice as many files with gaps, some in aggregates, and so many reads in all."""
    at, files, aggregate, unused = 0, [], 0, draw.sample(range(1, 4097), 2 * wants)
    for _ in range(2 * wants):
        start = at + draw.randrange(8)
        length = draw.randrange(1, 30)
        aggregate = draw.choice((0, aggregate, unused.pop()))
        files.append((start, length, aggregate))
        at = start + length
    numbers = sorted(draw.sample(range(1, 2 * wants + 1), wants))
    counts = [1] * wants
    for _ in range(reads - wants):
        counts[draw.randrange(wants)] += 1
    lines = [b"tape=R", b"head=%d" % (at + draw.randrange(50)), b"turn=%d" % draw.randrange(20), b"rule=least", b"files=%d" % len(files)]
    lines += [b"file=%d,%d,%d" % f for f in files] + [b"wants=%d" % wants] + [b"want=%d,%d" % w for w in zip(numbers, counts)]
    return b"\n".join(lines) + b"\n"


def contents(path):
    with open(path, "rb") as handle:
        return handle.read()


def stored():
    """The paths of the run sheets in examples/."""
    for folder, _, names in os.walk(os.path.join(programs.ROOT, "examples")):
        for name in sorted(names):
            if name.endswith(".run"):
                yield os.path.join(folder, name)


def cases():
    example = contents(os.path.join(programs.ROOT, "examples/VX0041.run"))
    for path in stored():
        yield contents(path)
    for cut in range(len(example)):
        yield example[:cut]
    for at in range(len(example)):
        for byte in (b"0", b"9", b",", b"=", b"\n", b" ", b"\x00", b"\xff", b"A"):
            yield example[:at] + byte + example[at + 1:]
    retired = example.replace(b"rule=least", b"rule=sweep")
    for cut in range(retired.index(b"rule="), len(retired) + 1):
        yield retired[:cut]
    for rule in (b"rule=", b"rule=swee", b"rule=sweeps", b"rule=SWEEP", b"rule=sweep ", b"rule=sweep\r", b"rule=least,sweep", b"sweep"):
        yield example.replace(b"rule=least", rule)
    for old, new in ((b"turn=1", b"turn="), (b"head=60", b"head=49"), (b"head=60", b"head=1099511627777"),
                     (b"turn=1", b"turn=4294967297"), (b"file=10,4,0", b"file=9,4,0"), (b"file=10,4,0", b"file=10,0,0"),
                     (b"file=10,4,0", b"file=10,4"), (b"file=10,4,0", b"file=10,4,0,0"), (b"file=10,4,0", b"file=10,4,4096"), (b"file=10,4,0", b"file=10,4,4097"), (b"want=2,3", b"want=2,1023"),
                     (b"want=2,3", b"want=2,1022"), (b"want=2,3", b"want=1,3"), (b"want=3,1", b"want=4,1"), (b"want=3,1", b"want=3,0"),
                     (b"tape=VX0041", b"tape=ABCDEFGHIJKLMNOPQ"), (b"tape=VX0041", b"tape="), (b"files=3", b"files=257"), (b"wants=3", b"wants=65"),
                     (b"head=60", b"head=060"), (b"head=60", b"head=18446744073709551616"), (b"head=60", b"head=18446744073709551615")):
        yield example.replace(old, new)
        yield retired.replace(old, new)
    for numbers in ((5, 5, 0), (5, 0, 5), (0, 4096, 4096), (4097, 4097, 0), (7, 7, 7), (2, 1, 1), (5, 3, 5)):
        yield example.replace(b"10,0", b"10,%d" % numbers[0]).replace(b"4,0", b"4,%d" % numbers[1]).replace(b"30,0", b"30,%d" % numbers[2])
    yield aggregate_example(b"7")
    yield aggregate_example(b"0")
    yield example + b"\n"
    yield example + b" " * 16384
    yield retired + b"\n"
    yield retired + b" " * 16384
    yield b"x" * 16384
    yield sheet_of(10, 50)
    yield sheet_of(10, 51)
    draw = random.Random(1)
    for wants, sheets in ((2, 10), (4, 10), (6, 10), (7, 10), (8, 10), (9, 4), (10, 2)):
        for _ in range(sheets):
            yield drawn(draw, wants, draw.randrange(wants, 51))


def cases_anywhere():
    """The same sheets; those that can be read also with the head at the start, left of, within and right of what is wanted; and the limits of the room."""
    draw = random.Random(2)
    for sheet in cases():
        yield sheet
        if b"\nhead=" in sheet and draw.random() < 0.25:
            before, behind = sheet.split(b"\nhead=", 1)
            for head in {0, 1, draw.randrange(60), draw.randrange(400)}:
                yield before + b"\nhead=%d\n" % head + behind.split(b"\n", 1)[-1]
    for wants, reads in ((64, 159), (64, 160), (16, 1024), (25, 1024), (26, 1024)):
        for head in (0, wants * 5, wants * 10):
            yield sheet_of(wants, reads).replace(b"head=%d\n" % (wants * 10), b"head=%d\n" % head)
    yield sheet_of(3, 3).replace(b"head=30\n", b"head=1099511627776\n")
    yield sheet_of(3, 3).replace(b"head=30\n", b"head=1099511627777\n")


def planned_anywhere(sheet):
    """The plan sheet of a run whose head may stand anywhere."""
    name, head, turn, table, asked = read(sheet)
    judge(head, turn, table, asked, anywhere=True)
    return sheet_of_plan(name, head, turn, table, asked)


def compare_stored(start):
    """A plan sheet that is stored beside a run sheet is what the program prints for it; or, where that is 7, the plan from where the head stands."""
    for path in stored():
        plan = path[:-len("run")] + "plan"
        printed = subprocess.run(start, input=contents(path), capture_output=True).stdout
        if os.path.exists(plan) and contents(plan) != printed and not (printed.startswith(b"refused=7\n") and contents(plan) == planned_anywhere(contents(path))):
            sys.exit(f"plan.py: {plan} is not what the program prints for the run sheet beside it")


def compare(start, anywhere=False):
    seen, tried = set(), 0
    for sheet in cases_anywhere() if anywhere else cases():
        must = answer(sheet, anywhere)
        out = subprocess.run(start, input=sheet, capture_output=True).stdout
        tried += 1
        if must is None:
            if not out.startswith(b"tape="):
                sys.exit(f"plan.py: a sheet that fits was refused:\n{sheet!r}\nprinted {out!r}")
            seen.add(b"planned")
        elif out != must:
            sys.exit(f"plan.py: for the sheet\n{sheet!r}\nthe program printed\n{out!r}\nand should have printed\n{must!r}")
        else:
            seen.add(out.split(b"\n")[0] if out.startswith(b"refused") else b"planned")
    missing = {b"refused=%d" % n for n in (2, 4, 5, 6, 7, 9, 11, 12, 19)} - seen
    if missing:
        sys.exit(f"plan.py: no sheet met {sorted(missing)}")
    print(f"plan.py: {tried} sheets answered as they must be, every refusal of the program among them")


def full_sheet():
    """256 files, 10 wants with 50 reads: the most files of a sheet, and wants that fill the program's 5,120 words of room."""
    files = b"".join(b"file=%d,%d,0\n" % (4 * 10**9 * i, 3 * 10**9 + i) for i in range(256))
    wants = b"".join(b"want=%d,5\n" % (25 * i + 7) for i in range(10))
    return b"tape=ABCDEFGHIJKLMNOP\nhead=1099511627776\nturn=1000000\nrule=least\nfiles=256\n" + files + b"wants=10\n" + wants


def compare_both(start):
    """Whatever the one program prints other than 7 and 9, the other prints byte for byte."""
    same = 0
    for sheet in cases():
        first, second = (subprocess.run(words, input=sheet, capture_output=True).stdout for words in (start[:-1] + [start[-1].replace("cmd_plan_any", "cmd_plan")], start))
        if not first.startswith((b"refused=7\n", b"refused=9\n")):
            same += 1
            if first != second:
                sys.exit(f"plan.py: for the sheet\n{sheet!r}\nplan prints\n{first!r}\nand plan --any\n{second!r}")
    print(f"plan.py: of {same} sheets plan --any prints what plan does")


def main():
    def stored_and_drawn(start):
        compare_stored(start)
        compare(start)

    def anywhere(start):
        compare(start, True)
        compare_both(start)

    if "--any" in sys.argv:
        sys.argv.remove("--any")
        programs.tried(__doc__, "cmd_plan_any", anywhere, [("full sheet", full_sheet()), ("64 wants, 159 reads", sheet_of(64, 159)), ("empty sheet, refused at once", b"")])
    else:
        programs.tried(__doc__, "cmd_plan", stored_and_drawn, [("full sheet", full_sheet()), ("empty sheet, refused at once", b"")])


if __name__ == "__main__":
    main()
