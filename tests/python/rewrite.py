#!/usr/bin/env python3
"""Runs the program behind `./violstream rewrite` on whole and damaged sheets and compares every byte it prints with an answer worked out here.

usage: tests/python/rewrite.py [--native] [PROGRAM]           (default target/bin/cmd_rewrite)
       tests/python/rewrite.py [--native] --time [PROGRAM]    how long one call takes on a long sheet, and on none

The program is for x86-64; on another processor it is started as tools/machine.sh says.

The reader (sheets.py) shares nothing with the program. A sheet that can be read comes back byte for byte, with a 0 after a bare `turn=`;
what comes back is read once more, with several meanings of a bare `turn=`, and must be what the old sheet was where that meant 0, or be
refused as that was: a sheet with the retired rule is rewritten, and refused by its reader before and after.
"""
import os
import random
import subprocess
import sys

import programs
from plan import contents, stored
from runs import Refused
from sheets import described, read

LIMIT = 16384


def answer(sheet):
    """What the program must print."""
    try:
        described(sheet)
    except Refused as refusal:
        return refusal.args[0]
    lines = sheet.split(b"\n")
    if lines[2] == b"turn=":
        lines[2] = b"turn=0"
    rewritten = b"\n".join(lines)
    return rewritten if len(rewritten) <= LIMIT else Refused(12).args[0]


def meaning(sheet, empty):
    """What a reader to whom an empty `turn=` means `empty` answers, a refusal included."""
    try:
        return read(sheet, empty)
    except Refused as refusal:
        return refusal.args[0]


def compare_meaning(sheet, rewritten):
    """Whatever an empty `turn=` means to its reader, the new sheet is the old one to a reader to whom it meant 0."""
    if described(rewritten)[3] != described(sheet)[3]:
        sys.exit(f"rewrite.py: the rule of\n{sheet!r}\nis another in\n{rewritten!r}")
    old = meaning(sheet, 0)
    for empty in (12000, 2**64 - 1):
        if meaning(rewritten, empty) != old:
            sys.exit(f"rewrite.py: with an empty price that means {empty},\n{rewritten!r}\nis not the sheet\n{sheet!r}\nread with 0")


def number(draw):
    """A number below 2 to the 64 of any length, often 0 or the greatest."""
    return draw.choice((0, 1, 9, 10, 2**64 - 1, draw.randrange(10 ** draw.randrange(1, 20))))


def drawn(draw):
    """A sheet that can be read; most of the runs that these hold are refused by the planner."""
    name = bytes(draw.choice(b"ABCXYZ0189") for _ in range(draw.randrange(1, 17)))
    files, wants = draw.choice((0, 1, 2, 3, 5, 12)), draw.choice((0, 1, 3, 8))
    turn = draw.choice((b"", b"", b"0", b"12000", b"%d" % number(draw)))
    lines = [b"tape=" + name, b"head=%d" % number(draw), b"turn=" + turn, draw.choice((b"rule=least", b"rule=sweep")), b"files=%d" % files]
    lines += [b"file=%d,%d,%d" % (number(draw), number(draw), number(draw)) for _ in range(files)] + [b"wants=%d" % wants]
    return b"\n".join(lines + [b"want=%d,%d" % (number(draw), number(draw)) for _ in range(wants)]) + b"\n"


def longest(turn, size=LIMIT):
    """A sheet of that size: 256 files and 64 wants of the longest numbers, but for those of the last files."""
    most = b"%d" % (2**64 - 1)
    top = b"tape=ABCDEFGHIJKLMNOP\nhead=%s\nturn=%s\nrule=least\nfiles=256\n" % (most, turn)
    below = b"wants=64\n" + b"want=%s,%s\n" % (most, most) * 64
    spare = size - len(top) - len(below) - 256 * len(b"file=0,0,0\n")
    files = []
    for _ in range(256):
        longer = [min(19, max(0, spare - 19 * i)) for i in range(3)]
        spare -= sum(longer)
        files.append(b"file=%s,%s,%s\n" % tuple(most[:more + 1] if more else b"0" for more in longer))
    return top + b"".join(files) + below


def damaged(draw, sheet):
    """The sheet with a byte changed, put in or taken out, most often near the price."""
    at = draw.choice((draw.randrange(len(sheet)), min(len(sheet) - 1, max(0, sheet.find(b"turn=") + draw.randrange(-2, 9)))))
    byte = draw.choice((b"0", b"1", b"=", b",", b"\n", b"\r", b" ", b"t", b"\x00", b"\xff"))
    return sheet[:at] + draw.choice((byte, b"")) + sheet[at + draw.choice((0, 1)):]


def cases():
    example = contents(os.path.join(programs.ROOT, "examples/VX0041.run"))
    old = example.replace(b"turn=1\n", b"turn=\n")
    for path in stored():
        yield contents(path)
    for sheet in (example, old):
        for cut in range(len(sheet) + 1):
            yield sheet[:cut]
        for at in range(len(sheet)):
            for byte in (b"0", b"\n"):
                yield sheet[:at] + byte + sheet[at + 1:]
    for bad in (b"turn=00", b"turn=01", b"turn= ", b"turn=\r", b"turn=\nturn=", b"turn", b"Turn=", b"turn=-0", b"turn=%d" % 2**64, b"turn=%d" % (2**64 - 1)):
        yield old.replace(b"turn=", bad)
    for turn in (b"", b"0", b"%d" % (2**64 - 1)):
        for size in (LIMIT - 1, LIMIT, LIMIT + 1):
            yield longest(turn, size)
            yield longest(turn, size) + b"\n"
    for line in (b"file=10,4", b"file=10,4,", b"file=10,4,0,0", b"file=10,4,00", b"file=10,4,%d" % 2**64, b"file=10,,0"):
        yield old.replace(b"file=10,4,0", line)
    for size in (LIMIT - 1, LIMIT, LIMIT + 1):
        yield old + b" " * (size - len(old))
        yield b"\n" * size
    draw = random.Random(3)
    for _ in range(450):
        sheet = drawn(draw)
        yield sheet
        yield damaged(draw, sheet)
        yield damaged(draw, damaged(draw, sheet))


def compare(start):
    seen, tried, changed = set(), 0, 0
    for sheet in cases():
        must = answer(sheet)
        out = subprocess.run(start, input=sheet, capture_output=True).stdout
        tried += 1
        if out != must:
            sys.exit(f"rewrite.py: for the sheet\n{sheet!r}\nthe program printed\n{out!r}\nand should have printed\n{must!r}")
        if out.startswith(b"refused"):
            seen.add(out.split(b"\n")[0])
            continue
        compare_meaning(sheet, out)
        if out != sheet:
            changed += 1
            if changed <= 100 and subprocess.run(start, input=out, capture_output=True).stdout != out:
                sys.exit(f"rewrite.py: rewritten again, this sheet is not itself:\n{out!r}")
    if seen != {b"refused=11", b"refused=12"} or changed < 200:
        sys.exit(f"rewrite.py: the sheets tried met {sorted(seen)}, and {changed} were changed")
    print(f"rewrite.py: {tried} sheets answered as they must be, {changed} of them with a price put in")


def main():
    programs.tried(__doc__, "cmd_rewrite", compare, [("long sheet", longest(b"")), ("empty sheet, refused at once", b"")])


if __name__ == "__main__":
    main()
