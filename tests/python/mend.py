#!/usr/bin/env python3
"""Runs the program behind `./violstream mend` on whole and damaged sheets and compares every byte it prints with an answer worked out here.

usage: tests/python/mend.py [--native] [PROGRAM]           (default target/bin/cmd_mend)
       tests/python/mend.py [--native] --time [PROGRAM]    how long one call takes on a long sheet, and on none

The program is for x86-64; on another processor it is started as tools/machine.sh says.

The mender below shares nothing with the program: it goes through the lines as a person would. What comes back is mended once more, which must
give the same sheet and list no change; its own reader (sheets.py) must read it; and each file must have the reads that its lines asked for.
"""
import os
import random
import subprocess
import sys

import programs
from plan import contents, stored
from runs import Refused
from sheets import NUMBER, described, field, read

LIMIT = 16384


def lines_of(sheet, line, at, key, numbers, most):
    """The lines of a key and `numbers` numbers that come, no more than `most`."""
    found = []
    while len(found) < most:
        try:
            values, at = field(sheet, line, at, key + b"=" + b",".join([NUMBER] * numbers))
        except Refused:
            break
        found.append(tuple(int(value) for value in values))
        line += 1
    return found, line, at


def mended(sheet):
    """The mended sheet and the changes; or a refusal."""
    if len(sheet) > LIMIT:
        raise Refused(12)
    (name,), at = field(sheet, 1, 0, rb"tape=([A-Z0-9]{1,16})")
    (head,), at = field(sheet, 2, at, rb"head=" + NUMBER)
    (turn,), at = field(sheet, 3, at, rb"turn=(|0|[1-9][0-9]*)")
    (rule,), at = field(sheet, 4, at, rb"rule=(least|sweep)")
    (files,), at = field(sheet, 5, at, rb"files=" + NUMBER)
    table, line, at = lines_of(sheet, 6, at, rb"file", 3, 256)
    (wants,), at = field(sheet, line, at, rb"wants=" + NUMBER)
    asked, end, at = lines_of(sheet, line + 1, at, rb"want", 2, LIMIT)
    if at < len(sheet):
        raise Refused(11, end)
    reads = {}
    for file, count in asked:
        if count:
            reads[file] = reads.get(file, 0) + count
    if len(reads) > 64:
        raise Refused(3)
    if sum(reads.values()) > 1024:
        raise Refused(5)
    changes = []
    if not turn:
        changes.append((3, "turn"))
    if rule == b"sweep":
        changes.append((4, "rule"))
    if int(files) != len(table):
        changes.append((5, "files"))
    if int(wants) != len(reads):
        changes.append((line, "wants"))
    for i, (file, count) in enumerate(asked):
        above = asked[:i]
        if count == 0:
            changes.append((line + 1 + i, "dropped"))
        elif any(other == file and reads for other, reads in above):
            changes.append((line + 1 + i, "added"))
        elif any(other > file for other, _ in above):
            changes.append((line + 1 + i, "moved"))
    new = [b"tape=" + name, b"head=" + head, b"turn=" + (turn or b"12000"), b"rule=least", b"files=%d" % len(table)]
    new += [b"file=%d,%d,%d" % file for file in table] + [b"wants=%d" % len(reads)]
    new += [b"want=%d,%d" % (file, reads[file]) for file in sorted(reads)]
    text = b"\n".join(new) + b"\n"
    if len(text) > LIMIT:
        raise Refused(12)
    return text, "".join(f"change={number},{what}\n" for number, what in changes).encode()


def answer(sheet):
    """What the program must print on standard output and on standard error."""
    try:
        return mended(sheet)
    except Refused as refusal:
        return refusal.args[0], b""


def number(draw):
    """A number below 2 to the 64 of any length, often 0 or the greatest."""
    return draw.choice((0, 1, 9, 10, 2**64 - 1, draw.randrange(10 ** draw.randrange(1, 20))))


def drawn(draw):
    """A sheet with wants in any order, repeated or with count 0, and counts that may not match."""
    name = bytes(draw.choice(b"ABCXYZ0189") for _ in range(draw.randrange(1, 17)))
    files = draw.choice((0, 1, 2, 3, 5, 12))
    wants = draw.choice((0, 1, 2, 3, 5, 8, 13, 40, 70, 90))
    highest = draw.choice((2, 4, 9, 30, 100, 2**64 - 1))
    most = draw.choice((1, 3, 9, 30, 300))
    turn = draw.choice((b"", b"0", b"12000", b"%d" % number(draw)))
    told = draw.choice((files, files, number(draw))), draw.choice((wants, wants, number(draw)))
    asked = [(draw.randrange(highest + 1), draw.choice((0, 1, draw.randrange(most + 1)))) for _ in range(wants)]
    if draw.random() < 0.3:
        asked.sort()
    if draw.random() < 0.2:
        asked = sorted({file: max(1, count) for file, count in asked}.items())
        told = told[0], len(asked)
    if draw.random() < 0.05:
        asked.append((draw.randrange(5), number(draw)))
    lines = [b"tape=" + name, b"head=%d" % number(draw), b"turn=" + turn, draw.choice((b"rule=least", b"rule=least", b"rule=sweep")), b"files=%d" % told[0]]
    lines += [b"file=%d,%d,%d" % (number(draw), number(draw), number(draw)) for _ in range(files)] + [b"wants=%d" % told[1]]
    return b"\n".join(lines + [b"want=%d,%d" % pair for pair in asked]) + b"\n"


def damaged(draw, sheet):
    """The sheet with a byte changed, put in or taken out."""
    at = draw.randrange(len(sheet))
    byte = draw.choice((b"0", b"1", b"=", b",", b"\n", b"\r", b" ", b"t", b"\x00", b"\xff"))
    return sheet[:at] + draw.choice((byte, b"")) + sheet[at + draw.choice((0, 1)):]


def top(files, turn=b"1", said=None):
    return b"tape=VX0041\nhead=60\nturn=%s\nrule=least\nfiles=%d\n" % (turn, files if said is None else said) + b"file=0,1,0\n" * files


def full(turn, size=LIMIT):
    """A sheet of that size, its counts too short by three digits: with 256 file lines, 64 wants and two want lines that are dropped, or not."""
    start = b"tape=ABCDEFGHIJKLMNOP\nhead=60\nturn=%s\nrule=least\nfiles=0\n" % turn
    below = b"wants=0\n" + b"".join(b"want=%d,1\n" % (i + 1) for i in range(64))
    spare = size - len(start) - len(below) - 256 * len(b"file=0,0,0\n")
    files = []
    for _ in range(256):
        longer = [min(19, max(0, spare - 19 * i)) for i in range(3)]
        spare -= sum(longer)
        files.append(b"file=%s,%s,%s\n" % tuple(b"1" * (more + 1) for more in longer))
    return start + b"".join(files) + below


def cases():
    example = contents(os.path.join(programs.ROOT, "crates/cmd_mend/stdin"))
    for path in stored():
        yield contents(path)
    for cut in range(len(example) + 1):
        yield example[:cut]
    for at in range(len(example)):
        for byte in (b"0", b"\n", b","):
            yield example[:at] + byte + example[at + 1:]
    for files in (255, 256, 257, 300):
        for said in (0, files, 2**64 - 1):
            yield top(files, said=said) + b"wants=1\nwant=1,1\n"
    for lines in (b"file=0,1", b"file=0,1,0,0", b"file=0,1,", b"", b"want=1,1", b"file=0,1,0\r"):
        yield top(2) + lines + b"\nwants=1\nwant=1,1\n"
        yield top(2) + b"wants=1\nwant=1,1\n" + lines + b"\n"
    for wants in (63, 64, 65, 66, 80):
        for order in (range(wants), reversed(range(wants)), [7 * i % wants for i in range(wants)]):
            yield top(3) + b"wants=%d\n" % wants + b"".join(b"want=%d,1\n" % (i + 1) for i in order) + b"want=3,1\nwant=900,0\n"
    for counts in ((1024,), (1025,), (1000, 24), (1000, 25), (2**64 - 1, 2**64 - 1), (2**63, 2**63), (1024, 0, 1), (2**64 - 1, 1)):
        for files in ((1, 1, 1), (1, 2, 3), (3, 2, 1)):
            yield top(3) + b"wants=%d\n" % len(counts) + b"".join(b"want=%d,%d\n" % pair for pair in zip(files, counts))
    for turn in (b"", b"1", b"12345"):
        for size in range(LIMIT - 9, LIMIT + 2):
            yield full(turn, size)
    most = (LIMIT - len(top(0)) - len(b"wants=0\n")) // len(b"want=1,0\n")
    yield top(0) + b"wants=0\n" + b"want=1,0\n" * most
    yield top(0) + b"wants=0\n" + b"want=2,1\n" * (most // 2) + b"want=1,0\n" * (most // 2)
    yield top(0) + b"wants=0\n" + b"want=1,1\n" * 1024 + b"want=2,0\n" * 700
    draw = random.Random(11)
    for _ in range(700):
        sheet = drawn(draw)
        yield sheet
        yield sheet
        yield damaged(draw, sheet)
        yield damaged(draw, damaged(draw, sheet))


def compare_mended(start, sheet, text, changes):
    """What has been mended is a sheet that reads, with the reads that were asked for; and it needs no second mending."""
    try:
        name, head, turn, table, asked = read(text)
    except Refused as refusal:
        sys.exit(f"mend.py: the mended sheet of\n{sheet!r}\nis refused by its reader: {refusal.args[0]!r}")
    if asked != sorted(set(asked)) or any(count == 0 for _, count in asked) or len({file for file, _ in asked}) != len(asked):
        sys.exit(f"mend.py: the wants of\n{text!r}\ndo not ascend, repeat or ask for nothing")
    try:
        if described(sheet)[3] == b"least" and described(sheet)[5] == asked and not changes and text != sheet:
            sys.exit(f"mend.py: this sheet was changed without a word:\n{sheet!r}")
    except Refused:
        pass
    again = subprocess.run(start, input=text, capture_output=True)
    if (again.stdout, again.stderr) != (text, b""):
        sys.exit(f"mend.py: mended again, this sheet is not itself:\n{text!r}")


def compare(start):
    seen, words, tried, changed = set(), set(), 0, 0
    for sheet in cases():
        must = answer(sheet)
        ran = subprocess.run(start, input=sheet, capture_output=True)
        tried += 1
        if (ran.stdout, ran.stderr) != must:
            sys.exit(f"mend.py: for the sheet\n{sheet!r}\nthe program printed\n{ran.stdout!r}\n{ran.stderr!r}\nand should have printed\n{must!r}")
        if ran.stdout.startswith(b"refused"):
            seen.add(ran.stdout.split(b"\n")[0])
            continue
        words.update(line.split(b",")[1] for line in ran.stderr.splitlines())
        changed += ran.stdout != sheet
        if tried % 4 == 1 or not ran.stderr:
            compare_mended(start, sheet, ran.stdout, ran.stderr)
    if seen != {b"refused=3", b"refused=5", b"refused=11", b"refused=12"} or len(words) != 7 or changed < 500:
        sys.exit(f"mend.py: the sheets tried met {sorted(seen)} and {sorted(words)}, and {changed} were changed")
    print(f"mend.py: {tried} sheets answered as they must be, {changed} of them mended")


def main():
    long = top(0) + b"wants=0\n" + b"want=2,1\n" * 900 + b"want=1,0\n" * 900
    programs.tried(__doc__, "cmd_mend", compare, [("long sheet with 1,800 want lines", long), ("empty sheet, refused at once", b"")])


if __name__ == "__main__":
    main()
