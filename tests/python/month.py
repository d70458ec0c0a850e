#!/usr/bin/env python3
"""Runs the program behind `./violstream month` on whole and damaged inputs and compares every byte it prints with a page worked out here.

usage: tests/python/month.py [--native] [PROGRAM]           (default target/bin/cmd_month)
       tests/python/month.py [--native] --time [PROGRAM]    1,000 full sheets: seconds, and the most memory that the program had

The program is for x86-64; on another processor it is started as tools/machine.sh says.

The division of the input stands here; the reader (sheets.py), the judging, the walk and the search over all lists (runs.py) share nothing with
the program.
"""
import os
import random
import re
import subprocess
import sys
import tempfile
import time

import programs
from plan import accepted, aggregate_example, contents, drawn, full_sheet, sheet_of
from runs import Refused, least, total, walk

KNOWN = {}


def outcome(sheet):
    """A refusal's number, or reads, sum, what the plan saves, and the longest time with its file and its tape."""
    if sheet not in KNOWN:
        KNOWN[sheet] = worked_out(sheet)
    return KNOWN[sheet]


def worked_out(sheet):
    try:
        name, head, turn, table, asked = accepted(sheet)
    except Refused as refusal:
        return int(re.match(rb"refused=(\d+)", refusal.args[0]).group(1))
    best = least(head, turn, table, asked)
    times = walk(head, turn, table, asked, best)[0]
    longest = (0, b"", 0)
    for number, _ in asked:
        if times[number] > longest[0]:
            longest = times[number], name, number
    planned, swept = (total(head, turn, table, asked, detours) for detours in (best, []))
    return sum(count for _, count in asked), planned, swept - planned, longest


def divided(text):
    """The sheets of an input, and whether all of it was good."""
    sheets = []
    while text:
        line = re.match(rb"(0|[1-9][0-9]*)\n", text)
        if len(sheets) == 1000 or not line or int(line.group(1)) >= 2**64:
            return sheets, False
        count, text = int(line.group(1)), text[line.end():]
        if len(text) < count:
            return sheets, False
        sheets.append(text[:count])
        text = text[count:]
    return sheets, True


def page(text):
    sheets, good = divided(text)
    found = [outcome(sheet) for sheet in sheets]
    runs = [o for o in found if not isinstance(o, int)]
    numbers = [o for o in found if isinstance(o, int)]
    reads, total, saved = (sum(run[i] for run in runs) for i in range(3))
    longest = (0, b"", 0)
    for run in runs:
        if run[3][0] > longest[0]:
            longest = run[3]
    kinds = sorted(set(numbers))
    lines = [b"accepted=%d" % len(runs), b"refusals=%d" % len(kinds)]
    lines += [b"refusal=%d,%d" % (number, numbers.count(number)) for number in kinds]
    lines += [b"reads=%d" % reads, b"sum=%d" % total, b"mean=%d,%d" % (divmod(total, reads) if reads else (0, 0)), b"longest=%d,%s,%d" % longest,
              b"saved=%d" % saved]
    if not good:
        lines += [b"refused=25", b"place=%d" % (len(sheets) + 1)]
    return b"\n".join(lines) + b"\n"


def framed(*sheets):
    return b"".join(b"%d\n" % len(sheet) + sheet for sheet in sheets)


def a_sheet(name, wants=b"want=1,1\n", turn=b"0", head=20):
    return b"tape=%s\nhead=%d\nturn=%s\nrule=least\nfiles=2\nfile=0,10,0\nfile=10,10,0\nwants=%d\n" % (name, head, turn, wants.count(b"\n")) + wants


def refused():
    """A sheet for each refusal of the program."""
    example = contents(os.path.join(programs.ROOT, "examples/VX0041.run"))
    yield example + b" " * 16384
    yield b""
    yield b"x"
    yield example.replace(b"rule=least", b"rule=sweep")
    for old, new in ((b"file=10,4,0", b"file=9,4,0"), (b"want=2,3", b"want=1,3"), (b"want=2,3", b"want=2,1023"), (b"turn=1", b"turn=4294967297"), (b"head=60", b"head=49")):
        yield example.replace(old, new)
    yield sheet_of(10, 51)


def cases():
    example = contents(os.path.join(programs.ROOT, "examples/VX0041.run"))
    none, one, two = a_sheet(b"NONE", b""), a_sheet(b"ONE"), a_sheet(b"TWO")
    yield b""
    yield framed(example)
    for sheet in refused():
        yield framed(sheet)
        yield framed(one, sheet, example)
    every = list(refused())
    yield framed(example, *every)
    yield framed(*(every + every[:4] + [example]))
    # The first of those that share the longest time, by the order of the sheets and by file number; runs without reads.
    yield framed(none)
    yield framed(none, none, one)
    yield framed(one, two)
    yield framed(two, one)
    yield framed(one, none, two, a_sheet(b"FAR", head=2**40))
    yield framed(a_sheet(b"FAR", head=2**40), one)
    yield framed(aggregate_example(b"7"), aggregate_example(b"0"))
    yield framed(a_sheet(b"BOTH", b"want=1,1\nwant=2,2\n"), a_sheet(b"EMPTYPRICE", turn=b""))
    members = b"tape=AGG\nhead=90\nturn=2\nrule=least\nfiles=3\nfile=0,10,5\nfile=10,4,5\nfile=20,30,5\nwants=3\nwant=1,1\nwant=2,3\nwant=3,1\n"
    yield framed(members, members.replace(b"AGG", b"AGH"))
    # Every kind of 25: the count, the LF behind it, and what there is of the sheet; first, and behind a sheet.
    for before in (b"", framed(one), framed(none, b"x", two)):
        for bad in (b"00\n", b"01\n" + one, b"+1\nx", b"-1\n", b"1\r\nx", b"\n", b"\n" + framed(one), b" 1\nx", b"1 \nx", b"0x1\nx", b"1,0\n", b"x", b"1",
                    b"%d" % len(one), b"18446744073709551616\n", b"99999999999999999999\n", b"9" * 21 + b"\n", b"1" + b"0" * 40 + b"\n" + one,
                    b"18446744073709551615\n", b"18446744073709551615\n" + one, b"1\n", b"2\nx", b"16385\n" + b"x" * 16384, b"16386\n" + b"x" * 16385,
                    b"200000\n" + b"x" * 199999, b"\x00\n", b"\xff", b"1\x00\n", b"tape=A\n", b"0" * 30, b"12345678901234567890", b"0"):
            yield before + bad
        yield before + b"0\n"
        yield before + b"0\n" + framed(example)
        for extra in (-2, -1, 1, 2):
            yield before + b"%d\n" % (len(one) + extra) + one
    for cut in range(len(framed(one, two))):
        yield framed(one, two)[:cut]
    # Long sheets that are all there, and reading on behind them.
    for size in (16384, 16385, 16386, 81920, 81921, 300000):
        yield framed(b"x" * size, example)
        yield framed(example, example + b" " * (size - len(example)), one)
    yield framed(*[one] * 999)
    yield framed(*[one] * 1000)
    yield framed(*[one] * 999 + [b"x"])
    for more in (b"x", b"\n", framed(two), b"0\n", b"00\n"):
        yield framed(*[one] * 1000) + more
    yield framed(*[one] * 1500)
    draw = random.Random(13)
    pool = [drawn(draw, wants, draw.randrange(wants, 51)) for wants in (1, 2, 3, 4, 5, 6, 7) for _ in range(4)] + every + [none, one, two, example]
    for _ in range(60):
        yield framed(*(draw.choice(pool) for _ in range(draw.randrange(1, 30))))


def compare(start):
    seen, tried = set(), 0
    for text in cases():
        must = page(text)
        out = subprocess.run(start, input=text, capture_output=True).stdout
        tried += 1
        if out != must:
            shown = text if len(text) < 3000 else text[:3000] + b".."
            sys.exit(f"month.py: for the input\n{shown!r}\nthe program printed\n{out!r}\nand should have printed\n{must!r}")
        seen.update(re.findall(rb"refus(?:al|ed)=(\d+)", out))
    missing = {b"%d" % n for n in (2, 4, 5, 6, 7, 9, 11, 12, 19, 25)} - seen
    if missing:
        sys.exit(f"month.py: no input met {sorted(missing)}")
    print(f"month.py: {tried} inputs answered as they must be, every refusal among them, {len(KNOWN)} different sheets")


def timed(start, sheets, text):
    """Seconds, and the most memory that the program's own process had, as the system counts it (an emulator's is in it)."""
    most = 0
    with tempfile.TemporaryFile() as stored:
        stored.write(text)
        stored.seek(0)
        began = time.perf_counter()
        with subprocess.Popen(start, stdin=stored, stdout=subprocess.PIPE) as running:
            while running.poll() is None:
                with open(f"/proc/{running.pid}/status", encoding="ascii") as status:
                    most = max([most] + [int(line.split()[1]) for line in status if line.startswith("VmHWM")])
                time.sleep(0.002)
            took = time.perf_counter() - began
            out = running.stdout.read()
    if not out.startswith(b"accepted=%d\n" % sheets):
        sys.exit(f"month.py: the program printed {out!r}")
    return f"{took:.2f} s, {most / 1024:.1f} MiB of memory at most"


def main():
    words = programs.arguments(__doc__.split("\n")[0], "cmd_month").parse_args()
    start = programs.started(words)
    if not words.time:
        compare(start)
        return
    programs.say_if_emulated(start)
    sheet = full_sheet()
    for sheets in (1, 10, 100, 1000):
        print(f"{sheets} full sheets ({len(framed(*[sheet] * sheets))} bytes): {timed(start, sheets, framed(*[sheet] * sheets))}")


if __name__ == "__main__":
    main()
