#!/usr/bin/env python3
"""Runs the programs behind `./violstream price` and `./violstream check` on whole and damaged sheets and lists, and compares every byte that they
print with an answer worked out here.

usage: tests/python/check.py [--native] [PRICE CHECK]           (default target/bin/cmd_price and target/bin/cmd_check)

The programs are for x86-64; on another processor they are started as tools/machine.sh says.

The readers of lists and plan sheets stand here; the reader of run sheets (sheets.py), the judging, the walk and the search over all well-formed lists
(runs.py) share nothing with the programs. The head stands anywhere; over 16 wants it stands so far left that few lists are well formed.
"""
import argparse
import functools
import itertools
import os
import random
import re
import subprocess
import sys

import plan
import programs
from runs import Refused, judge, lists, order, own_stop, stops, walk
from sheets import read

NUMBER = rb"(0|[1-9][0-9]*)"


def fits(line, form):
    """The numbers of a line that has a form, or nothing where it has not."""
    found = line is not None and re.fullmatch(form.replace(b"N", NUMBER), line)
    if not found or any(int(number) >= 2**64 for number in found.groups()):
        return None
    return [int(number) for number in found.groups()]


def lines_of(text):
    """The lines of a text; a last one without LF stands there as None, which has no form."""
    if len(text) > 16384:
        raise Refused(12)
    parts = text.split(b"\n")
    return parts[:-1] + ([None] if parts[-1] else [])


def to_end(lines, first, form, most):
    """The numbers of the lines from one on, each of which must have a form."""
    numbers = []
    for i in range(first, len(lines)):
        found = fits(lines[i], form)
        if i - first >= most or found is None:
            raise Refused(11, i + 1)
        numbers.append(tuple(found))
    return numbers


def read_plan(text):
    """The list of a plan sheet."""
    lines = lines_of(text)
    lines += [None] * max(0, 6 - len(lines))
    if lines[0] is None or not re.fullmatch(rb"tape=[A-Z0-9]{1,16}", lines[0]):
        raise Refused(11, 1)
    for i, key in enumerate((b"sum", b"reads", b"finish", b"end", b"detours"), 1):
        found = fits(lines[i], key + b"=N")
        if found is None or key == b"detours" and found[0] > 63:
            raise Refused(11, i + 1)
    detours = []
    for i in range(6, 6 + found[0]):
        pair = fits(lines[i] if i < len(lines) else None, b"detour=N,N")
        if pair is None:
            raise Refused(11, i + 1)
        detours.append(tuple(pair))
    to_end(lines, 6 + found[0], b"time=N,N,N", 64)
    return detours


def read_list(text):
    return read_plan(text) if len(text) <= 16384 and text.startswith(b"tape=") else to_end(lines_of(text), 0, b"detour=N,N", 63)


def named(run):
    """The first file of each thing wanted, and that of the head's own stop."""
    files = [first for first, _ in stops(run[3], run[4])]
    return files, own_stop(run[1], run[3], files)


def first_bad(run, detours):
    """The first entry that breaks a rule by itself, starts right of the head's own stop among these, or against an earlier one; 0 where none does."""
    files, own = named(run)
    for i, (a, b) in enumerate(detours):
        if a not in files or b not in files or a > b or a == files[0] or a > own:
            return i + 1
        if not all(a < c and (b < c or d < b) for c, d in detours[:i]):
            return i + 1
    return 0


def text_of(run, detours):
    """The plan sheet of a list, and its sum."""
    name, head, turn, table, asked = run
    times, legs, clock, place = walk(head, turn, table, asked, detours)
    total = sum(count * times[number] for number, count in asked)
    lines = [b"tape=" + name, b"sum=%d" % total, b"reads=%d" % sum(count for _, count in asked), b"finish=%d" % clock, b"end=%d" % place, b"detours=%d" % len(detours)]
    lines += [b"detour=%d,%d" % d for d in detours] + [b"time=%d,%d,%d" % (n, times[n], legs[n]) for n, _ in asked]
    return b"\n".join(lines) + b"\n", total


@functools.lru_cache(maxsize=None)
def least(sheet):
    """The least list of a run sheet, by a search over all."""
    run = read(sheet)
    files, own = named(run)
    return min(lists(files, own), key=lambda d: (text_of(run, d)[1], order(files, d)))


def price_answer(sheet, text):
    try:
        run = read(sheet)
        detours = read_list(text)
        judge(*run[1:], anywhere=True)
        bad = first_bad(run, detours)
        if bad:
            raise Refused(10, bad)
    except Refused as refusal:
        return refusal.args[0]
    return text_of(run, detours)[0]


def check_answer(sheet, text):
    try:
        run = read(sheet)
        detours = read_plan(text)
        judge(*run[1:], anywhere=True)
        if len(named(run)[0]) ** 2 * (sum(count for _, count in run[4]) + 1) > 655360:
            raise Refused(9)
    except Refused as refusal:
        return refusal.args[0]
    bad = first_bad(run, detours)
    if bad:
        return b"formed=no,%d\n" % bad
    must, total = text_of(run, detours)
    best = least(sheet)
    answer, more = b"formed=yes\n", b""
    if text == must:
        answer += b"walk=yes\n"
    else:
        pairs = itertools.zip_longest(text.split(b"\n")[:-1], must.split(b"\n")[:-1], fillvalue=b"")
        line, (found, expected) = next((i, pair) for i, pair in enumerate(pairs, 1) if pair[0] != pair[1])
        answer += b"walk=no,%d\n" % line
        more = b"found=" + found + b"\nexpected=" + expected + b"\n"
    answer += b"least=yes\n" if detours == best else b"least=no,%d\n" % (total - text_of(run, best)[1])
    return answer + more


def framed(sheet, text):
    return b"%d\n" % len(sheet) + sheet + text


def damaged(text):
    """A text with a line gone, twice, swapped with the next or changed, and cut off anywhere."""
    lines = text.split(b"\n")[:-1]
    whole = lambda parts: b"".join(part + b"\n" for part in parts)
    for i, line in enumerate(lines):
        yield whole(lines[:i] + lines[i + 1:])
        yield whole(lines[:i] + [line, line] + lines[i + 1:])
        yield whole(lines[:i] + lines[i + 1:i + 2] + [line] + lines[i + 2:])
        for found in re.finditer(rb"[0-9]+", line):
            number = int(found.group())
            for other in (number + 1, number - 1, 0, 64, 2**64 - 1, 2**64):
                if other >= 0:
                    yield whole(lines[:i] + [line[:found.start()] + b"%d" % other + line[found.end():]] + lines[i + 1:])
            yield whole(lines[:i] + [line[:found.start()] + b"0" + line[found.start():]] + lines[i + 1:])
        for other in (line + b" ", line + b"\r", line + b",1", line.lower(), line.replace(b"=", b"=="), b""):
            yield whole(lines[:i] + [other] + lines[i + 1:])
    for cut in range(0, len(text), 3):
        yield text[:cut]
    for more in (b"\n", b"x", b"time=1,1,1\n", b"detour=2,2\n", b"\x00", b" " * 16384):
        yield text + more


def listed(detours):
    return b"".join(b"detour=%d,%d\n" % d for d in detours)


def moved(sheet, head):
    """A sheet with its head at another place."""
    before, behind = sheet.split(b"\nhead=", 1)
    return before + b"\nhead=%d\n" % head + behind.split(b"\n", 1)[1]


def runs():
    """Run sheets with few enough wants for the search, the head right of everything wanted, at the start, and between."""
    example = plan.contents(os.path.join(programs.ROOT, "examples/VX0041.run"))
    draw = random.Random(7)
    sheets = [example, plan.aggregate_example(b"7"),
              # Two lists of one sum: the empty list is the least rule's answer.
              b"tape=TIE\nhead=20\nturn=0\nrule=least\nfiles=2\nfile=0,10,0\nfile=10,10,0\nwants=2\nwant=1,1\nwant=2,1\n",
              b"tape=NONE\nhead=60\nturn=1\nrule=least\nfiles=1\nfile=0,1,0\nwants=0\n"]
    sheets += [plan.drawn(draw, wants, draw.randrange(wants, 30)) for wants in (1, 2, 3, 4, 5, 6)]
    yield from sheets
    for sheet in sheets:
        ends = [start + length for start, length, _ in read(sheet)[3]]
        for head in {0, draw.choice(ends), draw.randrange(max(ends) + 1)}:
            yield moved(sheet, head)


def large_runs():
    """Over 16 wants, the head left of all that is wanted or right of the first few: at most two stops are left for a detour's start."""
    draw = random.Random(9)
    for sheet in (plan.sheet_of(20, 30), plan.sheet_of(22, 1024), plan.drawn(draw, 24, 40)):
        run = read(sheet)
        starts = [run[3][first - 1][0] for first in named(run)[0]]
        for head in (0, starts[1], starts[2] - 1, starts[2]):
            yield moved(sheet, head)
    yield moved(plan.sheet_of(64, 159), 0)


def cases_to_price():
    draw = random.Random(3)
    for sheet in itertools.chain(runs(), large_runs()):
        run = read(sheet)
        files, own = named(run)
        formed = list(lists(files, own))
        for detours in draw.sample(formed, min(len(formed), 25)):
            yield sheet, listed(detours)
            yield sheet, text_of(run, detours)[0]
        for _ in range(20):
            yield sheet, listed([(draw.randrange(8), draw.randrange(8)) for _ in range(draw.randrange(4))])
        yield sheet, listed([(file, file) for file in reversed(files[1:])])
    example = next(runs())
    for text in damaged(text_of(read(example), [(3, 3), (2, 2)])[0]):
        yield example, text
    for text in damaged(listed([(3, 3), (2, 2)])):
        yield example, text
    for n in (62, 63, 64, 65, 1489, 1490):
        yield example, listed([(2, 2)] * n)
    for sheet in (example[:50], example.replace(b"least", b"sweep"), moved(example, 49), moved(example, 2**40), moved(example, 2**40 + 1), example + b" " * 16384):
        for text in (b"", b"x", listed([(2, 2)]), listed([(9, 9)]), b"x" * 16385):
            yield sheet, text
    yield plan.sheet_of(10, 51), b""
    yield plan.sheet_of(64, 1024), b""


def check_cases():
    draw = random.Random(5)
    for sheet in runs():
        run = read(sheet)
        formed = list(lists(*named(run)))
        yield sheet, text_of(run, least(sheet))[0]
        for detours in draw.sample(formed, min(len(formed), 25)):
            yield sheet, text_of(run, detours)[0]
            yield sheet, draw.choice(list(damaged(text_of(run, detours)[0])))
        texts = list(damaged(text_of(run, draw.choice(formed))[0]))
        for text in draw.sample(texts, min(len(texts), 150)):
            yield sheet, text
    for sheet in large_runs():
        run = read(sheet)
        formed = list(lists(*named(run)))
        for detours in [least(sheet)] + draw.sample(formed, min(len(formed), 6)):
            yield sheet, text_of(run, detours)[0]
            yield sheet, draw.choice(list(damaged(text_of(run, detours)[0])))
    example = next(runs())
    for text in damaged(text_of(read(example), least(example))[0]):
        yield example, text
    whole = text_of(read(example), least(example))[0]
    for sheet in (example[:50], example.replace(b"least", b"sweep"), moved(example, 49), moved(example, 2**40), moved(example, 2**40 + 1), example + b" " * 16384, plan.sheet_of(64, 160)):
        for text in (b"", whole, whole + b"x", whole + b"x" * 16384):
            yield sheet, text
    for number in (0, 1, 62, 63, 64):
        yield example, b"tape=A\nsum=0\nreads=0\nfinish=0\nend=0\ndetours=%d\n" % number + b"detour=1,1\n" * number + b"time=0,0,0\n" * 65


def refused_frames(example):
    """Inputs that are not a number of bytes and so many bytes."""
    rest = example + b"detour=2,2\n"
    for line in (b"", b"\n", b"x\n", b"-1\n", b"01\n", b" 5\n", b"%d\n" % (len(rest) + 1), b"18446744073709551616\n"):
        yield line + rest
    yield b"0"
    yield b""


def ask(start, text):
    return subprocess.run(start, input=text, capture_output=True).stdout


def compare(what, start, cases, answer):
    seen, tried = {}, 0
    for sheet, text in cases:
        must = answer(sheet, text)
        out = ask(start, framed(sheet, text))
        tried += 1
        if out != must:
            sys.exit(f"check.py: {what}: for the run sheet\n{sheet!r}\nand\n{text!r}\nthe program printed\n{out!r}\nand should have printed\n{must!r}")
        for line in out.split(b"\n")[:3]:
            key = line if line.startswith(b"refused=") else re.sub(rb"(=no,0)?([=,][1-9A-Z].*)?", rb"\1", line)
            seen[key] = seen.get(key, 0) + 1
    for frame in refused_frames(plan.contents(os.path.join(programs.ROOT, "examples/VX0041.run"))):
        if ask(start, frame) != b"refused=25\nplace=1\n":
            sys.exit(f"check.py: {what}: for the input\n{frame!r}\nthe program printed {ask(start, frame)!r}")
    return tried, seen


def main():
    reader = argparse.ArgumentParser(description=__doc__.split("\n")[0])
    reader.add_argument("programs", metavar="PROGRAM", nargs="*")
    reader.add_argument("--native", action="store_true", help="the programs were made by tools/native.sh, for this machine's own processor")
    words = reader.parse_args()
    paths = words.programs or [os.path.join(programs.ROOT, "target/bin", crate) for crate in ("cmd_price", "cmd_check")]
    starts = [programs.started(argparse.Namespace(program=path, native=words.native)) for path in paths]
    priced, seen = compare("price", starts[0], cases_to_price(), price_answer)
    missing = {b"refused=%d" % n for n in (7, 10, 11, 12, 19)} - set(seen)
    checked, told = compare("check", starts[1], check_cases(), check_answer)
    missing |= {b"refused=%d" % n for n in (7, 9, 11, 12, 19)} - set(told)
    missing |= {key for key in (b"formed=yes", b"formed=no", b"walk=yes", b"walk=no", b"least=yes", b"least=no", b"least=no,0") if key not in told}
    if missing:
        sys.exit(f"check.py: no input met {sorted(missing)}")
    print(f"check.py: {priced} lists priced and {checked} plan sheets checked as they must be, every refusal and every verdict among them")


if __name__ == "__main__":
    main()
