#!/usr/bin/env python3
"""Compares cmd_desk with a model of a day of two offices that is written from the sentences of documents 01 and 02.

usage: tests/python/day.py [PROGRAM] [--native] [--days N]

Each day is a run sheet and a text of events, most of them drawn. In the model an office's tickets are a list of its own, a plan is the best of all
lists, by the judging and the walk of runs.py, and the text is put together by itself; they share nothing with the crates. One day files and withdraws
until office 1 has been given number 65,535; others go on to every refusal. An example of examples/ is run too.
"""
import os
import random
import re
import subprocess
import sys

import programs
import runs
import sheets

NUMBER = rb"(0|[1-9][0-9]*)"
EVENTS = {name: re.compile(name.encode() + b"=" + b",".join([NUMBER] * numbers)) for name, numbers in (("file", 3), ("withdraw", 2), ("board", 2))}
MOST = 65535


class Desk:
    """The waiting tickets of each office, and the last number given to each."""

    def __init__(self, table):
        self.table, self.waiting, self.last, self.met = table, {1: [], 2: []}, {1: 0, 2: 0}, {}

    def file(self, office, file, count):
        if office not in (1, 2) or not 1 <= file <= len(self.table) or not 1 <= count <= 128:
            raise runs.Refused(15)
        if len(self.waiting[office]) == 16:
            raise runs.Refused(16)
        if self.last[office] == MOST:
            raise runs.Refused(18)
        self.last[office] += 1
        self.waiting[office].append((office, self.last[office], file, count))
        return f"filed={office},{self.last[office]}\n"

    def withdraw(self, office, number):
        left = [ticket for ticket in self.waiting.get(office, []) if ticket[1] != number]
        if office not in (1, 2) or len(left) == len(self.waiting[office]):
            raise runs.Refused(17)
        self.waiting[office] = left
        return f"withdrawn={office},{number}\n"

    def taken(self):
        """Four from each office; places that one does not need go to the other."""
        counts = {office: min(4, len(self.waiting[office])) for office in (1, 2)}
        for office in (1, 2):
            counts[office] += min(8 - sum(counts.values()), len(self.waiting[office]) - counts[office])
        return counts

    def board(self, head, turn):
        taken = self.taken()
        tickets = [ticket for office in (1, 2) for ticket in self.waiting[office][: taken[office]]]
        counts = {}
        for _, _, file, count in tickets:
            counts[file] = counts.get(file, 0) + count
        asked = sorted(counts.items())
        runs.judge(head, turn, self.table, asked)
        best = runs.least(head, turn, self.table, asked)
        times, legs, clock, place = runs.walk(head, turn, self.table, asked, best)
        self.waiting = {office: self.waiting[office][taken[office]:] for office in (1, 2)}
        return (f"boarded={taken[1]},{taken[2]}\nsum={runs.total(head, turn, self.table, asked, best)}\nfinish={clock}\nend={place}\ndetours={len(best)}\n"
                + "".join(f"detour={a},{b}\n" for a, b in best)
                + "".join(f"ticket={office},{number},{file},{count},{times[file]},{legs[file]}\n" for office, number, file, count in tickets))

    def answer(self, line):
        """The answer to an event, or None where it is not as described."""
        for name, pattern in EVENTS.items():
            found = pattern.fullmatch(line)
            if found and all(int(value) < 2**64 for value in found.groups()):
                try:
                    said = getattr(self, name)(*(int(value) for value in found.groups())).encode()
                except runs.Refused as refusal:
                    said = refusal.args[0]
                kind = name + " " + said.split(b"\n")[0].decode().split(",")[0] if said.startswith(b"refused") else name
                self.met[kind] = self.met.get(kind, 0) + 1
                return said
        return None


def model(text, met):
    """What the program must print for these bytes."""
    head, found, rest = text.partition(b"\n")
    if not found or not re.fullmatch(NUMBER, head) or int(head) >= 2**64 or int(head) > len(rest):
        return b"refused=25\nplace=1\n"
    sheet, events = rest[: int(head)], rest[int(head):]
    try:
        table = sheets.read(sheet)[3]
    except runs.Refused as refusal:
        return refusal.args[0]
    desk, said = Desk(table), []
    while events:
        line, found, events = events.partition(b"\n")
        if line.startswith(b"#"):
            desk.met["remark"] = desk.met.get("remark", 0) + 1
            continue
        answer = desk.answer(line) if found else None
        if answer is None:
            said.append(b"refused=11\nplace=%d\n" % (len(said) + 1))
            break
        said.append(answer)
    else:
        said.append(f"waiting={len(desk.waiting[1])},{len(desk.waiting[2])}\n".encode())
    for kind, times in desk.met.items():
        met[kind] = met.get(kind, 0) + times
    return b"".join(said)


# ---- Days

def drawn_table(draw, files):
    """A table of so many files; some lie in aggregates."""
    table, at, aggregate, number = [], 0, 0, 0
    for _ in range(files):
        if draw.random() < 0.5:
            number += 1
            aggregate = number if draw.random() < 0.4 else 0
        at += draw.choice((0, 0, 1, 7))
        length = draw.randrange(1, 30)
        table.append((at, length, aggregate))
        at += length
    return table, at


def sheet_of(table, rule="least", wants=((1, 1),)):
    return ("tape=VX0041\nhead=60\nturn=1\nrule=" + rule + f"\nfiles={len(table)}\n" + "".join("file=%d,%d,%d\n" % entry for entry in table)
            + f"wants={len(wants)}\n" + "".join("want=%d,%d\n" % want for want in wants)).encode()


def framed(sheet, events):
    return b"%d\n" % len(sheet) + sheet + "".join(event + "\n" for event in events).encode()


def drawn_event(draw, files, end, given):
    office = draw.choice((1, 1, 1, 2, 2, 2, 2, 3, 0))
    kind = draw.random()
    if kind < 0.55:
        return f"file={office},{draw.randrange(0, files + 2)},{draw.choice((0, 1, 1, 2, 3, 5, 100, 128, 129))}"
    if kind < 0.75:
        return f"withdraw={office},{draw.randrange(0, given + 2)}"
    return f"board={draw.choice((end, end + 5, 2**40, 2**40 + 1, max(0, end - 9)))},{draw.choice((0, 1, 4, 12000, 2**32, 2**32 + 1))}"


def drawn_day(draw, events):
    table, end = drawn_table(draw, draw.randrange(1, 7))
    if draw.random() < 0.1:
        table[draw.randrange(len(table))] = (0, 0, 0)
    lines = [drawn_event(draw, len(table), end, 1 + i // 2) for i in range(events)]
    for _ in range(draw.choice((0, 0, 1, 5))):
        lines.insert(draw.randrange(len(lines) + 1), draw.choice(("#", "# 2026-11-16T08:00:00Z office1 uid=1001 pid=4711", "#file=1,1,1", "#" + "x" * draw.choice((65, 66, 67, 68, 134, 135, 136, 900)), "##")))
    if draw.random() < 0.3:
        lines.insert(draw.randrange(len(lines)), draw.choice(("", " #", "file=1,1", "file=01,1,1", "board=1,2,3", " file=1,1,1", "withdraw=1,18446744073709551616",
                                                              "file=1,1,1\r", "Board=1,2", "file=1,1,1" + "1" * 90)))
    return framed(sheet_of(table), lines)


def spent_day():
    """Filings and withdrawals up to number 65,535 of office 1, and what comes after it; office 2 goes on."""
    lines = []
    for number in range(1, MOST + 1):
        lines.append("file=1,2,1")
        if number < MOST - 3:
            lines.append(f"withdraw=1,{number}")
    return framed(sheet_of([(0, 10, 0), (10, 4, 0)]), lines + ["file=1,2,1", "withdraw=1,65535", "file=1,2,1", "file=2,1,1", "board=14,0", "file=1,1,1", "withdraw=1,65534"])


def other_days():
    good = sheet_of([(0, 10, 0), (10, 4, 0)])
    yield from (b"", b"12", b"x\n", b"\n", b"01\n", b"5\ntape", b"18446744073709551616\n", b"18446744073709551615\n", b"0\n", b"99999\n" + b"t" * 99999, b"99999\n" + b"t" * 99998)
    yield framed(good, [])
    yield framed(good, ["file=1,1,1"])[:-1]
    yield framed(sheet_of([(0, 10, 0)], rule="sweep"), ["file=1,1,1"])
    yield framed(good[:-2], ["file=1,1,1"])
    yield framed(sheet_of([]), ["file=1,1,1", "board=0,0", "board=5,1"])
    yield framed(sheet_of([(0, 10, 0), (5, 10, 0)]), ["file=1,1,1", "file=2,2,1", "board=60,1", "withdraw=1,1", "withdraw=2,1", "board=60,1"])
    # A journal, and remarks of every length, the last without its LF.
    yield framed(good, ["# begun", "file=1,1,1", "#", "# " + "." * 5000, "board=14,1", "#" + "." * 67, "#" + "." * 135, "nothing", "file=1,1,1"])
    yield framed(good, ["file=1,1,1", "# cut off"])[:-1]
    yield framed(good, ["#" + "." * 66, "#" + "." * 67])[:-1]
    # Sixteen of an office, all they ask for: the most room.
    eight = [(10 * i, 10, 0) for i in range(8)]
    yield framed(sheet_of(eight), [f"file={1 + i // 16},{1 + i % 8},128" for i in range(32)] + ["file=1,1,1", "file=2,1,1"] + ["board=80,1"] * 6)


def main():
    reader = programs.arguments(__doc__.split("\n")[0], "cmd_desk")
    reader.add_argument("--days", type=int, default=300, metavar="N", help="drawn days (300)")
    words = reader.parse_args()
    start = programs.started(words)
    draw = random.Random(41)
    met, days = {}, 0

    def hold(text):
        nonlocal days
        done = subprocess.run(start, input=text, stdout=subprocess.PIPE, timeout=600)
        must = model(text, met)
        if done.returncode != 0 or done.stdout != must:
            with open("day.wrong", "wb") as handle:
                handle.write(text)
            sys.exit(f"day.py: the day in day.wrong: printed {done.stdout[-600:]!r}, must be {must[-600:]!r}, status {done.returncode}")
        days += 1

    for text in other_days():
        hold(text)
    for i in range(words.days):
        hold(drawn_day(draw, 10 + i % 60))
    hold(spent_day())
    with open(os.path.join(programs.ROOT, "examples/day.run"), "rb") as sheet, open(os.path.join(programs.ROOT, "examples/day.events"), "rb") as events, \
            open(os.path.join(programs.ROOT, "examples/day.answers"), "rb") as answers:
        sheet, events, answers = sheet.read(), events.read(), answers.read()
    if model(b"%d\n" % len(sheet) + sheet + events, {}) != answers:
        sys.exit("day.py: examples/day.answers is not what the model answers")
    hold(b"%d\n" % len(sheet) + sheet + events)
    few = [kind for kind in ["file", "withdraw", "board", "remark"] + [f"file refused={n}" for n in (15, 16, 18)] + ["withdraw refused=17"] + [f"board refused={n}" for n in (2, 6, 7)]
           if met.get(kind, 0) < 2]
    if few:
        sys.exit(f"day.py: too few of {few}: {met}")
    print(f"day.py: {days} days as they must be: " + ", ".join(f"{kind}: {met[kind]}" for kind in sorted(met)))


if __name__ == "__main__":
    main()
