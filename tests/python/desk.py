#!/usr/bin/env python3
"""Works out what the program check_desk must print, from the sentences of documents 01 and 02, and compares it with the file that the gate holds
the program to, crates/check_desk/stdout.

usage: tests/python/desk.py            compares
       tests/python/desk.py --print    prints the text instead

The program draws a day of 1,500 filings, withdrawals and boardings of two offices; the same day is drawn here. Each office's tickets are a list of its own, a
plan is the best of all lists, and the judging and the walk are those of runs.py; they share nothing with the crates.
"""
import re
import sys

import programs
import runs

PRIME = 2**31 - 1
EVENTS = 1500
STARTS = (0, 12, 30, 31, 50, 64, 80, 81, 95, 120, 121, 140, 150, 171, 180, 200, 210, 230, 231, 260)
LENGTHS = (10, 18, 1, 15, 14, 9, 1, 14, 20, 1, 19, 7, 20, 9, 13, 10, 20, 1, 20, 40)
AGGREGATES = (0, 0, 0, 7, 7, 0, 0, 0, 0, 2, 2, 2, 0, 0, 0, 0, 4096, 4096, 0, 0)
TAPE = list(zip(STARTS, LENGTHS, AGGREGATES))
EMPTY = (0, 0, 0, 0)
MOST_NUMBER = 65535


class Refused(Exception):
    def __init__(self, number, place=0):
        super().__init__(number, place)


# ---- The waiting table

def offices(places, records, lasts):
    """The tickets of each office in a row of so many places that begins with these records, by the last numbers given; 8 and 26 are raised."""
    if places < 32:
        raise Refused(8)
    waiting = {1: [], 2: []}
    for place, ticket in enumerate(records, 1):
        mine = 1 if place <= 16 else 2
        if ticket == EMPTY:
            continue
        office, file, count, number = ticket
        if office != mine or not 1 <= file <= 4096 or not 1 <= count <= 128 or len(waiting[mine]) != (place - 1) % 16:
            raise Refused(26, place)
        if not max([0] + [before for *_, before in waiting[mine]]) < number <= lasts[mine]:
            raise Refused(26, place)
        waiting[mine].append(ticket)
    return waiting


def records_of(waiting):
    return [ticket for office in (1, 2) for ticket in waiting[office] + [EMPTY] * (16 - len(waiting[office]))]


def file(places, records, lasts, ticket, files):
    """The ticket's number, the last numbers and the records afterwards."""
    waiting = offices(places, records, lasts)
    office, number, count = ticket
    if office not in (1, 2) or not 1 <= number <= min(files, 4096) or not 1 <= count <= 128:
        raise Refused(15)
    if len(waiting[office]) == 16:
        raise Refused(16)
    if lasts[office] >= MOST_NUMBER:
        raise Refused(18)
    given = lasts[office] + 1
    waiting[office].append((*ticket, given))
    return given, {**lasts, office: given}, records_of(waiting)


def withdraw(places, records, lasts, office, number):
    waiting = offices(places, records, lasts)
    if office not in (1, 2) or number not in [given for *_, given in waiting[office]]:
        raise Refused(17)
    waiting[office] = [ticket for ticket in waiting[office] if ticket[3] != number]
    return records_of(waiting)


def shares(waiting):
    """Four from each office; places that one does not need go to the other."""
    taken = {office: min(4, len(waiting[office])) for office in (1, 2)}
    for office in (1, 2):
        taken[office] += min(8 - sum(taken.values()), len(waiting[office]) - taken[office])
    return taken


def plan(head, turn, asked, rows, room):
    """The planner's answer and the list, the times and the legs, for rows of four lengths and so many words of room."""
    try:
        runs.judge(head, turn, TAPE, asked)
    except runs.Refused as refusal:
        raise Refused(*(int(n) for n in re.findall(rb"\d+", refusal.args[0]))) from None
    files = [first for first, _ in runs.stops(TAPE, asked)]
    froms, tos, times, legs = rows
    if min(times, legs) < len(asked) or min(froms, tos) < len(files) - 1:
        raise Refused(8)
    if room < len(files) ** 2 * (sum(count for _, count in asked) + 1):
        raise Refused(9)

    best = runs.least(head, turn, TAPE, asked)
    times, legs, clock, place = runs.walk(head, turn, TAPE, asked, best)
    return (runs.total(head, turn, TAPE, asked, best), clock, place, len(best)), best, [times[n] for n, _ in asked], [legs[n] for n, _ in asked], len(files) ** 2 * (sum(c for _, c in asked) + 1)


def board(places, records, lasts, head, turn, rows, room):
    """The answer's numbers, who left, the wants, the plan, and the records that stay."""
    waiting = offices(places, records, lasts)
    taken = shares(waiting)
    counts = {}
    for office in (1, 2):
        for _, number, count, _ in waiting[office][: taken[office]]:
            counts[number] = counts.get(number, 0) + count
    asked = sorted(counts.items())
    planned = plan(head, turn, asked, rows, room)
    return taken, asked, planned, records_of({office: waiting[office][taken[office]:] for office in (1, 2)})


# ---- The day

def following(number):
    return number % PRIME * 48271 % PRIME


def mixed(before, values):
    for value in values:
        before = (before % PRIME * 31 + value % PRIME) % PRIME
    return before


class Day:
    """The records, the last numbers, the number that the answers have gone into, and how often each refusal was met."""

    def __init__(self):
        self.records, self.lasts, self.sum, self.met = [EMPTY] * 32, {1: 65230, 2: 0}, 0, {}

    def note(self, what):
        self.met[what] = self.met.get(what, 0) + 1

    def take_in(self, numbers, after):
        self.sum = mixed(self.sum, numbers + [word for record in after for word in record])

    def file(self, places, records, ticket, files):
        number, place, given, lasts, after = 0, 0, 0, self.lasts, records
        try:
            given, lasts, after = file(places, records, self.lasts, ticket, files)
        except Refused as refusal:
            number, place = refusal.args
        self.note(f"filing {number}")
        self.take_in([number, place, given, lasts[1], lasts[2]], after)
        return after, lasts

    def withdraw(self, places, records, office, number):
        kind, place, after = 0, 0, records
        try:
            after = withdraw(places, records, self.lasts, office, number)
        except Refused as refusal:
            kind, place = refusal.args
        self.note(f"withdrawal {kind}")
        self.take_in([kind, place, self.lasts[1], self.lasts[2]], after)
        return after, self.lasts

    def board(self, places, records, head, turn, entries, words):
        def row(front, length=8, behind=9):
            return front + [behind] * (length - len(front))

        try:
            taken, asked, (numbers, detours, times, legs, used), after = board(places, records, self.lasts, head, turn, (8, 8, 8, entries), words)
            answer = [0, 0, *numbers, taken[1], taken[2], len(asked)]
        except Refused as refusal:
            answer, asked, detours, times, legs, used, after = [*refusal.args, 0, 0, 0, 0, 0, 0, 0], [], [], [], [], 0, records
        self.note(f"boarding {answer[0]}" if answer[0] else f"boarded {answer[6]} and {answer[7]}")
        wants = row([n for n, _ in asked], behind=0) + row([c for _, c in asked], behind=0)
        rows = row([a for a, _ in detours]) + row([b for _, b in detours]) + row(times) + row(legs)
        self.take_in(answer + [self.lasts[1], self.lasts[2]] + wants + rows + [0 if word < used else 9 for word in (0, 63, 199)], after)
        return after, self.lasts

    def event(self, i):
        a = following(i)
        b = following(a)
        c = following(b)
        places = 32 + c % 3 * 4 - c % 30 // 29 * 9
        office = 1 + (a % 8 + (1, 4, 7)[i // 200 % 3] >= 8)
        ticket = (office + (4 if a // 8 % 16 == 15 else 0), b % 22, b // 22 % 8 + (122 if b // 176 % 16 == 15 else 0))
        files = 5 if a // 128 % 16 == 15 else 20
        head = 300 + b % 50 - (200 if a // 64 % 8 == 7 else 0)
        turn = a % 12 + (2**32 if a // 1024 % 8 == 7 else 0)
        entries = 3 if b // 64 % 8 == 7 else 8
        words = 100 if b // 1024 % 8 == 7 else 65600
        records, damaged = self.records, c // 32 % 20 == 0
        if damaged:
            records = list(records)
            records[a % 32] = (b % 4, b // 4 % 8 * 700, b // 32 % 8 * 20, records[a % 32][3] + (b // 256 % 4 == 3))
        boards = c // 1024 % (4, 16)[i // 100 % 2] == 0
        which = c // 1024 % 4 % 3 if damaged else 0 if boards else 1 if c // 16384 % 6 == 0 else 2
        if which == 0:
            after, lasts = self.board(places, records, head, turn, entries, words)
        elif which == 1:
            office = 1 + a % 2
            number = (self.lasts[office] - b % 24) % 2**64
            after, lasts = self.withdraw(places, records, office + (4 if a // 8 % 16 == 15 else 0), number)
        else:
            after, lasts = self.file(places, records, ticket, files)
        if not damaged:
            self.records, self.lasts = after, lasts


def lines(day, events=EVENTS):
    for first in range(0, events, 50):
        for i in range(1, 51):
            day.event(first + i)
        yield f"{first + 1}: {day.sum}"


def main():
    day = Day()
    programs.recorded(__doc__, "check_desk", "\n".join(lines(day)) + "\n")
    kinds = [f"filing {n}" for n in (0, 8, 15, 16, 18, 26)] + [f"withdrawal {n}" for n in (0, 8, 17, 26)] + [f"boarding {n}" for n in (4, 6, 7, 8, 9, 26)] + [f"boarded {n}" for n in ("4 and 4", "5 and 3", "3 and 5")]
    few = [kind for kind in kinds if day.met.get(kind, 0) < 2]
    if few:
        sys.exit(f"desk.py: too few of {few}: {day.met}")
    print(f"desk.py: {EVENTS} filings, withdrawals and boardings as they must be: " + ", ".join(f"{kind}: {day.met[kind]}" for kind in sorted(day.met)))


if __name__ == "__main__":
    main()
