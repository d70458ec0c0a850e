#!/usr/bin/env python3
"""Puts inputs that a fuzzer has kept to the call and to the outside model of it, and compares every byte.

    tests/fuzz/replay.py CALL PROGRAM FILE...    (answer, check, mend, event, pick: tests/c/caller, linked to the library; ltfs: target/bin/cmd_ltfs)

The models are those of tests/python: plan, check, mend, desk and day, pick_readers, ltfs_readers. Rows are lent as answer_calls.py, desk_calls.py and pick_calls.py lend them, at pages that
cannot be touched. Left out, and counted, are inputs that a model has no answer for: plans of more than eight stops, whose search would take long.
"""
import os
import random
import re
import subprocess
import sys

HERE = os.path.dirname(os.path.abspath(__file__))
sys.path.insert(0, os.path.join(HERE, "..", "python"))

import answer_calls
import check
import day
import desk
import desk_calls
import ltfs_readers
import mend
import pick_calls
import pick_readers
import plan
import sheets
from caller import words
from desk_calls import packed
from runs import Refused, stops

SEPARATOR = b"\x1e"
LINES, FILES = 48, 8
TAPE = [(0, 10, 0), (10, 4, 7), (14, 2, 7), (20, 5, 0), (30, 10, 0), (45, 5, 0)]


def texts_of(text, many):
    return (text.split(SEPARATOR) + [b""] * many)[:many]


def number(text):
    """As the harness reads it: every byte is a digit by its lowest four bits."""
    value = 0
    for byte in text:
        value = (value * 10 + (byte & 15)) % 2**64
    return value


def can_be_searched(sheet):
    """Whether a sheet's run is refused or has at most eight stops."""
    try:
        return len(stops(*sheets.read(sheet)[3:])) <= 8
    except Exception:
        return True


CALLS = {"answer": answer_calls.Calls, "check": answer_calls.Calls, "mend": answer_calls.Calls, "event": desk_calls.Calls, "pick": pick_calls.Calls}


class Replay:
    def __init__(self, call, program):
        self.program, self.left_out, self.met = program, 0, {}
        self.calls = CALLS[call](program, random.Random(8)) if call in CALLS else None

    def one(self, call, text):
        getattr(self, call)(text)
        if self.calls:
            self.calls.flush()

    def with_sheets(self, call, lent, text):
        if text in (None, b"refused=9\nplace=0\n"):
            self.left_out += 1
            return
        for _ in range(3):
            getattr(self.calls, call)(lent, text)

    def answer(self, text):
        sheet = texts_of(text, 1)[0]
        self.with_sheets("answer", sheet, plan.answer(sheet, True))

    def check(self, text):
        sheet, held = texts_of(text, 2)
        self.with_sheets("check", (sheet, held), check.check_answer(sheet, held) if can_be_searched(sheet) else None)

    def mend(self, text):
        sheet = texts_of(text, 1)[0]
        self.with_sheets("mend", sheet, answer_calls.mended(sheet))

    def pick(self, text):
        tape, unit, head, turn, label, index, listed = texts_of(text, 7)
        blocks, head, turn = unit != b"b", *(None if digits == b"" else number(digits) for digits in (head, turn))
        must = pick_readers.answer(tape, pick_readers.by_tree, label, index, listed, blocks, head, turn)
        for _ in range(3):
            self.calls.pick((tape, label, index, listed, blocks, head, turn), must)

    def ltfs(self, text):
        if SEPARATOR in text:
            text = ltfs_readers.framed(*texts_of(text, 3))
        must = ltfs_readers.expected(text, self.met)
        done = subprocess.run([self.program], input=text, capture_output=True)
        if (done.stdout, done.stderr) != must or done.returncode != 0:
            sys.exit(f"replay.py: the program writes {done.stdout[:300]!r} and {done.stderr!r}, must be {must[0][:300]!r} and {must[1]!r}")

    def event(self, text):
        Day(self.calls).go(text)


class Day:
    """A day as the harness calls/event.c has it: records, last numbers and a tape that lines of its own set."""

    def __init__(self, calls):
        self.calls, self.records, self.lasts, self.tape = calls, [desk.EMPTY] * 32, {1: 0, 2: 0}, []

    def is_own(self, line):
        key, sign, rest = line.partition(b"=")
        key += sign
        numbers = ([number(part) for part in rest.split(b"\n")[0].split(b",")[:5]] + [0] * 5)[:5]
        if key == b"tape=" and len(self.tape) < FILES:
            self.tape.append(tuple(numbers[:3]))
        elif key == b"record=":
            self.records[numbers[0] % 32] = tuple(numbers[1:])
        elif key == b"last=":
            self.lasts[1 + numbers[0] % 2] = numbers[1]
        else:
            return False
        return True

    def answered(self, line):
        """Code, text, and the table and last numbers afterwards, by the models."""
        event = re.fullmatch(rb"[^\n]*\n", line) and next((found for found in (pattern.fullmatch(line[:-1]) for pattern in day.EVENTS.values()) if found), None)
        if not event or any(int(value) >= 2**64 for value in event.groups()):
            return 11, b""
        try:
            waiting = desk.offices(32, self.records, self.lasts)
        except desk.Refused as refusal:
            return refusal.args[0] + 256 * refusal.args[1], b""
        model = day.Desk(self.tape)
        model.waiting = {office: [(ticket[0], ticket[3], ticket[1], ticket[2]) for ticket in waiting[office]] for office in (1, 2)}
        model.last = {office: min(last, day.MOST) for office, last in self.lasts.items()}  # no day goes beyond; a table that is handed in may
        before = {office: list(model.waiting[office]) for office in (1, 2)}
        said = model.answer(line[:-1])
        refused = re.match(rb"refused=(\d+)\n(?:place=(\d+)\n)?", said)
        if refused:
            return int(refused[1]) + 256 * int(refused[2] or 0), b""
        self.room = desk_calls.room_left(line, self.tape, before, model.waiting)
        self.after = desk.records_of({office: [(t[0], t[2], t[3], t[1]) for t in model.waiting[office]] for office in (1, 2)}), {office: max(self.lasts[office], model.last[office]) for office in (1, 2)}
        return 0, said

    def one(self, line):
        code, text = self.answered(line)
        before, lasts = packed(self.records), words(self.lasts[1], self.lasts[2])
        if code == 0:
            self.records, self.lasts = self.after
        out, sizes = bytes([9]) * 2677, words(7)
        must = {} if code else {"tickets": packed(self.records), "lasts": words(self.lasts[1], self.lasts[2]), "out": text + out[len(text):], "sizes": words(len(text)), "room": self.room}
        self.calls.hold_event(before, lasts, self.tape, line, out, sizes, code, must)

    def go(self, text):
        lines = re.findall(rb"[^\n]*\n|[^\n]+", text)[:LINES]
        for line in lines:
            if not self.is_own(line):
                self.tape = self.tape or list(TAPE)
                self.one(line)


def main():
    if len(sys.argv) < 3:
        sys.exit("usage: tests/fuzz/replay.py CALL PROGRAM FILE...")
    call, program, files = sys.argv[1], sys.argv[2], sys.argv[3:]
    replay = Replay(call, program)
    for name in files:
        with open(name, "rb") as file:
            text = file.read()
        try:
            replay.one(call, text)
        except SystemExit as difference:
            sys.exit(f"{name}: {difference}")
    if replay.calls:
        replay.calls.close()
    print(f"replay.py: {call}: {len(files)} inputs as the model has them, {replay.left_out} of them left out")


if __name__ == "__main__":
    main()
