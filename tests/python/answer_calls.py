#!/usr/bin/env python3
"""Compares the library's calls that take sheets (violstream_answer, violstream_buys, violstream_check, violstream_mend) with the models of plan.py, buys.py, check.py and mend.py.

usage: tests/python/answer_calls.py CALLER [--calls N] [--long]    (the program tests/c/caller, linked to the library)

The sheets are those that these tests try, each answered once by its model and lent in N calls of each kind (6,000; --long: 100,000), every sheet at least once. Rows are of
just the length that an answer needs, longer, one byte or one word shorter, or empty. After each call the code is looked at, every row, and what stands around the rows (caller.py).
"""
import argparse
import random
import re

import buys
import check
import mend
import plan
from caller import Caller, words
from runs import Refused, stops
from sheets import read

MARK, NO_ROOM = b"\7", b"refused=9\nplace=0\n"


def refusal_in(text):
    """The code of a refusal's two lines; None where it is no refusal."""
    found = re.fullmatch(rb"refused=(\d+)\nplace=(\d+)\n", text)
    return found and int(found[1]) + 256 * int(found[2])


def room_of(sheet):
    """The words that the plan of a run sheet takes."""
    table, asked = read(sheet)[3:]
    return len(stops(table, asked)) ** 2 * (sum(count for _, count in asked) + 1)


class Calls(Caller):
    def __init__(self, program, draw):
        super().__init__("answer_calls.py", program, draw)

    def length(self, text):
        return max(0, len(text) + self.draw.choice((0, 0, 0, 1, 7, 300, -1, -len(text))))

    def with_room(self, name, sheets, sheet, text):
        """One text, one length and the room: violstream_answer, violstream_buys and violstream_check. `sheets` are those that the call reads."""
        draw, code = self.draw, refusal_in(text)
        if code is None:
            need = room_of(sheet)
            room = MARK * (8 * max(0, need + draw.choice((0, 0, 0, 1, 9, -1))))
            out, sizes = MARK * self.length(text), words(*[5] * draw.choice((1, 1, 2, 1, 0)))
            if len(room) < 8 * need:
                code = 9
            elif len(out) < len(text) or not sizes:
                code = 8
            else:
                code = 0
        else:
            need, room, out, sizes = 0, MARK * (8 * draw.choice((0, 3, 64))), MARK * draw.choice((0, 1, 40)), words(*[5] * draw.choice((0, 1, 2)))
        must = {}
        if code in (0, 8) and (code == 0 or refusal_in(text) is None):
            must["room"] = bytes(8 * need) + room[8 * need:]
        if code == 0:
            must["out"], must["sizes"] = text + out[len(text):], words(len(text)) + sizes[8:]
        self.hold(name, sheets + [self.lend("out", out, 1), self.lend("room", room), self.lend("sizes", sizes)], code, must)

    def answer(self, sheet, text):
        self.with_room("answer", [self.lend("sheet", sheet, 1)], sheet, text)

    def buys(self, sheet, text):
        self.with_room("buys", [self.lend("sheet", sheet, 1)], sheet, text)

    def check(self, sheets, text):
        self.with_room("check", [self.lend("sheet", sheets[0], 1), self.lend("plan", sheets[1], 1)], sheets[0], text)

    def mend(self, sheet, texts):
        draw = self.draw
        sizes = words(*[5] * draw.choice((2, 2, 2, 2, 3, 1, 0)))
        if isinstance(texts, Refused):
            out, changes = MARK * draw.choice((0, 1, 40)), MARK * draw.choice((0, 1, 40))
            code, must = refusal_in(texts.args[0]), {}
        else:
            out, changes = (MARK * self.length(text) for text in texts)
            fits = len(out) >= len(texts[0]) and len(changes) >= len(texts[1]) and len(sizes) >= 16
            code, must = (0 if fits else 8), {}
            if fits:
                must = {"out": texts[0] + out[len(texts[0]):], "changes": texts[1] + changes[len(texts[1]):], "sizes": words(*map(len, texts)) + sizes[16:]}
        texts = [self.lend(name, contents, 1) for name, contents in (("sheet", sheet), ("out", out), ("changes", changes))]
        self.hold("mend", [*texts, self.lend("sizes", sizes)], code, must)


def mended(sheet):
    try:
        return mend.mended(sheet)
    except Refused as refusal:
        return refusal


def answered(sheets, model):
    """Each sheet with its text, by a model; without those that this has no text for, or that the program behind it has no room for."""
    return (case for case in ((sheet, model(sheet)) for sheet in sheets) if case[1] not in (None, NO_ROOM))


def try_all(call, cases, many, draw):
    """Every case once, and then drawn ones, up to so many calls; most of these are answered. Gives the cases."""
    tried = []
    for case in cases:
        call(*case)
        tried.append(case)
    good = [case for case in tried if not isinstance(case[1], Refused) and (isinstance(case[1], tuple) or refusal_in(case[1]) is None)]
    for _ in range(many - len(tried)):
        call(*draw.choice(good if draw.random() < 0.7 else tried))
    return tried


def main():
    reader = argparse.ArgumentParser(description=__doc__.split("\n")[0])
    reader.add_argument("caller")
    reader.add_argument("--calls", type=int, default=6000, metavar="N")
    reader.add_argument("--long", action="store_true")
    given = reader.parse_args()
    draw, many = random.Random(4), 100000 if given.long else given.calls
    calls = Calls(given.caller, draw)
    planned = try_all(calls.answer, answered(plan.cases_anywhere(), lambda sheet: plan.answer(sheet, True)), many, draw)
    try_all(calls.buys, ((sheet, buys.answer(sheet, True)[0]) for sheet, _ in planned), many, draw)
    try_all(calls.check, answered(check.check_cases(), lambda pair: check.check_answer(*pair)), many, draw)
    try_all(calls.mend, ((sheet, mended(sheet)) for sheet in mend.cases()), many, draw)
    met = {"answer": (0, 2, 4, 7, 8, 9, 11, 12, 19), "buys": (0, 2, 4, 7, 8, 9, 11, 12, 19), "check": (0, 7, 8, 9, 11, 12, 19), "mend": (0, 3, 5, 8, 11, 12)}
    calls.finish({(name, number) for name, numbers in met.items() for number in numbers})


if __name__ == "__main__":
    main()
