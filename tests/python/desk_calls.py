#!/usr/bin/env python3
"""Compares the library's calls for tickets with the models of desk.py and day.py, which share nothing with the crates.

usage: tests/python/desk_calls.py CALLER [--calls N] [--long]    (the program tests/c/caller, linked to the library)

Filing, withdrawing and boarding are drawn on rows of records, damaged ones and short ones among them; events and who waits on days that go on from call to
call. After each call every row is looked at, the code, and what stands around the rows (caller.py). N is how many filings and withdrawals are made (10,000); of boardings,
events and texts of who waits a tenth as many. --long makes 100,000 of each kind.
"""
import argparse
import random

import day
import desk
import runs
from caller import Caller, words

ROOM = bytes([9]) * (65600 * 8)


def packed(records):
    return b"".join(words(*record) for record in records)


def records_at(model):
    """The waiting table of a model of a day, as records."""
    return packed(desk.records_of({office: [(t[0], t[2], t[3], t[1]) for t in model.waiting[office]] for office in (1, 2)}))


def room_left(line, table, before, after):
    """What an accepted event leaves of the room: a boarding clears the words for the plan of those who waited before and do not afterwards."""
    if not line.startswith(b"board="):
        return ROOM
    left = [ticket for office in (1, 2) for ticket in before[office] if ticket not in after[office]]
    stops = runs.stops(table, [(file, count) for _, _, file, count in left])
    cleared = 8 * len(stops) ** 2 * (sum(count for _, count in stops) + 1)
    return bytes(cleared) + ROOM[cleared:]


class Calls(Caller):
    def __init__(self, program, draw):
        super().__init__("desk_calls.py", program, draw)

    # ---- Calls on drawn tables

    def table(self):
        """Records, last numbers and how many places are lent: most of them a table."""
        draw, lasts, records = self.draw, {}, []
        for office in (1, 2):
            last = draw.choice((0, 5, 20, 65535, 65534, 70000))
            many = draw.choice((0, 1, 3, 4, 5, 15, 16))
            numbers = sorted(draw.sample(range(1, max(last, 1) + 1), min(many, last)))
            mine = [(office, draw.randrange(1, 21), draw.choice((1, 1, 2, 128)), number) for number in numbers]
            lasts[office] = last
            records += mine + [desk.EMPTY] * (16 - len(mine))
        if draw.random() < 0.15:
            at = draw.randrange(32)
            record = list(records[at])
            record[draw.randrange(4)] = draw.choice((0, 1, 2, 3, 129, 4097, 2**64 - 1, lasts[1] + 1))
            records[at] = tuple(record)
        places = draw.choice((32, 32, 32, 32, 33, 40, 31, 0)) if draw.random() < 0.3 else 32
        return records, lasts, places

    def lay_table(self):
        records, lasts, places = self.table()
        laid = packed((records + [(77, 78, 79, 80)] * 8)[:places])
        short = self.draw.random() < 0.03
        last_words = words(*([lasts[1], lasts[2]] + [9] * self.draw.choice((0, 0, 2)))) if not short else words(*[lasts[1]][: self.draw.randrange(2)])
        return records, lasts, places, laid, last_words, short

    def lend_table(self, laid, last_words):
        return [self.lend("tickets", laid), self.lend("lasts", last_words)]

    def file(self):
        records, lasts, places, laid, last_words, short = self.lay_table()
        draw = self.draw
        given = words(*[5] * draw.choice((1, 1, 1, 1, 1, 3, 0)))
        ticket = (draw.choice((1, 2, 1, 2, 0, 3)), draw.choice((1, 7, 20, 21, 0, 4096, 4097)), draw.choice((1, 128, 129, 0, 3)))
        files = draw.choice((20, 20, 5, 4096, 2**64 - 1, 0))
        code, must = 0, {}
        try:
            number, after, rest = desk.file(0 if short or not given else places, records, lasts, ticket, files)
            must = {"tickets": packed(rest) + laid[32 * 32:], "lasts": words(after[1], after[2]) + last_words[16:], "given": words(number) + given[8:]}
        except desk.Refused as refusal:
            code = refusal.args[0] + 256 * refusal.args[1]
        self.hold("file", [*self.lend_table(laid, last_words), *ticket, files, self.lend("given", given)], code, must)

    def withdraw(self):
        records, lasts, places, laid, last_words, short = self.lay_table()
        office = self.draw.choice((1, 2, 1, 2, 0, 3))
        number = self.draw.choice([record[3] for record in records] + [0, 1, 2**64 - 1])
        code, must = 0, {}
        try:
            must = {"tickets": packed(desk.withdraw(0 if short else places, records, lasts, office, number)) + laid[32 * 32:]}
        except desk.Refused as refusal:
            code = refusal.args[0] + 256 * refusal.args[1]
        self.hold("withdraw", [*self.lend_table(laid, last_words), office, number], code, must)

    def board(self):
        records, lasts, places, laid, last_words, short = self.lay_table()
        draw = self.draw
        head, turn = draw.choice((300, 300, 310, 2**40, 2**40 + 1, 100)), draw.choice((0, 1, 5, 12000, 2**32, 2**32 + 1))
        taken, sums = words(*[5] * draw.choice((10, 10, 10, 12, 9))), words(*[6] * draw.choice((4, 4, 4, 5, 3)))
        sizes = [draw.choice((8, 8, 8, 9, 3)) for _ in range(4)]
        room = ROOM[: 8 * draw.choice((65600, 4000, 100))]
        rows = dict(zip(("froms", "tos", "times", "legs"), (words(*[9] * size) for size in sizes)), room=room, taken=taken, sums=sums)
        code, must = 0, {}
        try:
            away, asked, (numbers, detours, times, legs, used), rest = desk.board(
                0 if short or len(taken) < 80 or len(sums) < 32 else places, records, lasts, head, turn, sizes, len(room) // 8)
            waiting = desk.offices(32, records, lasts)
            left = [ticket for office in (1, 2) for ticket in waiting[office][: away[office]]]
            wanted = [file for file, _ in asked]
            fronts = {"froms": [a for a, _ in detours], "tos": [b for _, b in detours], "times": times, "legs": legs, "room": [0] * used,
                      "taken": [away[1], away[2], *(wanted.index(ticket[1]) + 1 for ticket in left)], "sums": numbers}
            must = {name: words(*front) + rows[name][8 * len(front):] for name, front in fronts.items()}
            must["tickets"] = packed(rest) + laid[32 * 32:]
        except desk.Refused as refusal:
            code = refusal.args[0] + 256 * refusal.args[1]
        tape = [self.lend(name, words(*values)) for name, values in (("starts", desk.STARTS), ("lengths", desk.LENGTHS), ("aggregates", desk.AGGREGATES))]
        self.hold("board", [*self.lend_table(laid, last_words), *tape, head, turn, *(self.lend(*row) for row in rows.items())], code, must)

    # ---- Days of events

    def events(self, many):
        """A day of so many events, and who waits after each."""
        draw = self.draw
        table, end = day.drawn_table(draw, draw.randrange(1, 7))
        model = day.Desk(table)
        for _ in range(many):
            line = day.drawn_event(draw, len(table), end, 1 + model.last[1] + model.last[2]).encode() + b"\n"
            if draw.random() < 0.05:
                line = draw.choice((b"", b"\n", line[:-1], line + b"\n", line + line, b"#" + line, b"file=01,1,1\n", b"board=1,2,3\n", b"waiting\n"))
            self.event(model, line, bytes([9]) * draw.choice((2677, 3000, 40, 12, 0)), words(*[7] * draw.choice((1, 1, 2, 0))))
            self.waiting(model, records_at(model))

    def event(self, model, line, out, sizes):
        """An event at the desk of a model, which goes on where the call is accepted."""
        before, lasts, kept = records_at(model), words(model.last[1], model.last[2]), ({o: list(model.waiting[o]) for o in (1, 2)}, dict(model.last))
        said = model.answer(line[:-1]) if line[-1:] == b"\n" and line.count(b"\n") == 1 else None
        if said is None:
            code = 11
        elif not sizes:
            code = 8
        elif said.startswith(b"refused="):
            number, place = (int(part.split(b"=")[1]) for part in said.split(b"\n")[:2])
            code = number + 256 * place
        else:
            code = 8 if len(out) < len(said) else 0
        must = {}
        if code == 0:
            must = {"tickets": records_at(model), "lasts": words(model.last[1], model.last[2]), "out": said + out[len(said):], "sizes": words(len(said)) + sizes[8:],
                    "room": room_left(line, model.table, kept[0], model.waiting)}
        else:
            model.waiting, model.last = kept
        self.hold_event(before, lasts, model.table, line, out, sizes, code, must)

    def hold_event(self, before, lasts, table, line, out, sizes, code, must):
        tape = [self.lend(name, words(*(entry[i] for entry in table))) for i, name in enumerate(("starts", "lengths", "aggregates"))]
        self.hold("event", [*self.lend_table(before, lasts), *tape, self.lend("line", line, 1), self.lend("out", out, 1), self.lend("room", ROOM), self.lend("sizes", sizes)], code, must)

    def waiting(self, model, records):
        lines = "".join(f"waits={office},{number},{file},{count},{ahead},{ahead // 4 + 1}\n"
                        for office in (1, 2) for ahead, (_, number, file, count) in enumerate(model.waiting[office]))
        text = (lines + f"waiting={len(model.waiting[1])},{len(model.waiting[2])}\n").encode()
        out = bytes([9]) * self.draw.choice((2677, len(text), len(text) - 1))
        sizes = words(*[7] * self.draw.choice((1, 1, 2, 0)))
        fits = len(out) >= len(text) and sizes
        must = {"out": text + out[len(text):], "sizes": words(len(text)) + sizes[8:]} if fits else {}
        self.hold("waiting", [self.lend("tickets", records), self.lend("out", out, 1), self.lend("sizes", sizes)], 0 if fits else 8, must)


def main():
    reader = argparse.ArgumentParser(description=__doc__.split("\n")[0])
    reader.add_argument("caller")
    reader.add_argument("--calls", type=int, default=10000, metavar="N")
    reader.add_argument("--long", action="store_true")
    given = reader.parse_args()
    calls = Calls(given.caller, random.Random(43))
    most = 100000 if given.long else given.calls
    fewer = most if given.long else most // 10
    calls.hold("version", [], 40000, {})
    for _ in range(most):
        calls.file()
        calls.withdraw()
    for _ in range(fewer):
        calls.board()
    for _ in range(fewer // 40):
        calls.events(40)
    met = {"file": (0, 8, 15, 16, 18, 26), "withdraw": (0, 8, 17, 26), "board": (0, 6, 7, 8, 9, 26), "event": (0, 8, 11, 15, 17), "waiting": (0, 8)}
    calls.finish({(name, number) for name, numbers in met.items() for number in numbers})


if __name__ == "__main__":
    main()
