#!/usr/bin/env python3
"""Writes inputs for a fuzzer to begin with: those that the comparisons in tests/python try, and the examples.

    tests/fuzz/seeds.py CALL FOLDER [--many N]    (answer, check, mend, event, pick or ltfs; 400 inputs)
"""
import argparse
import itertools
import os
import random
import sys

HERE = os.path.dirname(os.path.abspath(__file__))
ROOT = os.path.dirname(os.path.dirname(HERE))
sys.path.insert(0, os.path.join(ROOT, "tests/python"))

SEPARATOR = b"\x1e"


def contents(*names):
    return [open(os.path.join(ROOT, "examples", name), "rb").read() for name in names]


def answers():
    import plan
    return itertools.chain(contents("VX0041.run", "aggregate.run", "mounted.run", "no-wants.run"), plan.cases_anywhere())


def checks():
    import check
    return (sheet + SEPARATOR + text for sheet, text in check.check_cases())


def mends():
    import mend
    return itertools.chain(contents("retired-rule.run"), mend.cases())


def events():
    import day
    draw = random.Random(6)
    yield contents("day.events")[0]
    for _ in range(400):
        table, end = day.drawn_table(draw, draw.randrange(1, 7))
        lines = ["tape=%d,%d,%d" % tuple(entry) for entry in table]
        if draw.random() < 0.2:
            lines += ["last=1,65535", "record=0,2,1,1,7", "record=3,1,1,1,1"][:draw.randrange(1, 4)]
        lines += [day.drawn_event(draw, len(table), end, 3) for _ in range(draw.randrange(1, 30))]
        yield "\n".join(lines).encode() + b"\n"


def picks():
    import pick
    import pick_cases
    for case in itertools.chain(pick_cases.fixed(), pick.drawn(400)):
        tape, label, index, listed, blocks, head, turn = case[:7]
        numbers = (b"" if number is None else b"%d" % number for number in (head, turn))
        yield SEPARATOR.join((tape, b"u" if blocks else b"b", *numbers, label, index, listed))


def ltfs():
    import ltfs as comparison
    import ltfs_readers
    texts = itertools.chain(comparison.examples(), comparison.generated(400))
    for text in texts:
        try:
            yield SEPARATOR.join(ltfs_readers.taken_apart(text))
        except ltfs_readers.Refused:
            yield text


CALLS = {"answer": answers, "check": checks, "mend": mends, "event": events, "pick": picks, "ltfs": ltfs}


def main():
    reader = argparse.ArgumentParser(description=__doc__.split("\n")[0])
    reader.add_argument("call", choices=CALLS)
    reader.add_argument("folder")
    reader.add_argument("--many", type=int, default=400, metavar="N")
    given = reader.parse_args()
    inputs = sorted({text for text in CALLS[given.call]() if len(text) <= 4096})
    random.Random(5).shuffle(inputs)
    for number, text in enumerate(inputs[:given.many]):
        with open(os.path.join(given.folder, f"seed-{number:04}"), "wb") as file:
            file.write(text)


if __name__ == "__main__":
    main()
