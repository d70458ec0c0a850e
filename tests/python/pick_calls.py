#!/usr/bin/env python3
"""Compares the library's call for files by path, violstream_pick, with the readers of pick_readers.py, which share nothing with the crates.

usage: tests/python/pick_calls.py CALLER [--cases N] [--long]    (the program tests/c/caller, linked to the library)

The tapes are the fixed ones of pick_cases.py, with answers written down by hand, N drawn ones (600; --long: 8,000), and for each twenty of these one of hundreds of files with
a list of hundreds of lines, most of which ask for files that can be picked. Each is lent in three calls, with --long in twelve, with rows of other lengths: those for the answer are of just
the length that it needs, longer, one byte or one word shorter, or empty; those for head and turn have no word, one, or another behind it that does not count. After each call the
code is looked at, every row, and what stands around the rows (caller.py).
"""
import argparse
import itertools
import random
import sys

import pick
import pick_cases
from caller import Caller, words
from ltfs_readers import LIMIT
from pick_readers import answer, by_tree, range_of

MARK = b"\7"
MUST_MEET = set(pick.NUMBERS) | {8}


class Calls(Caller):
    def __init__(self, program, draw):
        super().__init__("pick_calls.py", program, draw)

    def length(self, text):
        return max(0, len(text) + self.draw.choice((0, 0, 0, 0, 1, 7, 300, -1, -len(text))))

    def one_or_none(self, number):
        """The row of a number that may not be given: of one that is, the first word counts."""
        return b"" if number is None else words(number, *[9] * self.draw.choice((0, 0, 0, 1)))

    def pick(self, case, must):
        """A call, and what each row must be afterwards. `must` is (number, place, sheet, names)."""
        draw, texts = self.draw, must[2:]
        tape, label, index, listed, blocks, head, turn = case
        sizes = words(*[5] * draw.choice((2, 2, 2, 2, 2, 3, 1, 0)))
        out, names = (MARK * self.length(text) for text in texts) if must[0] == 0 else (MARK * draw.choice((0, 1, 40)) for _ in texts)
        code, after = must[0] + 256 * must[1], {}
        if code == 0 and (len(out) < len(texts[0]) or len(names) < len(texts[1]) or len(sizes) < 16):
            code = 8
        elif code == 0:
            after = {"out": texts[0] + out[len(texts[0]):], "names": texts[1] + names[len(texts[1]):], "sizes": words(*map(len, texts)) + sizes[16:]}
        lent = [self.lend(name, contents, 1) for name, contents in (("tape", tape), ("label", label), ("index", index), ("list", listed))]
        lent.append(draw.choice((1, 1, 2, 2**64 - 1)) if blocks else 0)
        lent += [self.lend("head", self.one_or_none(head)), self.lend("turn", self.one_or_none(turn))]
        self.hold("pick", [*lent, self.lend("out", out, 1), self.lend("names", names, 1), self.lend("sizes", sizes)], code, after)


def large(cases, seed=31):
    """Tapes of many files, with long lists."""
    r, made = random.Random(seed), 0
    while made < cases:
        tape = pick_cases.Tape(r, r.choice((40, 100, 150)))
        size, data, volume, other, files = by_tree(tape.label, tape.index)
        blocks, paths = size > 0 and r.random() < 0.4, [path for path, _ in files]
        spans = {path: range_of(extents, size, data, blocks) for path, extents in files if paths.count(path) == 1}
        good = [path for path, span in spans.items() if span and span[1] <= LIMIT and b"" not in path.split(b"/")]
        if len(good) < 20 or None not in (volume, other) and volume != other:
            continue
        chosen = r.sample(good, min(len(good), r.choice((9, 40, 64, 64, 70))))
        lines = chosen + [r.choice(chosen) for _ in range(r.choice((0, 300, 954, 1024 - len(chosen), 1025 - len(chosen))))]
        r.shuffle(lines)
        if r.random() < 0.2:
            lines[r.randrange(len(lines))] = r.choice(paths)
        made += 1
        yield b"VX0041", tape.label, tape.index, b"".join(r.choice((b"", b"/")) + line + b"\n" for line in lines), blocks, r.choice((None, 0, 2**40)), r.choice((None, 7))


def main():
    reader = argparse.ArgumentParser(description=__doc__.split("\n")[0])
    reader.add_argument("caller")
    reader.add_argument("--cases", type=int, default=600, metavar="N")
    reader.add_argument("--long", action="store_true")
    given = reader.parse_args()
    calls, tapes, entries = Calls(given.caller, random.Random(7)), 0, 0
    many, times = (8000, 12) if given.long else (given.cases, 3)
    fixed = ((case[:7], case[7] + (b"", b"") if isinstance(case[7][0], int) else (0, 0) + case[7]) for case in pick_cases.fixed())
    drawn = ((case, answer(case[0], by_tree, *case[1:])) for case in itertools.chain(pick.drawn(many), large(many // 20)))
    for case, must in itertools.chain(fixed, drawn):
        for _ in range(times):
            calls.pick(case, must)
        tapes += 1
        entries = max(entries, must[2].count(b"want="))
    if entries < 60:
        sys.exit("pick_calls.py: no sheet with 60 entries or more was drawn")
    print(f"pick_calls.py: {tapes} tapes, each lent {times} times")
    calls.finish({("pick", number) for number in MUST_MEET})


if __name__ == "__main__":
    main()
