#!/usr/bin/env python3
"""Works out what the program check_prices must print, from document 01's sentences and those of L10, and compares it with the file that the
gate holds the program to, crates/check_prices/stdout.

usage: tests/python/prices.py            compares
       tests/python/prices.py --print    prints the text instead

The judging and the walk are those of runs.py; they share nothing with the crates.
"""

import programs
import runs

LAST, HIGHEST = 2**40, 2**32
FOUR = [(0, 2), (2, 2), (4, 2), (6, 2)]
EACH = [(1, 1), (2, 1), (3, 1), (4, 1)]


def judge_list(wanted, froms, tos):
    """10, with the first file of each thing wanted: place 0 where the rows differ in number, else the first entry that breaks a rule."""
    if len(froms) != len(tos):
        raise runs.Refused(10)
    for i, (a, b) in enumerate(zip(froms, tos)):
        alone = a in wanted and b in wanted and a <= b and a > wanted[0]
        if not alone or any(c <= a or not (b < c or d < b) for c, d in zip(froms[:i], tos[:i])):
            raise runs.Refused(10, i + 1)


def line(label, files, asked, head, turn, froms=(), tos=()):
    """A file is a start, a length and, where it lies in one, its aggregate's number."""
    table = [(*file, 0)[:3] for file in files]
    try:
        if len(asked) > 64:
            raise runs.Refused(3)
        runs.judge(head, turn, table, asked)
        judge_list([first for first, _ in runs.stops(table, asked)], froms, tos)
    except runs.Refused as refusal:
        return label + ": " + refusal.args[0].decode().replace("\n", " ").strip()
    times, legs, clock, place = runs.walk(head, turn, table, asked, list(zip(froms, tos)))
    total = sum(count * times[number] for number, count in asked)
    when = "".join(" %d" % times[number] for number, _ in asked)
    which = "".join(" %d" % legs[number] for number, _ in asked)
    return f"{label}: sum={total} finish={clock} end={place} detours={len(froms)} times={when} legs={which}"


def small_runs():
    yield line("no wants", [(5, 3)], [], 60, 1)
    yield line("no wants, one entry", [(5, 3)], [], 60, 1, [2], [2])
    yield line("one file", [(5, 3)], [(1, 3)], 8, 2)
    two = [(0, 10), (10, 10)]
    yield line("only file 2", two, [(2, 1)], 20, 0)
    for label, more, turn in (("two files", 1, 0), ("two reads of file 2", 2, 0), ("turn price 1", 1, 1)):
        for entry in ([], [2]):
            yield line(label, two, [(1, 1), (2, more)], 20, turn, entry, entry)


def sheet_runs():
    for froms, tos in (([], []), ([2], [2]), ([2], [3]), ([3], [3]), ([3, 2], [3, 2])):
        yield line("sheet", [(0, 10), (10, 4), (20, 30)], [(1, 1), (2, 3), (3, 1)], 60, 1, froms, tos)
    for label, head, froms, tos in (("four files", 8, [3, 2], [3, 4]), ("four files", 8, [], []), ("equal ends", 8, [3, 2], [4, 4]),
                                    ("crossing", 8, [3, 2], [4, 3]), ("unequal rows", 8, [3, 2], [3]), ("head one left", 7, [], [])):
        yield line(label, FOUR, EACH, head, 1, froms, tos)


def limits():
    part = LAST // 64
    table = [(i * part, part) for i in range(64)]

    def tape(label, last, head, turn, froms=(), tos=()):
        return line(label, table, [(i + 1, 16 if i < 63 else last) for i in range(64)], head, turn, froms, tos)

    single = list(range(64, 1, -1))
    yield tape("longest list", 16, LAST, HIGHEST, single, single)
    yield tape("deepest list", 16, LAST, HIGHEST, list(range(33, 1, -1)), list(range(33, 65)))
    yield tape("one place past the tape", 16, LAST + 1, 0)
    yield tape("head one left of the last end", 16, LAST - 1, 0)
    yield tape("turn price one too high", 16, LAST, HIGHEST + 1)
    yield tape("1,025 reads", 17, LAST, 0)
    yield line("65 wants", [(0, 1)], [(1, 1)] * 65, 1, 0)


def aggregate_runs():
    for label, number, first in (("files 2 and 3 in an aggregate", 7, 2), ("in none", 0, 3)):
        files = [(0, 10), (10, 4, number), (16, 4, number), (20, 30)]
        yield line(label, files, [(1, 1), (3, 3), (4, 1)], 60, 1, [first], [first])


def main():
    must = "".join(text + "\n" for group in (small_runs(), sheet_runs(), limits(), aggregate_runs()) for text in group)
    programs.recorded(__doc__, "check_prices", must)
    print(f"prices.py: the {must.count(chr(10))} lines that check_prices must print are as worked out here")


if __name__ == "__main__":
    main()
