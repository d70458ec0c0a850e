#!/usr/bin/env python3
"""Works out what the program check_figures must print, from document 01's sentences and those of L4, and compares it with the file that the
gate holds the program to, crates/check_figures/stdout.

usage: tests/python/figures.py            compares
       tests/python/figures.py --print    prints the text instead

The program draws 3,000 runs and lists and writes the figure sheet of each; the same are drawn here. The judging and the walk are those of
runs.py; they share nothing with the crates.
"""
import sys

import programs
import runs
from prices import judge_list

PRIME = 2**31 - 1


def figures(head, turn, table, asked, detours):
    """The sum of a list, and for each entry the sum without it less that sum."""
    whole = runs.total(head, turn, table, asked, detours)
    return whole, [runs.total(head, turn, table, asked, detours[:i] + detours[i + 1:]) - whole for i in range(len(detours))]


def sheet(name, head, turn, table, asked, detours):
    """The figure sheet of a list that is well formed."""
    whole, bought = figures(head, turn, table, asked, detours)
    lines = [b"tape=" + name, b"sum=%d" % whole, b"detours=%d" % len(detours)]
    return b"\n".join(lines + [b"buys=%d,%d,%d" % (*entry, figure) for entry, figure in zip(detours, bought)]) + b"\n"


def following(number):
    return number % PRIME * 48271 % PRIME


def digits(number, base, places):
    return [number // base**i % base for i in range(places)]


def drawn(number):
    """The run and the list of a number."""
    a = following(number)
    b = following(a)
    c = following(b)
    together = a // 2**18 % 4 // 3
    table = [(10 * i, 1 + length, together if i in (2, 3) else 0) for i, length in enumerate(digits(a, 8, 6))]
    asked = [(i + 1, 1 + count) for i, count in enumerate(digits(b, 4, 6))]
    first, second = 5 + c % 2, 3 + c // 2 % 2
    entries = [(first, first + c // 4 % 2), (second, second + c // 8 % 4), (2, 2 + c // 32 % 5)][:c // 256 % 4]
    return 60 + b // 4096 % 16, b // 65536 % 8, table, asked, entries


class Met:
    """What the figures were."""

    def __init__(self):
        self.refused = self.below = self.zero = self.above = 0

    def note(self, bought):
        self.below += sum(figure < 0 for figure in bought)
        self.zero += bought.count(0)
        self.above += sum(figure > 0 for figure in bought)


def answer(number, met):
    head, turn, table, asked, detours = drawn(number)
    try:
        runs.judge(head, turn, table, asked)
        judge_list([first for first, _ in runs.stops(table, asked)], *([entry[i] for entry in detours] for i in (0, 1)))
    except runs.Refused as refusal:
        met.refused += 1
        return refusal.args[0]
    met.note(figures(head, turn, table, asked, detours)[1])
    return sheet(b"D", head, turn, table, asked, detours)


def mixed(text, before):
    for byte in text:
        before = (before % PRIME * 31 + byte) % PRIME
    return before


def lines(met):
    for first in range(0, 3000, 50):
        number = 0
        for i in range(1, 51):
            number = mixed(answer(first + i, met), number)
        yield f"{first + 1}: {number}"


def main():
    met = Met()
    programs.recorded(__doc__, "check_figures", "\n".join(lines(met)) + "\n")
    if min(met.refused, met.below, met.zero, met.above) < 5:
        sys.exit(f"figures.py: too few of a kind: {vars(met)}")
    print(f"figures.py: 3000 lists as they must be, {met.refused} of them refused; figures below zero {met.below}, zero {met.zero}, above {met.above}")


if __name__ == "__main__":
    main()
