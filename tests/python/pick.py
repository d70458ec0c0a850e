#!/usr/bin/env python3
"""Holds the answers of `pick` by two readers of labels and indexes against each other, and against answers that were written down by hand.

usage: tests/python/pick.py [--cases N]    (4,000 drawn tapes beside the fixed ones)

The two are pick_readers.by_tree, for every text, and pick_readers.by_expat, Python's own XML parser, for those that are well-formed and whose references an XML parser reads
alike. The fixed answers of pick_cases.py are written out there. A run meets every refusal, and answers with several entries, or fails.
"""
import argparse
import random
import re

import pick_cases
from ltfs_cases import damaged
from pick_readers import answer, by_expat, by_tree

NUMBERS = (0, 3, 5, 11, 13, 20, 23, 41, 42, 44)
# What a reader of XML reads otherwise: CDATA with a reference in it, carriage returns, several roots, a declared entity, references that are none.
OTHERWISE = re.compile(rb"<!\[CDATA\[|\r|<!|&#0*(?:[0-9]|1[0-9]|2[0-9]|3[01]);|&#x0*1?[0-9a-fA-F];")


def compared(case, met):
    """The answer of a case, by both readers where both can."""
    tape, label, index, text, blocks, head, turn = case
    first = answer(tape, by_tree, label, index, text, blocks, head, turn)
    met[first[0]] = met.get(first[0], 0) + 1
    if first[0] == 0 and first[2].count(b"want=") > 1:
        met["several entries"] = met.get("several entries", 0) + 1
    if b"&" not in label and not OTHERWISE.search(label.split(b"?>")[-1] + index.split(b"?>", 1)[-1].replace(b"<!-- a/b -->", b"")):
        try:
            found = by_expat(label, index)
        except Exception as refusal:  # a refusal by the second reader, which must then be the first one's too
            found = refusal
        if found is not None:
            met["by both"] = met.get("by both", 0) + 1

            def given(_, __):
                if isinstance(found, Exception):
                    raise found
                return found
            second = answer(tape, given, label, index, text, blocks, head, turn)
            if second != first and not (first == (20, 0, b"", b"") and deep(index)):
                raise SystemExit(f"pick: the two readers differ: {first} and {second} for\n{case!r}")
    return first


def deep(text):
    """More than 32 elements open at once, which is 20 to the first reader alone."""
    depth = most = 0
    for found in re.finditer(rb"<(/?)[A-Za-z][^<>]*?(/?)>", text):
        depth += -1 if found[1] else 0 if found[2] else 1
        most = max(most, depth)
    return most > 32


def drawn(cases, seed=20926):
    r = random.Random(seed)
    for i in range(cases):
        tape = pick_cases.Tape(r)
        label, index, text = tape.label, tape.index, pick_cases.a_list(r, tape.paths)
        if i % 4 == 3:
            label, index = (damaged(r, label), index) if r.random() < 0.25 else (label, damaged(r, index))
        yield r.choice([b"VX0041", b"VX0041", b"A"]), label, index, text, r.random() < 0.4, r.choice([None, None, 0, 2**64 - 1]), r.choice([None, None, 0, 70000])


def main():
    reader = argparse.ArgumentParser(description=__doc__.split("\n")[0])
    reader.add_argument("--cases", metavar="N", type=int, default=4000, help="drawn tapes beside the fixed ones (default 4000)")
    words = reader.parse_args()
    met, count = {}, 0
    for case in pick_cases.fixed():
        found, wanted = compared(case[:7], met), case[7]
        if found != ((wanted + (b"", b"")) if isinstance(wanted[0], int) else (0, 0) + wanted):
            raise SystemExit(f"pick: expected {wanted}, found {found} for\n{case[:7]!r}")
        count += 1
    for case in drawn(words.cases):
        compared(case, met)
        count += 1
    for number in NUMBERS + ("by both", "several entries"):
        if not met.get(number):
            raise SystemExit(f"pick: no case met {number}")
    print(f"pick: {count} cases as expected; met " + ", ".join(f"{key}: {met[key]}" for key in sorted(met, key=str)))


if __name__ == "__main__":
    main()
