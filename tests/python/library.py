#!/usr/bin/env python3
"""Calls the shared library from Python, by ctypes, on the run of the header's example.

usage: tests/python/library.py LIBRARY    (a libviolstream.so that this machine's own processor can load)
"""
import ctypes
import sys

WORD = ctypes.c_uint64


def row(*numbers):
    return (WORD * len(numbers))(*numbers)


def lent(*rows):
    """Each row and its length, as the functions take them."""
    return [part for one in rows for part in (one, ctypes.c_size_t(len(one)))]


def main():
    if len(sys.argv) != 2:
        sys.exit(__doc__)
    plan = ctypes.CDLL(sys.argv[1]).violstream_plan
    plan.restype = WORD
    starts, ends, times, legs, sums = row(0, 0), row(0, 0), row(0, 0, 0), row(0, 0, 0), row(0, 0, 0, 0)
    tape = row(0, 10, 16, 20), row(10, 4, 4, 30), row(0, 7, 7, 0)
    run = lent(*tape, row(1, 3, 4), row(1, 3, 1)) + [WORD(60), WORD(1), WORD(1)]
    result = plan(*run, *lent(starts, ends, times, legs, sums, row(*[7] * 54)))
    found = (result, list(sums), starts[0], ends[0], list(times), list(legs))
    if found != (0, [409, 133, 50, 1], 2, 2, [93, 61, 133], [2, 1, 2]):
        sys.exit(f"library.py: violstream_plan gives {found}")
    result = plan(*run, *lent(starts, ends, times, legs, sums, row(*[7] * 53)))
    if result != 9:
        sys.exit(f"library.py: violstream_plan with too little room gives {result}")
    result = plan(*run[:-1], WORD(0), *lent(starts, ends, times, legs, sums, row(*[7] * 54)))
    if result != 14:
        sys.exit(f"library.py: violstream_plan with rule 0 gives {result}")
    print("library.py: the shared library answers from Python")


if __name__ == "__main__":
    main()
