#!/usr/bin/env python3
"""Plants faults in each row of each call that desk_calls.py, answer_calls.py and pick_calls.py compare, and fails where they do not find one, or not as that of its call.

usage: tests/python/planted_calls.py CALLER [--watched]    (the program tests/c/caller_planted, linked to the library)

The faults are a byte written behind a row, one before it, one read behind it, the row's last byte changed by a refusal and by an answer; and for each call a wrong code and a trap. Without a
fault the same calls must be as the models. --watched: the program was compiled with the address sanitizer, which must stop it at the bytes behind a row.
"""
import argparse
import os
import random
import subprocess
import sys

import answer_calls
import buys
import check
import desk_calls
import mend
import pick
import pick_calls
import plan
from caller import Caller
from pick_readers import answer, by_tree

# The arguments of each call that are rows.
ROWS = {"file": (0, 1, 6), "withdraw": (0, 1), "board": (0, 1, 2, 3, 4, 7, 8, 9, 10, 11, 12, 13), "event": range(9), "waiting": range(3),
        "answer": range(4), "buys": range(4), "check": range(5), "mend": range(4), "pick": (0, 1, 2, 3, 5, 6, 7, 8, 9)}
# What is said of each fault; of the last two for the call, of the others for a row.
SAID = {"behind": "behind the ", "before": " has changed", "beyond": "ended by signal 11, 0 bytes behind the end of the row ", "refusal": ": the row ", "answer": "with code 0: the row ",
        "code": " must be ", "trap": "ended by signal 4"}
WATCHED = {"behind": "stopped by a sanitizer", "beyond": "stopped by a sanitizer"}


def some(cases, draw):
    return draw.sample(list(cases), 200)


def cases_of(draw):
    """For each call that takes a text, drawn ones with what a model says of them."""
    sheets = list(answer_calls.answered(some(plan.cases_anywhere(), draw), lambda sheet: plan.answer(sheet, True)))
    return {"answer": sheets, "buys": [(sheet, buys.answer(sheet, True)[0]) for sheet, _ in sheets],
            "check": list(answer_calls.answered(some(check.check_cases(), draw), lambda pair: check.check_answer(*pair))),
            "mend": [(sheet, answer_calls.mended(sheet)) for sheet in some(mend.cases(), draw)],
            "pick": [(case, answer(case[0], by_tree, *case[1:])) for case in pick.drawn(150)]}


def compare(program, name, cases):
    """A comparison of one call, short and always the same."""
    module = desk_calls if name not in cases else pick_calls if name == "pick" else answer_calls
    calls = module.Calls(program, random.Random(5))
    if name in cases:
        for case in cases[name]:
            getattr(calls, name)(*case)
    elif name in ("event", "waiting"):
        calls.events(200)
    else:
        for _ in range(200):
            getattr(calls, name)()
    calls.close()


def said_of(program, name, row, fault, cases):
    os.environ.update(FAULT=fault, FAULT_CALL=name, FAULT_ROW=str(row))
    try:
        compare(program, name, cases)
    except SystemExit as difference:
        return str(difference.code).split("\n", 1)[0]
    return ""


def main():
    reader = argparse.ArgumentParser(description=__doc__.split("\n")[0])
    reader.add_argument("caller")
    reader.add_argument("--watched", action="store_true")
    given = reader.parse_args()
    cases, found = cases_of(random.Random(3)), 0
    Caller.errors = subprocess.DEVNULL
    for name, rows in ROWS.items():
        said = said_of(given.caller, name, 0, "none", cases)
        if said:
            sys.exit(f"planted_calls.py: without a fault: {said}")
        for fault, must in (WATCHED if given.watched else SAID).items():
            for row in rows if fault not in ("code", "trap") else rows[:1]:
                said = said_of(given.caller, name, row, fault, cases)
                if f"violstream_{name}: " not in said or must not in said:
                    sys.exit(f"planted_calls.py: the fault '{fault}' in argument {row} of violstream_{name} is not found as it must be: {said or 'nothing is said'}")
                found += 1
    print(f"planted_calls.py: {found} faults in {sum(map(len, ROWS.values()))} rows of {len(ROWS)} calls are found")


if __name__ == "__main__":
    main()
