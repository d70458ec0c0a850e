#!/usr/bin/env python3
"""Runs the program behind `./violstream buys` on whole and damaged sheets and compares every byte it prints with an answer worked out here.

usage: tests/python/buys.py [--native] [--any] [PROGRAM]           (default target/bin/cmd_buys, with --any target/bin/cmd_buys_any)
       tests/python/buys.py [--native] [--any] --time [PROGRAM]    how long one call takes on a full sheet

With --any the program is that behind `buys --any`: the head stands at other places too, and what `buys` prints other than 7 and 9 it must print too.

The program is for x86-64; on another processor it is started as tools/machine.sh says.

The sheets and the search for a plan are those of plan.py; a figure is worked out from two walks (figures.py). They share nothing with the program.
"""
import subprocess
import sys

import figures
import plan
import programs
from sheets import read


def answer(sheet, anywhere):
    """The figure sheet of a sheet's plan, or its refusal; and the figures. None where the search for the plan would be too long."""
    text = plan.answer(sheet, anywhere)
    if text is None or text.startswith(b"refused="):
        return text, []
    name, head, turn, table, asked = read(sheet)
    detours = [tuple(map(int, line[7:].split(b","))) for line in text.split(b"\n") if line.startswith(b"detour=")]
    return figures.sheet(name, head, turn, table, asked, detours), figures.figures(head, turn, table, asked, detours)[1]


def compare(start, anywhere=False):
    tried, detours = 0, 0
    for sheet in plan.cases_anywhere() if anywhere else plan.cases():
        must, bought = answer(sheet, anywhere)
        out = subprocess.run(start, input=sheet, capture_output=True).stdout
        tried += 1
        detours += len(bought)
        if min(bought, default=1) <= 0:
            sys.exit(f"buys.py: in the plan of the sheet\n{sheet!r}\na detour buys nothing: {bought}")
        if must is None and not out.startswith(b"tape=") or must is not None and out != must:
            sys.exit(f"buys.py: for the sheet\n{sheet!r}\nthe program printed\n{out!r}\nand should have printed\n{must!r}")
    if detours < 100:
        sys.exit(f"buys.py: only {detours} detours were met")
    print(f"buys.py: {tried} sheets answered as they must be; {detours} detours, each of which buys something")


def compare_both(start):
    """Whatever the one program prints other than 7 and 9, the other prints byte for byte."""
    same = 0
    for sheet in plan.cases():
        first, second = (subprocess.run(words, input=sheet, capture_output=True).stdout for words in (start[:-1] + [start[-1].replace("cmd_buys_any", "cmd_buys")], start))
        if not first.startswith((b"refused=7\n", b"refused=9\n")):
            same += 1
            if first != second:
                sys.exit(f"buys.py: for the sheet\n{sheet!r}\nbuys prints\n{first!r}\nand buys --any\n{second!r}")
    print(f"buys.py: of {same} sheets buys --any prints what buys does")


def main():
    def anywhere(start):
        compare(start, True)
        compare_both(start)

    if "--any" in sys.argv:
        sys.argv.remove("--any")
        programs.tried(__doc__, "cmd_buys_any", anywhere, [("full sheet", plan.full_sheet()), ("64 wants, 159 reads", plan.sheet_of(64, 159))])
    else:
        programs.tried(__doc__, "cmd_buys", compare, [("full sheet", plan.full_sheet())])


if __name__ == "__main__":
    main()
