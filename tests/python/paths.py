#!/usr/bin/env python3
"""Reads every proof that a person wrote: a path of eight `.before` or more stands only in an abbrev that names it, and no line is
longer than 1,000 characters.

usage: tests/python/paths.py
"""
import glob
import os
import re
import sys

LONG = re.compile(r"\.before(?:\s*\.before){7,}")
NAMING = re.compile(r"^abbrev [^\n]*\n(?: [^\n]*\n)*\S+(?: \S+)* = \w[\w-]*(?:\s*\.before)+$", re.M)


def faults(text):
    """What is wrong in a proof, each with its line."""
    named = [m.span() for m in NAMING.finditer(text)]
    for m in LONG.finditer(text):
        if not any(start <= m.start() < end for start, end in named):
            yield text.count("\n", 0, m.start()) + 1, "a path of eight `.before` or more that no abbrev names"
    for number, line in enumerate(text.split("\n"), 1):
        if len(line) > 1000:
            yield number, f"a line of {len(line)} characters"


def main():
    path = "c" + ".before" * 8
    planted = [f"f : T\nf c = g {path}.args", f"abbrev f : T\nf c = {path}.args", f"f : T\nf c = {path}", f"f : let a = {path} in T", "x" * 1001]
    if [len(list(faults(text))) for text in planted] != [1] * 5 or list(faults(f"abbrev f : T → S\nf c = {path}\n\n" + "x" * 1000)):
        sys.exit("paths.py: it does not find what it must, or finds what it must not")
    root = os.path.join(os.path.dirname(os.path.abspath(__file__)), "..", "..")
    proofs = {f: open(f, encoding="utf-8").read() for f in sorted(glob.glob(os.path.join(root, "crates/*/proofs/**/*.antt"), recursive=True))}
    found = [f"{os.path.relpath(f, root)}:{line}: {what}" for f, text in proofs.items() for line, what in faults(text)]
    if found or not proofs:
        sys.exit("\n".join(found or ["paths.py: there is no proof"]))
    print(f"paths: every long path of {len(proofs)} proofs has a name")


if __name__ == "__main__":
    main()
