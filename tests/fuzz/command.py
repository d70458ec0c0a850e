#!/usr/bin/env python3
"""Hands the command damaged texts and drawn words, for what it reads itself: names, times and speeds, books of records, journals, and what it makes JSON of.

usage: tests/fuzz/command.py [--runs N] [--seed S] [--only KIND]    (60 runs of each kind)

Each run begins with something whole and changes it: bytes, lines, numbers and words of the readers' own. Whatever it is, the command must end by itself within LIMIT seconds with status
0, 1, 2 or 3, without a panic; with 1 and 2 it says why; with --json it prints JSON or nothing; and asked the same again it answers the same. No coverage leads this: it is not compiled for that.
A journal that `serve` is handed is not tried here; tests/python/serve.py damages it in every way.
"""
import argparse
import json
import os
import random
import shutil
import subprocess
import sys
import tempfile

HERE = os.path.dirname(os.path.abspath(__file__))
sys.path.insert(0, os.path.join(HERE, "..", "python"))

import programs
from command import BUILT, INDEX, LABEL, Checkout, built, contents

LIMIT = 60
NUMBERS = [b"0", b"1", b"64", b"65", b"256", b"1024", b"4096", b"65535", b"65536", b"1099511627776", b"18446744073709551615", b"18446744073709551616", b"-1", b"01", b"1e3", b"9" * 40]
WORDS = [b"tape=", b"head=", b"turn=", b"file=", b"want=", b"name=1,1,", b"entry=", b"made=", b"previous=", b"run=", b"plan=", b"refused=", b"place=", b"waiting=", b"# ", b"\n", b"\r\n", b",", b"=", b"/",
         b"\0", b"\xff", b"\xe2\x82", b"\x1b[2J", b"</svg>", b"&", b"\"", b"\xf0\x9f\x8e\x9e"]
OPTIONS = ["--any", "--json", "--svg", "--names", "--speed", "--begin", "--head", "--turn", "--blocks", "--keep", "--book", "--replay", "--by", "--tape", "--file", "--html", "--plain", "--help", "--", "-", "-h", "--no"]
VALUES = ["1", "0", "750000", "18446744073709551616", "2026-11-17T08:00:00", "2026-02-30T08:00:00", "1969-12-31T23:59:59", "9999-12-31T23:59:59", "2026-11-17", "", " ", "VX0041", "vx", "\u20ac", "x" * 5000, "a\nb"]
COMMANDS = ["plan", "field", "buys", "price", "check", "explain", "rewrite", "mend", "month", "ltfs", "pick", "recall", "desk", "ask", "record", "audit", "completions", "version", "help", "plam", ""]


def damaged(draw, text):
    """A text with one to four changes."""
    for _ in range(draw.choice((0, 1, 1, 1, 2, 4))):
        at = draw.randrange(len(text) + 1)
        kind = draw.randrange(8)
        lines = text.split(b"\n")
        if kind == 0:
            text = text[:at] + bytes([draw.randrange(256)]) + text[at + 1:]
        elif kind == 1:
            text = text[:at] + draw.choice(WORDS) + text[at:]
        elif kind == 2:
            text = text[:at] + text[at + draw.choice((1, 2, 10, 100)):]
        elif kind == 3:
            text = text[:at]
        elif kind == 4:
            lines.insert(draw.randrange(len(lines)), draw.choice(lines))
            text = b"\n".join(lines)
        elif kind == 5:
            del lines[draw.randrange(len(lines))]
            text = b"\n".join(lines)
        elif kind == 6:
            digits = [i for i, byte in enumerate(text) if 48 <= byte <= 57]
            if digits:
                at = draw.choice(digits)
                end = next((i for i in range(at, len(text)) if not 48 <= text[i] <= 57), len(text))
                text = text[:at] + draw.choice(NUMBERS) + text[end:]
        else:
            text = text[:at] + draw.choice(WORDS) * draw.choice((1, 40, 4000)) + text[at:]
    return text


class Fuzz:
    def __init__(self, checkout, seed):
        self.at, self.draw, self.ended = checkout, random.Random(seed), {}

    def run(self, *words):
        # Files by name need the library that the command was compiled with, which stands in the checkout of this file.
        root = programs.ROOT if words[0] in ("pick", "recall") else self.at.root
        started = [os.path.join(root, BUILT), *words]
        if any("\0" in word for word in words):
            return None
        try:
            done = subprocess.run(started, cwd=self.at.root, input=b"", capture_output=True, timeout=LIMIT, env=self.at.surroundings)
        except subprocess.TimeoutExpired:
            sys.exit(f"fuzz/command.py: {words} has not ended after {LIMIT} seconds")
        self.ended[done.returncode] = self.ended.get(done.returncode, 0) + 1
        tell = f"fuzz/command.py: {words} ended with {done.returncode}, printed {done.stdout[:500]!r} and said {done.stderr[:500]!r}"
        if done.returncode not in (0, 1, 2, 3) or b"panicked" in done.stderr or b"RUST_BACKTRACE" in done.stderr:
            self.stop(tell)
        if done.returncode in (1, 2) and not done.stderr:
            self.stop(tell)
        if "--json" in words and not {"--help", "-h"} & set(words) and done.stdout and done.returncode in (0, 3):
            try:
                json.loads(done.stdout)
            except ValueError:
                self.stop(tell)
        return done.stdout, done.returncode

    def stop(self, tell):
        kept = tempfile.mkdtemp(prefix="violstream-fuzz.")
        shutil.copytree(self.at.root, os.path.join(kept, "checkout"), symlinks=True)
        sys.exit(f"{tell}\nas it stands in {kept}")

    def twice(self, *words):
        if self.run(*words) != self.run(*words):
            self.stop(f"fuzz/command.py: {words} answers otherwise when it is asked again")

    def file(self, name, text):
        self.at.write(name, text)
        return name

    # ---- Kinds

    def names(self):
        names = b"".join(b"name=%d,%d,SHOW/REEL%d.mxf\n" % (file, reads, file) for file, reads in ((1, 1), (2, 2), (2, 1), (3, 1)))
        sheet = self.file("a.run", damaged(self.draw, contents("examples/VX0041.run")) if self.draw.random() < 0.3 else contents("examples/VX0041.run"))
        self.twice("explain", "--names", self.file("a.names", damaged(self.draw, names)), sheet)

    def times(self):
        draw, begin, sheet = self.draw, b"2026-11-17T08:00:00", contents("examples/VX0041.run")
        begin = damaged(draw, begin) if draw.random() < 0.3 else draw.choice((begin, b"1970-01-01T00:00:00", b"9999-12-31T23:59:59", b"2028-02-29T23:59:59"))
        speed = draw.choice(NUMBERS).decode() if draw.random() < 0.5 else "1"
        self.twice("explain", "--speed", speed, "--begin", begin.decode("utf-8", "replace"), self.file("a.run", damaged(draw, sheet) if draw.random() < 0.5 else sheet))

    def book(self):
        draw, root = self.draw, self.at.path("book")
        if not os.path.exists(self.at.path("whole")):
            for name in ("VX0041.run", "aggregate.run", "retired-rule.run", "no-wants.run"):
                self.run("record", "--by", "the vault", "whole", "examples/" + name)
        shutil.rmtree(root, ignore_errors=True)
        shutil.copytree(self.at.path("whole"), root)
        files = sorted(os.path.join(folder, name) for folder, _, names in os.walk(root) for name in names)
        for path in draw.sample(files, draw.choice((1, 1, 2))):
            with open(path, "rb") as file:
                text = file.read()
            os.chmod(path, 0o644)  # a record is made so that nobody writes over it
            with open(path, "wb") as file:
                file.write(damaged(draw, text))
        if draw.random() < 0.1:
            os.rename(draw.choice(files), os.path.join(root, draw.choice(("0", "99", "3.entry", "x" * 200, "\udcff"))))
        self.twice("audit", *draw.choice(((), ("--tape", "VX0041"), ("--tape", "VX0041", "--file", "3"), ("--html", "a.html"))), "book")
        if os.path.exists(self.at.path("a.html")):
            os.remove(self.at.path("a.html"))

    def journal(self):
        sheet = contents("examples/day.run")
        events = [line for line in contents("examples/day.events").split(b"\n") if line and not line.startswith(b"#")]
        above = b"# 2026-11-16T08:00:00Z office1 uid=1001 pid=4711\n"
        text = b"%d\n" % len(sheet) + sheet + b"".join(above + event + b"\n" for event in events)
        self.twice("desk", "--replay", self.file("a.journal", damaged(self.draw, text)))

    def sheets(self):
        draw = self.draw
        sheet, plan = (self.file("a" + name, damaged(draw, contents("examples/VX0041" + name))) for name in (".run", ".plan"))
        self.twice(*draw.choice((("plan", "--json", sheet), ("plan", "--any", "--json", sheet), ("buys", "--json", sheet), ("check", "--json", sheet, plan), ("month", "--json", sheet, "examples/aggregate.run"),
                                 ("price", sheet, plan), ("mend", sheet), ("rewrite", sheet), ("explain", "--svg", "/dev/null", sheet), ("explain", sheet))))

    def tapes(self):
        draw = self.draw
        label, index, listed = (self.file(name, damaged(draw, text)) for name, text in (
            ("a.label", contents(LABEL)), ("a.index", contents(INDEX)), ("a.list", b"rushes/clip0002.mxf\nrushes/clip0001.mxf\n/rushes/clip0002.mxf\n")))
        self.twice(*draw.choice((("ltfs", "VX0041", label, index), ("pick", "VX0041", label, index, listed), ("recall", "--json", "VX0041", label, index, listed))))

    def words(self):
        draw = self.draw
        many = draw.choice((1, 2, 2, 3, 4, 6))
        self.run(*[draw.choice(COMMANDS)] + [draw.choice(draw.choice((OPTIONS, VALUES, ["examples/VX0041.run", "examples/VX0041.plan", "no-such"]))) for _ in range(many)])


KINDS = (Fuzz.names, Fuzz.times, Fuzz.book, Fuzz.journal, Fuzz.sheets, Fuzz.tapes, Fuzz.words)


def main():
    reader = argparse.ArgumentParser(description=__doc__.split("\n")[0])
    reader.add_argument("--runs", type=int, default=60, metavar="N", help="runs of each kind")
    reader.add_argument("--seed", type=int, default=48, metavar="S")
    reader.add_argument("--only", choices=[kind.__name__ for kind in KINDS])
    given = reader.parse_args()
    built()
    told = []
    for kind in KINDS:
        if given.only not in (None, kind.__name__):
            continue
        with tempfile.TemporaryDirectory() as folder:
            fuzz = Fuzz(Checkout(folder), given.seed)
            for _ in range(given.runs):
                kind(fuzz)
        told.append(f"{kind.__name__} {' '.join(f'{status}:{times}' for status, times in sorted(fuzz.ended.items()))}")
    print("fuzz/command.py: how the calls ended, by kind: " + "; ".join(told))


if __name__ == "__main__":
    main()
