#!/usr/bin/env python3
"""Runs examples/daemon.c, compiled, on the requests beside it, and ends it at every one of its steps.

usage: tests/python/daemon.py WORD..    (the compiled daemon; before it, on another processor, what starts it)

Without an end its answers must be examples/daemon.answers. Then it is ended at its first step, at its second and so on until it goes through; and each time it is started
again, ended once more at a step drawn, and started again. The answers and the state must then be, byte for byte, those of a daemon that was never ended: so no
ticket is lost and no number given twice. Requests that come while it is down are answered when it is started again, half a line not before its end. A line that is no request
is unreadable, however long. A state that is none is not taken. With --pick, a label, an index and a list of paths it answers as with the sheet that the readers of pick.py make
of them, ended and started again too; a list that is refused it does not take.
"""
import os
import random
import re
import subprocess
import sys
import tempfile

import pick_cases
from pick_readers import answer, by_tree

ROOT = os.path.join(os.path.dirname(os.path.abspath(__file__)), "../..")
ENDED = 70


def contents(path):
    with open(path, "rb") as file:
        return file.read()


def put(path, text):
    with open(path, "wb") as file:
        file.write(text)


class Daemon:
    """One in a folder of its own."""

    def __init__(self, start, folder):
        self.start, self.folder = start, folder
        self.tape, self.pick = os.path.join(ROOT, "examples/day.run"), []
        self.requests = os.path.join(folder, "requests")

    def path(self, name):
        return os.path.join(self.folder, name)

    def run(self, end_at=None):
        words = [self.path("state"), self.tape, self.requests, self.path("answers")] + self.pick
        ran = subprocess.run(self.start + words + (["--end-at", str(end_at)] if end_at else []), capture_output=True)
        if ran.returncode not in (0, ENDED) or ran.stdout or ran.stderr:
            sys.exit(f"daemon.py: ended at {end_at}, the daemon says {ran.stderr!r} with status {ran.returncode}")
        return ran.returncode

    def left(self):
        return contents(self.path("answers")), contents(self.path("state"))


def by_paths(fresh, requests, draw):
    """The tape's files by path, and by the sheet that a reader outside makes of the same texts."""
    places = ((0, 10), (10, 4), (14, 2), (20, 5), (30, 10), (45, 5), (60, 7))
    files = [pick_cases.one_file([b"reel", b"%d" % i], pick_cases.an_extent(start, 0, count)) for i, (start, count) in enumerate(places)]
    label, index, asked = pick_cases.a_label(), pick_cases.an_index(*files), b"".join(b"reel/%d\n" % i for i in (5, 0, 3, 1, 4, 2, 0))
    code, _, sheet, _ = answer(b"VX0041", by_tree, label, index, asked)
    by_sheet, by_list = fresh("by-sheet", requests), fresh("by-list", requests)
    by_sheet.tape, by_list.tape = by_sheet.path("tape.run"), by_list.path("list")
    by_list.pick = ["--pick", "VX0041", by_list.path("label"), by_list.path("index")]
    for path, text in ((by_sheet.tape, sheet), (by_list.tape, asked), (by_list.path("label"), label), (by_list.path("index"), index)):
        put(path, text)
    by_sheet.run()
    while by_list.run(draw.randrange(1, 60)) == ENDED:
        pass
    if code != 0 or sheet.count(b"file=") != 6 or b"closed=" not in by_list.left()[0] or by_list.left() != by_sheet.left():
        sys.exit(f"daemon.py: by paths the answers or the state are others than by their sheet:\n{by_list.left()[0].decode()}")
    before = by_list.left()
    put(by_list.tape, asked + b"reel/9\n")
    ran = subprocess.run(by_list.start + [by_list.path("state"), by_list.tape, by_list.requests, by_list.path("answers")] + by_list.pick, capture_output=True)
    if ran.returncode != 1 or not ran.stderr.endswith(b": refused=41,8 path of no file of the index, or of several\n") or by_list.left() != before:
        sys.exit(f"daemon.py: a list with a path of no file: {ran.stderr!r}, status {ran.returncode}")


def main():
    if len(sys.argv) < 2:
        sys.exit(__doc__)
    requests, draw = contents(os.path.join(ROOT, "examples/daemon.requests")), random.Random(6)
    # In memory where that can be had: what is tried is the order of the steps, and not the disk.
    with tempfile.TemporaryDirectory(dir="/dev/shm" if os.access("/dev/shm", os.W_OK) else None) as folder:
        def fresh(name, text):
            os.mkdir(os.path.join(folder, name))
            one = Daemon(sys.argv[1:], os.path.join(folder, name))
            put(one.requests, text)
            return one

        whole = fresh("whole", requests)
        whole.run()
        must = whole.left()
        if must[0] != contents(os.path.join(ROOT, "examples/daemon.answers")):
            sys.exit(f"daemon.py: the answers are not those of examples/daemon.answers:\n{must[0].decode()}")
        given = re.findall(rb"filed=(\d+),(\d+)\n", must[0])
        if len(set(given)) != len(given) or len(given) < 8 or b"closed=" not in must[0] or b"refused=17" not in must[0]:
            sys.exit("daemon.py: the requests do not file, close and refuse")
        steps = 0
        while True:
            steps += 1
            one = fresh(f"ended-{steps}", requests)
            if one.run(steps) == 0:
                break
            one.run(draw.randrange(1, 40))
            one.run()
            if one.left() != must:
                sys.exit(f"daemon.py: ended at step {steps}, answers or state are others:\n{one.left()[0].decode()}")
        half = requests.index(b"\nboard=") + 5
        late = fresh("late", requests[:half])
        late.run()
        put(late.requests, requests)
        late.run()
        if late.left() != must:
            sys.exit("daemon.py: requests that come later are answered otherwise")
        for odd in (b"", b"x" * 199, b"x" * 200, b"file=1,1,1" + b" " * 5000, b"file=1,1,1\0", b"file=1,1", b"file=1,1,1,1", b"file=1,,1", b"board=1,18446744073709551616"):
            one = fresh(f"odd-{len(odd)}-{odd[-9:].hex()}", odd + b"\nfile=1,1,1\nfile=1,1,1")
            one.run()
            if one.left()[0] != b"unreadable\nfiled=1,1\n":
                sys.exit(f"daemon.py: {odd[:40]!r}, a filing and half a line are answered by {one.left()[0]!r}")
        by_paths(fresh, requests, draw)
        damaged = bytearray(must[1])
        damaged[8] ^= 3
        for text in (b"", b"x" * len(must[1]), must[1][:-1], bytes(damaged)):
            other = fresh(f"damaged-{len(text)}-{text[:9].hex()}", requests)
            put(other.path("state"), text)
            ran = subprocess.run(sys.argv[1:] + [other.path("state"), os.path.join(ROOT, "examples/day.run"), other.requests, other.path("answers")], capture_output=True)
            if ran.returncode != 1 or contents(other.path("state")) != text or os.path.exists(other.path("answers")):
                sys.exit(f"daemon.py: a state that is none is taken, with status {ran.returncode}")
    print(f"daemon.py: ended at each of {steps - 1} steps and started again, the daemon answers as if it had never been ended")


if __name__ == "__main__":
    main()
