#!/usr/bin/env python3
"""How many events a second `violstream serve` answers, beside SQLite on the same disk: one asker, and eight.

usage: bench/serve.py [--folder FOLDER] [--seconds N] [--rounds N] [--disk]

FOLDER is on the disk that is measured (default: the checkout's target/). Each asker is a process. At the server it files a ticket and withdraws it, and
waits for each answer. With SQLite it adds the same event to a table, in a transaction of its own (journal_mode=WAL, synchronous=FULL), which is on the disk
when the commit returns. After its first thousand commits SQLite's log has been round, and is written over in place; the journal always grows. What the disk
alone takes for either is measured too: an entry of the journal behind the last one, and a frame of SQLite's log over an old one, each followed by
fdatasync. All alternate, and the medians are told, with the median of the rounds' ratios. Last, how much processor time a server takes that nobody asks.
With --disk the disk alone is measured, in other ways too: with room for the journal reserved ahead, and by writes that sync themselves.
Quiet machine, or the figures mean nothing.
"""
import argparse
import multiprocessing
import os
import signal
import socket
import sqlite3
import statistics
import subprocess
import sys
import tempfile
import time

ROOT = os.path.dirname(os.path.dirname(os.path.abspath(__file__)))
COMMAND = os.path.join(ROOT, "target/command/violstream")
SHEET = os.path.join(ROOT, "examples/day.run")
WINDOWS = ("office1", "office2", "operator")


def ask(path, ends, count):
    """Files and withdraws until the time is over."""
    with socket.socket(socket.AF_UNIX) as window:
        window.connect(path)
        answers = window.makefile("rb")

        def answer(line):
            window.sendall(line)
            said = answers.readline()
            while answers.readline() != b"\n":
                pass
            return said

        while time.monotonic() < ends:
            said = answer(b"file=3,2\n")
            if said.startswith(b"filed="):
                answer(b"withdraw=" + said.split(b",")[1])
                with count.get_lock():
                    count.value += 2


def added(base, kind, value):
    base.execute("BEGIN IMMEDIATE")
    base.execute("INSERT INTO event (made, who, kind, value) VALUES (?, ?, ?, ?)", (time.time(), os.getpid(), kind, value))
    base.execute("COMMIT")


def add(path, ends, count):
    """The same events in a table, a commit for each."""
    base = sqlite3.connect(path, timeout=60, isolation_level=None)
    base.execute("PRAGMA synchronous=FULL")
    while time.monotonic() < ends:
        added(base, "file", "3,2")
        added(base, "withdraw", "1")
        with count.get_lock():
            count.value += 2
    base.close()


def together(work, paths, seconds):
    """Events a second of so many processes at once."""
    count = multiprocessing.Value("Q", 0)
    began = time.monotonic()
    askers = [multiprocessing.Process(target=work, args=(path, began + seconds, count)) for path in paths]
    for asker in askers:
        asker.start()
    for asker in askers:
        asker.join()
        if asker.exitcode != 0:
            sys.exit("bench/serve.py: an asker has failed; what it said stands above")
    return count.value / (time.monotonic() - began)


def served(within):
    """A server with its journal and its windows in a folder."""
    call = subprocess.Popen([COMMAND, "serve", "--journal", os.path.join(within, "journal"), "--windows", within, SHEET], stderr=subprocess.PIPE)
    # Before that, where another library was made, the command is compiled anew.
    if not any(b"serving at" in line for line in call.stderr):
        sys.exit("bench/serve.py: the server does not start")
    return call


def ended(call):
    call.send_signal(signal.SIGTERM)
    call.wait()
    call.stderr.close()


def by_server(folder, askers, seconds):
    with tempfile.TemporaryDirectory(dir=folder) as within:
        call = served(within)
        rate = together(ask, [os.path.join(within, WINDOWS[number % 2]) for number in range(askers)], seconds)
        ended(call)
        return rate


def by_sqlite(folder, askers, seconds):
    with tempfile.TemporaryDirectory(dir=folder) as within:
        path = os.path.join(within, "events")
        # Open until the end: so the log stays, and is begun again from its front once it has been round.
        base = sqlite3.connect(path, isolation_level=None)
        base.execute("PRAGMA journal_mode=WAL")
        base.execute("PRAGMA synchronous=FULL")
        base.execute("CREATE TABLE event (number INTEGER PRIMARY KEY, made REAL, who INTEGER, kind TEXT, value TEXT)")
        for _ in range(1500):
            added(base, "file", "3,2")
        rate = together(add, [path] * askers, seconds)
        base.close()
        return rate


# An entry of the journal, a frame of SQLite's log, and how long that log is when it begins again.
ENTRY, FRAME, LOG = 75, 24 + 4096, 1000 * (24 + 4096)
# Askers, and how many times SQLite the server is to be.
BARS = {1: 0.8, 8: 3}


def by_disk(folder, size, seconds, around=0, reserved=False, at_once=False):
    """Writes of so many bytes a second, each synced: behind the last one, or round and round in so many bytes."""
    with tempfile.NamedTemporaryFile(dir=folder, buffering=0) as handle:
        handle.write(b"y" * around)
        if reserved:
            subprocess.run(["fallocate", "--keep-size", "--length", "64MiB", handle.name], check=True)
        descriptor, text = handle.fileno(), b"x" * size
        os.fsync(descriptor)
        began, at, count = time.monotonic(), 0, 0
        while time.monotonic() < began + seconds:
            os.pwritev(descriptor, [text], at, os.RWF_DSYNC if at_once else 0)
            if not at_once:
                os.fdatasync(descriptor)
            at, count = at + size, count + 1
            if around and at + size > around:
                at = 0
        return count / (time.monotonic() - began)


def idle(folder, seconds):
    """Processor time, in milliseconds, of a server at whose windows three stand and do not ask."""
    with tempfile.TemporaryDirectory(dir=folder) as within:
        call = served(within)
        standing = [socket.socket(socket.AF_UNIX) for _ in WINDOWS]
        for window, name in zip(standing, WINDOWS):
            window.connect(os.path.join(within, name))
        time.sleep(0.2)
        before = taken(call.pid)
        time.sleep(seconds)
        spent = taken(call.pid) - before
        for window in standing:
            window.close()
        ended(call)
        return spent


def taken(pid):
    with open(f"/proc/{pid}/schedstat") as handle:
        return int(handle.read().split()[0]) / 1e6


def kinds_of(words):
    """What is measured in a round, by its name."""
    def disk(size, **how):
        return lambda: by_disk(words.folder, size, words.seconds / 2, **how)

    kinds = {"disk alone, an entry behind the last one": disk(ENTRY), "disk alone, a frame over an old one": disk(FRAME, around=LOG)}
    if words.disk:
        return {**kinds, "disk alone, an entry over an old one": disk(ENTRY, around=LOG), "an entry behind the last one, with 64 MiB reserved ahead": disk(ENTRY, reserved=True),
                "an entry behind the last one, by a write that syncs itself": disk(ENTRY, at_once=True)}
    for askers in BARS:
        kinds[f"serve, askers={askers}, events"] = lambda askers=askers: by_server(words.folder, askers, words.seconds)
        kinds[f"SQLite, askers={askers}, commits"] = lambda askers=askers: by_sqlite(words.folder, askers, words.seconds)
    return kinds


def main():
    reader = argparse.ArgumentParser(description=__doc__.split("\n")[0])
    reader.add_argument("--folder", default=os.path.join(ROOT, "target"), help="on the disk that is measured")
    reader.add_argument("--seconds", type=float, default=2, help="of each part of a round")
    reader.add_argument("--rounds", type=int, default=11, help="of each, in turn")
    reader.add_argument("--disk", action="store_true", help="the disk alone, in more ways")
    words = reader.parse_args()
    subprocess.run([os.path.join(ROOT, "violstream"), "version"], check=True, stdout=subprocess.DEVNULL)
    kinds = kinds_of(words)
    rates = {name: [] for name in kinds}
    for _ in range(words.rounds):
        for name, measure in kinds.items():
            rates[name].append(measure())
    for name, measured in rates.items():
        print(f"{name}, a second: {statistics.median(measured):.0f} (rounds: {', '.join(f'{rate:.0f}' for rate in measured)})")
    if words.disk:
        return
    for askers, bar in BARS.items():
        ours, theirs = rates[f"serve, askers={askers}, events"], rates[f"SQLite, askers={askers}, commits"]
        ratios = [one / other for one, other in zip(ours, theirs)]
        print(f"askers={askers}: serve is {statistics.median(ratios):.2f} times SQLite (the aim: {bar}; rounds: {', '.join(f'{ratio:.2f}' for ratio in ratios)})")
    print(f"nobody asks: {idle(words.folder, 5):.2f} ms of processor time in 5 s")


if __name__ == "__main__":
    main()
