#!/usr/bin/env python3
"""Times the command: a thousand sheets named at once, beside the script that it has replaced; and the plan of one sheet, beside the proved program by itself.

usage: bench/command.py [--rounds N] [--calls N]    (the program is target/bin/cmd_plan; the command is compiled first, where it must be)

The script is that of commit db18466, taken out of git into a temporary folder, with the same proved program. The ways take turns, N rounds of the thousand
sheets (3) and N calls for one sheet (200), and must print the same bytes, or this fails. Told are medians by the clock and means of the processor's time.
Quiet machine, or the figures mean nothing.
"""
import argparse
import os
import resource
import shutil
import statistics
import subprocess
import sys
import tarfile
import tempfile
import time

ROOT = os.path.dirname(os.path.dirname(os.path.abspath(__file__)))
PROGRAM = os.path.join(ROOT, "target/bin/cmd_plan")
SCRIPT = os.path.join(ROOT, "violstream")
COMMAND = os.path.join(ROOT, "target/command/violstream")
BEFORE = "db18466"
SHEETS = 1000


def old_script(folder):
    """The script of before and what it reads, with the program of now."""
    packed, old = os.path.join(folder, "old.tar"), os.path.join(folder, "old")
    subprocess.run(["git", "-C", ROOT, "archive", "-o", packed, BEFORE, "violstream", "tools", "crates", "crates.txt"], check=True)
    with tarfile.open(packed) as archive:
        archive.extractall(old)
    os.makedirs(os.path.join(old, "target/bin"))
    shutil.copy(PROGRAM, os.path.join(old, "target/bin"))
    return os.path.join(old, "violstream")


def sheets(folder):
    """Run sheets, each with another head and turn price."""
    with open(os.path.join(ROOT, "examples/VX0041.run")) as handle:
        text = handle.read()
    names = [os.path.join(folder, f"{number:04}.run") for number in range(SHEETS)]
    for number, name in enumerate(names):
        with open(name, "w") as handle:
            handle.write(text.replace("head=60\n", f"head={60 + number}\n").replace("turn=1\n", f"turn={number % 7}\n"))
    return names


def timed(words, name=os.devnull):
    """What a call prints, how long it takes by the clock, and of the processor."""
    before, began = resource.getrusage(resource.RUSAGE_CHILDREN), time.perf_counter()
    with open(name) as handle:
        done = subprocess.run(words, stdin=handle, capture_output=True)
    clock, after = time.perf_counter() - began, resource.getrusage(resource.RUSAGE_CHILDREN)
    if done.returncode != 0 or done.stderr:
        sys.exit(f"bench/command.py: {words[0]} ended with status {done.returncode} and said {done.stderr!r}")
    return done.stdout, clock, after.ru_utime + after.ru_stime - before.ru_utime - before.ru_stime


def in_turn(ways, rounds):
    """By the name of each way, its median by the clock and its mean of the processor's time."""
    times, must = {way: [] for way in ways}, None
    for _ in range(rounds):
        for way, (words, name) in ways.items():
            printed, *taken = timed(words, name)
            times[way].append(taken)
            must = printed if must is None else must
            if printed != must:
                sys.exit(f"bench/command.py: {way} prints other bytes than {next(iter(ways))}")
    return {way: (statistics.median(clock for clock, _ in taken), statistics.mean(used for _, used in taken)) for way, taken in times.items()}, must


def main():
    reader = argparse.ArgumentParser(description=__doc__.split("\n")[0])
    reader.add_argument("--rounds", type=int, default=3)
    reader.add_argument("--calls", type=int, default=200)
    asked = reader.parse_args()
    sheet = os.path.join(ROOT, "examples/VX0041.run")
    with tempfile.TemporaryDirectory() as folder:
        script, names = old_script(folder), sheets(folder)
        subprocess.run([SCRIPT, "plan", sheet], check=True, stdout=subprocess.DEVNULL)
        many, printed = in_turn({"the script of before": ([script, "plan", *names], os.devnull), "the command": ([SCRIPT, "plan", *names], os.devnull)}, asked.rounds)
        one, plan = in_turn({"the program": ([PROGRAM], sheet), "the command": ([COMMAND, "plan", sheet], os.devnull), "through the script": ([SCRIPT, "plan", sheet], os.devnull)}, asked.calls)
    if printed.count(b"\ntape=") != SHEETS or not plan.startswith(b"tape="):
        sys.exit("bench/command.py: not every sheet has a plan")
    heading = "{:<50} {:>12} {:>11}".format
    print(heading(f"{SHEETS} sheets named at once, rounds: {asked.rounds}, s", "by the clock", "processor"))
    for way, (clock, used) in many.items():
        print(f"  {way:<48} {clock:12.3f} {used:11.3f}")
    (old, old_used), (new, new_used) = many.values()
    print(f"  {'ratio':<48} {old / new:12.1f} {old_used / new_used:11.1f}")
    print(heading(f"the plan of one sheet, calls of each: {asked.calls}, ms", "by the clock", "processor"))
    alone, alone_used = one["the program"]
    for way, (clock, used) in one.items():
        more = "" if way == "the program" else f"   {1000 * (clock - alone):.2f} and {1000 * (used - alone_used):.2f} more, {clock / alone:.2f} and {used / alone_used:.2f} times"
        print(f"  {way:<48} {1000 * clock:12.2f} {1000 * used:11.2f}{more}")


if __name__ == "__main__":
    main()
