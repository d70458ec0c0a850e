#!/usr/bin/env python3
"""Holds what the programs and the command take of the machine to what the pages say: the stack of each program, the memory of pick, recall and serve.

usage: tests/python/limits.py [--long]    (the programs are those in target/bin, the command that in target/command)

The stack: the least `ulimit -s`, in steps of 8 KiB, with which a program answers an input at its limits; docs/OPERATOR.md says 1 MiB, and 6 MiB for the
programs that have their room there. The memory: what pick and recall have at most beside the texts that they map may be no more for a tape of many files
than for one of five; what serve has after thousands of filings no more than after one. Allowed is 1 MiB. --long: 100,000 files in place of 10,000, and
filings up to number 65,535 in place of 4,000.
"""
import argparse
import os
import resource
import signal
import socket
import subprocess
import sys
import tempfile
import time

import check
import ltfs
import mend
import month
import plan
import programs
import rewrite
from ltfs_cases import simple_label
from ltfs_readers import framed as tape_framed

COMMAND = os.path.join(programs.ROOT, "target/command/violstream")
EXAMPLE = os.path.join(programs.ROOT, "examples/ltfs/VX0041")
STEP, MOST, LARGE, ALLOWED, LIMIT = 8, 1024, 6144, 1 << 20, 120


# ---- Stack

def inputs():
    """For each program the most KiB that it may take, and an input at its limits."""
    wide, full = plan.sheet_of(64, 159), plan.full_sheet()
    priced = check.framed(wide, check.listed([(file, file) for file in range(64, 1, -1)]))
    sheet = subprocess.run([program("cmd_plan_any")], input=wide, stdout=subprocess.PIPE, check=True).stdout
    day = plan.contents(os.path.join(programs.ROOT, "examples/day.run"))
    tape = tape_framed(b"A", simple_label(524288), ltfs.full_index(256, 900))
    return {"cmd_plan": (MOST, full), "cmd_field": (MOST, plan.sheet_of(8, 1024)), "cmd_buys": (MOST, full), "cmd_price": (MOST, priced), "cmd_rewrite": (MOST, rewrite.longest(b"", 16383)),
            "cmd_mend": (MOST, mend.top(0) + b"wants=0\n" + b"want=2,1\n" * 900 + b"want=1,0\n" * 900), "cmd_month": (MOST, month.framed(*[full] * 100)),
            "cmd_desk": (MOST, b"%d\n" % len(day) + day + b"file=1,1,128\nfile=2,6,128\nfile=2,3,128\nboard=60,3\n"), "cmd_ltfs": (MOST, tape),
            "cmd_plan_any": (LARGE, wide), "cmd_buys_any": (LARGE, wide), "cmd_check": (LARGE, check.framed(wide, sheet))}


def program(name):
    return os.path.join(programs.ROOT, "target/bin", name)


def answered(name, text, kib):
    """What a program prints within so much stack; nothing where it ends by a signal."""
    limit = lambda: resource.setrlimit(resource.RLIMIT_STACK, (kib * 1024, kib * 1024))
    done = subprocess.run([program(name)], input=text, stdout=subprocess.PIPE, stderr=subprocess.DEVNULL, preexec_fn=limit, timeout=LIMIT)
    return done.stdout if done.returncode == 0 else None


def least_stack(name, text, most):
    """In KiB, by halving."""
    must, low, high = answered(name, text, 8192), 0, most
    if not must or must.startswith(b"refused"):
        sys.exit(f"limits.py: {name} gives {must!r} for an input at its limits")
    if answered(name, text, most) != must:
        sys.exit(f"limits.py: {name} does not answer within {most} KiB of stack")
    while high - low > STEP:
        middle = (low + high) // 2 // STEP * STEP
        if answered(name, text, middle) == must:
            high = middle
        else:
            low = middle
    return high


def stacks():
    for name, (most, text) in inputs().items():
        print(f"stack of {name}: {least_stack(name, text, most)} KiB for {len(text)} bytes, allowed are {most}")


# ---- Memory of pick and recall

def most_memory(pid):
    with open(f"/proc/{pid}/status", encoding="ascii") as status:
        return next(int(line.split()[1]) * 1024 for line in status if line.startswith("VmHWM"))


def still(pid):
    """What a process has used of the processor by now; none unless it waits."""
    with open(f"/proc/{pid}/stat", encoding="ascii") as stat:
        fields = stat.read().rsplit(")", 1)[1].split()
    return fields[11:13] if fields[0] == "S" else None


def held_back(words):
    """The most memory of a call: its answer goes into a pipe that is full, so that it waits when everything is done."""
    take, give = os.pipe()
    os.set_blocking(give, False)
    try:
        while True:
            os.write(give, b"x" * 4096)
    except BlockingIOError:
        os.set_blocking(give, True)
    with subprocess.Popen(words, stdin=subprocess.DEVNULL, stdout=give, stderr=subprocess.PIPE) as running:
        os.close(give)
        began, before, same = time.monotonic(), None, 0
        while same < 20 and running.poll() is None and time.monotonic() - began < LIMIT:
            now = still(running.pid)
            same, before = (same + 1 if now is not None and now == before else 0), now
            time.sleep(0.01)
        if running.poll() is not None or same < 20:
            sys.exit(f"limits.py: {words} ends or goes on while its answer is held back: {running.poll()}, {running.stderr.read()!r}")
        most = most_memory(running.pid)
        with os.fdopen(take, "rb") as handle:
            handle.read()
        if running.wait(LIMIT) != 0:
            sys.exit(f"limits.py: {words} ends with {running.returncode}: {running.stderr.read()!r}")
    return most


def beside_texts(command, label, index, wanted):
    texts = sum(os.path.getsize(name) for name in (label, index, wanted))
    most = held_back([COMMAND, command, "VX0041", label, index, wanted])
    return texts, most, most - texts


def picks(folder, files):
    small, index, wanted = (os.path.join(folder, name) for name in ("small", "index", "list"))
    with open(small, "wb") as handle:
        handle.write(b"rushes/clip0001.mxf\n")
    subprocess.run([sys.executable, os.path.join(programs.ROOT, "bench/index/make.py"), index, wanted, "--files", str(files), "--wanted", "64"], check=True)
    for command in ("pick", "recall"):
        bare = beside_texts(command, EXAMPLE + ".label.xml", EXAMPLE + ".index.xml", small)
        texts, most, beside = beside_texts(command, EXAMPLE + ".label.xml", index, wanted)
        if beside > bare[2] + ALLOWED:
            sys.exit(f"limits.py: {command} of {files} files has {beside} bytes beside its texts, and of 5 files {bare[2]}")
        print(f"memory of {command}, {files} files: {most} bytes, of which {texts} are the texts; beside them {beside}, and {bare[2]} for a tape of 5 files, allowed are {bare[2] + ALLOWED}")


# ---- Memory of serve

def asked(asker, lines):
    """Sends lines and waits for as many answers, the last of which it gives."""
    asker.sendall(b"".join(line + b"\n" for line in lines))
    held, last = b"", b""
    for _ in lines:
        while b"\n\n" not in held:
            more = asker.recv(65536)
            if not more:
                sys.exit("limits.py: the server has ended")
            held += more
        last, held = held.split(b"\n\n", 1)
    return last


def serves(folder, filings):
    windows, journal = os.path.join(folder, "windows"), os.path.join(folder, "journal")
    os.makedirs(windows)
    words = [COMMAND, "serve", "--journal", journal, "--windows", windows, os.path.join(programs.ROOT, "examples/day.run")]
    with subprocess.Popen(words, stdin=subprocess.DEVNULL, stderr=subprocess.PIPE) as server:
        while b"serving at" not in server.stderr.readline():
            if server.poll() is not None:
                sys.exit("limits.py: the server does not start")
        asker = socket.socket(socket.AF_UNIX)
        asker.settimeout(LIMIT)
        asker.connect(os.path.join(windows, "office1"))
        asked(asker, [b"file=1,1", b"withdraw=1"] + [b"waiting"] * 20)
        first = most_memory(server.pid)
        for number in range(2, filings + 1, 8):
            many = range(number, min(number + 8, filings + 1))
            last = asked(asker, [line for one in many for line in (b"file=1,1", b"withdraw=%d" % one)])
            if last != b"withdrawn=1,%d" % many[-1]:
                sys.exit(f"limits.py: number {many[-1]} is answered {last!r}")
        most = most_memory(server.pid)
        server.send_signal(signal.SIGTERM)
        if server.wait(LIMIT) != 0:
            sys.exit(f"limits.py: the server ends with {server.returncode}")
    if most > first + ALLOWED:
        sys.exit(f"limits.py: serve has {most} bytes after {filings} filings, and {first} after one")
    print(f"memory of serve: {most} bytes after {filings} filings and withdrawals, {first} after one, allowed are {first + ALLOWED}; journal {os.path.getsize(journal)} bytes")


def main():
    reader = argparse.ArgumentParser(description=__doc__.split("\n")[0])
    reader.add_argument("--long", action="store_true", help="100,000 files, and filings up to number 65,535")
    long = reader.parse_args().long
    if os.uname().machine != "x86_64":
        print("limits.py: left out, an emulator's stack and memory say nothing of the programs")
        return
    stacks()
    if subprocess.run([COMMAND, "pick", "VX0041", EXAMPLE + ".label.xml", EXAMPLE + ".index.xml", "/dev/null"], stdout=subprocess.DEVNULL, stderr=subprocess.DEVNULL).returncode != 0:
        print("limits.py: memory left out: the command was compiled without the library")
        return
    for one, count in ((picks, 100000 if long else 10000), (serves, 65535 if long else 4000)):
        with tempfile.TemporaryDirectory() as folder:
            one(folder, count)
    print("limits.py: every program and command within what is allowed")


if __name__ == "__main__":
    main()
