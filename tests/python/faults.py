#!/usr/bin/env python3
"""Has each read, write, open, close, poll, pipe, start, rename, socket .. of the command fail, one after the other, and looks at how the call ends.

usage: tests/python/faults.py [--only WORD] [--long]    (the command is that in target/command, the programs are those in target/bin)

A call must print its whole answer and end as without a fault, or say what went wrong in a sentence and end with status 1. A short answer with status
0 or 3 is what must never be. A server may also go on, where one asker gets no answer or is told that his event was not kept; whatever it has answered is
in its journal, and the next server goes on from there. A book is right after each try. The faults are made by tests/c/faults.c, loaded before libc; of
all tries a table is printed. Where a call builds what it needs, stand-ins for rt, cargo and tools/build.sh do it at once; of tools/build.sh and violstream
themselves, each program that they start fails in turn.
"""
import argparse
import collections
import errno
import os
import shutil
import signal
import socket
import subprocess
import sys
import tempfile
import time

import programs
from command import ARCHIVE, BUILT, INDEX, LABEL, PROGRAMS, Checkout, built, contents, faulty, forget_built, large_run, uncompiled

KINDS = {"read": errno.EIO, "write": errno.ENOSPC, "open": errno.EMFILE, "close": errno.EIO, "poll": errno.ENOMEM, "pipe2": errno.EMFILE, "fork": errno.EAGAIN,
         "waitpid": errno.ECHILD, "dup2": errno.EMFILE, "execvp": errno.EACCES, "fcntl": errno.EBADF, "flock": errno.ENOLCK, "rename": errno.EXDEV, "fsync": errno.EIO, "linkat": errno.EPERM,
         "mkdir": errno.EACCES, "unlink": errno.EACCES, "symlink": errno.EPERM, "fchmod": errno.EPERM, "readlink": errno.EACCES, "pwrite64": errno.ENOSPC, "fdatasync": errno.EIO,
         "ftruncate64": errno.EIO, "lseek64": errno.EIO, "statx": errno.EIO, "chmod": errno.EPERM, "chown": errno.EPERM, "socket": errno.EMFILE, "bind": errno.EACCES, "listen": errno.EADDRINUSE,
         "accept4": errno.EMFILE, "connect": errno.ECONNREFUSED, "getsockopt": errno.ENOBUFS, "recv": errno.ECONNRESET, "signalfd": errno.EMFILE, "opendir": errno.EMFILE, "readdir64": errno.EIO,
         "mmap": errno.ENOMEM, "spawn": errno.EAGAIN, "ioctl": errno.EIO, "access": errno.EACCES, "utimensat": errno.EPERM}
RUN, PLAN = "examples/VX0041.run", "examples/VX0041.plan"
CALLS = (f"plan {RUN}", "plan --any examples/mounted.run", "plan --any large.run", f"plan {RUN} examples/no-wants.run", f"field {RUN}", f"buys --json {RUN}", f"price {RUN} examples/VX0041.list", f"check {RUN} {PLAN}",
         f"explain {RUN} --svg picture", "rewrite examples/no-wants.run", "mend loose.run", "month may.month", f"month {RUN} examples/retired-rule.run",
         f"ltfs VX0041 {LABEL} {INDEX}", "desk examples/day.run examples/day.events", "desk --replay day.journal", f"plan {PLAN}", f"price {RUN} {RUN}", f"record vault {RUN} examples/retired-rule.run",
         "audit ledger", "audit --tape VX0041 --html page ledger", "completions bash", "version", "help", "plan --help")
# Of the library, which the command has where it was there when it was compiled.
NAMED = (f"pick --names names VX0041 {LABEL} {INDEX} paths", f"recall --speed 300000000 --begin 2026-11-16T08:00:00 --svg picture VX0041 {LABEL} {INDEX} paths")
SERVED = ("serve --journal day.journal --windows windows examples/day.run", "serve --journal day.journal --windows windows --book boardings examples/day.run")
ASKED = "ask windows/office1 file=3,2 waiting"
# What is asked of a server, in this order.
EVENTS = (("office1", b"file=3,2"), ("office2", b"file=5,4"), ("office1", b"file=1,1"), ("office1", b"withdraw=1"), ("operator", b"board=70,3"), ("office2", b"file=1,129"), ("office2", b"file=2,1"))
# Calls that leave something behind, which are put right before each try.
MAKING = ("install PREFIX", "uninstall PREFIX", "deb")
# Calls that build first: a program; a program and the library; and the command itself, with a library that is new.
BUILDING = (f"first plan {RUN}", "first build", "relinked build")
ANOTHER, CRATES = ARCHIVE + b"another\n", b"refusals:\nruns: refusals\nwalk: refusals runs\ncmd_plan: runs walk\n"
# A stand-in for tools/build.sh.
BUILD = """#!/bin/sh
printf '%s\\n' 'rooms=/no-such' 'rt: walk proved (7 s)'
mkdir -p target/bin target/stamp target/staticlib || exit
case $1 in
check) cp "kept/$2" target/bin/ && echo > "target/stamp/$2" ;;
library) printf '!<arch>\\n' > target/staticlib/libviolstream.a ;;
esac
"""
# Programs that tools/build.sh starts for a program, and for the library; and violstream itself, where it compiles the command. Each counts its starts, and fails
# when it is told to. A copy is then cut short, as on a full disk, also by mv from another folder.
STARTED = {BUILDING[0]: "chmod cmp cp dirname mkdir mkfifo mktemp mv rm rt tee uname", BUILDING[1]: "cat chmod cp dirname llvm-ar ln mkdir mkfifo mktemp mv nproc rattle rm sed sort tee tr uname",
           BUILDING[2]: "cat cksum cp find grep ls mkdir mv rm sed setpriv uname"}
FAILING = """#!/bin/sh
name=${0##*/} PATH=%s
printf '%%s\\n' "$name" >> %s
if [ "$(wc -l < %s)" -eq "$VIOLSTREAM_FAILING" ]; then
    for word; do from=${to:-} to=$word; done
    case $name in cp | mv) [ "$name,${from%%/*}" = "mv,${to%%/*}" ] || head -c 4 "$from" > "$to" ;; esac
    printf '%%s: error: planted\\n' "$name" >&2
    exit 1
fi
exec "$name" "$@"
"""
# Seconds for a call, and for an answer of a server; a first call starts dozens of programs, and the machine may be busy.
LIMIT, PATIENCE = 300, 60


def chosen(count, many):
    """Every call of a kind, or where many do the same for one file after the other, the first and the last and some between."""
    return [number for number in range(1, count + 1) if not many or number <= 6 or number > count - 6 or number % 25 == 0]


def packed(out):
    """What is in the package that a call says it has made, with its sizes, but for the one file that says when."""
    listed = subprocess.run(["dpkg-deb", "-c", out.decode().removeprefix("made ").strip("'\n")], stdout=subprocess.PIPE, check=True).stdout.split(b"\n")
    return [line.split()[:2] + line.split()[5:] + (line.split()[2:3] if b"changelog.Debian" not in line else []) for line in listed]


class Tries:
    def __init__(self, at, shim):
        self.at, self.shim, self.table, self.packed = at, shim, {}, None
        self.prefix, self.counted, self.starts = at.path("prefix"), at.path("counted"), None

    def started(self, words, kind, number, **how):
        surroundings = dict(self.at.surroundings, LD_PRELOAD=self.shim, VIOLSTREAM_FAULT=f"{kind}:{number}:{KINDS.get(kind, 0)}", VIOLSTREAM_FAULT_COUNT=self.counted)
        command = "./violstream" if words in BUILDING else self.at.path(BUILT)
        words = [self.prefix if word == "PREFIX" else word for word in words.removeprefix("first ").removeprefix("relinked ").split()]
        return subprocess.Popen([command, *words], cwd=self.at.root, stdin=subprocess.DEVNULL, stdout=subprocess.PIPE, stderr=subprocess.PIPE, env=surroundings, **how)

    def met(self):
        """How many calls of a kind there were in the process that has ended."""
        if not os.path.exists(self.counted):
            return 0
        with open(self.counted) as handle:
            met = int(handle.read())
        os.remove(self.counted)
        return met

    def call(self, words, kind="none", number=0):
        """What a call prints and says, its status, and how many calls of a kind it made."""
        with self.started(words, kind, number) as running:
            try:
                out, said = running.communicate(timeout=LIMIT)
            except subprocess.TimeoutExpired:
                running.kill()
                sys.exit(f"faults.py: violstream {words}, with {kind} number {number} failing, has not ended after {LIMIT} s")
        return out, said, running.returncode, self.met()

    def note(self, words, outcome):
        self.table.setdefault(words, collections.Counter())[outcome] += 1

    def prepare(self, words):
        if words in MAKING:
            shutil.rmtree(self.prefix, ignore_errors=True)
        if words.startswith("record"):
            shutil.rmtree(self.at.path("vault"), ignore_errors=True)
            shutil.copytree(self.at.path("ledger"), self.at.path("vault"))
        if words.startswith("uninstall"):
            self.call("install PREFIX")
        if words in BUILDING:
            self.unbuild(words)

    def unbuild(self, words):
        """What the call needs is not built, and stand-ins are there to build it."""
        at = self.at
        if not os.path.exists(at.path("kept")):
            uncompiled(at)
            os.rename(at.path("tools/build.sh"), at.path("tools/build.kept"))
            at.write("tools/build.stand-in", BUILD.encode())
            os.chmod(at.path("tools/build.stand-in"), 0o755)
            at.write("crates.txt", CRATES)
            os.utime(at.path("crates.txt"), (0, 0))
        forget_built(at)
        shutil.copy(at.path("command.kept"), at.path(BUILT))
        shutil.copy(at.path("tools/build.kept" if self.starts else "tools/build.stand-in"), at.path("tools/build.sh"))
        at.write("target/command/linked.a", ARCHIVE)
        if words != BUILDING[0]:
            for folder in ("bin", "stamp", "staticlib"):
                os.makedirs(at.path(f"target/{folder}"))
            for name in PROGRAMS[0 if words == BUILDING[2] or self.starts else 1:]:
                os.link(at.path(f"kept/{name}"), at.path(f"target/bin/{name}"))
                at.write(f"target/stamp/{name}", b"\n")
        if words == BUILDING[2]:
            at.write("target/staticlib/libviolstream.a", ANOTHER)

    def unfinished(self, words):
        """What such a call has not left as it must be."""
        must = {f"target/bin/{name}": contents(f"target/bin/{name}") for name in PROGRAMS[:1 if words == BUILDING[0] else None]}
        must.update({f"target/stamp/{name}": b"\n" for name in PROGRAMS[:1 if words == BUILDING[0] else None]})
        if words != BUILDING[0]:
            must.update({name: ANOTHER if words == BUILDING[2] else ARCHIVE for name in ("target/staticlib/libviolstream.a", "target/command/linked.a")})
        return [name for name, data in must.items() if not os.path.exists(self.at.path(name)) or open(self.at.path(name), "rb").read() != data]

    def try_answers(self, words):
        """A call whose answers go on from try to try: how many there are, and of what kind."""
        shape = lambda out: [line.split(b"=")[0] for line in out.split(b"\n")]
        whole = self.call(words)
        for kind in KINDS:
            for number in range(1, self.call(words, kind, 0)[3] + 1):
                out, said, status, _ = self.call(words, kind, number)
                if (status, shape(out)[:1], shape(out)[-2:]) == (whole[2], shape(whole[0])[:1], shape(whole[0])[-2:]) or status == 3:
                    self.note(words, "whole")
                elif status == 1 and (b"violstream: " in said or kind == "write"):
                    self.note(words, "told")
                else:
                    sys.exit(f"faults.py: violstream {words}, with {kind} number {number} failing, printed {out!r}, said {said!r} and ended with status {status}")

    def try_call(self, words):
        self.prepare(words)
        whole = self.call(words)
        self.packed = packed(whole[0]) if words == "deb" else None
        for kind in KINDS:
            self.prepare(words)
            for number in chosen(self.call(words, kind, 0)[3], words in MAKING + BUILDING):
                self.prepare(words)
                out, said, status, _ = self.call(words, kind, number)
                self.judge(words, f"{kind} number {number}", whole, out, said, status)

    def judge(self, words, fault, whole, out, said, status):
        tell = f"violstream {words}, with {fault} failing, printed {out!r}, said {said!r} and ended with status {status}"
        if words.startswith("record"):
            _, of_book, right, _ = self.call("audit vault")
            if right != 0:
                sys.exit(f"faults.py: {tell}; and of the book audit says {of_book!r}")
        if status == whole[2] and out == whole[0]:
            if words == "deb" and packed(out) != self.packed:
                sys.exit(f"faults.py: {tell}; and the package has not all")
            if words in BUILDING and self.unfinished(words):
                sys.exit(f"faults.py: {tell}; and {self.unfinished(words)} are not as they must be")
            self.note(words, "whole")
            return
        self.note(words, "told")
        if status != 1:
            sys.exit(f"faults.py: {tell}; it must end with 1, or with {whole[2]} and its whole answer")
        if not said.startswith(b"violstream: ") and b"\nviolstream: " not in said and not fault.startswith("write "):
            sys.exit(f"faults.py: {tell}; it must say why")
        if words.startswith("install"):
            self.removable(tell)
        if words in BUILDING and (self.call(words)[:3:2] != whole[:3:2] or self.unfinished(words)):
            sys.exit(f"faults.py: {tell}; and the next call does not answer, or leaves {self.unfinished(words)} not as it must be")

    def removable(self, tell):
        """Whatever an installation that has failed has left can be removed."""
        if os.path.exists(os.path.join(self.prefix, "libexec/violstream/installed")):
            _, said, status, _ = self.call("uninstall PREFIX")
            if status != 0:
                sys.exit(f"faults.py: {tell}; and uninstall says {said!r}")
        left = [name for _, _, names in os.walk(self.prefix) for name in names]
        if left:
            sys.exit(f"faults.py: {tell}; and {left} stay after uninstall")


    def try_starts(self, words):
        """tools/build.sh and the script violstream as they are, with each program that they start failing in turn."""
        self.starts = self.at.path("starts")
        self.prepare(words)
        inside, before = self.at.path("failing"), dict(self.at.surroundings)
        os.makedirs(inside, exist_ok=True)
        # Those of the kit stand in folders of their own, and are called by their place.
        kit = before["RATTLE_HOME"]
        path = ":".join((f"{kit}/bin", before["PATH"], f"{kit}/toolchain/bin"))
        for name in STARTED[words].split():
            wrapper = os.path.join(inside, {"rattle": "bin/", "llvm-ar": "toolchain/bin/"}.get(name, "") + name)
            os.makedirs(os.path.dirname(wrapper), exist_ok=True)
            with open(wrapper, "w") as handle:
                handle.write(FAILING % (path, self.starts, self.starts))
            os.chmod(wrapper, 0o755)
        if "llvm-ar" in STARTED[words].split():
            os.symlink(f"{kit}/toolchain/bin/clang", f"{inside}/toolchain/bin/clang")
        self.at.surroundings.update(PATH=inside + ":" + before["PATH"], RATTLE_HOME=inside)
        self.call_started(words, 0) # makes folders that stay
        self.prepare(words)
        whole, started = self.call_started(words, 0)
        if set(started) != set(STARTED[words].split()):
            sys.exit(f"faults.py: for {words} the scripts start {sorted(set(started))}, and not {STARTED[words]}: {whole}")
        for number in range(1, len(started) + 1):
            self.prepare(words)
            tried, _ = self.call_started(words, number)
            self.at.surroundings.update(VIOLSTREAM_FAILING="0")
            self.judge(words, f"start number {number} of the scripts ({started[number - 1]})", whole, *tried[:3])
        self.at.surroundings, self.starts = before, None
        self.table[f"{words}, what the scripts start"] = self.table.pop(words)
        shutil.rmtree(inside)

    def call_started(self, words, number):
        """A call with a start of that number failing; and the programs that were started."""
        open(self.starts, "w").close()
        self.at.surroundings.update(VIOLSTREAM_FAILING=str(number))
        tried = self.call(words)
        with open(self.starts) as handle:
            return tried, handle.read().split()


class Served:
    """A server that something fails in: what it is asked, what it answers, how it ends, and whether the next one knows all that was answered."""

    def __init__(self, tries, words):
        self.tries, self.words, self.at = tries, words, tries.at

    def prepare(self):
        for name in ("windows", "boardings"):
            shutil.rmtree(self.at.path(name), ignore_errors=True)
        os.makedirs(self.at.path("windows"))
        if os.path.exists(self.at.path("day.journal")):
            os.remove(self.at.path("day.journal"))

    def ask(self, running, window, line):
        """An answer; none where nobody answers."""
        began = time.monotonic()
        while time.monotonic() - began < PATIENCE:
            asker = socket.socket(socket.AF_UNIX)
            asker.settimeout(PATIENCE)
            try:
                asker.connect(self.at.path("windows/" + window))
                asker.sendall(line + b"\n")
                held = b""
                while not held.endswith(b"\n\n"):
                    more = asker.recv(4096)
                    if not more:
                        return None
                    held += more
                return held[:-1]
            except (FileNotFoundError, ConnectionRefusedError, PermissionError):
                # Not there yet, or no more.
                if running.poll() is not None:
                    return None
                time.sleep(0.005)
            except (ConnectionResetError, BrokenPipeError):
                return None
            finally:
                asker.close()
        sys.exit(f"faults.py: violstream {self.words} leaves {line!r} at {window} without an answer and without an end")

    def day(self, kind="none", number=0):
        """The answers to all events, what the server says, and its status."""
        with self.tries.started(self.words, kind, number) as running:
            answers = [self.ask(running, *event) for event in EVENTS]
            if running.poll() is None:
                running.send_signal(signal.SIGTERM)
            try:
                _, said = running.communicate(timeout=LIMIT)
            except subprocess.TimeoutExpired:
                running.kill()
                sys.exit(f"faults.py: violstream {self.words}, with {kind} number {number} failing, does not end by SIGTERM")
        return answers, said, running.returncode, self.tries.met()

    def try_all(self):
        self.prepare()
        whole = self.day()
        if whole[2] != 0 or None in whole[0]:
            sys.exit(f"faults.py: violstream {self.words} without a fault: {whole}")
        for kind in KINDS:
            self.prepare()
            # Behind an answer it looks for the next line again and again, for a while.
            for number in chosen(self.day(kind, 0)[3], kind == "poll"):
                self.prepare()
                self.judge(f"{kind} number {number}", whole, *self.day(kind, number)[:3])

    def judge(self, fault, whole, answers, said, status):
        tell = f"violstream {self.words}, with {fault} failing, answered {answers}, said {said!r} and ended with status {status}"
        kept, of_desk, right, _ = self.tries.call("desk --replay day.journal") if os.path.exists(self.at.path("day.journal")) else (b"", b"", 0, 0)
        if right != 0 and any(answers):
            sys.exit(f"faults.py: {tell}; and of its journal desk says {of_desk!r}")
        for answer in answers:
            # What the desk has accepted; who waits, and refusals, stand in no journal.
            if answer and not answer.startswith((b"refused=", b"failed=")) and answer not in kept:
                sys.exit(f"faults.py: {tell}; and {answer!r} is not in its journal, which gives {kept!r}")
        again, of_next, ended, _ = self.day()
        taken = kept.count(b"filed=1,")
        if ended != 0 or None in again or again[0] != b"filed=1,%d\n" % (taken + 1):
            sys.exit(f"faults.py: {tell}; and the next server, with {taken} filings of office 1 in the journal, answers {again} and says {of_next!r}")
        if (answers, status) == (whole[0], whole[2]):
            self.tries.note(self.words, "whole")
        elif status == 0 and any(answers):
            self.tries.note(self.words, "went on")
        elif status == 1 and b"violstream: " in said:
            self.tries.note(self.words, "told")
        else:
            sys.exit(f"faults.py: {tell}; it must go on, or say why and end with 1")


def try_asking(tries):
    """ask, with a server in which nothing fails."""
    served = Served(tries, SERVED[0])
    served.prepare()
    with tries.started(SERVED[0], "none", 0) as running:
        served.ask(running, "operator", b"waiting")
        tries.try_answers(ASKED)
        running.send_signal(signal.SIGTERM)
        running.communicate(timeout=LIMIT)
    tries.met()


def print_table(table):
    """Faults of a call: it answered whole; it said what failed and ended with 1; of a server, it went on, and one asker was told or got no answer."""
    outcomes = ("whole", "told", "went on")
    print(f"{'violstream ..':<112} {'points':>7} {'whole':>7} {'told':>7} {'went on':>7}")
    for words, counts in table.items():
        print(f"{words:<112} {sum(counts.values()):>7}" + "".join(f" {counts[outcome]:>7}" for outcome in outcomes))
    print(f"{'in all':<112} {sum(sum(counts.values()) for counts in table.values()):>7}" + "".join(f" {sum(counts[outcome] for counts in table.values()):>7}" for outcome in outcomes))


def main():
    reader = argparse.ArgumentParser(description=__doc__.split("\n")[0])
    reader.add_argument("--only", help="calls that contain this word alone")
    reader.add_argument("--long", action="store_true", help="deb too, which takes minutes")
    asked = reader.parse_args()
    only, packing = asked.only, asked.long or asked.only == "deb"
    built()
    with tempfile.TemporaryDirectory() as folder:
        shim = faulty(folder)
        at = Checkout(folder)
        with open(os.path.join(programs.ROOT, "crates/cmd_month/stdin"), "rb") as handle:
            at.write("may.month", handle.read())
        with open(at.path(RUN), "rb") as handle:
            at.write("loose.run", handle.read().replace(b"turn=1\n", b"turn=\n"))
        at.write("large.run", large_run())
        sheet, events = contents("examples/day.run"), contents("examples/day.events")
        at.write("day.journal", b"%d\n" % len(sheet) + sheet + b"# early\n" + events)
        os.makedirs(at.path("target/staticlib"))
        at.write("target/staticlib/libviolstream.a", ARCHIVE)
        at.write("paths", b"rushes/clip0001.mxf\nrushes/clip0002.mxf\n")
        tries = Tries(at, shim)
        tries.call(f"record ledger {RUN} examples/retired-rule.run examples/no-wants.run")
        has_library = tries.call(NAMED[0])[2] == 0
        for words in CALLS + NAMED * has_library + MAKING[:2] + MAKING[2:] * packing:
            if only is None or only in words:
                tries.try_call(words)
        for words in SERVED * has_library:
            if only is None or only in words:
                Served(tries, words).try_all()
        if has_library and (only is None or only in ASKED):
            try_asking(tries)
        for words in STARTED:
            if only is None or only in words:
                tries.try_starts(words)
        for words in BUILDING:
            if only is None or only in words:
                tries.try_call(words)
    print_table(tries.table)
    if not has_library:
        print("faults.py: pick, recall, serve and ask left out: the command was compiled without the library")
    print(f"faults.py: every call says what failed, or answers whole; faults tried: {sum(sum(counts.values()) for counts in tries.table.values())}")


if __name__ == "__main__":
    main()
