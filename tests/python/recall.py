#!/usr/bin/env python3
"""Calls `violstream pick` and `violstream recall` as a person does, and holds what they print, keep and say to the readers of pick.py and to the plan of the sheet.

usage: tests/python/recall.py [--only NAME] [--tapes N]    (40 drawn tapes; the command is that in target/command)

Where the command was compiled without the library's call for files by name, it offers neither, and this says so and ends well.
"""
import argparse
import datetime
import errno
import json
import os
import random
import subprocess
import sys
import tempfile

import pick_cases
import programs
from pick_readers import answer, by_tree

COMMAND = os.path.join(programs.ROOT, "target/command/violstream")
LIMIT = 120


class Wrong(Exception):
    pass


def must(true, otherwise):
    if not true:
        raise Wrong(otherwise() if callable(otherwise) else otherwise)


class Tape:
    """The three texts of a call, as files of a folder of their own."""

    def __init__(self, folder, label, index, text, tape=b"VX0041"):
        self.folder, self.tape, self.label, self.index, self.text = folder, tape, label, index, text
        os.makedirs(folder, exist_ok=True)
        for name, data in (("label", label), ("index", index), ("list", text)):
            with open(os.path.join(folder, name), "wb") as handle:
                handle.write(data)

    def call(self, command, *words, data=None, files=("label", "index", "list")):
        return subprocess.run([COMMAND, command, *words, self.tape, *files], cwd=self.folder, input=data, capture_output=True, timeout=LIMIT)

    def contents(self, name):
        with open(os.path.join(self.folder, name), "rb") as handle:
            return handle.read()


def file(name, block, count, offset=0, partition=b"b"):
    extent = b"<extent><partition>%s</partition><startblock>%d</startblock><byteoffset>%d</byteoffset><bytecount>%d</bytecount></extent>" % (partition, block, offset, count)
    return b"<file><name>%s</name><extentinfo>%s</extentinfo></file>" % (name, extent)


def label(size=524288, volume=b"8ef"):
    return b"<ltfslabel><volumeuuid>%s</volumeuuid><partitions><data>b</data></partitions><blocksize>%d</blocksize></ltfslabel>\n" % (volume, size)


def index(*inside, volume=b"8ef"):
    return b"<ltfsindex><volumeuuid>%s</volumeuuid><directory><name>VX0041</name><contents>%s</contents></directory></ltfsindex>\n" % (volume, b"".join(inside))


def folder(name, *inside):
    return b"<directory><name>%s</name><contents>%s</contents></directory>" % (name, b"".join(inside))


REELS = (folder(b"reel_03", file(b"scan_0041.dpx", 10, 1000000), file(b"scan_0042.dpx", 20, 5), file(b"a&amp;b &lt;c&gt;.dpx", 30, 700), file(b"empty", 0, 0)),
         folder(b"reel_04", file(b"scan_0041.dpx", 40, 80), file(b"Scan_0042.DPX", 50, 90), file(b"twice", 51, 1), file(b"twice", 53, 1), file(b"far", 2**40, 1)), file(b"index.txt", 1, 7, partition=b"a"))


# ---- pick ----

def picks(at):
    """Every fixed case, and drawn tapes: run sheet, names, refusals."""
    cases = [case[:7] for case in pick_cases.fixed() if len(case[2]) < 300000]
    r = random.Random(91)
    for _ in range(at.words.tapes):
        tape = pick_cases.Tape(r)
        cases.append((b"VX0041", tape.label, tape.index, pick_cases.a_list(r, tape.paths), r.random() < 0.4, r.choice([None, 0, 2**64 - 1]), r.choice([None, 0, 70000])))
    for number, (name, label_text, index_text, text, blocks, head, turn) in enumerate(cases):
        if b"\0" in name or not name:
            continue
        tape = Tape(os.path.join(at.folder, str(number)), label_text, index_text, text, name)
        refused, place, sheet, names = answer(name, by_tree, label_text, index_text, text, blocks, head, turn)
        words = ["--blocks"] * blocks + [f"--head={head}"] * (head is not None) + [f"--turn={turn}"] * (turn is not None)
        done = tape.call("pick", "--names", "names", *words, "--")
        expected = b"refused=%d\nplace=%d\n" % (refused, place) if refused else sheet
        tell = lambda: f"pick {words} of {name!r}, {label_text!r}, {index_text!r}, {text!r} gives {done}, and must give {expected!r}"
        must((done.stdout, done.returncode) == (expected, 3 if refused else 0), tell)
        must(os.path.exists(os.path.join(tape.folder, "names")) == (not refused) and (refused or tape.contents("names") == names), tell)
        must(bool(done.stderr) == bool(refused) and (not refused or b": refused (%d): " % refused in done.stderr), tell)
    print(f"recall.py: {len(cases)} tapes picked from as expected")


def inputs(at):
    """Files, pipes, standard input for one of the three; the label, index or list that cannot be read."""
    tape = Tape(at.folder, label(), index(*REELS), b"reel_03/scan_0041.dpx\n")
    sheet = tape.call("pick").stdout
    must(sheet.startswith(b"tape=VX0041\nhead=") and b"\nfile=5242880,1000000,0\n" in sheet, f"pick prints {sheet!r}")
    for at_place, name in enumerate(("label", "index", "list")):
        files = ["label", "index", "list"]
        files[at_place] = "-"
        must(tape.call("pick", files=files, data=tape.contents(name)).stdout == sheet, f"with {name} from standard input pick prints something else")
        files[at_place] = "/dev/stdin"
        must(tape.call("pick", files=files, data=tape.contents(name)).stdout == sheet, f"with {name} from /dev/stdin pick prints something else")
        files[at_place] = "no-such"
        done = tape.call("pick", files=files)
        must((done.stdout, done.returncode) == (b"", 1) and b"cannot read no-such" in done.stderr, f"without {name} pick gives {done}")
    must(tape.call("pick", files=("label", "index"), data=tape.text).stdout == sheet, "without a list standard input is not read")
    done = subprocess.run(["bash", "-c", f"{COMMAND} pick VX0041 <(cat label) <(cat index) <(cat list)"], cwd=at.folder, capture_output=True)
    must(done.stdout == sheet, f"from pipes pick gives {done}")
    for words, data in ((("pick", "--names", "no-such/names"), None), (("recall", "--svg", "no-such/picture"), None), (("recall", "--keep", "no-such"), None), (("recall", "--book", "no-such/book"), None)):
        done = tape.call(*words, data=data)
        must((done.stdout, done.returncode) == (b"", 1) and done.stderr.startswith(b"violstream: "), f"{words} gives {done}")
    for words, files in ((("--head=x",), None), (("--head", "-1"), None), (("--turn=18446744073709551616",), None), (("--names=",), None), ((), ("-", "-", "list")), ((), ("label", "-")), ((), ("label",)), ((), ("label", "index", "list", "x")), (("--speed", "1"), None)):
        done = tape.call("pick", *words, files=files or ("label", "index", "list"), data=b"")
        must((done.stdout, done.returncode) == (b"", 2), f"pick {words} {files} gives {done}")
    for words in (("--begin", "2026-11-16T08:00:00"), ("--speed", "0"), ("--keep=",), ("--book=",), ("--svg=",), ("--names", "x")):
        must(tape.call("recall", *words).returncode == 2, f"recall {words} is taken for right")
    for where in ("> /dev/full", ">&-"):
        done = subprocess.run(["bash", "-c", f"{COMMAND} recall VX0041 label index list {where}"], cwd=at.folder, capture_output=True)
        must(done.returncode == 1 and b"standard output" in done.stderr, f"recall {where} gives {done}")


def words(at):
    """What is said of a refusal."""
    good = b"reel_03/scan_0041.dpx\n"
    for text, kind, says in (
            (good + b"reel_05/scan_0041.dpx\n", {}, 'refused (41): line 2 of list, "reel_05/scan_0041.dpx": no file of the index has that path; there is "reel_03/scan_0041.dpx", "reel_04/scan_0041.dpx"\n'),
            (b"Reel_03/Scan_0041.dpx\n", {}, 'there is "reel_03/scan_0041.dpx", "reel_04/scan_0041.dpx"\n'),
            (b"reel_03/SCAN_0042.dpx\n", {}, 'there is "reel_03/scan_0042.dpx", "reel_04/Scan_0042.DPX"\n'),
            (b"a&b <c>.dpx\n", {}, 'there is "reel_03/a&b <c>.dpx"\n'),
            (b"nowhere\n", {}, "none of the 10 files of the index has that path, nor that name in another folder\n"),
            (b"reel_04/twice\n", {}, '"reel_04/twice": 2 files of the index have that path\n'),
            (b"reel_03/scan_0041.dpx\r\nreel_03/scan_0042.dpx\r\n", {}, '"reel_03/scan_0041.dpx\\r": no file of the index has that path; there is "reel_03/scan_0041.dpx", "reel_04/scan_0041.dpx"; 2 lines of list end in a carriage return'),
            (b"x\x1b[2J\n", {}, 'line 1 of list, "x?[2J": none'),
            (b"reel_03/empty\n", {}, '(42): line 1 of list, "reel_03/empty": it has no bytes on the tape\n'),
            (good + b"index.txt\n", {}, '(42): line 2 of list, "index.txt": bytes of it lie in partition "a", and those that can be planned in b\n'),
            (b"reel_04/far\n", {}, "(23): line 1 of list, \"reel_04/far\": that file ends above 2^40 bytes, which is 1.1 TB; --blocks counts blocks\n"),
            (good, {"other": b"9a"}, '(44): label (label) is of volume "8ef", and index (index) of volume "9a"\n'),
            (good + b"\n", {}, "(11): line 2 of list is empty\n"), (b"a//b\n", {}, '(11): line 1 of list, "a//b", has an empty name in its path\n'), (b"/\n", {}, "is / alone"),
            (good + b"a", {}, '(11): line 2 of list, "a", has no line feed at its end\n'), (good * 1025, {}, "(5): list has 1025 lines, and a run has at most 1,024 reads\n"),
            (good, {"size": 0, "blocks": True}, "(20): label (label): the block size is 0, and with --blocks a position counts blocks\n"),
            (good, {"cut": True}, "(20): index (index), "), (good, {"name": b"vx"}, '(13): the tape name "vx" is not 1 to 16 of A-Z and 0-9\n')):
        tape = Tape(at.folder, label(kind.get("size", 524288)), index(*REELS, volume=kind.get("other", b"8ef"))[:-5 if kind.get("cut") else None], text, kind.get("name", b"VX0041"))
        for command in ("pick", "recall"):
            done = tape.call(command, *["--blocks"] * kind.get("blocks", False))
            must(done.returncode == 3 and done.stdout.startswith(b"refused=") and says in done.stderr.decode(), f"{command} of {text!r} says {done.stderr.decode()!r}, and not {says!r}")
    many = [file(b"f%02d" % number, 2 * number, 1) for number in range(65)]
    tape = Tape(at.folder, label(), index(*many), b"".join(b"f%02d\n" % number for number in range(65)))
    must(b"(3): the files of list lie in over 64 stretches of the tape, and a run has at most 64" in tape.call("pick").stderr, "over 64 entries have no words")


# ---- recall ----

def table(tape, run, names, *, speed=None, begin=None):
    """The table that recall must print, from the plan of the sheet and the names."""
    plan = subprocess.run([COMMAND, "plan", "--any", "-"], input=run, capture_output=True, timeout=LIMIT).stdout
    rows = [["time"] + ["after"] * (speed is not None) + ["at"] * (begin is not None) + ["leg", "reads", "file"]]
    times = [[int(value) for value in line[5:].split(b",")] for line in plan.split(b"\n") if line.startswith(b"time=")]
    for entry, time, leg in sorted(times, key=lambda one: (one[1], one[0])):
        for line in names.split(b"\n")[:-1]:
            number, reads, path = line[5:].split(b",", 2)
            if int(number) == entry:
                row = [str(time)]
                if speed:
                    seconds = -(-time // speed)
                    row.append("%02d:%02d:%02d" % (seconds // 3600, seconds // 60 % 60, seconds % 60))
                    if begin:
                        row.append((begin + datetime.timedelta(seconds=seconds)).isoformat(" "))
                rows.append(row + [str(leg), reads.decode(), path.decode()])
    wide = [max(len(row[column]) for row in rows) for column in range(len(rows[0]) - 1)]
    return plan, "".join("  ".join([cell.rjust(width) for cell, width in zip(row, wide)] + [row[-1]]) + "\n" for row in rows).encode()


def told(at):
    """Tables of drawn lists: by time, with and without a clock; the JSON of the same."""
    r, begin = random.Random(5), datetime.datetime(2026, 11, 16, 8, 0, 0)
    for number in range(at.words.tapes // 2):
        count = r.choice([1, 2, 5, 20, 60])
        paths = [b"reel_%02d/scan_%04d.dpx" % (n % 4, n) for n in range(count)]
        block, inside = 3, []
        for path in paths:
            length = r.randrange(1, 4 * 10**9)
            inside.append(folder(path.split(b"/")[0], file(path.split(b"/")[1], block, length)))
            block += length // 524288 + r.choice([1, 1, 900])
        text = b"".join(r.choice(paths) + b"\n" for _ in range(r.randrange(1, 2 * count + 2)))
        tape = Tape(os.path.join(at.folder, str(number)), label(), index(*inside), text)
        blocks = r.random() < 0.5
        _, _, run, names = answer(b"VX0041", by_tree, tape.label, tape.index, text, blocks)
        for clock in ({}, {"speed": 300}, {"speed": 299792458 if not blocks else 572, "begin": begin}):
            options = ["--blocks"] * blocks + [f"--speed={clock.get('speed')}"] * ("speed" in clock) + ["--begin=2026-11-16T08:00:00"] * ("begin" in clock)
            plan, expected = table(tape, run, names, **clock)
            done = tape.call("recall", *options)
            must((done.stdout, done.returncode, done.stderr) == (expected, 0, b""), lambda: f"recall {options} gives {done}, and must give {expected!r}")
        given = json.loads(tape.call("recall", "--json", *options).stdout)
        lines = [line.split() for line in expected.decode().split("\n")[1:-1]]
        must([[str(one["time"]), one["at"], str(one["leg"]), str(one["reads"]), one["path"]] for one in given["files"]] == [[one[0], one[2] + "T" + one[3], *one[4:]] for one in lines], f"recall --json gives {given}")
        must(given["sum"] == int(plan.split(b"\n")[1][4:]) and len(given["times"]) == plan.count(b"time="), f"recall --json gives {given}, and the plan is {plan!r}")
    # Nobody asks for anything.
    tape = Tape(os.path.join(at.folder, "none"), label(), index(*REELS), b"")
    must(tape.call("recall").stdout == b"time  leg  reads  file\n" and json.loads(tape.call("recall", "--json").stdout)["files"] == [], "an empty list is told otherwise")
    # Refusals of the plan, behind those of pick.
    tape = Tape(os.path.join(at.folder, "far"), label(), index(*REELS), b"reel_03/scan_0041.dpx\n")
    for option, number in ((f"--head={2**40 + 1}", 7), (f"--turn={2**32 + 1}", 6)):
        done = tape.call("recall", option)
        must((done.stdout, done.returncode) == (b"refused=%d\nplace=0\n" % number, 3) and b"refused (%d)" % number in done.stderr, f"recall {option} gives {done}")
        must(json.loads(tape.call("recall", "--json", option).stdout)["refused"] == number, f"recall --json {option} has no refusal")


def largest(at):
    """64 entries with 1,024 reads: 9 does not occur."""
    inside = [file(b"f%02d" % number, 30000 * number, 10**10) for number in range(64)]
    text = b"".join(b"f%02d\n" % (number % 64) for number in range(1024))
    tape = Tape(at.folder, label(), index(*inside), text)
    os.makedirs(os.path.join(at.folder, "kept"))
    done = tape.call("recall", "--svg", "picture", "--keep", "kept")
    must(done.returncode == 0 and done.stdout.count(b"\n") == 65, f"recall of 64 files with 1,024 reads gives {done}")
    priced = subprocess.run([COMMAND, "price", "kept/VX0041.run", "kept/VX0041.plan"], cwd=at.folder, capture_output=True).stdout
    must(priced == tape.contents("kept/VX0041.plan") and b"reads=1024\n" in priced, "its plan is not what its list costs")
    must(tape.contents("picture").count(b'class="read"') == 64, "its picture has not 64 dots")


def kept(at):
    """The four texts, the picture and the entry of a book; nothing overwritten, and all or nothing."""
    tape = Tape(at.folder, label(), index(*REELS), b"/reel_03/scan_0041.dpx\nreel_03/a&b <c>.dpx\nreel_03/scan_0041.dpx\n")
    os.makedirs(os.path.join(at.folder, "kept"))
    done = tape.call("recall", "--keep", "kept", "--book", "book", "--svg", "picture.svg", "--speed", "300000000")
    must(done.returncode == 0 and done.stderr == b"", f"recall gives {done}")
    _, _, run, names = answer(b"VX0041", by_tree, tape.label, tape.index, tape.text)
    plan = table(tape, run, names)[0]
    found = {name: tape.contents(os.path.join("kept", name)) for name in os.listdir(os.path.join(at.folder, "kept"))}
    must(found == {"VX0041.list": tape.text, "VX0041.run": run, "VX0041.names": names, "VX0041.plan": plan}, f"kept is {found}")
    check = subprocess.run([COMMAND, "check", "kept/VX0041.run", "kept/VX0041.plan"], cwd=at.folder, capture_output=True)
    must(check.returncode == 0, f"check says {check}")
    explained = subprocess.run([COMMAND, "explain", "--names", "kept/VX0041.names", "--speed", "300000000", "kept/VX0041.run"], cwd=at.folder, capture_output=True)
    must(explained.stdout.endswith(b"\n\n" + done.stdout), f"explain --names tells something else than recall: {explained}")
    picture = tape.contents("picture.svg")
    must(b"reel_03/a&amp;b &lt;c&gt;.dpx" in picture and "\u2009MB<".encode() in picture, f"the picture is {picture!r}")
    entry = tape.contents("book/000001.record")
    must(b"run=%d\n%splan=%d\n%s" % (len(run), run, len(plan), plan) in entry, f"the entry is {entry!r}")
    must(subprocess.run([COMMAND, "audit", "book"], cwd=at.folder, capture_output=True).stdout.startswith(b"entries=1\nplans=1\n"), "the book is not right")
    # Once more: what is there stays, and nothing is told or recorded.
    done = tape.call("recall", "--keep", "kept", "--book", "book")
    must((done.stdout, done.returncode) == (b"", 1) and b"kept/VX0041.list: File exists" in done.stderr and len(os.listdir(os.path.join(at.folder, "book"))) == 1, f"recall gives {done}")
    [os.remove(os.path.join(at.folder, "kept", "VX0041." + kind)) for kind in ("list", "run", "plan")]
    done = tape.call("recall", "--keep", "kept")
    must(done.returncode == 1 and os.listdir(os.path.join(at.folder, "kept")) == ["VX0041.names"] and tape.contents("kept/VX0041.names") == names, f"recall leaves a part: {done}")
    # What cannot be recorded is not kept, and not told.
    [os.remove(os.path.join(at.folder, "kept", name)) for name in os.listdir(os.path.join(at.folder, "kept"))]
    with open(os.path.join(at.folder, "no-book"), "wb"):
        done = tape.call("recall", "--keep", "kept", "--book", "no-book")
    must((done.stdout, done.returncode) == (b"", 1) and os.listdir(os.path.join(at.folder, "kept")) == [] and b"the book no-book" in done.stderr, f"without a book recall gives {done}")
    # A refused list keeps and records nothing; a refused run is an entry.
    must(tape.call("recall", "--keep", "kept", "--book", "book", files=("label", "index"), data=b"nowhere\n").returncode == 3, "a refused list is taken")
    must(os.listdir(os.path.join(at.folder, "kept")) == [] and len(os.listdir(os.path.join(at.folder, "book"))) == 1, "a refused list leaves something")
    must(tape.call("recall", "--keep", "kept", "--book", "book", f"--turn={2**32 + 1}").returncode == 3 and os.listdir(os.path.join(at.folder, "kept")) == [], "a refused run is kept")
    must(subprocess.run([COMMAND, "audit", "book"], cwd=at.folder, capture_output=True).stdout.startswith(b"entries=2\nplans=1\nrefusals=1\n"), "a refused run is no entry")


def faults(at):
    """Each call of the system fails in turn: the whole answer, or a sentence and status 1, and of what is kept all or nothing."""
    os.makedirs(at.folder)
    shim, tried = os.path.join(at.folder, "faults.so"), 0
    source = os.path.join(programs.ROOT, "tests/c/faults.c")
    subprocess.run([os.environ.get("CC", "cc"), "-O1", "-shared", "-fPIC", source, "-o", shim, "-ldl"], check=True)
    for command, options in (("pick", ("--names", "names")), ("recall", ("--keep", "kept", "--book", "book")), ("recall", ("--svg", "picture", "--json"))):
        expected = None
        for kind, error in ((None, 0), ("open", errno.EMFILE), ("read", errno.EIO), ("write", errno.ENOSPC), ("close", errno.EIO), ("fcntl", errno.EBADF), ("fsync", errno.EIO), ("linkat", errno.EPERM),
                            ("mkdir", errno.EACCES), ("unlink", errno.EACCES), ("poll", errno.ENOMEM), ("pipe2", errno.EMFILE), ("fork", errno.EAGAIN)):
            for number in range(1, 80):
                tape = Tape(os.path.join(at.folder, f"{command}{len(options)}{kind}{number}"), label(), index(*REELS), b"reel_03/scan_0041.dpx\nreel_04/scan_0041.dpx\n")
                os.makedirs(os.path.join(tape.folder, "kept"))
                counted = os.path.join(tape.folder, "counted")
                surroundings = dict(os.environ, LD_PRELOAD=shim, VIOLSTREAM_FAULT=f"{kind}:{number}:{error}", VIOLSTREAM_FAULT_COUNT=counted)
                done = subprocess.run([COMMAND, command, *options, "VX0041", "label", "index", "list"], cwd=tape.folder, stdin=subprocess.DEVNULL, capture_output=True, env=surroundings, timeout=LIMIT)
                expected = expected or done
                tell = f"with {kind} number {number} failing {command} gives {done}"
                must(expected.returncode == 0 and (done.stdout, done.returncode) == (expected.stdout, 0) or done.returncode == 1 and b"violstream: " in done.stderr, tell)
                must(len(os.listdir(os.path.join(tape.folder, "kept"))) in (0, 4) or kind == "unlink", f"{tell}, and keeps {os.listdir(os.path.join(tape.folder, 'kept'))}")
                tried += 1
                if not os.path.exists(counted) or int(tape.contents("counted")) < number:
                    break
    print(f"recall.py: {tried} faults of the system")


TESTS = (picks, inputs, words, told, largest, kept, faults)


class At:
    def __init__(self, given, folder):
        self.words, self.folder = given, folder


def main():
    reader = argparse.ArgumentParser(description=__doc__.split("\n")[0])
    reader.add_argument("--only", choices=[one.__name__ for one in TESTS], help="this test alone")
    reader.add_argument("--tapes", type=int, default=40, help="drawn tapes (default 40)")
    given = reader.parse_args()
    subprocess.run([os.path.join(programs.ROOT, "violstream"), "version"], check=True, stdout=subprocess.DEVNULL)
    if subprocess.run([COMMAND, "help", "pick"], capture_output=True).returncode != 0:
        offered = subprocess.run([COMMAND, "help"], capture_output=True).stdout
        must(b"pick" not in offered and b"recall " not in offered.replace(b"the recall", b""), "a command is in the help that is not offered")
        print("recall.py: left out, this command was compiled without the library's call for files by name")
        return
    tried = [one for one in TESTS if given.only in (None, one.__name__)]
    with tempfile.TemporaryDirectory() as within:
        for one in tried:
            try:
                one(At(given, os.path.join(within, one.__name__)))
            except Wrong as wrong:
                sys.exit(f"recall.py: {one.__name__}: {wrong}")
    print(f"recall.py: pick and recall do what they must; tests: {', '.join(one.__name__ for one in tried)}")


if __name__ == "__main__":
    main()
