#!/usr/bin/env python3
"""Writes record books by `./violstream record`, tampers with them in every way, ends calls in the middle, and holds what `audit` says to a reader of its own.

usage: tests/python/record.py [--only NAME] [--browser [FOLDER]]    (the programs are those in target/bin, the command is that in target/command)

--browser: the page in chromium too, by day and in the dark, on a desk and a telephone, with 1,000 entries; pictures of it are left in FOLDER.
"""
import argparse
import hashlib
import html.parser
import os
import pwd
import random
import re
import shutil
import signal
import subprocess
import sys
import tempfile
import time

import programs
from command import BUILT, LIMIT, PLAN, RUN, Checkout, Wrong, built, contents, refusal

NOTHING = "0" * 64
LARGE = b"tape=A\n" + b"x" * 20000
SHEETS = {"example.run": RUN, "aggregate.run": contents("examples/aggregate.run"), "empty.run": contents("examples/no-wants.run"), "retired.run": contents("examples/retired-rule.run"),
          "large.run": LARGE, "bytes.run": b"\x00\xff<b>\n\x1b[2J", "none.run": b"", "far.run": RUN.replace(b"turn=1\n", b"turn=2\n")}
ANYWHERE = {"mounted.run": contents("examples/mounted.run"), "left.run": contents("examples/head-too-far-left.run")}


# ---- A reader of its own ----

class Bad(Exception):
    pass


def parts(text):
    """An entry by its keys."""
    found, rest = {}, text
    for key in ("entry", "made", "by", "program", "previous", "run", "plan"):
        line, mark, rest = rest.partition(b"\n")
        if not mark or not line.startswith(key.encode() + b"="):
            raise Bad(f"no {key}= in {text!r}")
        value = line[len(key) + 1:]
        if key in ("run", "plan"):
            size = int(value)
            found[key], rest = rest[:size], rest[size:]
            if len(found[key]) != size:
                raise Bad(f"{key}= of {text!r} is short")
        else:
            found[key] = value.decode()
    if rest:
        raise Bad(f"{rest!r} behind {text!r}")
    return found


def entry(found):
    head = "".join(f"{key}={found[key]}\n" for key in ("entry", "made", "by", "program", "previous"))
    return head.encode() + b"run=%d\n" % len(found["run"]) + found["run"] + b"plan=%d\n" % len(found["plan"]) + found["plan"]


def digest(text):
    return hashlib.sha256(text).hexdigest()


class Book:
    """A book in the checkout of a test, as files."""

    def __init__(self, at, name="vault"):
        self.at, self.name = at, name

    def path(self, number):
        return os.path.join(self.at.path(self.name), f"{number:06}.record")

    def numbers(self):
        return sorted(int(name[:-7]) for name in os.listdir(self.at.path(self.name)) if name.endswith(".record"))

    def read(self, number):
        with open(self.path(number), "rb") as handle:
            return handle.read()

    def write(self, number, text):
        """As somebody does who may write to the folder."""
        if os.path.lexists(self.path(number)):
            os.remove(self.path(number))
        with open(self.path(number), "wb") as handle:
            handle.write(text)

    def texts(self):
        return [self.read(number) for number in self.numbers()]

    def whole(self):
        """Every entry is right by the reader of this file: numbers, digests, form."""
        texts, before = self.texts(), NOTHING
        for number, text in enumerate(texts, 1):
            found = parts(text)
            if found["entry"] != f"{number:06}" or found["previous"] != before:
                raise Wrong(f"entry {number} is {text!r}, and the digest before is {before}")
            before = digest(text)
        if self.numbers() != list(range(1, len(texts) + 1)):
            raise Wrong(f"the numbers of the book are {self.numbers()}")
        return texts

    def lines(self):
        texts = self.whole()
        refused = sum(parts(text)["plan"].startswith(b"refused=") for text in texts)
        return "entries=%d\nplans=%d\nrefusals=%d\nlast=%s\n" % (len(texts), len(texts) - refused, refused, digest(texts[-1]) if texts else NOTHING)

    def audit(self, words=""):
        out, said, status = self.at.shell(f"./violstream audit {words} {self.name}")
        return out.decode(), said, status


def lay(at, sheets=SHEETS):
    for name, sheet in sheets.items():
        at.write(name, sheet)


def filled(at, sheets=SHEETS, name="vault"):
    """A book with an entry for each sheet."""
    lay(at, sheets)
    _, said, status = at.shell(f"./violstream record --by 'news, desk 2' {name} {' '.join(sheets)}")
    if status not in (0, 3):
        raise Wrong(f"record says {said!r}")
    return Book(at, name)


def taken_by_check(at):
    """The sheets above, and those with the head anywhere if check takes these too."""
    lay(at, ANYWHERE)
    at.shell("./violstream plan --any mounted.run > mounted.plan")
    return dict(SHEETS, **ANYWHERE) if at.shell("./violstream check mounted.run mounted.plan")[0].startswith(b"formed=") else SHEETS


# ---- Tests: a function each, whose name --only takes ----

def entries(at):
    """What is printed is what plan --any prints, and each entry is what the format says."""
    lay(at, dict(SHEETS, **ANYWHERE))
    book, version = Book(at), at.shell("./violstream version")[0].decode().split("\n")[0]
    names = list(SHEETS) + list(ANYWHERE)
    began = time.time()
    alone = at.shell("./violstream plan --any example.run")
    for by, line in (("archive", "--by archive vault example.run"), ("b\u00e4nder, <2>", "vault example.run --by='b\u00e4nder, <2>'"), (pwd.getpwuid(os.geteuid()).pw_name, "vault - < example.run"), ("-x", "--by=-x -- vault example.run")):
        out, said, status = at.shell(f"./violstream record {line}")
        if (out, said, status) != alone:
            raise Wrong(f"record {line} gives {out!r}, {said!r}, {status}, and plan --any {alone}")
        found = parts(book.texts()[-1])
        made = time.strftime("%Y-%m-%dT%H:%M:%SZ", time.strptime(found["made"], "%Y-%m-%dT%H:%M:%SZ"))
        if (found["by"], found["program"], found["run"], found["plan"], found["made"]) != (by, version, RUN, PLAN, made) or not began - 1 <= calendar(made) <= time.time() + 1:
            raise Wrong(f"record {line} has written {found}")
    at.must(f"./violstream record vault {' '.join(names)}", 3, at.shell(f"./violstream plan --any {' '.join(names)}")[0], ["retired.run: refused (19)", "large.run: refused (12)", "none.run: refused (11)"])
    texts = book.whole()
    for name, text in zip(names, texts[4:]):
        found = parts(text)
        if found["run"] != dict(SHEETS, **ANYWHERE)[name] or found["plan"] != at.shell(f"./violstream plan --any {name}")[0]:
            raise Wrong(f"the entry of {name} is {text!r}")
    if found_mode(book) != {0o444}:
        raise Wrong(f"entries have the modes {found_mode(book)}")
    at.must("./violstream record vault example.run no-such retired.run", 1, None, ["cannot read no-such", "retired.run: refused (19)"])
    if len(book.whole()) != len(texts) + 2:
        raise Wrong("of three runs, one of which cannot be read, two are entries")
    if [name for name in os.listdir(at.path("vault")) if not name.endswith(".record")]:
        raise Wrong(f"left in the book: {os.listdir(at.path('vault'))}")


def calendar(made):
    return time.mktime(time.strptime(made, "%Y-%m-%dT%H:%M:%SZ")) - time.timezone


def found_mode(book):
    return {os.stat(book.path(number)).st_mode & 0o777 for number in book.numbers()}


def misused(at):
    """Names that are none, and words that are wrong; nothing is written then."""
    lay(at)
    for by in ("a\\nb", "\\n", "a\\tb", "\\e[2J", "\\x7f", "\\xc2\\x85", "\\xff", "\\xe2\\x80\\xa8", ""):
        at.must(f"./violstream record --by $'{by}' vault example.run", 2, b"", ["--by needs a name of whoever asks, on one line", "usage: ./violstream record [--by WHO] BOOK RUN..."])
    for line in ("record", "record vault", "record --by", "record vault - -", "record vault ''", "record '' example.run", "record --html x vault example.run"):
        at.must(f"./violstream {line}", 2, b"", ["usage: ./violstream record"])
    for line in ("audit", "audit a b", "audit --file 1 vault", "audit --tape", "audit --tape a vault", "audit --tape '' vault", "audit --tape A1234567890123456 vault", "audit --tape A --file 0 vault",
                 "audit --tape A --file 257 vault", "audit --tape A --file 01 vault", "audit --tape A --file x vault", "audit --html '' vault", "audit --html - vault", "audit ''"):
        at.must(f"./violstream {line}", 2, b"", ["usage: ./violstream audit [--tape NAME [--file N]] [--html FILE] BOOK"])
    if os.path.exists(at.path("vault")):
        raise Wrong("a book was made for a call that is wrong")
    at.must("./violstream audit vault", 1, b"", ["cannot read the book vault: No such file or directory"])
    at.must("./violstream record vault no-such", 1, b"", ["cannot read no-such"])
    at.must("./violstream record no/vault example.run", 1, b"", ["cannot make the book no/vault: No such file or directory"])
    at.must("./violstream record example.run example.run", 1, b"", ["example.run: Not a directory"])
    at.must("mkdir vault && ./violstream audit vault", 0, f"entries=0\nplans=0\nrefusals=0\nlast={NOTHING}\n".encode(), silent=True)
    at.must("./violstream record vault example.run > /dev/full", 1, b"", ["cannot write to standard output"])
    at.must("./violstream audit vault > /dev/full", 1, b"", ["cannot write to standard output"])
    at.must("./violstream audit --html no/page vault", 1, b"", ["cannot write no/page: No such file or directory"])
    if len(Book(at).whole()) != 1:
        raise Wrong("an answer that could not be printed is no entry")
    at.write("long.run", b"x" * (1 << 26))
    at.must("./violstream record vault long.run", 3, refusal(12), ["refused (12)"])
    at.must("printf x >> long.run; ./violstream record vault long.run", 1, b"", ["long.run has over 67108864 bytes"])
    at.must("./violstream audit vault | head -n 1", 0, b"entries=2\n")
    at.must("touch vault/18446744073709551615.record && ./violstream record vault example.run", 1, b"", ["the book vault has no number left"])
    at.must("mkfifo vault/000003.record && rm vault/1844* && ./violstream record vault example.run", 1, b"", ["entry 000003 of the book vault is no entry, so none can follow it"])
    at.must("./violstream audit vault", 3, b"wrong=000003\nentry 000003 is not a file of its own\n")


def audited(at):
    """What audit prints of a book that is right, and what it finds in it."""
    sheets = taken_by_check(at)
    book = filled(at, sheets)
    at.must("./violstream audit vault", 0, book.lines().encode(), silent=True)
    at.must("./violstream audit vault/", 0, book.lines().encode(), silent=True)
    for tape in ("VX0041", "VX0042", "NONE"):
        for file in (None, 1, 2, 3, 4):
            out, said, status = book.audit(f"--tape {tape}" + (f" --file {file}" if file else ""))
            if (out, said, status) != (finds(book, tape, file) + book.lines(), "", 0):
                raise Wrong(f"audit finds {out!r} for file {file} of {tape}, said {said!r}, and must find {finds(book, tape, file)!r}")
    if finds(book, "VX0041", 2).count("found=") < 2:
        raise Wrong("the book of this test has too little in it")
    at.must("touch vault/notes vault/7.record vault/.aside-1-0 && ./violstream audit vault", 0, book.lines().encode(), ["7.record is no entry"])
    at.must("./violstream record vault example.run", 0, PLAN, silent=True)
    if len(sheets) == len(SHEETS):
        print("record.py: audited: check does not take a head anywhere yet, so no such run is audited here")
    # Another user may read it, where the folder says so.
    if os.getuid() == 0 and shutil.which("setpriv"):
        at.must("chmod -R go+rX . && chmod 755 .. . && setpriv --reuid 65534 --regid 65534 --clear-groups ./violstream audit vault", 0, None, ["7.record"])


def finds(book, tape, file):
    lines = []
    for text in book.texts():
        found = parts(text)
        if found["plan"].startswith(b"tape=%s\n" % tape.encode()):
            times = {int(one[0]): one[1:] for one in (line[5:].split(",") for line in found["plan"].decode().split("\n") if line.startswith("time="))}
            for want in (line[5:].split(",") for line in found["run"].decode().split("\n") if line.startswith("want=")):
                if file in (None, int(want[0])):
                    named = "" if file else f"{want[0]},"
                    when, leg = times[int(want[0])]
                    lines.append(f"found={found['entry']},{found['made']},{named}{when},{leg},{want[1]},{found['by']}\n")
    return "".join(lines)


def tampered(at):
    """Every kind of tampering: found at the entry, or at the one behind it; of the last entry by last= alone."""
    kept = filled(at)
    right, texts = kept.lines(), kept.texts()
    count = len(texts)

    def found(what, change, wrong, words=""):
        """The numbers that may be called wrong; None among them: the book is right, and last= is another."""
        shutil.rmtree(at.path("work"), ignore_errors=True)
        shutil.copytree(at.path("vault"), at.path("work"))
        book = Book(at, "work")
        change(book)
        out, said, status = book.audit()
        first = out.split("\n")[0]
        if status == 0:
            fine = None in wrong and out != right and not said
        else:
            fine = status == 3 and first in [f"wrong={number:06}" for number in wrong if number] and out.count("\n") == 2 and words in out and not said
        if not fine:
            raise Wrong(f"{what}: audit printed {out!r}, said {said!r} and ended with {status}; it must find {wrong} {words!r}")
        if status == 3:
            at.must("./violstream audit --html page.html work", 3, out.encode())
            with open(at.path("page.html"), encoding="utf-8") as handle:
                page = handle.read()
            if f"Entry {first[6:]} of this book cannot be right." not in page.split("</header>")[0]:
                raise Wrong(f"{what}: the page does not say at its top that {first}")

    def exchanged(number, **parts_of):
        return lambda book: book.write(number, entry(dict(parts(texts[number - 1]), **parts_of)))

    for number in range(1, count + 1):
        behind = {number + 1} if number < count else {None}
        for key, value in (("made", "2025-01-01T00:00:00Z"), ("by", "another"), ("program", "violstream 9")):
            found(f"{key} of {number}", exchanged(number, **{key: value}), behind, "" if number == count else "is not the digest of entry")
        found(f"digest of {number}", exchanged(number, previous="1" * 64), {number}, "previous=" if number > 1 else "does not begin a book")
        found(f"number of {number}", exchanged(number, entry="000099"), {number}, "calls itself 000099")
        found(f"no time of {number}", exchanged(number, made="2026-02-30T00:00:00Z"), {number}, "has no time behind made=")
        found(f"no name of {number}", exchanged(number, by=""), {number}, "has no name")
        found(f"a run exchanged in {number}", exchanged(number, run=contents("examples/nine-wants.run")), {number})
        found(f"an answer exchanged in {number}", exchanged(number, plan=refusal(5)), {number}, "is not refused as the entry says")
        found(f"a plan made up in {number}", exchanged(number, plan=b"tape=VX0041\nsum=1\n"), {number})
        found(f"removed {number}", lambda book: os.remove(book.path(number)), {number} if number < count else {None}, "" if number == count else "is not there, though entry")
        found(f"appended to {number}", lambda book: book.write(number, texts[number - 1] + b"\n"), {number}, "bytes behind its end")
        found(f"cut {number}", lambda book: book.write(number, texts[number - 1][:-1]), {number}, "ends before")
        found(f"emptied {number}", lambda book: book.write(number, b""), {number}, "has no line entry=")
        other = texts[number % count]
        found(f"replaced {number} by another", lambda book: book.write(number, other), {number}, "calls itself")
        found(f"replaced {number} by another with its number", exchanged(number, run=parts(other)["run"], plan=parts(other)["plan"]), behind)
        found(f"a link for {number}", lambda book: (os.remove(book.path(number)), os.symlink("../vault/%06d.record" % number, book.path(number))), {number}, "not a file of its own")
        found(f"a folder for {number}", lambda book: (os.remove(book.path(number)), os.mkdir(book.path(number))), {number}, "not a file of its own")
    found("swapped", lambda book: (book.write(1, texts[1]), book.write(2, texts[0])), {1}, "calls itself 000002")
    found("a gap at the end", lambda book: book.write(count + 2, texts[0]), {count + 1}, "is not there")
    # Another head and price with the same plan: the run sheet alone tells, and so the digest.
    found("a price exchanged that no plan shows", exchanged(3, run=parts(texts[2])["run"].replace(b"turn=", b"turn=7")), {4}, "is not the digest of entry")
    found("a head exchanged", exchanged(1, run=RUN.replace(b"head=60", b"head=59")), {1}, "its numbers are not those of the head's walk (walk=no,2)")

    def anew(book):
        """Everything behind a change hashed anew: only last= tells."""
        before = NOTHING
        for number, text in enumerate(texts, 1):
            made = entry(dict(parts(text), by="another", previous=before))
            book.write(number, made)
            before = digest(made)

    found("all hashed anew", anew, {None})


def drawn_bytes(at):
    """Bytes changed, left out, put in, at drawn places."""
    book = filled(at)
    texts, right = book.texts(), book.lines()
    draw = random.Random(47)
    for _ in range(150):
        number = draw.randrange(1, len(texts) + 1)
        text, where = texts[number - 1], draw.randrange(min(len(texts[number - 1]), 600))
        kind = draw.randrange(3)
        byte = bytes([draw.choice((draw.randrange(256), ord(draw.choice("0123456789abcdef\n=,"))))])
        new = text[:where] + (byte if kind < 2 else b"") + text[where + (kind != 1):]
        if new == text:
            continue
        book.write(number, new)
        out, said, status = book.audit()
        book.write(number, text)
        if status == 3 and out.split("\n")[0] in (f"wrong={number:06}", f"wrong={number + 1:06}") or status == 0 and number == len(texts) and out != right:
            continue
        raise Wrong(f"byte {where} of entry {number} is {byte!r} now ({kind}), and audit printed {out!r}, said {said!r} and ended with {status}")
    if book.audit()[0] != right:
        raise Wrong("put right again the book is not right")


def many_at_once(at):
    """Every call gets a number of its own, and what it has printed is in the book."""
    lay(at)
    calls = [subprocess.Popen([at.path(BUILT), "record", "--by", f"caller {one}", "vault", "example.run", "empty.run", "retired.run"], cwd=at.root, stdout=subprocess.PIPE, stderr=subprocess.DEVNULL,
                              env=at.surroundings) for one in range(16)]
    if any(call.communicate(timeout=LIMIT)[0].count(b"sheet=") != 3 or call.returncode != 3 for call in calls):
        raise Wrong("one of many calls at once does not answer")
    book = Book(at)
    found = [parts(text) for text in book.whole()]
    if len(found) != 48 or any([one["by"] for one in found].count(f"caller {call}") != 3 for call in range(16)):
        raise Wrong(f"48 calls have made {len(found)} entries")
    at.must("./violstream audit vault", 0, book.lines().encode(), silent=True)


def shim(at):
    made = at.path("faults.so")
    source = os.path.join(programs.ROOT, "tests/c/faults.c")
    subprocess.run([os.environ.get("CC", "cc"), "-O1", "-Wall", "-Wextra", "-Werror", "-shared", "-fPIC", source, "-o", made, "-ldl"], check=True)
    return made


STEPS = ("open", "read", "write", "close", "fsync", "linkat", "unlink", "mkdir", "fork", "poll")


def ended(at):
    """A call that is killed before any of its calls of the system, or at any moment: its entry is there whole, or not at all, and whatever it printed is there."""
    lay(at)
    loaded, tried = shim(at), 0
    book = Book(at)
    for kind in STEPS:
        for number in range(1, 60):
            before = len(book.whole()) if os.path.exists(at.path("vault")) else 0
            if number % 7 == 1:
                shutil.rmtree(at.path("vault"), ignore_errors=True)
                before = 0
            surroundings = dict(at.surroundings, LD_PRELOAD=loaded, VIOLSTREAM_FAULT=f"{kind}:{number}:-{signal.SIGKILL}")
            call = subprocess.run([at.path(BUILT), "record", "vault", "example.run", "empty.run"], cwd=at.root, capture_output=True, env=surroundings, timeout=LIMIT)
            left = len(book.whole()) if os.path.exists(at.path("vault")) else 0
            if left - before not in (0, 1, 2) or call.stdout.count(b"sheet=") > left - before:
                raise Wrong(f"killed at {kind} {number}: {left - before} entries, and {call.stdout!r} was printed")
            if call.returncode == 0:
                break
            if call.returncode != -signal.SIGKILL:
                raise Wrong(f"killed at {kind} {number}: status {call.returncode}, {call.stderr!r}")
            tried += 1
    if tried < 40:
        raise Wrong(f"only {tried} calls were killed")
    draw = random.Random(3)
    for _ in range(40):
        before = len(book.whole())
        call = subprocess.Popen([at.path(BUILT), "record", "vault", *["example.run"] * 20], cwd=at.root, stdout=subprocess.PIPE, stderr=subprocess.PIPE, env=at.surroundings)
        time.sleep(draw.random() * 0.15)
        call.kill()
        printed = call.communicate(timeout=LIMIT)[0].count(b"sheet=")
        if not printed <= len(book.whole()) - before <= 20:
            raise Wrong(f"killed: {printed} answers were printed, and {len(book.whole()) - before} entries made")
    at.must("./violstream record vault example.run", 0, PLAN, silent=True)
    at.must("./violstream audit vault", 0, book.lines().encode(), silent=True)


def nowhere_to_write(at):
    """A full disk, a book that may not be written, files that may not grow: a sentence, status 1, and the book as it was."""
    book = filled(at)
    right = book.texts()

    def refused(line, words):
        at.must(line, 1, b"", words)
        if book.whole() != right or [name for name in os.listdir(at.path("vault")) if not name.endswith(".record")]:
            raise Wrong(f"{line}: the book is another, or holds more")

    refused("ulimit -f 0 && ./violstream record vault example.run", ["cannot write to the book vault: File too large"])
    # Once for each run of the call, and the next call is as any other.
    refused("ulimit -f 0 && ./violstream record vault example.run empty.run", ["cannot write to the book vault: File too large\nviolstream: cannot write to the book vault: File too large\n"])
    if os.getuid() != 0:
        os.chmod(at.path("vault"), 0o555)
        refused("./violstream record vault example.run", ["cannot write to the book vault: Permission denied"])
        os.chmod(at.path("vault"), 0o755)
    elif shutil.which("setpriv"):
        as_other = "setpriv --reuid 65534 --regid 65534 --clear-groups"
        refused(f"chmod -R go+rX . && chmod 755 .. . && {as_other} ./violstream record vault example.run", ["cannot write to the book vault: Permission denied"])
        refused(f"{as_other} ./violstream record new example.run", ["cannot make the book new: Permission denied"])
        at.must(f"chmod 600 vault/000001.record && {as_other} ./violstream audit vault", 1, b"", ["cannot read vault/000001.record: Permission denied"])
    mounted(at)


def mounted(at):
    """The same on a disk of its own that is full, and on one that may only be read, where such can be mounted."""
    os.mkdir(at.path("disk"))
    try_it = "mount -t tmpfs -o size=64k none disk && cp -r vault disk/"
    if subprocess.run(["unshare", "-m", "sh", "-c", try_it], cwd=at.root, capture_output=True).returncode != 0:
        print("record.py: nowhere_to_write: no disk can be mounted here, so none is full or read-only")
        return
    full = f"{try_it} && cat /dev/zero > disk/rest; ls disk/vault | wc -l; ./violstream record disk/vault large.run; echo $?; ls -A disk/vault | wc -l; ./violstream audit disk/vault | head -n 1"
    at.must(f"unshare -m sh -c '{full}'", 0, b"8\n1\n8\nentries=8\n", ["cannot write to the book disk/vault: No space left on device"])
    closed = f"{try_it} && mount -o remount,ro disk && ./violstream record disk/vault large.run; echo $?; ./violstream audit disk/vault | head -n 1"
    at.must(f"unshare -m sh -c '{closed}'", 0, b"1\nentries=8\n", ["cannot write to the book disk/vault: Read-only file system"])


# ---- The page ----

VOID = {"meta", "link", "br"}


class Page(html.parser.HTMLParser):
    """The tags of a page, each closed where it must be, and what a reader of screens needs."""

    def __init__(self, text):
        super().__init__()
        self.open, self.headings, self.names, self.links, self.faults, self.captions, self.words = [], [], [], [], [], 0, []
        self.feed(text)
        if self.open:
            self.faults.append(f"left open: {self.open}")

    def handle_starttag(self, tag, attributes):
        given = dict(attributes)
        self.names.append(tag)
        if re.fullmatch("h[1-6]", tag):
            self.headings.append(int(tag[1]))
        if tag == "svg" and (given.get("role") != "img" or not given.get("aria-label")):
            self.faults.append("a picture without a name")
        if tag == "th" and given.get("scope") not in ("row", "col"):
            self.faults.append("a heading of a table that is of no row or column")
        if tag == "html" and given.get("lang") != "en":
            self.faults.append("no language")
        for name in ("src", "srcset", "data", "action", "poster", "style", "onload", "onclick"):
            if name in given:
                self.faults.append(f"{tag} has {name}")
        if "href" in given:
            self.links.append(given["href"])
        if tag not in VOID and not self.get_starttag_text().endswith("/>"):
            self.open.append(tag)

    def handle_endtag(self, tag):
        if self.get_endtag(tag):
            return
        self.faults.append(f"</{tag}> in {self.open}")

    def get_endtag(self, tag):
        if self.open and self.open[-1] == tag:
            self.open.pop()
            return True
        return tag in ("path",)

    def handle_data(self, data):
        if not (self.open and self.open[-1] == "style"):
            self.words.append(data)


def luminance(colour):
    channels = [int(colour[at:at + 2], 16) / 255 for at in (1, 3, 5)]
    linear = [one / 12.92 if one <= 0.03928 else ((one + 0.055) / 1.055) ** 2.4 for one in channels]
    return 0.2126 * linear[0] + 0.7152 * linear[1] + 0.0722 * linear[2]


def contrast(one, other):
    brighter, darker = sorted((luminance(one), luminance(other)), reverse=True)
    return (brighter + 0.05) / (darker + 0.05)


# What is written on what, and what is drawn on what: 4.5 and 3 are WCAG 2.1's, AA.
PAIRS = [(text, "paper", 4.5) for text in ("ink", "soft", "link", "good", "bad")] + [("good", "goodpaper", 4.5), ("bad", "badpaper", 4.5), ("ink", "code", 4.5), ("ink", "wanted", 4.5), ("ink", "band", 4.5)] + \
        [(line, ground, 3) for line in ("head", "read") for ground in ("paper", "band", "wanted")]


def judged_page(text, numbers):
    page = Page(text)
    if page.faults:
        raise Wrong(f"the page has {page.faults[:5]}")
    if page.headings[0] != 1 or page.headings.count(1) != 1 or any(after > before + 1 for before, after in zip(page.headings, page.headings[1:])):
        raise Wrong(f"the headings of the page are {page.headings}")
    if {"script", "img", "iframe", "object", "embed", "base", "form"} & set(page.names) or "@import" in text or "url(" in text or "http:" in text or "https:" in text:
        raise Wrong("the page refers to something outside, or has a script")
    ids = re.findall(r'<[a-z]+ id="([^"]*)"', text)
    if len(ids) != len(set(ids)) or any(link != "data:," and link[1:] not in ids for link in page.links):
        raise Wrong(f"the page has links to nothing, or names twice: {page.links[:5]}")
    if page.names.count("table") != page.names.count("caption") or not {"header", "main", "footer", "title"} <= set(page.names):
        raise Wrong("a table without a caption, or a page without its parts")
    if [one for one in ids if re.fullmatch(r"e[0-9]+", one)] != [f"e{number:06}" for number in numbers]:
        raise Wrong(f"the page has the entries {ids}")
    blocks = re.findall(r":root \{([^}]*)\}", text)
    if len(blocks) != 3:
        raise Wrong("the page has not its colours by day, in the dark and on paper")
    for block in blocks:
        colours = dict(re.findall(r"--([a-z]+): (#[0-9a-f]{6})", block))
        for one, other, least in PAIRS:
            if contrast(colours[one], colours[other]) < least:
                raise Wrong(f"{one} on {other} has a contrast of {contrast(colours[one], colours[other]):.2f}")
    return "".join(page.words)


def paged(at):
    """The page of a book that is right: what a person, a screen reader and a printer need; nothing from outside, and nothing of a sheet is markup."""
    sheets = dict(taken_by_check(at), **{"markup.run": b"<script>alert(1)</script>\n&amp;\n"})
    book = filled(at, sheets)
    at.must("./violstream record --by '<script>x</script>\"&' vault example.run", 0)
    at.must("./violstream audit --html page.html vault", 0, book.lines().encode(), silent=True)
    with open(at.path("page.html"), encoding="utf-8") as handle:
        text = handle.read()
    words = judged_page(text, book.numbers())
    for number, entry_text in zip(book.numbers(), book.texts()):
        found = parts(entry_text)
        part = text[text.index(f'<article id="e{number:06}">'):].split("</article>")[0]
        shown = judged_part(part)
        must = [digest(entry_text), found["made"][:10], found["made"][11:19], found["by"], found["program"]]
        if found["plan"].startswith(b"tape="):
            turn = re.search(rb"\nturn=(\d*)\n", found["run"])[1] or b"12000"
            must += ["Checked anew", "the sum is the least", found["plan"].decode().strip(), f"every turn of it costs {int(turn):,}."]
            must += ["".join(row) for row in rows_of(found)]
        else:
            must += ["refused", "the proved program gives this refusal"]
        for one in must:
            if one not in shown:
                raise Wrong(f"the page says {shown!r} of entry {number}, without {one!r}")
        if ("<svg" in part) != (b"\ntime=" in found["plan"]):
            raise Wrong(f"entry {number} has a picture, or none, where it must not")
    for must in ("This book is right.", book.lines().split("last=")[1].strip(), "violstream audit BOOK", "violstream check RUN PLAN", "straight track", "What no book can show by itself"):
        if must not in words:
            raise Wrong(f"the page does not say {must!r}")


def judged_part(part):
    return "".join(Page(part + "</article>").words)


def rows_of(found):
    """The rows of the table of an entry: file, time, leg, reads, start, end."""
    lines = [line.partition("=")[::2] for line in found["run"].decode().split("\n")]
    table = [value.split(",") for key, value in lines if key == "file"]
    times = {one[0]: one[1:] for one in (line[5:].split(",") for line in found["plan"].decode().split("\n") if line.startswith("time="))}
    for file, reads in (value.split(",") for key, value in lines if key == "want"):
        start, length, aggregate = table[int(file) - 1]
        yield file + (" (with its aggregate)" if aggregate != "0" else ""), *(f"{int(one):,}" for one in (*times[file], reads, start, int(start) + int(length)))


def seen_in_browser(at, folder):
    """The page in chromium: nothing on its console, nothing fetched, no line over the edge; 1,000 entries are seen at once."""
    from browser import Browser
    draw = random.Random(7)
    sheets = {f"{number:04}.run": drawn_sheet(draw, number) for number in range(1000)}
    filled(at, dict(taken_by_check(at)), "small")
    filled(at, sheets, "large")
    at.must("cp -r small wrong && sed -i 's/^by=news/by=film/' wrong/000002.record", 0)
    browser = Browser()
    try:
        for name, status in (("small", 0), ("wrong", 3), ("large", 0)):
            at.must(f"./violstream audit --html {name}.html {name}", status)
            for width, height, mobile in ((1280, 900, False), (390, 844, True)):
                for scheme in ("light", "dark"):
                    browser.look(width, height, scheme, mobile=mobile)
                    browser.open(at.path(f"{name}.html"))
                    paint, wide = browser.first_paint(), browser.value("document.documentElement.scrollWidth")
                    print(f"record.py: {name} book, {width} wide, {scheme}: first paint after {paint:.0f} ms, loaded after {browser.value('performance.now()'):.0f} ms")
                    if wide > width or browser.messages or [one for one in browser.waiting if not one.startswith(("file://", "data:"))]:
                        raise Wrong(f"{name}: {wide} wide of {width}; on the console: {browser.messages}; fetched: {browser.waiting}")
                    browser.shot(os.path.join(folder, f"{name}-{width}-{scheme}.png"))
                    browser.value("document.querySelector('#e000001').scrollIntoView()")
                    browser.shot(os.path.join(folder, f"{name}-{width}-{scheme}-entry.png"))
        browser.open(at.path("small.html"))
        browser.paper(os.path.join(folder, "small.pdf"))
    finally:
        browser.close()


def drawn_sheet(draw, number):
    files, place = [], 0
    for _ in range(draw.randrange(1, 60)):
        place += draw.randrange(5) * 300000000
        length = draw.randrange(1, 30) * 300000000
        files.append((place, length))
        place += length
    wants = sorted(draw.sample(range(1, len(files) + 1), draw.randrange(min(len(files), 9) + 1)))
    lines = [f"tape=VX{number % 90:04}", f"head={place}", "turn=600000000", "rule=least", f"files={len(files)}", *(f"file={start},{length},0" for start, length in files), f"wants={len(wants)}",
             *(f"want={file},{draw.randrange(1, 5)}" for file in wants)]
    return ("\n".join(lines) + "\n").encode()


TESTS = (entries, misused, audited, tampered, drawn_bytes, many_at_once, ended, nowhere_to_write, paged)


def main():
    reader = argparse.ArgumentParser(description=__doc__.split("\n")[0])
    reader.add_argument("--only", choices=[one.__name__ for one in TESTS], help="this test alone")
    reader.add_argument("--browser", nargs="?", const=".", metavar="FOLDER", help="the page in a browser, and no other test")
    words = reader.parse_args()
    built()
    tried = [one for one in TESTS if words.only in (None, one.__name__)] if words.browser is None else [lambda at: seen_in_browser(at, words.browser)]
    for one in tried:
        with tempfile.TemporaryDirectory() as folder:
            try:
                one(Checkout(folder))
            except Wrong as wrong:
                sys.exit(f"record.py: {one.__name__}: {wrong}")
    print(f"record.py: books are written whole, and every tampering is found; tests: {', '.join(one.__name__ for one in tried)}")


if __name__ == "__main__":
    main()
