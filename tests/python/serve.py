#!/usr/bin/env python3
"""Has `violstream serve` run, speaks at its windows, kills it, fills its disk, damages its journal, and compares with a model of a day of two offices.

usage: tests/python/serve.py [--only NAME] [--kills N] [--days N] [--connections N] [--fuzz SECONDS] [--seed S] [--long]

The model is that of day.py, which shares nothing with the crates. A kill is a SIGKILL at a drawn moment under the load of eight askers; tests/c/disk.c,
loaded before libc, then says how much of the journal a disk would have kept had the power gone too, and the rest is cut off at a drawn byte. Nothing that was
answered may be missing, and no number may have been given twice. --long does what takes longer than a minute: thousands of kills, a fuzzer, 10,000
connections.
"""
import argparse
import errno
import grp
import os
import random
import re
import resource
import shutil
import signal
import socket
import stat
import subprocess
import sys
import tempfile
import threading
import time

import day
import programs
import sheets
from record import parts

COMMAND = os.path.join(programs.ROOT, "target/command/violstream")
SHEET = os.path.join(programs.ROOT, "examples/day.run")
LIMIT = 60
OFFICES = {"office1": 1, "office2": 2}
WINDOWS = ("office1", "office2", "operator")


class Wrong(Exception):
    pass


def must(true, otherwise):
    if not true:
        raise Wrong(otherwise() if callable(otherwise) else otherwise)


def contents(name):
    with open(name, "rb") as handle:
        return handle.read()


# ---- The server, and who asks ----

class Server:
    """A server in a folder of its own, with its journal and its windows."""
    calls = []

    def __init__(self, folder, shim=None, sheet=SHEET, journal=None, book=None):
        self.folder, self.sheet, self.shim, self.call, self.said = folder, sheet, shim, None, ""
        self.book = book
        self.windows, self.journal = os.path.join(folder, "windows"), journal or os.path.join(folder, "journal")
        self.disk, self.synced = os.path.join(folder, "disk"), os.path.join(folder, "synced")
        os.makedirs(self.windows, exist_ok=True)

    def words(self, *more):
        book = ["--book", self.book] if self.book else []
        return [COMMAND, "serve", "--journal", self.journal, "--windows", self.windows, *book, *more, self.sheet]

    def start(self, *more, **how):
        """Started, and ready when its sentence is there; or what it has said, and its status."""
        surroundings = dict(os.environ)
        if self.shim:
            surroundings.update(LD_PRELOAD=self.shim, VIOLSTREAM_DISK=self.disk, VIOLSTREAM_SYNCED=self.synced)
        self.call = subprocess.Popen(self.words(*more), stdin=subprocess.DEVNULL, stdout=subprocess.PIPE, stderr=subprocess.PIPE, env=surroundings, **how)
        Server.calls.append(self.call)
        said = ""
        for line in self.call.stderr:
            if b": serving at " in line:
                return line.decode()
            # Also that the command is compiled anew, where another library was made.
            said += line.decode()
        return said + self.call.stdout.read().decode(), self.call.wait(LIMIT)

    def begin(self, *more, **how):
        said = self.start(*more, **how)
        must(isinstance(said, str), f"the server does not start: {said}")
        return int(said.rsplit(" ", 1)[1])

    def end(self, number=signal.SIGTERM):
        self.call.send_signal(number)
        return self.ended()

    def ended(self):
        """Its status; what it has said since it was ready is kept."""
        status = self.call.wait(LIMIT)
        self.said = self.call.stderr.read().decode()
        self.call.stdout.close()
        self.call.stderr.close()
        return status

    def tell_disk(self, words):
        """What the disk does from now on (tests/c/disk.c)."""
        with open(self.disk + ".new", "w") as handle:
            handle.write(words)
        os.rename(self.disk + ".new", self.disk)

    def path(self, window):
        return os.path.join(self.windows, window)

    def at(self, window):
        return Asker(self.path(window))

    def entries(self):
        """The events of the journal, each with what stands above it."""
        front, text = contents(self.sheet), contents(self.journal)
        front = b"%d\n" % len(front) + front
        must(text.startswith(front), "the journal does not begin with its sheet")
        lines = text[len(front):].split(b"\n")
        must(lines.pop() == b"" and len(lines) % 2 == 0, f"the journal ends so: {text[-100:]!r}")
        return list(zip(lines[::2], lines[1::2]))


class Asker:
    def __init__(self, path):
        self.socket = socket.socket(socket.AF_UNIX)
        self.socket.settimeout(LIMIT)
        self.socket.connect(path)
        self.held = b""

    def send(self, text):
        self.socket.sendall(text)

    def answer(self):
        """The next answer, without its empty line."""
        while b"\n\n" not in self.held:
            more = self.socket.recv(65536)
            if not more:
                raise EOFError
            self.held += more
        answer, self.held = self.held.split(b"\n\n", 1)
        return answer + b"\n"

    def ask(self, line):
        self.send(line + b"\n")
        return self.answer()

    def close(self):
        self.socket.close()


class Model:
    """What the windows must answer, and what the journal must then hold."""

    def __init__(self, sheet=SHEET):
        self.desk, self.journal = day.Desk(sheets.read(contents(sheet))[3]), []

    def waiting(self):
        lines = [f"waits={office},{number},{file},{count},{ahead},{ahead // 4 + 1}\n" for office in (1, 2)
                 for ahead, (_, number, file, count) in enumerate(self.desk.waiting[office])]
        return ("".join(lines) + f"waiting={len(self.desk.waiting[1])},{len(self.desk.waiting[2])}\n").encode()

    def event(self, window, line):
        """The event of a line, where its form is an event's of that window."""
        office, patterns = OFFICES.get(window), {"file": 2, "withdraw": 1} if window in OFFICES else {"board": 2}
        for name, numbers in patterns.items():
            found = re.fullmatch(name.encode() + b"=(" + b",".join([day.NUMBER.replace(b"(", b"(?:")] * numbers) + b")", line)
            if found and all(int(value) < 2**64 for value in found[1].split(b",")):
                return line if office is None else b"%s=%d,%s" % (name.encode(), office, found[1])
        return None

    def answer(self, window, line):
        if line == b"waiting":
            return self.waiting()
        event = self.event(window, line)
        if event is None:
            return b"refused=%d\nplace=0\n" % (43 if any(self.event(other, line) for other in WINDOWS) else 11)
        said = self.desk.answer(event)
        if not said.startswith(b"refused="):
            self.journal.append(event)
        return said


ABOVE = re.compile(rb"# \d{4}-\d\d-\d\dT\d\d:\d\d:\d\dZ (office1|office2|operator) uid=(\d+) pid=(\d+)")


# ---- What is said at the windows ----

def protocol(at):
    """Every kind of line at every window, in exact words."""
    server, model = Server(at.folder), Model()
    must(server.begin() == 0, "a new journal has events")
    askers = {window: server.at(window) for window in WINDOWS}
    lines = [b"", b"waiting", b"waiting ", b"Waiting", b"waiting\r", b"# file=1,1", b"#", b"file=3,2", b"file=1,3,2", b"file=3", b"file=", b"file=3,2,", b"file=03,2", b"file=+3,2", b"file=3, 2",
             b"file=0,1", b"file=7,1", b"file=1,0", b"file=1,129", b"file=18446744073709551615,1", b"file=18446744073709551616,1", b"withdraw=1", b"withdraw=1,1", b"withdraw=", b"withdraw=9", b"board=70,3",
             b"board=10,1", b"board=70,4294967297", b"board=1099511627777,1", b"board=70", b"board=", b"board=1,2,3", b"stop", b"file", b"\0", b"\xff\xfe", b"x" * 200, b"x" * 201, b"x" * 5000,
             b"file=3,2" + b" " * 300, b"file=1,1\0", b"refused=11"]
    for line in lines + lines[::-1] + [b"file=%d,%d" % (n % 6 + 1, n + 1) for n in range(20)] * 2 + [b"board=60,3", b"waiting"] * 8:
        for window, asker in askers.items():
            said, expected = asker.ask(line), model.answer(window, line)
            must(said == expected, f"at {window} {line!r} is answered {said!r} and not {expected!r}")
    must(set(model.desk.met) >= {"file refused=15", "file refused=16", "withdraw refused=17", "board refused=6", "board refused=7"}, f"not met: {model.desk.met}")
    # Byte by byte, many at once, and half a line when the asker goes.
    asker = askers["office1"]
    for byte in b"file=2,1\n":
        asker.send(bytes([byte]))
        time.sleep(0.002)
    must(asker.answer() == model.answer("office1", b"file=2,1"), "a line in parts is answered otherwise")
    many = [b"waiting", b"file=1,1", b"withdraw=%d" % model.desk.last[1], b"board=1,1", b""] * 30
    asker.send(b"".join(line + b"\n" for line in many))
    for line in many:
        said, expected = asker.answer(), model.answer("office1", line)
        must(said == expected, f"of many at once {line!r} is answered {said!r} and not {expected!r}")
    asker.send(b"file=4,4")
    asker.close()
    # Whole lines of one who goes at once are events all the same.
    gone = server.at("office2")
    gone.send(b"file=5,1\nfile=6,2\nfile=4,")
    gone.close()
    [model.answer("office2", line) for line in (b"file=5,1", b"file=6,2")]
    until(lambda: askers["operator"].ask(b"waiting") == model.waiting(), lambda: f"waiting is {askers['operator'].ask(b'waiting')!r} and not {model.waiting()!r}")
    # One who asks and then sends no more gets his answers.
    done = server.at("operator")
    done.send(b"waiting\nwaiting\nwai")
    done.socket.shutdown(socket.SHUT_WR)
    must(done.answer() + done.answer() == model.waiting() * 2 and done.socket.recv(1) == b"", "half closed, a window answers otherwise")
    entries = server.entries()
    must([event for _, event in entries] == model.journal, f"the journal has {entries}, and must have {model.journal}")
    for above, event in entries:
        found = ABOVE.fullmatch(above)
        must(found and found[2] == b"%d" % os.getuid() and found[3] == b"%d" % os.getpid(), f"above {event!r} stands {above!r}")
        must(Model().event(found[1].decode(), event.replace(b"=%d," % OFFICES.get(found[1].decode(), 0), b"=", 1)) == event, f"{event!r} is of another window than {above!r}")
    must(server.end() == 0 and os.listdir(server.windows) == [], "SIGTERM does not end the server with 0 and without sockets")
    replayed(server, model)


def replayed(server, model):
    """The proved desk alone gives the same day, and the sheets of its boardings are right."""
    desk, expected = day.Desk(model.desk.table), b""
    for event in model.journal:
        expected += desk.answer(event)
    expected += f"waiting={len(desk.waiting[1])},{len(desk.waiting[2])}\n".encode()
    keep = os.path.join(server.folder, "keep")
    shutil.rmtree(keep, ignore_errors=True)
    os.makedirs(keep)
    done = called("desk", "--replay", server.journal, "--keep", keep)
    must((done.stdout, done.returncode, done.stderr) == (expected, 0, b""), lambda: f"replayed, the journal gives {done}, and must give {expected!r}")
    boardings = expected.count(b"boarded=")
    must(sorted(os.listdir(keep)) == sorted(f"{n}.{kind}" for n in range(1, boardings + 1) for kind in ("run", "plan")), f"kept: {os.listdir(keep)}")
    for number in range(1, min(boardings, 12) + 1):
        run, plan = (os.path.join(keep, f"{number}.{kind}") for kind in ("run", "plan"))
        checked = called("check", run, plan)
        must(checked.stdout == b"formed=yes\nwalk=yes\nleast=yes\n", lambda: f"check says of {contents(run)!r} and {contents(plan)!r}: {checked.stdout!r}")
    must(called("desk", "--replay", server.journal, "--keep", keep).returncode == (1 if boardings else 0), "sheets that are there are written over")


def called(*words, **how):
    return subprocess.run([COMMAND, *words], capture_output=True, timeout=LIMIT, **how)


def days(at):
    """Drawn lines at drawn windows, with servers ended and killed between them."""
    for number in range(at.words.days):
        draw, server, model = random.Random(at.words.seed + number), Server(os.path.join(at.folder, str(number))), Model()
        must(server.begin() == 0, "a new journal has events")
        for _ in range(6):
            askers = {window: server.at(window) for window in WINDOWS}
            for _ in range(draw.randrange(1, 60)):
                window, line = draw.choice(WINDOWS), drawn_line(draw, model)
                said, expected = askers[window].ask(line), model.answer(window, line)
                must(said == expected, f"seed {at.words.seed + number}: at {window} {line!r} is answered {said!r} and not {expected!r}")
            server.end(draw.choice((signal.SIGTERM, signal.SIGKILL, signal.SIGINT)))
            must(server.begin() == len(model.journal), "started again, the server has another number of events")
        must(server.at("operator").ask(b"waiting") == model.waiting(), "started again, others wait")
        server.end()
        replayed(server, model)


def drawn_line(draw, model):
    kind = draw.random()
    if kind < 0.5:
        return b"file=%d,%d" % (draw.randrange(0, 8), draw.choice((0, 1, 1, 2, 3, 128, 129)))
    if kind < 0.65:
        return b"withdraw=%d" % draw.randrange(0, max(model.desk.last.values()) + 2)
    if kind < 0.8:
        return b"board=%d,%d" % (draw.choice((0, 49, 50, 60, 2**40, 2**40 + 1)), draw.choice((0, 3, 12000, 2**32, 2**32 + 1)))
    return draw.choice((b"waiting", b"waiting", b"", b"# x", b"file=1,1,1", b"withdraw=1,1", bytes(draw.randrange(256) for _ in range(draw.randrange(9))).replace(b"\n", b"")))


def asking(at):
    """ask: a client for a person."""
    server = Server(at.folder)
    server.begin()
    window = server.path("office1")
    for words, data, status, out, says in (
            (["file=3,2", "waiting"], b"", 0, b"filed=1,1\nwaits=1,1,3,2,0,1\nwaiting=1,0\n", b""),
            (["board=60,1", "waiting"], b"", 3, b"refused=43\nplace=0\nwaits=1,1,3,2,0,1\nwaiting=1,0\n", b'office1: "board=60,1": refused (43): an event that is not for this window'),
            ([], b"withdraw=1\nwithdraw=1\n", 3, b"withdrawn=1,1\nrefused=17\nplace=0\n", b"refused (17)"),
            ([""], b"", 3, b"refused=11\nplace=0\n", b"refused (11)"),
            ([], b"waiting", 1, b"", b'standard input ends without a line feed; "waiting" was not sent'),
            (["a\nb"], b"", 2, b"", b"an event is one line"),
            ([], b"", 0, b"", b"")):
        done = called("ask", window, *words, input=data)
        must((done.stdout, done.returncode) == (out, status) and says in done.stderr, f"ask {words} with {data!r} gives {done}")
    must(called("ask", server.path("nobody")).returncode == 1, "ask does not fail where nobody listens")
    server.end()
    done = called("ask", window, "waiting")
    must(done.returncode == 1 and b"nobody can be asked" in done.stderr, f"ask of a server that has ended gives {done}")


# ---- Who stalls, floods, or comes in numbers ----

def stalling(at):
    """Half a line, answers that nobody takes, a flood: others are answered at once, and the server does not grow."""
    server = Server(at.folder)
    server.begin()
    half, deaf, flood = server.at("office1"), server.at("office1"), server.at("office1")
    half.send(b"file=1,")
    done, taken = threading.Event(), {deaf: 0, flood: 0}

    def go_on():
        """Sends whatever is taken, for at least a second."""
        ends = time.monotonic() + 1
        while not done.is_set() or time.monotonic() < ends:
            for one, text in ((deaf, b"waiting\n" * 1000), (flood, b"x" * 65536)):
                try:
                    one.socket.setblocking(False)
                    taken[one] += one.socket.send(text)
                except BlockingIOError:
                    time.sleep(0.001)

    thread = threading.Thread(target=go_on)
    thread.start()
    try:
        asker = server.at("office1")
        longest = 0
        for number in range(1, 9):
            began = time.monotonic()
            must(asker.ask(b"file=1,1") == b"filed=1,%d\n" % number, "beside one who stalls, another is answered otherwise")
            longest = max(longest, time.monotonic() - began)
        must(longest < 2, f"beside one who stalls, another waits for {longest:.1f} s")
        with open(f"/proc/{server.call.pid}/status") as handle:
            kilobytes = int(re.search(r"VmRSS:\s+(\d+)", handle.read())[1])
        must(kilobytes < 30000, f"the server has grown to {kilobytes} KB")
    finally:
        done.set()
        thread.join()
    must(taken[flood] > 1000000 > 2 * taken[deaf], f"who takes no answers was asked for {taken[deaf]} bytes more, and one line without an end for {taken[flood]}")
    half.send(b"2\n")
    must(half.answer() == b"filed=1,9\n", "half a line is not waited for")
    deaf.socket.setblocking(True)
    must(b"waiting=" in deaf.answer(), "who has not taken answers does not find them later")
    sleeping(server)
    server.end()


def sleeping(server):
    """Where nobody asks, the server sleeps: also behind an answer, and before a byte that was sent out of the row, which is no text."""
    def awake():
        """On a processor, or waiting for one, in seconds."""
        with open(f"/proc/{server.call.pid}/schedstat") as handle:
            return sum(int(part) for part in handle.read().split()[:2]) / 1e9

    def sleeps():
        time.sleep(0.1)
        before = awake()
        time.sleep(0.3)
        must(awake() - before < 0.1, f"of 0.3 s in which nobody asks the server is awake for {awake() - before:.3f} s")

    urgent = server.at("office1")
    for text in (b"", b"wait"):
        urgent.send(text)
        try:
            urgent.socket.send(b"!", socket.MSG_OOB)
        except OSError:
            print("serve.py: stalling: this kernel sends no byte out of the row")
        sleeps()
        urgent.send(b"waiting\n"[len(text):])
        must(b"waiting=" in urgent.answer(), "behind a byte out of the row nobody is answered")
        sleeps()


def crowds(at):
    """Many connections in turn, and more at once than a window holds: whoever has been silent longest makes room."""
    server = Server(at.folder)
    server.begin()
    for number in range(at.words.connections):
        asker = server.at(WINDOWS[number % 3])
        if number % 10 == 0:
            must(asker.ask(b"waiting") == b"waiting=0,0\n", "a connection in turn is answered otherwise")
        asker.close()
    other = server.at("office2")
    must(other.ask(b"file=1,1") == b"filed=2,1\n", "office 2 is not answered")
    crowd = []
    for number in range(600):
        crowd.append(server.at("office1"))
        if number % 50 == 0:
            must(crowd[-1].ask(b"waiting").endswith(b"waiting=0,1\n"), "in a crowd, who comes last is not answered")
    must(crowd[-1].ask(b"file=1,1") == b"filed=1,1\n", "in a crowd, who comes last is not answered")
    must(other.ask(b"file=1,1") == b"filed=2,2\n", "one office's crowd sends the other office away")
    must(crowd[0].socket.recv(1) == b"", "who has been silent longest is not sent away")
    [asker.close() for asker in crowd]
    must(server.at("operator").ask(b"waiting").endswith(b"waiting=1,2\n"), "after a crowd the operator is not answered")
    server.end()
    # With few descriptors, fewer are let in, and it goes on.
    must(server.begin(preexec_fn=lambda: resource.setrlimit(resource.RLIMIT_NOFILE, (64, 64))) == 3, "another number of events")
    crowd = [server.at("office1") for _ in range(100)]
    must(crowd[-1].ask(b"waiting").endswith(b"waiting=1,2\n") and server.at("office2").ask(b"withdraw=1") == b"withdrawn=2,1\n", "with few descriptors nobody is answered")
    server.end()


# ---- Starting, ending, damage ----

def starting(at):
    """Who may start, and what stands in the way."""
    server = Server(at.folder)
    server.begin()
    server.at("office1").ask(b"file=1,1")
    for window in WINDOWS:
        about = os.stat(server.path(window))
        must(stat.S_ISSOCK(about.st_mode) and stat.S_IMODE(about.st_mode) == 0o660, f"{window} has mode {about.st_mode:o}")
    second = Server(at.folder)
    refused(second, "another server is at work with")
    second.journal = os.path.join(at.folder, "other")
    refused(second, "another server has its windows there")
    os.makedirs(os.path.join(at.folder, "elsewhere"))
    second.journal, second.windows = server.journal, os.path.join(at.folder, "elsewhere")
    refused(second, "another server is at work with")
    must(os.listdir(second.windows) == [] and server.at("office1").ask(b"waiting").endswith(b"waiting=1,0\n"), "a second server disturbs the first")
    # Killed, it leaves its sockets, and the next starts.
    server.end(signal.SIGKILL)
    must(sorted(os.listdir(server.windows)) == sorted(WINDOWS), "a killed server leaves no sockets, so this tries nothing")
    must(server.begin() == 1 and server.end() == 0 and os.listdir(server.windows) == [], "after a kill the next does not start or end")
    for number in (signal.SIGINT, signal.SIGHUP):
        server.begin()
        must(server.end(number) == 0 and os.listdir(server.windows) == [], f"signal {number} does not end the server as SIGTERM does")
    with open(server.path("office2"), "w"):
        refused(server, "something that is no window is there")
        must(os.listdir(server.windows) == ["office2"], "a server that does not start leaves sockets")
        os.remove(server.path("office2"))
    with socket.socket(socket.AF_UNIX) as foreign:
        foreign.bind(server.path("operator"))
        foreign.listen()
        refused(server, "another program listens there")
        os.remove(server.path("operator"))
    mine = grp.getgrgid(os.getgroups()[-1] if os.getgroups() else os.getgid()).gr_name
    must(server.begin("--group1", mine, "--group2", mine, "--group", mine) == 1, "with groups another number of events")
    must(all(os.stat(server.path(window)).st_gid == grp.getgrnam(mine).gr_gid for window in WINDOWS), "the windows are of another group")
    server.end()
    must("there is no group no-such-group" in server.start("--group1", "no-such-group")[0], "an unknown group is taken")
    for words, says, status in ((["--windows", "/no-such"], "there is no folder /no-such", 1), (["--journal", "/no-such/journal"], "cannot open /no-such/journal", 1), (["--journal", "/"], "cannot open /", 1),
                                (["--journal", "/dev/null"], "is no file", 1)):
        said = server.start(*words)
        must(says in said[0] and said[1] == status, f"with {words} the server says {said}")
    for sheet, says, status in (("no-such", "cannot read no-such", 1), (os.path.join(programs.ROOT, "examples/retired-rule.run"), "refused (19)", 3), (server.journal, "refused (11)", 3)):
        said = Server(at.folder, sheet=sheet).start()
        must(says in said[0] and said[1] == status, f"with the sheet {sheet} the server says {said}")
    for words in ((), ("--journal", "a"), ("--windows", "a"), ("--journal", "a", "--windows", "b"), ("--journal", "a", "--windows", "b", "c", "d"), ("--journal", "", "--windows", "b", "c")):
        must(called("serve", *words).returncode == 2, f"serve {words} is taken for right")


def groups(at):
    """Who is not in a window's group may not speak there; who is, stands in the journal with his own number. As root alone can be tried."""
    if os.getuid() != 0:
        return
    os.chmod(at.folder, 0o755)
    server, (one, two) = Server(at.folder), [group for group in grp.getgrall() if group.gr_gid not in (0, 65534)][:2]
    server.begin("--group1", one.gr_name, "--group2", two.gr_name)

    def speak(window, group):
        """What nobody, in that group, is answered there; in a process of his own."""
        mine, theirs = os.pipe()
        child = os.fork()
        if child == 0:
            try:
                os.chdir(server.windows)
                os.setgroups([group])
                os.setgid(65534)
                os.setuid(65534)
                os.write(theirs, Asker(window).ask(b"file=1,1"))
            except OSError as error:
                os.write(theirs, type(error).__name__.encode())
            os._exit(0)
        os.close(theirs)
        os.waitpid(child, 0)
        with os.fdopen(mine, "rb") as told:
            return told.read()

    must(speak("office1", one.gr_gid) == b"filed=1,1\n", "one of its group is not answered at office1")
    for window, group in (("office2", one.gr_gid), ("office1", two.gr_gid), ("operator", one.gr_gid), ("operator", two.gr_gid)):
        must(speak(window, group) == b"PermissionError", f"one of another group is answered at {window}")
    must(speak("office2", two.gr_gid) == b"filed=2,1\n", "one of its group is not answered at office2")
    found = [ABOVE.fullmatch(above) for above, _ in server.entries()]
    must([(one[1], one[2]) for one in found] == [(b"office1", b"65534"), (b"office2", b"65534")], f"the journal has {found}")
    server.end()


def faults(at):
    """Each call of the system fails in turn while the server starts, files a ticket and boards it, with a book: it serves all the same, or says why and ends with 1."""
    shim = os.path.join(at.folder, "faults.so")
    source = os.path.join(programs.ROOT, "tests/c/faults.c")
    subprocess.run([os.environ.get("CC", "cc"), "-O1", "-shared", "-fPIC", source, "-o", shim, "-ldl"], check=True)
    tried = 0
    for kind, error in (("open", errno.EMFILE), ("read", errno.EIO), ("fcntl", errno.EBADF), ("flock", errno.ENOLCK), ("fsync", errno.EIO), ("poll", errno.ENOMEM), ("unlink", errno.EACCES), ("linkat", errno.EPERM), ("mkdir", errno.EACCES)):
        for number in range(1, 60):
            server = Server(os.path.join(at.folder, f"{kind}{number}"), book=os.path.join(at.folder, f"{kind}{number}", "book"))
            counted = os.path.join(server.folder, "counted")
            surroundings = dict(os.environ, LD_PRELOAD=shim, VIOLSTREAM_FAULT=f"{kind}:{number}:{error}", VIOLSTREAM_FAULT_COUNT=counted)
            call = subprocess.Popen(server.words(), stdin=subprocess.DEVNULL, stdout=subprocess.DEVNULL, stderr=subprocess.PIPE, env=surroundings)
            said, told, boarded = call.stderr.readline(), b"", b""
            if b"serving at" in said:
                try:
                    told = server.at("office1").ask(b"file=1,1")
                    boarded = server.at("operator").ask(b"board=60,1")
                except (EOFError, OSError):
                    pass
                call.send_signal(signal.SIGTERM)
            said += call.stderr.read()
            call.stderr.close()
            status = call.wait(LIMIT)
            tell = f"with {kind} number {number} failing the server said {said!r}, answered {told!r} and {boarded!r} and ended with {status}"
            must(status == 0 and told == b"filed=1,1\n" and boarded.startswith(b"boarded=1,0\n") or status == 1 and b"violstream: " in said, f"{tell}; it must serve, or say why and end with 1")
            tried += 1
            met = int(contents(counted)) if os.path.exists(counted) else 0
            # What was answered is there, and in the book once.
            server.begin()
            waiting = server.at("operator").ask(b"waiting")
            server.end()
            must(told != b"filed=1,1\n" or waiting.endswith(b"waiting=0,0\n" if boarded else b"waiting=1,0\n"), f"{tell}; then {waiting!r}")
            must(len(lined_up(server)[1]) >= boarded.startswith(b"boarded="), f"{tell}; then the book has it not")
            if met < number:
                break
    print(f"serve.py: {tried} faults of the system")


def refused(server, says):
    """It does not start, says so, ends with 1, and writes nothing."""
    before = contents(server.journal) if os.path.exists(server.journal) else b""
    said = server.start()
    must(not isinstance(said, str) and says in said[0] and said[1] == 1, f"the server must say {says!r}, and says {said}")
    must(not os.path.exists(server.journal) or contents(server.journal) == before or before == b"", "a server that does not start has written")


def damage(at):
    """A torn tail is cut off; a journal that was being made is made; anything else is refused by its line, and stays as it is."""
    server, model = Server(at.folder), Model()
    server.begin()
    for window, line in (("office1", b"file=3,2"), ("office2", b"file=5,1"), ("office1", b"file=1,1"), ("operator", b"board=60,1"), ("office1", b"file=1,1")):
        must(server.at(window).ask(line) == model.answer(window, line), "answered otherwise")
    server.end()
    whole = contents(server.journal)
    front = len(whole) - len(b"".join(above + event + b"\n\n" for above, event in server.entries()))
    ends = [front]
    for above, event in server.entries():
        ends.append(ends[-1] + len(above + event) + 2)

    def starts(text, events, length, what):
        with open(server.journal, "wb") as handle:
            handle.write(text)
        must(server.begin() == events, f"{what}: another number of events than {events}")
        server.end()
        must(contents(server.journal) == (text[:length] if length <= len(text) else whole[:length]), f"{what}: the journal is {contents(server.journal)!r}")

    for cut in [*range(0, front, 7), front - 1, *range(front, len(whole) + 1)]:
        events = max(0, sum(end <= cut for end in ends) - 1)
        starts(whole[:cut], events, max(front, ends[events]), f"cut at byte {cut}")
    for tail in (b"x", b"# ", b"#\n", b"# 2026\n", b"# 2026\nfile=1,1,1", b"\0" * 5000, b"# x\n\0\0", b"file=1,1,1", b"x" * 300):
        starts(whole + tail, 5, len(whole), f"with {tail!r} at its end")
    lines, first = whole.count(b"\n"), whole[:front].count(b"\n") + 1
    entry = whole[ends[4]:]
    above = entry.split(b"\n")[0] + b"\n"
    kinds = [(whole + tail, lines + line, tail) for tail, line in (
        (b"\n", 1), (b"x\n", 1), (b"file=1,1,1\n", 1), (b"#\nfile=1,1,1\n", 1), (above + b"\n", 2), (above + b"x\n", 2), (above + b"file=2,1,1\n", 2), (above + b"file=1,9,1\n", 2),
        (above + b"withdraw=1,1\n", 2), (above + b"board=60,1\n", 2), (above + above + b"file=1,1,1\n", 2), (above.replace(b"office1", b"office3") + b"file=1,1,1\n", 1),
        (above.replace(b"uid=", b"uid=x") + b"file=1,1,1\n", 1), (above.replace(b"Z", b"") + b"file=1,1,1\n", 1), (above + b"file=1,1,1\r\n", 2), (above + b"x" * 300 + b"\n", 2),
        (b"#" * 300 + b"\nfile=1,1,1\n", 1), (above + b"file=1,1,1" + b" " * 300 + b"\n" + b"x", 2), (b"\0" * 300 + b"\n", 1))]
    kinds += [(whole.replace(b"file=2,5,1", b"file=2,5,9"), None, "another count"), (b"x" + whole, 1, "another first byte"), (b"0" + whole, 1, "a count with a zero before it"), (b"\n" + whole, 1, "an empty line")]
    kinds += [(whole[:ends[number]] + whole[end:], None, f"without entry {number + 1}") for number, end in enumerate(ends[1:-1])]
    for at_byte in range(front, len(whole)):
        if whole[at_byte:at_byte + 1] == b"\n":
            changed = whole[:at_byte] + b"x" + whole[at_byte + 1:]
            kinds.append((changed, whole[:at_byte].count(b"\n") + 1 if at_byte < ends[-2] else None, f"no LF at byte {at_byte}"))
        if whole[at_byte:at_byte + 1] in b"=,#" and at_byte < len(whole) - 1:
            kinds.append((whole[:at_byte] + b"\x7f" + whole[at_byte + 1:], whole[:at_byte].count(b"\n") + 1, f"another byte {at_byte}"))
    for text, line, what in kinds:
        with open(server.journal, "wb") as handle:
            handle.write(text)
        said = server.start()
        if line is None:
            # Not to be seen by the journal alone: what it says is a day that could have been, or has a tail.
            must(isinstance(said, str), f"{what!r}: the server says {said}")
            server.end()
            continue
        must(not isinstance(said, str) and said[1] == 1 and f", line {line}: " in said[0], lambda: f"{what!r} must be refused at line {line}, and the server says {said}: {text[front:]!r}")
        must(contents(server.journal) == text and os.listdir(server.windows) == [], f"{what!r} is refused, and something was written")
    other = os.path.join(at.folder, "other.run")
    sheet = contents(SHEET)
    for changed in [sheet[:n] + bytes([sheet[n] ^ 1]) + sheet[n + 1:] for n in (5, sheet.index(b"file=") + 5)] + [sheet.replace(b"wants=0", b"wants=1\nwant=1,1"), sheet.replace(b"file=45,5,0", b"file=45,6,0")]:
        with open(server.journal, "wb") as handle:
            handle.write(whole)
        with open(other, "wb") as handle:
            handle.write(changed)
        said = Server(at.folder, sheet=other).start()
        must(not isinstance(said, str) and said[1] in (1, 3) and contents(server.journal) == whole, f"with another sheet the server says {said}")
        must(said[1] == 3 or "is the journal of another run sheet" in said[0], f"with another sheet the server says {said}")


# ---- The disk ----

def full(at):
    """A file that may not grow: what was accepted stays, nothing more is, and what was not is nowhere; then there is room again."""
    server, model = Server(at.folder), Model()
    size = len(contents(SHEET)) + 700
    server.begin(preexec_fn=lambda: resource.setrlimit(resource.RLIMIT_FSIZE, (size, resource.RLIM_INFINITY)))
    asker, told = server.at("office1"), []
    for _ in range(30):
        before = model.waiting()
        said = asker.ask(b"file=1,2")
        told.append(said)
        if said == b"failed=journal\n":
            must(asker.ask(b"waiting") == before, "after failed=journal something has changed")
            must(asker.ask(b"withdraw=99") == b"refused=17\nplace=0\n" and asker.ask(b"board=1,1") == b"refused=43\nplace=0\n", "a refusal is no refusal where the disk is full")
        else:
            must(said == model.answer("office1", b"file=1,2"), f"answered {said!r}")
        must(len(contents(server.journal)) <= size and [event for _, event in server.entries()] == model.journal, "the journal has something else")
    must(told.count(b"failed=journal\n") > 5 and told[0] != told[-1], f"the disk was never full, or always: {told}")
    must(server.at("operator").ask(b"board=60,1") == b"failed=journal\n", "a boarding is accepted where the disk is full")
    server.end(signal.SIGKILL)
    server.begin()
    must(server.at("office1").ask(b"waiting") == model.waiting() and server.at("office1").ask(b"file=1,2") == model.answer("office1", b"file=1,2"), "with room again it goes on otherwise")
    server.end()


def failing(at):
    """Writes that fail, whole or after a part; syncs that fail after the write went through; a file that cannot be made shorter. And a slow disk."""
    server, model = Server(at.folder, at.shim), Model()
    server.begin()
    askers, disk = {window: server.at(window) for window in WINDOWS}, server.tell_disk

    def good():
        for window, line in (("office1", b"file=1,2"), ("office2", b"file=3,1"), ("operator", b"waiting"), ("office1", b"withdraw=%d" % model.desk.last[1])):
            said, expected = askers[window].ask(line), model.answer(window, line)
            must(said == expected, f"{line!r} is answered {said!r} and not {expected!r}")
        if len(model.desk.waiting[2]) > 12:
            must(askers["operator"].ask(b"board=60,1") == model.answer("operator", b"board=60,1"), "a boarding is answered otherwise")

    for words in ("write", "half", "sync", "write cut", "half cut", "sync cut", "half sync cut"):
        good()
        disk(words)
        for _ in range(3):
            before = model.waiting()
            for window, line in (("office1", b"file=1,2"), ("office2", b"withdraw=%d" % model.desk.waiting[2][0][1]), ("operator", b"board=60,1")):
                said = askers[window].ask(line)
                must(said == b"failed=journal\n", f"with {words} failing, {line!r} is answered {said!r}")
            # Of lines that come together the others are answered as if those that fail had not been.
            askers["office1"].send(b"file=1,2\nwithdraw=%d\nwaiting\nfile=9,9\n" % (model.desk.last[1] + 1))
            said = [askers["office1"].answer() for _ in range(4)]
            must(said == [b"failed=journal\n", b"refused=17\nplace=0\n", before, b"refused=15\nplace=0\n"], f"with {words} failing, together: {said}")
            if "cut" not in words:
                must([event for _, event in server.entries()] == model.journal, f"with {words} failing the journal has what was not accepted")
        disk("")
        good()
        must([event for _, event in server.entries()] == model.journal, f"after {words} the journal has something else")
        if "cut" in words:
            # Ended while it could not take back what it wrote, it says so, and with 1.
            disk("half cut" if "half" in words else words)
            askers["office1"].ask(b"file=1,2")
            must(server.end() == 1, f"after {words} the server ends as if all was well")
            disk("")
            journal = contents(server.journal)
            with open(server.journal, "wb") as handle:
                handle.write(journal[:journal.index(model_front()) + len(model_front())] + b"".join(above + b"\n" + event + b"\n" for above, event in entries_of(journal)[:len(model.journal)]))
            must(server.begin() == len(model.journal), "another number of events")
            askers = {window: server.at(window) for window in WINDOWS}
    # Moved away, the journal is not written to; back in its place, it is.
    os.rename(server.journal, server.journal + ".moved")
    must(askers["office1"].ask(b"file=1,2") == b"failed=journal\n", "a journal that was moved away is written to")
    os.rename(server.journal + ".moved", server.journal)
    good()
    # A slow disk: who waits shares a sync.
    disk("slow")
    clients = [server.at(("office1", "office2")[n % 2]) for n in range(8)]
    began = time.monotonic()
    for _ in range(4):
        [client.send(b"withdraw=0\nfile=0,0\n") for client in clients]
        [client.answer() for client in clients for _ in range(2)]
    askers["operator"].ask(b"board=60,1")
    [client.send(b"file=1,1\n") for client in clients]
    [client.answer() for client in clients]
    taken = time.monotonic() - began
    must(taken < 0.05 * 8, f"eight filings and a boarding on a slow disk take {taken:.2f} s, as if each had a sync of its own")
    disk("")
    server.end()


def model_front():
    sheet = contents(SHEET)
    return b"%d\n" % len(sheet) + sheet


def entries_of(journal):
    lines = journal[len(model_front()):].split(b"\n")
    return list(zip(lines[::2], lines[1::2]))


# ---- Kills ----

class Load(threading.Thread):
    """One who asks and writes down what was answered, until nobody answers."""

    def __init__(self, server, window, seed):
        super().__init__()
        self.path, self.window, self.draw, self.told, self.fault = server.path(window), window, random.Random(seed), [], None

    def run(self):
        try:
            asker = Asker(self.path)
            while True:
                line = self.line()
                self.told.append((line, asker.ask(line)))
        except (EOFError, OSError):
            pass
        except Exception as fault:  # told by whoever waits for this thread
            self.fault = fault

    def line(self):
        if self.window == "operator":
            return b"board=%d,%d" % (self.draw.randrange(50, 90), self.draw.randrange(5))
        numbers = [said for _, said in self.told if said.startswith(b"filed=")]
        if numbers and self.draw.random() < 0.3:
            return b"withdraw=" + self.draw.choice(numbers).split(b",")[1].strip()
        return b"file=%d,%d" % (self.draw.randrange(1, 7), self.draw.randrange(1, 129))


class Table:
    """Who waits after the events of a journal, without a plan."""

    def __init__(self):
        self.waiting, self.filed, self.withdrawn, self.boarded = {1: {}, 2: {}}, {1: [], 2: []}, set(), 0

    def take(self, event):
        """Whether it can be accepted."""
        name, values = event.split(b"=")
        values = [int(value) for value in values.split(b",")]
        if name == b"board":
            self.boarded += 1
            counts = [min(4, len(self.waiting[office])) for office in (1, 2)]
            counts[0] += min(8 - sum(counts), len(self.waiting[1]) - counts[0])
            counts[1] += min(8 - sum(counts), len(self.waiting[2]) - counts[1])
            for office, count in zip((1, 2), counts):
                for number in list(self.waiting[office])[:count]:
                    del self.waiting[office][number]
            return True
        waiting = self.waiting[values[0]]
        if name == b"file":
            self.filed[values[0]].append(values[1:])
            waiting[len(self.filed[values[0]])] = values[1:]
            return len(waiting) <= 16
        self.withdrawn.add(tuple(values))
        return waiting.pop(values[1], None) is not None

    def text(self):
        lines = [b"waits=%d,%d,%d,%d,%d,%d\n" % (office, number, *ticket, ahead, ahead // 4 + 1) for office in (1, 2) for ahead, (number, ticket) in enumerate(self.waiting[office].items())]
        return b"".join(lines) + b"waiting=%d,%d\n" % (len(self.waiting[1]), len(self.waiting[2]))


def answered(told, table, given):
    """Everything that was answered is in the journal, with the number that was given; and no number was given twice. How many boardings were answered."""
    boardings = 0
    for window, line, said in told:
        values = [int(value) for value in line.split(b"=")[1].split(b",")]
        if said.startswith(b"filed="):
            office, number = (int(value) for value in said.strip().split(b"=")[1].split(b","))
            must(number <= len(table.filed[office]) and table.filed[office][number - 1] == values, f"{said!r} was answered to {line!r}, and is not in the journal")
            must((office, number) not in given, f"number {number} of office {office} was given twice")
            given.add((office, number))
        elif said.startswith(b"withdrawn="):
            must((OFFICES[window], values[0]) in table.withdrawn, f"{said!r} was answered, and is not in the journal")
        elif said.startswith(b"boarded="):
            boardings += 1
        else:
            must(said in (b"refused=16\nplace=0\n", b"refused=17\nplace=0\n"), f"{line!r} was answered {said!r}")
    return boardings


def kills(at):
    """Killed at drawn moments under load, with the power gone: nothing that was answered is lost."""
    total = lost = 0
    for series in range(0, at.words.kills, 50):
        draw, server = random.Random(at.words.seed + series), Server(os.path.join(at.folder, str(series)), at.shim)
        given, boardings = set(), 0
        for number in range(min(50, at.words.kills - series)):
            tell = f"kill {series + number}, seed {at.words.seed}: "
            server.begin()
            loads = [Load(server, ("office1", "office2", "office1", "office2", "office1", "office2", "operator", "office1")[n], draw.random()) for n in range(8)]
            [load.start() for load in loads]
            time.sleep(draw.choice((0, 0.001, 0.005, 0.02, 0.05)) * draw.random() * 2)
            server.end(signal.SIGKILL)
            [load.join(LIMIT) for load in loads]
            must(not any(load.fault for load in loads), f"{tell}{[load.fault for load in loads]}")
            told = [(load.window, line, said) for load in loads for line, said in load.told]
            total += len(told)
            # What the disk had, and of the rest a drawn part.
            kept, text = int(contents(server.synced)), contents(server.journal)
            must(kept <= len(text), f"{tell}the journal is shorter than what was synced")
            lost += len(text) - kept
            with open(server.journal, "r+b") as handle:
                handle.truncate(draw.randrange(kept, len(text) + 1))
            server.begin()
            table = Table()
            must(all(table.take(event) for _, event in server.entries()), f"{tell}the journal has what is not accepted")
            must(server.at("operator").ask(b"waiting") == table.text(), f"{tell}others wait than the journal says")
            boardings += answered(told, table, given)
            must(boardings <= table.boarded, f"{tell}{boardings} boardings were answered, and the journal has {table.boarded}")
            server.end()
    must(total > at.words.kills and (lost > 0 or at.words.kills < 50), f"of {at.words.kills} kills none met an answer, or none a write: {total}, {lost}")
    print(f"serve.py: {at.words.kills} kills, {total} answers before them, {lost} bytes that no disk had kept")


# ---- The record book that follows ----

def entries_in(book):
    return [parts(contents(os.path.join(book, name))) for name in sorted(os.listdir(book)) if name.endswith(".record")] if os.path.isdir(book) else []


def lined_up(server, others=0):
    """The book has each boarding of the journal, in its order and once, by the line above it: these lines, the entries of boardings, and all."""
    above = [above for above, event in server.entries() if event.startswith(b"board=")]
    found = entries_in(server.book)
    mine = [entry for entry in found if ABOVE.fullmatch(b"# " + entry["by"].encode())]
    must(len(found) - len(mine) == others, f"of {len(found)} entries {len(mine)} are of boardings")
    must([entry["by"] for entry in mine] == [line[2:].decode() for line in above], lambda: f"the book has the boardings {[entry['by'] for entry in mine]}, and the journal {above}")
    return above, mine, found


def followed(server, others=0):
    """The same, and each entry has what desk --replay keeps; and audit finds the book right."""
    keep = os.path.join(server.folder, "kept")
    shutil.rmtree(keep, ignore_errors=True)
    os.makedirs(keep)
    must(called("desk", "--replay", server.journal, "--keep", keep).returncode == 0, "the journal is not replayed")
    above, mine, found = lined_up(server, others)
    for number, (entry, line) in enumerate(zip(mine, above), 1):
        for kind in ("run", "plan"):
            must(entry[kind] == contents(os.path.join(keep, f"{number}.{kind}")), f"boarding {number} has another {kind} sheet in the book: {entry[kind]!r}")
        must(entry["made"] >= line.split()[1].decode(), f"the entry of {line!r} was made before it, at {entry['made']}")
    said = called("audit", server.book)
    must(said.returncode == 0 and said.stdout.startswith(b"entries=%d\n" % len(found)), f"audit says {said}")
    return len(mine)


def boards(server, model, times=1):
    """So many boardings, each of some tickets, answered as the model has it."""
    askers = {window: server.at(window) for window in WINDOWS}
    for number in range(times):
        for window, line in (("office1", b"file=%d,2" % (number % 6 + 1)), ("office2", b"file=3,1"), ("operator", b"board=60,%d" % number)):
            said, expected = askers[window].ask(line), model.answer(window, line)
            must(said == expected, f"{line!r} is answered {said!r} and not {expected!r}")


def books(at):
    """A book from the first day, one that joins later, one that others write to; a server that is ended in every way."""
    server, model = Server(at.folder, book=os.path.join(at.folder, "book")), Model()
    server.begin()
    must(entries_in(server.book) == [], "a book of no boardings has entries")
    for number in range(1, 6):
        boards(server, model)
        must(len(entries_in(server.book)) == number, "a boarding was answered that is not in the book")
    operator = server.at("operator")
    must(operator.ask(b"board=60,1") == model.answer("operator", b"board=60,1"), "an empty boarding is answered otherwise")
    must(operator.ask(b"board=1099511627777,1").startswith(b"refused=7") and len(entries_in(server.book)) == 6, "a refused boarding is in the book")
    must(called("record", server.book, os.path.join(programs.ROOT, "examples/VX0041.run")).returncode == 0, "record does not add to the book of a server")
    for number in (signal.SIGTERM, signal.SIGKILL, signal.SIGINT):
        boards(server, model)
        server.end(number)
        server.begin()
    server.end()
    must(followed(server, 1) == 9 and server.said == "", f"the server said {server.said!r}")
    # Without the book, and with it again; then with a new one.
    server.book, kept = None, server.book
    server.begin()
    boards(server, model, 3)
    server.end()
    server.book = kept
    server.begin()
    must(len(entries_in(server.book)) == 13, "when the server is ready, boardings are not in the book")
    server.end()
    must(followed(server, 1) == 12, "boardings without the book did not follow")
    server.book = os.path.join(at.folder, "new")
    server.begin()
    server.end()
    must(followed(server) == 12, "a new book has not every boarding of the journal")
    # Two tapes, one book.
    other = Server(os.path.join(at.folder, "other"), book=server.book)
    server.begin()
    other.begin()
    mine, theirs = Model(), model
    threads = [threading.Thread(target=boards, args=(one, its, 8)) for one, its in ((server, theirs), (other, mine))]
    [thread.start() for thread in threads]
    [thread.join() for thread in threads]
    ended = server.end(), other.end()
    must(ended == (0, 0) and len(entries_in(server.book)) == 28, lambda: f"two servers share no book: {ended}, {server.said}, {other.said}, {len(entries_in(server.book))} entries")
    must(called("audit", server.book).returncode == 0, "a book of two servers is wrong")


def book_kills(at):
    """Killed under load, and before and behind the very link of an entry: no boarding is missing in the book, and none is there twice."""
    kills, total = max(5, at.words.kills // 8), 0
    draw, server = random.Random(at.words.seed), Server(at.folder, at.shim, book=os.path.join(at.folder, "book"))
    for number in range(kills):
        server.begin()
        loads = [Load(server, ("office1", "office2", "operator", "operator")[n], draw.random()) for n in range(4)]
        [load.start() for load in loads]
        time.sleep(draw.choice((0.001, 0.005, 0.02, 0.05)) * draw.random() * 2)
        if number % 3:
            # A word for the disk kills it at the next link.
            server.tell_disk(draw.choice(("early", "late")))
            must(server.ended() == -signal.SIGKILL, "the server was not killed at a link")
            server.tell_disk("")
        else:
            server.end(signal.SIGKILL)
        [load.join(LIMIT) for load in loads]
        boarded = sum(said.startswith(b"boarded=") for load in loads for _, said in load.told)
        before = len(entries_in(server.book))
        must(before >= total + boarded, f"kill {number}: {boarded} boardings were answered, and the book has {before - total} more entries")
        server.begin()
        server.end()
        total = len(lined_up(server)[1])
    must(followed(server) == total > kills, f"{kills} kills met {total} boardings")
    print(f"serve.py: {kills} kills with a book, {total} boardings in it, each once")


def book_closed(at):
    """A book that cannot be written: boardings are answered, one sentence tells it, and they follow; a server that is ended then follows when it starts."""
    for words in ("room", "link", "shelf"):
        server, model = Server(os.path.join(at.folder, words), at.shim, book=os.path.join(at.folder, words, "book")), Model()
        server.begin()
        boards(server, model)
        for ending in (None, signal.SIGTERM, signal.SIGKILL):
            before = len(entries_in(server.book))
            server.tell_disk(words)
            boards(server, model, 3)
            time.sleep(1.2 if ending is None else 0)
            there = len(entries_in(server.book))
            # What was linked and could not be synced is there, once, however often it is tried.
            must(there == before + (words == "shelf"), f"with {words} failing the book has {there - before} of three boardings")
            if ending is None:
                server.tell_disk("")
                until(lambda: len(entries_in(server.book)) == before + 3, lambda: f"after {words} the book has {len(entries_in(server.book)) - before} of three boardings")
                continue
            status = server.end(ending)
            must(status == (1 if ending == signal.SIGTERM else -ending), f"with {words} failing the server ends with {status}")
            must(server.said.count("boardings go on, they are in the journal") == (2 if ending == signal.SIGTERM else 1), f"the server said {server.said!r}")
            must(("the book is written again" in server.said) == ("follow in the book when the server is started again" in server.said) == (ending == signal.SIGTERM), f"the server said {server.said!r}")
            journal = contents(server.journal)
            said = server.start()
            must(not isinstance(said, str) and said[1] == 1 and "book" in said[0] and sorted(os.listdir(server.windows)) in ([], sorted(WINDOWS)), f"with {words} failing the server starts: {said}")
            must(contents(server.journal) == journal, "a server that does not start has written")
            server.tell_disk("")
            server.begin()
            must(followed(server) == sum(event.startswith(b"board=") for event in model.journal), "another number of boardings")
        server.end()
    moved(at)
    mounted(at)


def moved(at):
    """Something else in the book's place."""
    server, model = Server(os.path.join(at.folder, "moved"), book=os.path.join(at.folder, "moved", "book")), Model()
    server.begin()
    boards(server, model)
    os.rename(server.book, server.book + ".away")
    with open(server.book, "wb"):
        boards(server, model, 2)
    os.remove(server.book)
    os.rename(server.book + ".away", server.book)
    until(lambda: len(entries_in(server.book)) == 3, "a book that was moved away and back is not gone on with")
    must(server.end() == 0, "after a book that was moved away the server ends as if something was wrong")
    must(followed(server) == 3, "another number of boardings")


def mounted(at):
    """A disk that is full, and one that may only be read, where such can be mounted."""
    disk = os.path.join(at.folder, "mounted")
    os.makedirs(disk)
    if os.getuid() != 0 or subprocess.run(["mount", "-t", "tmpfs", "-o", "size=64k", "none", disk], capture_output=True).returncode:
        print("serve.py: book_closed: no disk can be mounted here, so none is full or read-only")
        return
    try:
        server, model = Server(os.path.join(at.folder, "on-it"), book=os.path.join(disk, "book")), Model()
        server.begin()
        boards(server, model)
        for closing, opening in ((["dd", "if=/dev/zero", f"of={disk}/full"], ["rm", f"{disk}/full"]), (["mount", "-o", "remount,ro", disk], ["mount", "-o", "remount,rw", disk])):
            before = len(entries_in(server.book))
            subprocess.run(closing, capture_output=True)
            boards(server, model, 2)
            must(len(entries_in(server.book)) == before, f"after {closing} the book was written to")
            subprocess.run(opening, check=True)
            until(lambda: len(entries_in(server.book)) == before + 2, f"after {opening} the book did not follow")
        must(server.end() == 0 and followed(server) == 5, "another number of boardings")
        must("No space left" in server.said and "Read-only" in server.said, f"the server said {server.said!r}")
    finally:
        [call.kill() for call in Server.calls if call.poll() is None]
        subprocess.run(["umount", "-l", disk], check=True)


def numbers(at):
    """A day up to number 65,535, and 18 behind it; then started again."""
    with tempfile.TemporaryDirectory(dir="/dev/shm" if os.access("/dev/shm", os.W_OK) else None) as quick:
        count_to_the_end(at, Server(at.folder, journal=os.path.join(quick, "journal")))


def count_to_the_end(at, server):
    server.begin()
    asker, most = server.at("office1"), 65535
    sender = threading.Thread(target=lambda: asker.send(b"".join(b"file=1,1\nwithdraw=%d\n" % number for number in range(1, most + 1))))
    sender.start()
    for number in range(1, most + 1):
        must((asker.answer(), asker.answer()) == (b"filed=1,%d\n" % number, b"withdrawn=1,%d\n" % number), f"number {number} is answered otherwise")
    sender.join()
    must(asker.ask(b"file=1,1") == b"refused=18\nplace=0\n" and server.at("office2").ask(b"file=1,1") == b"filed=2,1\n", "after number 65,535 it goes on otherwise")
    server.end()
    began = time.monotonic()
    must(server.begin() == 2 * most + 1, "started again, another number of events")
    print(f"serve.py: started again with {2 * most + 1} events in {time.monotonic() - began:.2f} s")
    must(server.at("office1").ask(b"file=1,1") == b"refused=18\nplace=0\n" and server.at("office1").ask(b"waiting").endswith(b"waiting=0,1\n"), "started again, it goes on otherwise")
    server.end()
    if at.words.long:
        done = subprocess.run([COMMAND, "desk", "--replay", server.journal], capture_output=True, timeout=600)
        must(done.returncode == 0 and done.stdout.count(b"filed=") == most + 1 and done.stdout.endswith(b"waiting=0,1\n"), f"replayed: {done.stdout[-100:]!r}")


def fuzz(at):
    """Anything at all, at every window, for so many seconds: the server goes on."""
    server, draw, ends, count = Server(at.folder), random.Random(at.words.seed), time.monotonic() + at.words.fuzz, 0
    server.begin()
    pieces = [b"file=", b"withdraw=", b"board=", b"waiting", b",", b"\n", b"\n", b"\n", b"1", b"2", b"16", b"128", b"65536", b"18446744073709551615", b"\0", b"\xff", b"#", b"=", b"x" * 199]
    while time.monotonic() < ends:
        askers = [server.at(draw.choice(WINDOWS)) for _ in range(draw.randrange(1, 9))]
        for _ in range(draw.randrange(1, 40)):
            asker = draw.choice(askers)
            try:
                asker.socket.setblocking(False)
                asker.send(b"".join(draw.choice(pieces) for _ in range(draw.randrange(1, 60))))
                count += 1
                if draw.random() < 0.5:
                    asker.socket.recv(draw.randrange(1, 5000))
                if draw.random() < 0.05:
                    asker.socket.shutdown(draw.choice((socket.SHUT_RD, socket.SHUT_WR)))
            except (BlockingIOError, OSError):
                pass
        [asker.close() for asker in askers]
        must(server.call.poll() is None, f"seed {at.words.seed}: the server has ended with {server.call.poll()}")
    said = server.at("operator").ask(b"waiting")
    must(b"waiting=" in said, f"after all that the answer is {said!r}")
    server.end()
    server.begin()
    must(server.at("operator").ask(b"waiting") == said, "started again, others wait")
    server.end()
    print(f"serve.py: {count} pieces of anything in {at.words.fuzz} s")


def until(true, otherwise):
    for _ in range(200):
        if true():
            return
        time.sleep(0.02)
    raise Wrong(otherwise() if callable(otherwise) else otherwise)


TESTS = (protocol, days, asking, stalling, crowds, starting, groups, faults, damage, full, failing, kills, books, book_kills, book_closed, numbers, fuzz)


class At:
    def __init__(self, words, folder, shim):
        self.words, self.folder, self.shim = words, folder, shim


def main():
    reader = argparse.ArgumentParser(description=__doc__.split("\n")[0])
    reader.add_argument("--only", choices=[one.__name__ for one in TESTS], help="this test alone")
    reader.add_argument("--long", action="store_true", help="what takes longer")
    reader.add_argument("--kills", type=int, help="kills under load (default 150; long 5000)")
    reader.add_argument("--days", type=int, help="drawn days (default 5; long 200)")
    reader.add_argument("--connections", type=int, help="connections in turn (default 1000; long 10000)")
    reader.add_argument("--fuzz", type=int, help="seconds of anything (default 3; long 1800)")
    reader.add_argument("--seed", type=int, default=1)
    words = reader.parse_args()
    for name, short, long in (("kills", 150, 5000), ("days", 5, 200), ("connections", 1000, 10000), ("fuzz", 3, 1800)):
        if getattr(words, name) is None:
            setattr(words, name, long if words.long else short)
    subprocess.run([os.path.join(programs.ROOT, "violstream"), "version"], check=True, stdout=subprocess.DEVNULL)
    if os.uname().machine != "x86_64":
        print("serve.py: left out, the library that serve needs is for x86-64")
        return
    tried = [one for one in TESTS if words.only in (None, one.__name__)]
    with tempfile.TemporaryDirectory() as folder:
        shim = os.path.join(folder, "disk.so")
        source = os.path.join(programs.ROOT, "tests/c/disk.c")
        subprocess.run([os.environ.get("CC", "cc"), "-O1", "-Wall", "-Wextra", "-Werror", "-shared", "-fPIC", source, "-o", shim, "-ldl"], check=True)
        for one in tried:
            began = time.monotonic()
            within = os.path.join(folder, one.__name__)
            os.makedirs(within)
            try:
                one(At(words, within, shim))
            except Wrong as wrong:
                sys.exit(f"serve.py: {one.__name__}: {wrong}")
            finally:
                # Also where a test has failed, no server stays.
                [call.kill() for call in Server.calls if call.poll() is None]
                Server.calls.clear()
            if words.long:
                print(f"serve.py: {one.__name__}: {time.monotonic() - began:.0f} s", flush=True)
    print(f"serve.py: the server does what it must; tests: {', '.join(one.__name__ for one in tried)}")


if __name__ == "__main__":
    main()
