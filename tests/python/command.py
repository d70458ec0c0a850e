#!/usr/bin/env python3
"""Calls `./violstream` as a person or a script does and looks at what it prints, what it says on standard error and how it ends.

usage: tests/python/command.py [--only NAME]    (the programs are those in target/bin, the command is that in target/command)

It works in a copy of the command's own files in a temporary folder, with the programs beside it, so that nothing is proved here.
"""
import argparse
import datetime
import json
import os
import platform
import pty
import re
import resource
import shutil
import signal
import subprocess
import sys
import tempfile
import time

import figures as bought
import programs
from plan import answer, cases as sheets_of_plan, sheet_of
from sheets import read

LIMIT = 120
BUILT = "target/command/violstream"
PROGRAMS = ("cmd_plan", "cmd_plan_any", "cmd_field", "cmd_buys", "cmd_buys_any", "cmd_price", "cmd_check", "cmd_rewrite", "cmd_mend", "cmd_month", "cmd_ltfs", "cmd_desk")
BOUNDARIES = ("boundary", "boundary_desk", "boundary_texts", "boundary_pick")
ARCHIVE = b"!<arch>\n"
# The library is for x86-64; with it a command that takes any run has the most room, without it some, and says what to do.
LINKED = platform.machine() == "x86_64"
MOST = "4198400\n"
SOME = f"655360 (5 MiB); {'./violstream build gives it the library, and with that' if LINKED else 'on x86-64, with the library,'} it has 4198400\n"
LABEL, INDEX = "examples/ltfs/VX0041.label.xml", "examples/ltfs/VX0041.index.xml"


class Wrong(Exception):
    pass


def contents(name):
    with open(os.path.join(programs.ROOT, name), "rb") as handle:
        return handle.read()


RUN, PLAN = contents("examples/VX0041.run"), contents("examples/VX0041.plan")
SHEET, REPORT = contents("examples/ltfs/VX0041.run"), contents("examples/ltfs/VX0041.report").decode()


class Checkout:
    """The command and what it needs, in a folder of its own."""

    def __init__(self, folder):
        self.root = os.path.join(folder, "checkout")
        self.temporary = os.path.join(folder, "temporary")
        os.makedirs(self.temporary)
        for name in ("violstream", "README.md", "CHANGELOG.md", "command", "docs", "tools", "include", "python", "examples", "crates.txt"):
            source, to = os.path.join(programs.ROOT, name), os.path.join(self.root, name)
            os.makedirs(os.path.dirname(to), exist_ok=True)
            (shutil.copytree if os.path.isdir(source) else shutil.copy2)(source, to)
        os.makedirs(os.path.join(self.root, "crates/refusals"))
        for folder in ("bin", "command", "stamp"):
            os.makedirs(os.path.join(self.root, "target", folder))
        for name in PROGRAMS:
            source = os.path.join(programs.ROOT, "target/bin", name)
            if not os.path.exists(source):
                sys.exit(f"command.py: no program {source}; 'tools/build.sh check {name}' makes it")
            shutil.copy(source, os.path.join(self.root, "target/bin", name))
            self.write(f"target/stamp/{name}", b"\n")
        shutil.copy(os.path.join(programs.ROOT, BUILT), os.path.join(self.root, BUILT))
        # The library that it was compiled with, as far as it can know.
        self.write("target/command/linked.a", ARCHIVE)
        self.surroundings = dict(os.environ, TMPDIR=self.temporary)

    def path(self, name):
        return os.path.join(self.root, name)

    def write(self, name, data):
        with open(self.path(name), "wb") as handle:
            handle.write(data)

    def shell(self, line, data=b""):
        """What a line of bash in the checkout prints, says on standard error, and its status."""
        done = subprocess.run(["bash", "-c", line], cwd=self.root, input=data, capture_output=True, timeout=LIMIT, env=self.surroundings)
        left = os.listdir(self.temporary)
        if left:
            raise Wrong(f"{line}\nleft temporary files behind: {left}")
        return done.stdout, done.stderr.decode("utf-8", "replace"), done.returncode

    def must(self, line, status, out=None, says=(), data=b"", silent=False):
        """Runs a line and holds it to its status, its output (None: not looked at) and words on standard error."""
        printed, said, ended = self.shell(line, data)
        tell = f"{line}\nprinted {printed!r}\nsaid {said!r}\nand ended with status {ended}"
        if ended != status:
            raise Wrong(f"{tell}; it must be {status}")
        if out is not None and printed != out:
            raise Wrong(f"{tell}; it must print {out!r}")
        for words in says:
            if words not in said:
                raise Wrong(f"{tell}; it must say {words!r}")
        if silent and said:
            raise Wrong(f"{tell}; it must say nothing")
        if status in (1, 2) and not said and "2>" not in line:
            raise Wrong(f"{tell}; it must say why")


def faulty(folder):
    """Loaded before libc, this has one call of the system fail."""
    shim, source = os.path.join(folder, "faults.so"), os.path.join(programs.ROOT, "tests/c/faults.c")
    subprocess.run([os.environ.get("CC", "cc"), "-O1", "-Wall", "-Wextra", "-Werror", "-shared", "-fPIC", source, "-o", shim, "-ldl"], check=True)
    return shim


def refusal(number, place=0):
    return b"refused=%d\nplace=%d\n" % (number, place)


def in_aggregate(wants):
    """The sheet with files 2 and 3 in an aggregate, and other wants."""
    table = contents("examples/aggregate.run")
    return table[:table.index(b"wants=")] + b"wants=%d\n" % wants.count(b"\n") + wants


def changed(line, text):
    """The example with one line put in the place of another."""
    lines = RUN.split(b"\n")
    lines[line - 1] = text
    return b"\n".join(lines)


# ---- Tests: a function each, whose name --only takes ----

def answers(at):
    at.must("./violstream plan < examples/VX0041.run", 0, PLAN, silent=True)
    at.must("./violstream plan examples/VX0041.run", 0, PLAN, silent=True)
    at.must("cat examples/VX0041.run | ./violstream plan -", 0, PLAN, silent=True)
    at.must("./violstream plan <(cat examples/VX0041.run)", 0, PLAN, silent=True)
    at.must("./violstream plan /dev/stdin < examples/VX0041.run", 0, PLAN, silent=True)
    at.must(f"./violstream ltfs VX0041 {LABEL} {INDEX} | ./violstream plan", 0)
    at.must("cd / && \"$OLDPWD/violstream\" plan \"$OLDPWD/examples/VX0041.run\"", 0, PLAN, silent=True)


def any_run(at):
    """plan --any takes the head wherever it stands, and has more room. Files, statuses and words as for plan, whose own words name it where it helps."""
    mounted = contents("examples/mounted.plan")
    for line in ("--any examples/mounted.run", "examples/mounted.run --any", "--any < examples/mounted.run", "--any - < examples/mounted.run", "--any --any -- examples/mounted.run"):
        at.must(f"./violstream plan {line}", 0, mounted, silent=True)
    at.must("./violstream plan --any examples/mounted-3.run", 0, contents("examples/mounted-3.plan"), silent=True)
    at.must("./violstream plan --any examples/mounted-2.run", 0, at.shell("./violstream plan examples/mounted-2.run")[0], silent=True)
    at.must("./violstream plan --any examples/VX0041.run no-such examples/mounted.run", 1, b"sheet=examples/VX0041.run\n" + PLAN + b"sheet=examples/mounted.run\n" + mounted, ["cannot read no-such"])
    at.must("./violstream plan --any", 3, refusal(11, 3), ['refused (11): line 3: expected turn=NUMBER; found "turn=x"'], data=changed(3, b"turn=x"))
    at.must("./violstream plan --any < /dev/zero", 3, refusal(12), ["refused (12)"])
    at.must("./violstream plan --any examples/mounted.run > /dev/full", 1, b"", ["cannot write to standard output"])
    # The whole sentences, with their ends.
    head = 'the head (line 2, "head=0") stands left of 50, the end of file 3, the rightmost wanted file (line 8, "file=20,30,0")'
    named, above = "; plan --any takes the head where it stands\n", 'the head (line 2, "head=1099511627777") stands above 1099511627776 (2^40)\n'
    at.must("./violstream plan examples/mounted.run", 3, refusal(7), [f"violstream: examples/mounted.run: refused (7): {head}{named}"])
    at.must("./violstream field examples/mounted.run", 3, refusal(7), [f"refused (7): {head}\n"])
    at.must("./violstream buys examples/mounted.run", 3, refusal(7), [f"refused (7): {head}; buys --any takes the head where it stands\n"])
    for line in ("plan", "plan --any", "buys", "buys --any", "explain -"):
        at.must(f"./violstream {line}", 3, refusal(7), [f"refused (7): {above}"], data=changed(2, b"head=1099511627777"))
    many = changed(10, b"want=1,564")
    room = "3 wants with 568 reads in all ask for 3 * 3 * 569 = 5121 words of working room; there are 5120"
    for command in ("plan", "buys"):
        at.must(f"./violstream {command}", 3, refusal(9), [f"refused (9): {room}, and {command} --any has {MOST if LINKED else SOME}"], data=many)
    at.must("./violstream plan --any", 0, answer(many, True), data=many, silent=True)
    at.must("./violstream plan --any | sed -n 3p", 0, b"reads=159\n", data=sheet_of(64, 159), silent=True)


def large_run():
    """64 wants with 1,024 reads, the most that a run can have; the head stands among them, and its plan has detours."""
    reads = [1 if number % 3 else 45 for number in range(63)]
    files = b"".join(b"file=%d,%d,0\n" % (number * 1000 + number % 7, 20 + number % 5) for number in range(64))
    wants = b"".join(b"want=%d,%d\n" % (number + 1, count) for number, count in enumerate(reads + [1024 - sum(reads)]))
    return b"tape=LARGE\nhead=20500\nturn=40\nrule=least\nfiles=64\n" + files + b"wants=64\n" + wants


def library(at):
    """The calls of the archive that the command is compiled with."""
    archive, shared = os.path.join(programs.ROOT, "target/staticlib/libviolstream.a"), at.path("libviolstream.so")
    subprocess.run(["cc", "-shared", "-o", shared, "-Wl,--whole-archive", archive, "-Wl,--no-whole-archive"], check=True)
    os.environ["VIOLSTREAM_LIBRARY"] = shared
    sys.dont_write_bytecode = True
    sys.path.insert(0, os.path.join(programs.ROOT, "python"))
    import violstream
    return violstream


def at_the_limits(at):
    """That run and its plan as files; and the calls, the plan, its detours and what they buy."""
    calls, large = library(at), large_run()
    name, head, turn, table, asked = read(large)
    plan, figures = calls.answer(large), calls.buys(large)
    detours = [tuple(map(int, line[7:].split(b","))) for line in plan.split(b"\n") if line.startswith(b"detour=")]
    if len(detours) < 8 or figures != bought.sheet(name, head, turn, table, asked, detours):
        raise Wrong(f"of a run at the limits the library gives {plan!r} and {figures!r}")
    at.write("large.run", large)
    at.write("large.plan", plan)
    return calls, plan, detours, figures


def every_run(at):
    """Where a proved program has no room for a run the library has: 64 wants with 1,024 reads are planned, byte for byte as by the library's calls."""
    if not LINKED:
        return without_room(at)
    calls, plan, detours, figures = at_the_limits(at)
    at.must("target/bin/cmd_plan_any < large.run && target/bin/cmd_buys_any < large.run && (printf '%d\\n' $(stat -c %s large.run); cat large.run large.plan) | target/bin/cmd_check", 0, refusal(9) * 3)
    for command, text in (("plan", plan), ("buys", figures)):
        at.must(f"./violstream {command} --any large.run", 0, text, silent=True)
        at.must(f"./violstream {command} --any - < large.run", 0, text, silent=True)
        small = at.shell(f"./violstream {command} --any examples/mounted-3.run")[0]
        at.must(f"./violstream {command} --any large.run examples/mounted-3.run large.run", 0,
                b"sheet=large.run\n" + text + b"sheet=examples/mounted-3.run\n" + small + b"sheet=large.run\n" + text, silent=True)
        at.must(f"./violstream {command}", 3, refusal(9), [f"64 * 64 * 1025 = 4198400 words of working room; there are 5120, and {command} --any has {MOST}"], data=sheet_of(64, 1024))
        at.must(f"./violstream {command} --any --json large.run | grep -c '\"sum\":{plan.split()[1][4:].decode()},'", 0, b"1\n", silent=True)
        at.must(f"./violstream {command} --any large.run > /dev/full", 1, b"", ["cannot write to standard output"])
        # Where there is no memory for it there is no room.
        at.must(f"ulimit -v 32000 && ./violstream {command} --any large.run", 3, refusal(9), ["4198400 words of working room; there were not so many\n"])


def every_run_judged(at):
    """Price, which takes no room, gives the plan's sheet again; check, explain, record and audit take such a run as any other."""
    if not LINKED:
        return
    calls, plan, detours, figures = at_the_limits(at)
    at.must("./violstream price large.run large.plan", 0, plan, silent=True)
    at.must("./violstream check large.run large.plan", 0, b"formed=yes\nwalk=yes\nleast=yes\n", silent=True)
    # Without its last detour the list is worse by what that buys.
    bought_last = [int(line.split(b",")[2]) for line in figures.split(b"\n")[3:-1]][-1]
    at.must("sed '/^detour=4,4$/d; s/^detours=8/detours=7/' large.plan | ./violstream price large.run - | ./violstream check large.run -", 3, b"formed=yes\nwalk=yes\nleast=no,%d\n" % bought_last, silent=True)
    damaged = plan.replace(b"sum=", b"sum=1")
    at.must("./violstream check large.run -", 3, calls.check(large_run(), damaged), data=damaged, silent=True)
    at.must("./violstream check large.run -", 3, refusal(11, 1), ["refused (11): line 1 of standard input"], data=b"x\n")
    said = at.shell("./violstream explain --svg picture.svg large.run")
    for (start, end), line in zip(detours, figures.split(b"\n")[3:]):
        if b" detour %d,%d buys %d\n" % (start, end, int(line.split(b",")[2])) not in said[0] or said[1:] != ("", 0):
            raise Wrong(f"explain says {said}, and not what detour {start},{end} buys")
    at.must("./violstream record --by me vault large.run examples/VX0041.run", 0, b"sheet=large.run\n" + plan + b"sheet=examples/VX0041.run\n" + PLAN, silent=True)
    at.must("./violstream audit vault | head -n 3", 0, b"entries=2\nplans=2\nrefusals=0\n", silent=True)
    at.must("./violstream audit vault --tape LARGE --file 4 | grep -c '^found=000001,.*,45,me$'", 0, b"1\n", silent=True)
    at.must("sed -i 's/^detour=4,4$/detour=5,5/' vault/000001.record; ./violstream audit vault > said; ended=$?; head -n 1 said; exit $ended", 3, b"wrong=000001\n", silent=True)


def without_room(at):
    """A command that was compiled before the library was there keeps the answer of the program, and says what to do."""
    at.write("large.run", large_run())
    for line in ("plan --any", "buys --any", "check", "explain"):
        at.must(f"./violstream {line} large.run{' examples/VX0041.plan' if line == 'check' else ''}", 3, refusal(9),
                [f"large.run: refused (9): 64 wants with 1024 reads in all ask for 64 * 64 * 1025 = 4198400 words of working room; {line} has {SOME}"])
    for command in ("plan", "buys"):
        at.must(f"./violstream {command}", 3, refusal(9), [f"there are 5120, and {command} --any has {SOME}"], data=sheet_of(64, 1024))
    at.must("./violstream record vault large.run", 3, refusal(9), [f"plan --any has {SOME}"])
    at.must("./violstream audit vault | head -n 3", 0, b"entries=1\nplans=0\nrefusals=1\n", silent=True)


def without_library(at):
    """The same command, compiled here without the library; what it has put into a book the one with the library finds right."""
    if not LINKED:
        return
    made = os.path.join(programs.ROOT, "target/command/made")
    subprocess.run(["cargo", "build", "-q", "--release", "--target-dir", os.path.join(made, "target")], cwd=os.path.join(made, "crate"), check=True)
    os.rename(at.path(BUILT), at.path("linked"))
    shutil.copy(os.path.join(made, "target/release/violstream"), at.path(BUILT))
    without_room(at)
    shutil.copy(at.path(BUILT), at.path("unlinked"))
    os.replace(at.path("linked"), at.path(BUILT))
    at.must("./violstream audit vault | head -n 3", 0, b"entries=1\nplans=0\nrefusals=1\n", silent=True)
    at.must("./violstream record vault large.run > large.plan && ./violstream check large.run large.plan", 0, b"formed=yes\nwalk=yes\nleast=yes\n", silent=True)
    at.must("./violstream audit vault | head -n 3", 0, b"entries=2\nplans=1\nrefusals=1\n", silent=True)
    # What it has no room to judge it does not call wrong.
    os.replace(at.path("unlinked"), at.path(BUILT))
    at.must("./violstream audit vault", 1, b"", ["entry 000002 cannot be judged here: 64 wants with 1024 reads in all", f"check has {SOME}"])


def figures(at):
    """What each detour of a plan buys. Files, statuses and words as for plan."""
    bought = b"tape=VX0041\nsum=367\ndetours=1\nbuys=2,2,40\n"
    at.must("./violstream buys examples/VX0041.run", 0, bought, silent=True)
    at.must("./violstream buys < examples/VX0041.run", 0, bought, silent=True)
    at.must("./violstream buys - < examples/no-wants.run", 0, b"tape=VX0042\nsum=0\ndetours=0\n", silent=True)
    at.must("./violstream buys examples/head-too-far-left.run", 3, refusal(7), ["refused (7)"])
    at.must("./violstream buys examples/VX0041.run no-such examples/VX0041.plan", 1,
            b"sheet=examples/VX0041.run\n" + bought + b"sheet=examples/VX0041.plan\n" + refusal(11, 2), ["cannot read no-such", "examples/VX0041.plan: refused (11)"])
    at.must("./violstream buys examples/VX0041.run > /dev/full", 1, b"", ["cannot write to standard output"])
    # With the head anywhere.
    for line in ("--any examples/mounted-3.run", "examples/mounted-3.run --any", "--any < examples/mounted-3.run"):
        at.must(f"./violstream buys {line}", 0, b"tape=VX0041\nsum=308\ndetours=1\nbuys=3,3,18\n", silent=True)
    at.must("./violstream buys --any examples/VX0041.run", 0, bought, silent=True)
    at.must("./violstream buys --any examples/mounted.run", 0, b"tape=VX0041\nsum=107\ndetours=0\n", silent=True)
    at.must("./violstream buys --any", 3, refusal(11, 3), ["refused (11): line 3"], data=changed(3, b"turn=x"))


def pairs(at):
    """Two files: a list priced, a plan sheet checked. The words say which of the two is refused; a check that answers no ends with 3."""
    run, plan, damaged = "examples/VX0041.run", "examples/VX0041.plan", "examples/VX0041-damaged.plan"
    priced = contents("crates/cmd_price/stdout")
    at.must(f"./violstream price {run} examples/VX0041.list", 0, priced, silent=True)
    at.must(f"./violstream price - examples/VX0041.list < {run}", 0, priced, silent=True)
    at.must(f"./violstream price {run} {damaged}", 0, PLAN, silent=True)
    at.must(f"./violstream price {run} /dev/null", 0)
    at.must(f"printf 'detour=2,2\\ndetour=3,3\\n' | ./violstream price {run} -", 3, refusal(10, 2), ['refused (10): detour 2 of standard input, "detour=3,3",'])
    at.must(f"printf 'detour=2,2\\nx\\n' | ./violstream price {run} -", 3, refusal(11, 2), ['refused (11): line 2 of standard input is not as described: "x"'])
    at.must(f"./violstream price {plan} /dev/null", 3, refusal(11, 2), ["refused (11): line 2: expected head=NUMBER"])
    at.must(f"head -c 20000 /dev/zero | ./violstream price {run} -", 3, refusal(12), ["refused (12): standard input is over 16,384 bytes"])
    at.must(f"./violstream price no-such {run}", 1, b"", ["cannot read no-such"])
    yes = b"formed=yes\nwalk=yes\nleast=yes\n"
    at.must(f"./violstream check {run} {plan}", 0, yes, silent=True)
    at.must(f"./violstream plan {run} | ./violstream check {run} -", 0, yes, silent=True)
    at.must(f"./violstream check {run} {damaged}", 3, contents("crates/cmd_check/stdout"), silent=True)
    at.must(f"./violstream price {run} examples/VX0041.list | ./violstream check {run} -", 3, b"formed=yes\nwalk=yes\nleast=no,198\n", silent=True)
    at.must(f"sed 's/^detour=2,2/detour=1,2/' {plan} | ./violstream check {run} -", 3, b"formed=no,1\n", silent=True)
    at.must(f"./violstream check {run} {run}", 3, refusal(11, 2), [f'refused (11): line 2 of {run} is not as described: "head=60"'])
    # Any run: the head anywhere, over 16 wants. 7 is a head above the limit alone, and neither 7 nor 9 names another command.
    for name in ("mounted", "mounted-2", "mounted-3"):
        at.must(f"./violstream check examples/{name}.run examples/{name}.plan", 0, yes, silent=True)
        at.must(f"./violstream price examples/{name}.run examples/{name}.plan", 0, contents(f"examples/{name}.plan"), silent=True)
    at.must(f"./violstream check examples/head-too-far-left.run {plan}", 3, b"formed=no,1\n", silent=True)
    at.must("printf 'detour=2,2\\n' | ./violstream price examples/mounted.run -", 3, refusal(10, 1), ['refused (10): detour 1 of standard input, "detour=2,2",'])
    at.must("printf '' | ./violstream check examples/mounted-3.run -", 3, refusal(11, 1), ["refused (11): line 1 of standard input"])
    at.must("sed 's/^detours=1/detours=0/; /^detour=/d' examples/mounted-3.plan | ./violstream price examples/mounted-3.run - | ./violstream check examples/mounted-3.run -", 3, b"formed=yes\nwalk=yes\nleast=no,18\n", silent=True)
    at.write("large.run", sheet_of(64, 159))
    at.must("./violstream plan --any large.run > large.plan && ./violstream check large.run large.plan && ./violstream price large.run large.plan | cmp - large.plan", 0, yes, silent=True)
    at.write("larger.run", sheet_of(64, 160))
    at.must("./violstream price larger.run large.plan | sed -n 3p", 0, b"reads=160\n", silent=True)
    for words in ("check", "price"):
        at.must(f"sed 's/^head=.*/head=1099511627777/' {run} | ./violstream {words} - {plan}", 3, refusal(7), ['refused (7): the head (line 2, "head=1099511627777") stands above 1099511627776 (2^40)\n'])
    at.must(f"./violstream check {run} {plan} > /dev/full", 1, b"", ["cannot write to standard output"])


def explained(at):
    """A plan for a person, and its picture."""
    text = at.shell("./violstream explain examples/VX0041.run")[0]
    for part in (b"    1        60        10        51        14        55  2 at 55 (3)\n", b"sweep        14         0        71        50       121  1 at 81 (1), 3 at 121 (1)\n",
                 b"detour 2,2 buys 40\n", b"sum of this plan      367\n", b"sum without detours   407\n"):
        if part not in text:
            raise Wrong(f"./violstream explain prints {text!r}, without {part!r}")
    at.must("./violstream explain --svg picture.svg examples/VX0041.run", 0, text, silent=True)
    picture = open(at.path("picture.svg"), "rb").read()
    if picture.count(b'class="read"') != 3 or picture.count(b'class="wanted"') != 3 or not picture.endswith(b"</svg>\n"):
        raise Wrong(f"the picture is {picture!r}")
    # The head where it stands, left of what is wanted: it goes right at once, and the picture reaches to where it goes.
    for run, parts in (("mounted", (b"sweep         0         0         1        50        51  1 at 11 (1), 2 at 15 (3), 3 at 51 (1)\n", b"the head turns where it stands", b"sum of this plan      107\n")),
                       ("mounted-3", (b"    1        10        10         1        50        41  3 at 41 (5)\n", b"sweep        50         0        93        10       103  1 at 103 (1)\n", b"detour 3,3 buys 18\n"))):
        text = at.shell(f"./violstream explain --svg picture.svg examples/{run}.run")[0]
        for part in parts:
            if part not in text:
                raise Wrong(f"./violstream explain prints {text!r}, without {part!r}")
        picture = open(at.path("picture.svg"), "rb").read()
        path = re.search(rb'class="head" points="([0-9.]+),128.0 ([0-9.]+),.* ([0-9.]+),', picture)
        if not path or path[1] != path[2] or run == "mounted" and float(path[3]) != float(path[1]) + 800:
            raise Wrong(f"the picture of {run} is {picture!r}")
    at.must("./violstream explain examples/retired-rule.run", 3, refusal(19, 4), ["refused (19)"])
    at.must("./violstream explain --svg no-such/picture.svg examples/VX0041.run", 1, b"", ["cannot write no-such/picture.svg"])
    at.must("./violstream explain examples/no-wants.run", 0, silent=True)


def timed(at):
    """Times by the clock, and names: the table in the order of reading, whole seconds rounded up, exact in every digit."""
    plain = at.shell("./violstream explain examples/VX0041.run")[0]
    table = b"""time     after                   at  leg  reads  file
  55  00:00:06  2026-02-28 23:59:56    1      3  %b
  81  00:00:09  2026-02-28 23:59:59    2      1  %b
 121  00:00:13  2026-03-01 00:00:03    2      1  %b
"""
    at.must("./violstream explain --speed 10 --begin 2026-02-28T23:59:50 examples/VX0041.run", 0, plain + b"\n" + table % (b"file 2", b"file 1", b"file 3"), silent=True)
    at.write("names", b"name=1,1,a, b/c\nname=2,3,\x1b[2J\nname=3,1,\xc3\xa4\n")
    named = plain + b"\n" + table % (b"$'\\x1b[2J'", b"a, b/c", b"\xc3\xa4")
    at.must("./violstream explain examples/VX0041.run --speed=10 --begin=2026-02-28T23:59:50 --names=names", 0, named, silent=True)
    at.must("./violstream explain --speed 10 --begin 2026-02-28T23:59:50 --names - examples/VX0041.run < names", 0, named, silent=True)
    at.must("./violstream explain --names names examples/VX0041.run | tail -n 1", 0, b" 121    2      1  \xc3\xa4\n", silent=True)
    at.must("./violstream explain --names names --svg picture.svg examples/VX0041.run | tail -n 1 && grep -c 'a, b/c' picture.svg", 0, silent=True)
    # Several names of one file share its time, in their order; a file without one has its number.
    at.write("some", b"name=2,1,z\nname=2,2,a\n")
    at.must("./violstream explain --names some examples/VX0041.run | tail -n 4", 0, b"  55    1      1  z\n  55    1      2  a\n  81    2      1  file 1\n 121    2      1  file 3\n", silent=True)
    for text, says in ((b"name=4,1,x\n", "names: line 1: the run does not want file 4"), (b"name=1,1,x\nname=2,2,y\n", "names: the names of file 2 have 2 reads together, and in the run 3 wait"),
                       (b"name=1,1,x\nname=2,3\n", "names, line 2: not name=ENTRY,READS,PATH"), (b"name=01,1,x\n", "names, line 1: not"), (b"\n", "names, line 1: not"), (b"tape=A\n", "names, line 1: not")):
        at.write("names", text)
        at.must("rm -f picture.svg; ./violstream explain --names names --svg picture.svg examples/VX0041.run; s=$?; test ! -e picture.svg && exit $s", 1, b"", [says])
    at.must("./violstream explain --names no-such examples/VX0041.run", 1, b"", ["cannot read no-such"])
    at.must("./violstream explain --speed 5 examples/retired-rule.run", 3, refusal(19, 4), ["refused (19)"])
    at.must("./violstream explain --speed 5 examples/no-wants.run | tail -n 1", 0, b"time  after  leg  reads  file\n", silent=True)
    # Times of many digits, against whole numbers that do not end.
    far = b"tape=A\nhead=%d\nturn=%d\nrule=least\nfiles=%d\n" % (2**40, 2**32, 40)
    at.write("far.run", far + b"".join(b"file=%d,1,0\n" % (n * 27487790694) for n in range(40)) + b"wants=40\n" + b"".join(b"want=%d,%d\n" % (n, n % 3 + 1) for n in range(1, 41)))
    times = sorted(int(line.split(b",")[1]) for line in at.shell("./violstream plan --any far.run")[0].split(b"\n") if line.startswith(b"time="))
    for speed in (1, 3, 299792458, 2**40, 2**64 - 1):
        lines = [line.split() for line in at.shell(f"./violstream explain --speed {speed} --begin 1999-12-31T23:59:59 far.run")[0].split(b"\n")[-41:-1]]
        for time, cells in zip(times, lines):
            seconds = -(-time // speed)
            after = b"%02d:%02d:%02d" % (seconds // 3600, seconds // 60 % 60, seconds % 60)
            moment = (datetime.datetime(1999, 12, 31, 23, 59, 59) + datetime.timedelta(seconds=seconds)).isoformat(" ").encode() if seconds < 2 * 10**11 else None
            if cells[:2] != [b"%d" % time, after] or moment and b" ".join(cells[2:4]) != moment:
                raise Wrong(f"of time {time} at {speed} units a second explain says {cells}, and it must be {after} and {moment}")
    for words in ("--speed 0", "--speed 1.5", "--speed=", "--speed -1", "--speed 18446744073709551616", "--speed x", "--begin 2026-11-16T08:00:00", "--speed 1 --begin 2026-11-16", "--speed 1 --begin 2026-02-29T00:00:00",
                  "--speed 1 --begin 1969-12-31T23:59:59", "--speed 1 --begin 2026-11-16T08:00:00Z", "--speed 1 --begin=", "--names=", "--names - -"):
        at.must(f"./violstream explain {words} examples/VX0041.run", 2, b"", ["usage: "])
    at.must("./violstream explain --names - -", 2, b"", ["given once only"])


def rewriting(at):
    """An old sheet comes back with turn=0 for an empty turn=; any other as it is. Files, statuses and words as for plan."""
    old, new = changed(3, b"turn="), changed(3, b"turn=0")
    at.write("old.run", old)
    at.must("./violstream rewrite old.run", 0, new, silent=True)
    at.must("./violstream rewrite", 0, new, data=old, silent=True)
    at.must("./violstream rewrite - < old.run | ./violstream rewrite", 0, new, silent=True)
    at.must("./violstream rewrite examples/VX0041.run", 0, RUN, silent=True)
    at.must("./violstream rewrite examples/head-too-far-left.run", 0, contents("examples/head-too-far-left.run"), silent=True)
    at.must("./violstream rewrite old.run | ./violstream plan", 0, answer(new), silent=True)
    at.must("./violstream plan old.run", 0, answer(changed(3, b"turn=12000")), silent=True)
    at.must("./violstream rewrite", 3, refusal(11, 3), ['line 3: expected turn=NUMBER; found "turn=x"'], data=changed(3, b"turn=x"))
    at.must("./violstream rewrite < /dev/zero", 3, refusal(12), ["refused (12): the sheet has over 16384 bytes"])
    at.must("./violstream rewrite old.run no-such examples/VX0041.plan", 1, b"sheet=old.run\n" + new + b"sheet=examples/VX0041.plan\n" + refusal(11, 2),
            ["cannot read no-such", "examples/VX0041.plan: refused (11)"])
    at.must("./violstream rewrite old.run > /dev/full", 1, b"", ["cannot write to standard output"])


def mending(at):
    """A sheet with wants in any order comes back in order, with a line for each change on standard error. Files and statuses as for plan."""
    loose = RUN.replace(b"turn=1", b"turn=").replace(b"wants=3", b"wants=9").replace(b"want=1,1\nwant=2,3\n", b"want=2,1\nwant=1,0\nwant=1,1\nwant=2,2\n")
    new = RUN.replace(b"turn=1", b"turn=12000")
    words = ["change=3,turn\n", "change=9,wants\n", "change=11,dropped\n", "change=12,moved\n", "change=13,added\n"]
    at.write("loose.run", loose)
    at.must("./violstream mend loose.run", 0, new, words)
    at.must("./violstream mend", 0, new, words, data=loose)
    at.must("./violstream mend - < loose.run 2> /dev/null | ./violstream mend", 0, new, silent=True)
    at.must("./violstream mend loose.run 2> /dev/null | ./violstream plan", 0, answer(new), silent=True)
    at.must("./violstream mend examples/VX0041.run", 0, RUN, silent=True)
    at.must("./violstream mend", 3, refusal(11, 3), ['refused (11): line 3: expected turn=NUMBER; found "turn=x"'], data=changed(3, b"turn=x"))
    at.must("./violstream mend", 3, refusal(11, 7), ['line 7: expected file=START,LENGTH,AGGREGATE or wants=NUMBER; found "file=10,4": three numbers'], data=changed(7, b"file=10,4"))
    at.must("./violstream mend", 3, refusal(11, 13), ['line 13: expected want=FILE,READS or the end of the sheet; found "x"'], data=RUN + b"x\n")
    at.must("./violstream mend < /dev/zero", 3, refusal(12), ["refused (12): the sheet has over 16384 bytes"])
    at.must("./violstream mend", 3, refusal(3), ["refused (3): over 64 wants left"], data=RUN + b"".join(b"want=%d,1\n" % (n + 4) for n in range(62)))
    at.must("./violstream mend", 3, refusal(5), ["refused (5): the wants have 1025 reads in all; at most 1024"], data=RUN + b"want=3,1020\n")
    at.must("./violstream mend loose.run examples/VX0041.run loose.run", 0, b"sheet=loose.run\n" + new + b"sheet=examples/VX0041.run\n" + RUN + b"sheet=loose.run\n" + new,
            ["sheet=loose.run\n" + "".join(words), "".join(words) + "sheet=loose.run\n"])
    at.must("./violstream mend loose.run 2> /dev/full", 1)
    at.must("./violstream mend examples/VX0041.run > /dev/full", 1, b"", ["cannot write to standard output"])


def monthly(at):
    """A page over the sheets of one input, however long; status 3 and a reason in words where a 25 ends it. Nothing is kept of the input."""
    text, page = contents("crates/cmd_month/stdin"), contents("crates/cmd_month/stdout")
    none = b"accepted=0\nrefusals=0\nreads=0\nsum=0\nmean=0,0\nlongest=0,,0\nsaved=0\n"
    at.write("may.month", text)
    at.write("cut.month", text[:-1])
    at.must("./violstream month may.month", 0, page, silent=True)
    at.must("./violstream month - < may.month", 0, page, silent=True)
    at.must("cat may.month | ./violstream month", 0, page, silent=True)
    at.must("./violstream month < /dev/null", 0, none, silent=True)
    at.must("./violstream month", 3, page + b"refused=25\nplace=8\n", ["standard input: refused (25): sheet 8"], data=text + b"00\n")
    at.must("./violstream month < /dev/zero", 3, none + b"refused=25\nplace=1\n", ["refused (25): sheet 1"])
    at.must("./violstream month cut.month | tail -n 2", 0, b"refused=25\nplace=7\n", ["cut.month: refused (25): sheet 7"])
    at.must("./violstream month no-such", 1, b"", ["cannot read no-such"])
    at.must("./violstream month crates", 1, b"", ["cannot read crates: it is a folder"])
    at.must("./violstream month < /", 1, b"", ["cannot read standard input: Is a directory"])
    # An input that is refused need not come to its end.
    with subprocess.Popen(["./violstream", "month"], cwd=at.root, stdin=subprocess.PIPE, stdout=subprocess.PIPE, stderr=subprocess.DEVNULL, env=at.surroundings) as call:
        call.stdin.write(b"00\n12345")
        call.stdin.flush()
        if call.stdout.read() != none + b"refused=25\nplace=1\n" or call.wait(LIMIT) != 3:
            raise Wrong("month waits for the end of an input that is refused")
    one, two, three = "examples/VX0041.run", "examples/aggregate.run", "examples/retired-rule.run"
    framed = b"".join(b"%d\n" % len(contents(name)) + contents(name) for name in (one, two, three))
    page = at.shell("./violstream month", framed)[0]
    at.must(f"./violstream month {one} {two} {three}", 0, page, [f"violstream: {three}: refused (19): the rule"])
    at.must(f"./violstream month {one}", 0, at.shell("./violstream month", b"%d\n" % len(RUN) + RUN)[0], silent=True)
    at.must(f"./violstream month {one} no-such {two}", 1, b"", ["cannot read no-such"])
    at.must(f"cat {two} | ./violstream month {one} -", 0, silent=True)
    at.write("far.run", RUN.replace(b"turn=1\n", b"turn=600\n"))
    at.must(f"./violstream month {one} far.run", 0, None, [f"warning: {one} has turn=1 and far.run turn=600"])
    at.must("./violstream month $(yes examples/no-wants.run | head -n 1001) | tail -n 2", 0, b"refused=25\nplace=1001\n", ["refused (25): sheet 1001"])
    at.must("./violstream month may.month > /dev/full", 1, b"", ["cannot write to standard output"])


def fielding(at):
    """The plain engine prints what plan prints, up to eight wants, and refuses more. Files, statuses and words as for plan."""
    at.must("./violstream field examples/VX0041.run", 0, PLAN, silent=True)
    at.must("./violstream field", 0, PLAN, data=RUN, silent=True)
    at.must("./violstream field - < examples/VX0041.run", 0, PLAN, silent=True)
    at.must("./violstream field examples/aggregate.run", 0, contents("examples/aggregate.plan"), silent=True)
    at.must("./violstream field examples/nine-wants.run", 3, refusal(24), ["refused (24): the sheet has 9 wants; this engine plans at most 8"])
    at.must("./violstream field", 3, refusal(4, 2), ["want 2"], data=changed(11, b"want=2,0"))
    at.must("./violstream field", 3, refusal(11, 3), ['line 3: expected turn=NUMBER; found "turn=x"'], data=changed(3, b"turn=x"))
    both = b"sheet=examples/nine-wants.run\n" + refusal(24) + b"sheet=examples/VX0041.run\n" + PLAN
    at.must("./violstream field examples/nine-wants.run no-such examples/VX0041.run", 1, both, ["cannot read no-such"])


def desk(at):
    """A day of two offices: each event is answered as it comes."""
    day = contents("examples/day.answers")
    at.must("./violstream desk examples/day.run examples/day.events", 0, day, ["examples/day.events: event 5, "])
    at.must("./violstream desk examples/day.run < examples/day.events", 0, day, ["standard input: event 5, "])
    at.must("cat examples/day.run | ./violstream desk - <(cat examples/day.events)", 0, day)
    for event, number, words in (("file=3,1,1", 15, "there is no office 3, only 1 and 2"), ("file=1,4,1", 15, "the tape has no file 4: the table has files 1 to 3"),
                                 ("file=1,1,129", 15, "a count is 1 to 128, and not 129"), ("withdraw=2,7", 17, "no ticket 7 of office 2 waits"),
                                 ("board=60,4294967297", 6, "the turn price 4294967297 is above 4294967296 (2^32)"), ("board=1099511627777,1", 7, "the head, 1099511627777, stands above 1099511627776 (2^40)")):
        at.must("./violstream desk examples/VX0041.run", 0, refusal(number) + b"waiting=0,0\n", [f'violstream: standard input: event 1, "{event}": refused ({number}): {words}\n'], data=event.encode() + b"\n")
    at.must("./violstream desk examples/VX0041.run", 0, b"filed=1,1\n" + refusal(7) + b"waiting=1,0\n", ["refused (7): the head, 49, stands left of the end of the rightmost file"], data=b"file=1,3,1\nboard=49,1\n")
    at.must("./violstream desk examples/VX0041.run", 0, b"".join(b"filed=2,%d\n" % n for n in range(1, 17)) + refusal(16) + b"waiting=0,16\n", ["event 17", "office 2 has 16 tickets waiting"], data=b"file=2,1,1\n" * 17)
    at.must("./violstream desk examples/day.run < /", 1, b"", ["cannot read standard input: Is a directory"])
    at.must("./violstream desk examples/day.run /dev/zero", 3, refusal(11, 1), ["event 1 is not file="])
    # Where nobody reads the answers any more, the day ends, though more events may come.
    with subprocess.Popen(["./violstream", "desk", "examples/day.run"], cwd=at.root, stdin=subprocess.PIPE, stdout=subprocess.PIPE, stderr=subprocess.PIPE, env=at.surroundings) as call:
        call.stdin.write(b"file=1,1,1\n")
        call.stdin.flush()
        call.stdout.readline()
        call.stdout.close()
        if call.wait(LIMIT) != -signal.SIGPIPE or call.stderr.read():
            raise Wrong("desk goes on where nobody reads its answers")
    at.must("./violstream desk examples/day.run -", 0, b"waiting=0,0\n", silent=True)
    at.must("./violstream desk examples/day.run", 3, b"filed=1,1\n" + refusal(11, 2), ["event 2 is not file="], data=b"file=1,1,1\nfile=1,1\nfile=1,2,1\n")
    at.must("./violstream desk examples/day.run", 3, refusal(11, 1), ["event 1 is not file="], data=b"file=1,1,1")
    at.must("./violstream desk examples/retired-rule.run examples/day.events", 3, refusal(19, 4), ["examples/retired-rule.run: refused (19)"])
    at.must("./violstream desk examples/VX0041.plan examples/day.events", 3, refusal(11, 2), ["examples/VX0041.plan: refused (11)"])
    at.must("./violstream desk examples/day.run no-such", 1, b"", ["cannot read no-such"])
    at.must("./violstream desk no-such examples/day.events", 1, b"", ["cannot read no-such"])
    at.must("./violstream desk examples/day.run examples", 1, b"", ["cannot read examples"])
    at.must("./violstream desk examples/day.run examples/day.events > /dev/full", 1, b"", ["cannot write to standard output"])
    for line in ("desk", "desk a b c", "desk - -", "desk -", "desk -x"):
        at.must(f"./violstream {line}", 2, b"", ["usage: ./violstream desk SHEET [EVENTS] | --replay JOURNAL [--keep FOLDER]   (more"])
    # Nothing more is asked for once the day has ended, and no answer waits for the next event.
    with subprocess.Popen(["./violstream", "desk", "examples/day.run"], cwd=at.root, stdin=subprocess.PIPE, stdout=subprocess.PIPE, stderr=subprocess.DEVNULL, env=at.surroundings) as held:
        for event, said in ((b"file=2,1,1\n", b"filed=2,1\n"), (b"withdraw=2,1\n", b"withdrawn=2,1\n")):
            held.stdin.write(event)
            held.stdin.flush()
            if held.stdout.readline() != said:
                raise Wrong(f"desk: the answer to {event!r} is not {said!r}")
        held.stdin.write(b"none\n")
        held.stdin.flush()
        if held.stdout.read() != refusal(11, 3) or held.wait(LIMIT) != 3:
            raise Wrong("desk: the day does not end at a bad event")
    # Typed, a line that is no event does not end the day.
    mine, theirs = pty.openpty()
    call = subprocess.Popen(["./violstream", "desk", "examples/day.run"], cwd=at.root, stdin=theirs, stdout=subprocess.PIPE, stderr=subprocess.PIPE, env=at.surroundings)
    os.close(theirs)
    os.write(mine, b"file=1,3,2\nfile=1,3\n\nfile=9,9,9\nwhat\nfile=2,5,4\nboard=60,3\n\x04")
    out, said = call.communicate(timeout=LIMIT)
    os.close(mine)
    expected = b"filed=1,1\n" + refusal(11, 2) * 2 + refusal(15) + refusal(11, 3) + b"filed=2,1\nboarded=1,1\n"
    if not out.startswith(expected) or not out.endswith(b"waiting=0,0\n") or said.count(b"the day goes on\n") != 3 or call.returncode != 0:
        raise Wrong(f"desk, typed in: printed {out!r}, said {said!r}, status {call.returncode}")


def replaying(at):
    """A journal once more: lines that begin with # are passed over and do not count, and the sheets of its boardings are left for check."""
    sheet, events = contents("examples/day.run"), contents("examples/day.events")
    front, day, folder = b"%d\n" % len(sheet) + sheet, contents("examples/day.answers"), at.path("kept")
    remarked = front + b"".join(b"# %d\n#\n" % number + event + b"\n" for number, event in enumerate(events.split(b"\n")[:-1]))
    for text in (front + events, remarked, remarked + b"# the end\n"):
        at.write("journal", text)
        at.must("./violstream desk --replay journal", 0, day, ["journal: event 5, "])
        at.must("./violstream desk --replay - < journal", 0, day, ["standard input: event 5, "])
    os.makedirs(folder)
    at.must("./violstream desk --keep kept --replay journal", 0, day)
    for number in (1, 2, 3):
        at.must(f"./violstream check kept/{number}.run kept/{number}.plan", 0, b"formed=yes\nwalk=yes\nleast=yes\n", silent=True)
        at.must(f"./violstream plan kept/{number}.run | cmp - kept/{number}.plan", 0, b"", silent=True)
    at.must("ls kept | wc -l", 0, b"6\n")
    at.must("./violstream desk --replay journal --keep kept", 1, None, ["cannot write kept/1.run: File exists"])
    at.must("./violstream desk --replay journal --keep no-such", 1, b"", ["there is no folder no-such"])
    at.must("./violstream desk --replay no-such", 1, b"", ["cannot read no-such"])
    for text, out, says in ((front + b"# x\n#\nfile=1,3,2\n# y\nwhat\n", b"filed=1,1\n" + refusal(11, 2), "event 2 is not file="), (front + b"file=1,3,2", refusal(11, 1), "event 1 is not file="),
                            (b"x" + front, refusal(25, 1), "refused (25)"), (front[:-1], refusal(25, 1), "refused (25)"), (b"", refusal(25, 1), "refused (25)"),
                            (b"5\ntape=\n", refusal(11, 1), "refused (11)"), (b"20000\n" + b"x" * 20000, refusal(12), "refused (12)")):
        at.must("./violstream desk --replay -", 3, out, [says], data=text)
    for line in ("desk --replay", "desk --replay a b", "desk --keep a", "desk --keep a b", "desk --replay ''", "desk --replay a --keep ''", "desk --replay a --keep"):
        at.must(f"./violstream {line}", 2, b"", ["usage: ./violstream desk SHEET [EVENTS] | --replay JOURNAL"])


def statuses(at):
    at.must("./violstream plan examples/head-too-far-left.run", 3, refusal(7))
    at.must("./violstream plan", 3, refusal(11, 1))
    at.must("./violstream plan < /dev/zero", 3, refusal(12))
    at.must(f"./violstream ltfs vx0041 {LABEL} {INDEX}", 3, refusal(13))
    at.must(f"set -o pipefail; ./violstream ltfs VX0041 {INDEX} {INDEX} | ./violstream plan", 3, refusal(11, 1))
    at.must("./violstream help", 0, silent=True)
    for line in ("nothing", "plan -x", "plan - -", "field -x", "field - -", "buys -x", "buys - -", "price", "price A", "price A B C", "price -x A", "check A", "check - -", "explain", "explain A B", "explain --svg", "explain -x", "rewrite -x", "rewrite - -", "mend -x", "mend - -", "month -x", "month - -", "month a ''", "plan ''", "plan a ''", "price '' a", "explain --svg= a", "explain --svg a", "desk ''", "serve", "serve A", "serve --journal A B", "serve --windows A B", "serve --journal A --windows B", "serve --journal A --windows B C D", "serve --journal", "serve --journal= --windows A B", "serve -x", "ask", "ask ''", "ask -x A", "ask A $'a\\nb'", "install ''", "uninstall ''", "plan --json=1", "plan --any=1", "plan --any - -", "plan --any -x", "plan --any ''", "field --any", "buys --any=1", "buys --any - -", "price --any", "field --json", "plan --svg a b", "help no-such", "help plan buys", "completions", "completions csh", "version x", "--no-such", "ltfs", "ltfs A B", "ltfs A B C D", "ltfs A - -", "ltfs -A B C", "install a", "install /a /b",
                 "uninstall a", "install -x", "build x", "test x", "deb x"):
        at.must(f"./violstream {line}", 2, b"", ["violstream: ", "\nusage: ./violstream "])
        said = at.shell(f"./violstream {line}")[1]
        if said.count("\n") != 2 or not said.endswith("(more: ./violstream help)\n"):
            raise Wrong(f"./violstream {line} says {said!r}, and not two lines with the way to help")


    at.must("./violstream uninstall /no-such", 1, b"", ["nothing that this command knows of is installed below /no-such"])


COMMANDS = ("plan", "field", "buys", "price", "check", "explain", "rewrite", "mend", "month", "ltfs", "pick", "recall", "desk", "serve", "ask", "record", "audit", "build", "test", "install", "deb", "uninstall", "completions", "version", "help")


def help_and_version(at):
    """Behind every command, and alone."""
    text = at.shell("./violstream help")[0]
    if not text.startswith(b"usage: ./violstream plan"):
        raise Wrong(f"./violstream help prints {text!r}")
    for line in ("--help", "-h", ""):
        at.must(f"./violstream {line}", 0, text, silent=True)
    for name in COMMANDS:
        screen = at.shell(f"./violstream help {name}")[0]
        lines = screen.decode().split("\n")
        if not screen.startswith(b"usage: ./violstream %s" % name.encode()) or len(lines) > 25 or max(map(len, lines)) > 80 or screen.count(b"\n  ") < 2:
            raise Wrong(f"./violstream help {name} prints {screen!r}, and not one screen of 24 lines of 80 columns, with two examples")
        for line in (f"{name} --help", f"{name} -h", f"{name} no-such --help"):
            at.must(f"./violstream {line}", 0, screen, silent=True)
    version = at.shell("./violstream --version")[0]
    if re.fullmatch(rb"violstream [0-9]+\.[0-9]+\.[0-9]+ \(rattle-kit-\S+ logic [0-9a-f]{16}\)\n", version) is None:
        raise Wrong(f"./violstream --version prints {version!r}")
    if b'\nversion = "%s"\n' % version.split()[1] not in contents("command/Cargo.toml"):
        raise Wrong("command/Cargo.toml is of another version")
    for line in ("version", "plan --version", "ltfs --version", "test --version", "plan no-such --version"):
        at.must(f"./violstream {line}", 0, version, silent=True)
    at.must("./violstream version > /dev/full", 1, b"", ["cannot write to standard output"])
    for number in (2, 3, 4, 5, 6, 7, 9, 10, 11, 12, 13, 15, 16, 17, 18, 19, 20, 21, 22, 23, 24, 25, 43):
        if re.search(rb"\n +%d  \S" % number, text) is None:
            raise Wrong(f"./violstream help does not list refusal {number}")


def nothing_lost(at):
    sheet = "./violstream plan examples/VX0041.run"
    at.must(f"{sheet} > /dev/full", 1, b"", ["cannot write to standard output: No space left on device"])
    at.must(f"{sheet} >&-", 1, b"", ["standard output is closed"])
    at.must(f"{sheet} | head -n 1", 0, b"tape=VX0041\n", silent=True)
    at.must(f"set -o pipefail; (trap '' PIPE; sleep 0.2; {sheet}) | true", 1, b"", ["cannot write to standard output"])
    at.must(f"set -o pipefail; (sleep 0.2; exec {sheet}) | true", 141, b"", silent=True)
    at.must("./violstream help > /dev/full", 1, b"", ["cannot write to standard output"])
    at.must(f"./violstream ltfs VX0041 {LABEL} {INDEX} > /dev/full", 1, b"", ["cannot write to standard output"])
    for words in ("plan", "plan --any", "month", "desk examples/day.run"):
        at.must(f"./violstream {words} < /", 1, None, ["cannot read standard input: Is a directory"])
    at.must("./violstream plan <&-", 1, b"", ["cannot read standard input: it is closed"])
    at.must("./violstream plan /dev/stdin <&-", 1, b"", ["cannot read /dev/stdin"])
    at.must("./violstream plan <&- >&- 2>&-", 1, b"")
    at.must(f"{sheet} 2>&-", 0, PLAN)
    at.must(f"{sheet} <&-", 0, PLAN, silent=True)
    at.must("./violstream plan examples", 1, b"", ["cannot read examples: Is a directory"])
    at.must("./violstream plan no-such.run", 1, b"", ["cannot read no-such.run: No such file or directory"])
    at.must(f"./violstream ltfs VX0041 no-such examples", 1, b"", ["cannot read no-such:", "cannot read examples:"])
    at.must(f"TMPDIR=/no-such {sheet}", 0, PLAN, silent=True)
    at.must(f"umask 777; {sheet}", 0, PLAN, silent=True)
    at.must("mkdir writing && ./violstream plan writing examples/VX0041.run", 1, b"sheet=examples/VX0041.run\n" + PLAN, ["cannot read writing: Is a directory"])


def closed(at):
    """With any of the three descriptors closed: as without, but for what cannot be read, or that nobody can be told."""
    run, plan = "examples/VX0041.run", "examples/VX0041.plan"
    at.write("month", b"%d\n" % len(RUN) + RUN)
    for words in (f"plan {run}", f"plan --json {run} {plan}", f"plan --any {run} examples/mounted.run", f"field {run}", f"buys {run}", f"buys --any {run}", f"price {run} /dev/null", f"check {run} {plan}", f"explain {run} --svg picture", f"rewrite {run}",
                  f"mend {run}", "month month", f"month {run} {plan}", f"ltfs VX0041 {LABEL} {INDEX}", "desk examples/day.run examples/day.events", "version", "help", "help plan", "completions fish"):
        out, said, status = at.shell(f"./violstream {words}")
        at.must(f"./violstream {words} <&-", status, out, said.split("\n"))
        at.must(f"./violstream {words} 2>&-", status, out)
        at.must(f"./violstream {words} <&- 2>&-", status, out)
        at.must(f"./violstream {words} >&-", 1, b"", ["standard output is closed"])
        at.must(f"./violstream {words} <&- >&- 2>&-", 1, b"")
    for words in ("plan", "plan --any", "field -", "price - /dev/null", f"check {run} -", "explain -", "mend", "month", "month -", f"ltfs A - {INDEX}", "desk -  examples/day.events", "desk examples/day.run"):
        at.must(f"./violstream {words} <&-", 1, b"", ["cannot read standard input: it is closed"])


def odd_ends(at):
    """Descriptors that do not wait, a reader that is slow, signals that were ignored before: the answer is whole all the same."""
    mine, theirs = os.pipe()
    os.set_blocking(mine, False)
    call = subprocess.Popen([at.path(BUILT), "plan"], stdin=mine, stdout=subprocess.PIPE, env=at.surroundings)
    os.close(mine)
    for part in (RUN[:5], RUN[5:70], RUN[70:]):
        time.sleep(0.05)
        os.write(theirs, part)
    os.close(theirs)
    if call.communicate(timeout=LIMIT)[0] != PLAN or call.returncode != 0:
        raise Wrong("plan does not wait for an input that does not wait")
    mine, theirs = os.pipe()
    os.set_blocking(theirs, False)
    call = subprocess.Popen([at.path(BUILT), "plan", *["examples/VX0041.run"] * 800], cwd=at.root, stdout=theirs, env=at.surroundings)
    os.close(theirs)
    time.sleep(0.5)
    with os.fdopen(mine, "rb") as answers:
        whole = answers.read()
    if whole != (b"sheet=examples/VX0041.run\n" + PLAN) * 800 or call.wait(LIMIT) != 0:
        raise Wrong("plan does not wait for an output that does not wait")
    for number in (signal.SIGCHLD, signal.SIGPIPE, signal.SIGINT, signal.SIGHUP):
        done = subprocess.run([at.path(BUILT), "plan"], input=RUN, capture_output=True, env=at.surroundings, timeout=LIMIT, restore_signals=False,
                              preexec_fn=lambda number=number: signal.signal(number, signal.SIG_IGN))
        if (done.stdout, done.returncode) != (PLAN, 0):
            raise Wrong(f"with signal {number} ignored plan gives {done}")
    # A reader that has gone, where the signal that says so is held back: nobody is told, and the status is the one that it gives.
    mine, theirs = os.pipe()
    os.close(mine)
    done = subprocess.run([at.path(BUILT), "plan", "-"], input=RUN, stdout=theirs, stderr=subprocess.PIPE, env=at.surroundings, timeout=LIMIT,
                          preexec_fn=lambda: signal.pthread_sigmask(signal.SIG_BLOCK, [signal.SIGPIPE]))
    os.close(theirs)
    if (done.stderr, done.returncode) != (b"", 128 + signal.SIGPIPE):
        raise Wrong(f"with SIGPIPE blocked, and nobody to read, plan gives {done}")


def quick(at):
    """Of the processor a plan takes at most 10 ms more by the command than by the proved program alone."""
    if os.uname().machine != "x86_64":
        return

    def seconds(words):
        before = resource.getrusage(resource.RUSAGE_CHILDREN)
        for _ in range(20):
            subprocess.run(words, cwd=at.root, input=RUN, capture_output=True, env=at.surroundings, check=True)
        after = resource.getrusage(resource.RUSAGE_CHILDREN)
        return (after.ru_utime + after.ru_stime - before.ru_utime - before.ru_stime) / 20

    shutil.rmtree(at.path("crates"))
    shutil.copytree(os.path.join(programs.ROOT, "crates"), at.path("crates"))
    alone = seconds([at.path("target/bin/cmd_plan")])
    for words in (["./violstream", "plan", "-"], [at.path(BUILT), "plan", "-"]):
        taken = seconds(words)
        if taken > alone + 0.010:
            raise Wrong(f"{words} takes {1000 * taken:.1f} ms, and the program by itself {1000 * alone:.1f}")


def broken_program(at):
    """A program that ends early, or prints half of an answer, is no answer."""
    kept = at.path("target/bin/cmd_plan")
    os.rename(kept, kept + ".kept")
    shutil.copy("/bin/true", kept)
    at.must("./violstream plan examples/VX0041.run examples/no-wants.run", 1, b"", ["gave no answer"])
    os.remove(kept)
    at.write("target/bin/cmd_plan", b"no program\n")
    os.chmod(kept, 0o755)
    at.must("./violstream plan examples/VX0041.run", 1, b"", ["gave no answer"])
    os.replace(kept + ".kept", kept)
    at.must("./violstream plan examples/VX0041.run", 0, PLAN)


def several(at):
    one, two, three = "examples/VX0041.run", "examples/head-too-far-left.run", "examples/no-wants.run"
    heading = lambda name: b"sheet=%s\n" % name.encode()
    answered = heading(one) + PLAN
    refused = heading(two) + refusal(7)
    at.must(f"./violstream plan {one} {two}", 3, answered + refused, [two])
    at.must(f"./violstream plan {two} no-such {one}", 1, refused + answered, ["no-such", two])
    at.must(f"./violstream plan {one} {three}", 0, answered + heading(three) + contents("examples/no-wants.plan"), silent=True)
    at.must(f"./violstream plan {two} - < {one}", 3, refused + heading("-") + PLAN)
    at.write("a\nb.run", RUN)
    at.must(f"./violstream plan {one} $'a\\nb.run'", 0, answered + heading("$'a\\nb.run'") + PLAN)
    at.write("a b.run", RUN)
    at.must(f"./violstream plan 'a b.run' {two}", 3, heading("a b.run") + PLAN + refused)


def ltfs_inputs(at):
    """Each input is read once, and no further than it can matter."""
    at.must(f"./violstream ltfs VX0041 {LABEL} {INDEX}", 0, SHEET, [REPORT])
    at.must(f"./violstream ltfs VX0041 <(cat {LABEL}) <(cat {INDEX})", 0, SHEET, [REPORT])
    at.must(f"./violstream ltfs VX0041 {LABEL} /dev/stdin < {INDEX}", 0, SHEET, [REPORT])
    at.must(f"./violstream ltfs VX0041 {LABEL} - < {INDEX}", 0, SHEET, [REPORT])
    at.must(f"./violstream ltfs VX0041 - {INDEX} < {LABEL}", 0, SHEET, [REPORT])
    at.must(f"./violstream ltfs VX0041 {LABEL} /dev/zero", 3, refusal(20))
    at.must(f"./violstream ltfs VX0041 /dev/zero {INDEX}", 3, refusal(20))
    at.must(f"./violstream ltfs $'A\\nlabel=0\\nindex=0' {LABEL} {INDEX}", 3, refusal(13))
    at.must(f"./violstream ltfs '' {LABEL} {INDEX}", 3, refusal(13))


def words_of_sheets(at):
    """Each refusal of a run sheet in words: which sheet, what is wrong, what stands at the place."""
    cut = b"x" * 70
    for sheet, out, words in (
            (changed(8, b"file=13,30,0"), refusal(2, 3), 'file 3 (line 8, "file=13,30,0") starts at 13, before the end of file 2, which is 14'),
            (changed(7, b"file=10,0,0"), refusal(2, 2), 'file 2 (line 7, "file=10,0,0") has length 0'),
            (changed(8, b"file=20,1099511627776,0"), refusal(2, 3), "ends above 1099511627776 (2^40)"),
            (changed(8, b"file=18446744073709551615,1,0"), refusal(2, 3), "ends above 1099511627776 (2^40)"),
            (changed(8, b"file=20,30,4097"), refusal(2, 3), "has an aggregate number above 4096"),
            (changed(8, b"file=20,30,7").replace(b"0,10,0", b"0,10,7"), refusal(2, 3), "lies in aggregate 7 again, after a file that does not"),
            (changed(12, b"want=2,1"), refusal(4, 3), 'want 3 (line 12, "want=2,1") does not name a larger file number than the want before it, "want=2,3"'),
            (changed(12, b"want=4,1"), refusal(4, 3), 'want 3 (line 12, "want=4,1") names file 4, and the table has files 1 to 3'),
            (changed(10, b"want=0,1"), refusal(4, 1), "want 1 (line 10, \"want=0,1\") names file 0"),
            (changed(12, b"want=3,0"), refusal(4, 3), 'want 3 (line 12, "want=3,0") has 0 reads'),
            (changed(10, b"want=1,1021"), refusal(5), "1025 reads in all; at most 1024"),
            (changed(10, b"want=1,18446744073709551615"), refusal(5), "over 1024 reads"),
            (changed(3, b"turn=4294967297"), refusal(6), 'the turn price (line 3, "turn=4294967297") is above 4294967296'),
            (changed(2, b"head=49"), refusal(7), 'the head (line 2, "head=49") stands left of 50, the end of file 3'),
            (changed(2, b"head=1099511627777"), refusal(7), "stands above 1099511627776 (2^40)"),
            (in_aggregate(b"want=2,1\n").replace(b"head=60", b"head=19"), refusal(7), "left of 20, the end of file 3, the last of the aggregate of file 2"),
            (changed(10, b"want=1,564"), refusal(9), "3 wants with 568 reads in all ask for 3 * 3 * 569 = 5121 words of working room; there are 5120"),
            (in_aggregate(b"want=1,564\nwant=2,1\nwant=3,2\nwant=4,1\n"), refusal(9), "4 wants at 3 stops with 568 reads in all ask for 3 * 3 * 569"),
            (b"x" * 16385, refusal(12), "over 16384 bytes"),
            (changed(6, b"file=10;4"), refusal(11, 6), 'line 6: expected file=START,LENGTH,AGGREGATE; found "file=10;4"'),
            (RUN.replace(b"\n", b"\r\n"), refusal(11, 1), 'found "tape=VX0041\\r": it ends in a carriage return'),
            (RUN[:-1], refusal(11, 12), 'found "want=3,1": the line feed at its end is missing'),
            (changed(3, b"turn=01"), refusal(11, 3), 'line 3: expected turn=NUMBER; found "turn=01": a number has a leading zero'),
            (changed(9, b"wants=4"), refusal(11, 13), "line 13: expected want=FILE,READS; the sheet ends before it; line 9 says wants=4"),
            (changed(9, b"wants=2"), refusal(11, 12), 'line 12: expected the end of the sheet; found "want=3,1"; line 9 says wants=2'),
            (changed(5, b"files=2"), refusal(11, 8), 'line 8: expected wants=NUMBER; found "file=20,30,0"; line 5 says files=2'),
            (changed(5, b"files=4"), refusal(11, 9), 'line 9: expected file=START,LENGTH,AGGREGATE; found "wants=3"; line 5 says files=4'),
            (changed(5, b"files=257"), refusal(11, 5), "at most 256 files"),
            (changed(9, b"wants=65"), refusal(11, 9), "at most 64 wants"),
            (RUN + b"\n", refusal(11, 13), "line 13: expected the end of the sheet; found an empty line; line 9 says wants=3"),
            (changed(11, b"want=2, 3"), refusal(11, 11), "there is a blank in it"),
            (changed(11, b"want=2"), refusal(11, 11), "two numbers must stand there"),
            (changed(7, b"file=10,4"), refusal(11, 7), "three numbers must stand there"),
            (changed(2, b"head=-1"), refusal(11, 2), "a number has a sign"),
            (changed(2, b"head="), refusal(11, 2), "the number is missing"),
            (changed(2, b"head=18446744073709551616"), refusal(11, 2), "18446744073709551616 is not below 2^64"),
            (changed(4, b"rule=none"), refusal(11, 4), 'line 4: expected rule=least; found "rule=none"'),
            (changed(4, b"rule=sweep"), refusal(19, 4), 'the rule (line 4, "rule=sweep") is retired; write rule=least'),
            (changed(1, b"tape=vx0041"), refusal(11, 1), "capitals and digits only"),
            (changed(1, b"\xef\xbb\xbftape=VX0041"), refusal(11, 1), "a byte order mark"),
            (changed(1, b"a\x00\x1b[2J\xff"), refusal(11, 1), 'found "a\\x00\\x1b[2J\\xff"'),
            (changed(1, cut), refusal(11, 1), 'found "' + "x" * 57 + '..."'),
            (refusal(20), refusal(11, 1), "this is a refusal and no run sheet"),
            (b"", refusal(11, 1), "line 1: expected tape=NAME; the sheet is empty")):
        number = out[8:out.index(b"\n")].decode()
        at.must("./violstream plan", 3, out, ["violstream: standard input: refused (" + number + "): ", words], data=sheet)
    at.must("./violstream plan examples/head-too-far-left.run", 3, refusal(7), ["violstream: examples/head-too-far-left.run: refused (7): the head"])


def words_of_damaged_sheets(at):
    """Of every sheet that plan.py tries, the words speak of the place that a reader of its own finds, and are fit for a terminal."""
    begin = {2: "file %d (line ", 4: "want %d (line ", 11: "line %d: expected ", 12: "the sheet has over", 19: "the rule (line %d, "}
    refused = [(sheet, out) for sheet, out in ((sheet, answer(sheet)) for sheet in sheets_of_plan()) if out is not None and out.startswith(b"refused=")]
    if len(refused) < 500:
        raise Wrong(f"only {len(refused)} sheets were refused")
    os.makedirs(at.path("refused"))
    for number, (sheet, _) in enumerate(refused):
        at.write(f"refused/{number}", sheet)
    said = at.shell(f"./violstream plan $(seq -f refused/%.0f 0 {len(refused) - 1})")[1].split("\n")
    for number, ((sheet, out), line) in enumerate(zip(refused, said)):
        reason, place = (int(part.split(b"=")[1]) for part in out.split())
        must = begin.get(reason, "")
        begins = f"violstream: refused/{number}: refused ({reason}): " + (must % place if "%" in must else must)
        if not line.startswith(begins) or len(line) < len(begins) + 8 or not line.isascii() or not line.isprintable():
            raise Wrong(f"for {sheet!r}, refused by {reason} at {place}, the words are {line!r}")


def words_of_tapes(at):
    """Each refusal of a label or an index in words: which of the two, which line, which file."""
    label, index = contents(LABEL), contents(INDEX)
    block, count = b"<startblock>8</startblock>", b"<bytecount>10485760</bytecount>"
    extent = b"</extent><extent><partition>b</partition><startblock>18</startblock><byteoffset>0</byteoffset><bytecount>1</bytecount>"
    whole = b"<file><name>n</name><extentinfo><extent><partition>b</partition><startblock>%d</startblock><byteoffset>0</byteoffset>" \
        b"<bytecount>1</bytecount></extent></extentinfo></file>"
    many = b"<ltfsindex><directory><contents>" + b"".join(whole % n for n in range(257)) + b"</contents></directory></ltfsindex>"
    for number, first, second, words in (
            (20, index, index, "label (a), there is no ltfslabel/blocksize in it: this is an index"),
            (20, label, label, "index (b), there is no ltfsindex in it: this is a label"),
            (20, b"", index, "label (a), there is no ltfslabel/blocksize in it"),
            (20, label, b"", "index (b), there is no ltfsindex in it"),
            (20, label, index[:3000], "index (b), <changetime> of line 70 is not closed"),
            (20, label, index.replace(block, b"<startblock>8</startblok>"), "line 58: </startblok> closes <startblock>, which was opened in line 58"),
            (20, label, index.replace(block, b"<startblock>08</startblock>"), 'line 58: startblock "08" of file "clip0002.mxf" (line 33)'),
            (20, label, index.replace(block, b""), 'an extent of file "clip0002.mxf" (line 33) has no startblock'),
            (20, label, index.replace(block, b"<startblock>\x00\x1b8</startblock>"), 'startblock "??8" of file'),
            (20, label, index.replace(b"<partition>b", b"<partition>B"), 'partition "B" of file "clip0002.mxf" (line 33) is not one letter a to z'),
            (20, label, b"<a>" * 33 + b"</a>" * 33, "<a> stands inside 32 others"),
            (20, label, index + b"</a>", "</a> closes nothing"),
            (20, label, index + b"<!-- ", "the text ends before a -->"),
            (20, label, index + b"<1>", '"<1>\\n" is no tag'),
            (20, label, index + b"<", "is no tag"),
            (20, label.replace(b"524288", b"52 4288"), index, "label (a), line 13: blocksize \"52 4288\" is no number below 2^64"),
            (20, label, index + b" " * 524288, "over 512 KiB"),
            (20, label, index + b" " * (524289 - len(b"tape=VX0041\nlabel=480\nindex=524288\n" + label + index)), "over 512 KiB"),
            (21, label, index.replace(count, b"<bytecount>5</bytecount>" + extent), 'index (b), file "clip0002.mxf" (line 33) lies in 2 extents'),
            (22, label, index.replace(block, b"<startblock>6</startblock>"),
             'these overlap: file "clip0002.mxf" (line 33), from byte 3145728 to 13631488, and file "clip0001.mxf" (line 64), from byte 2621440 to 4193440'),
            (23, label, index.replace(block, b"<startblock>2097152</startblock>"), 'file "clip0002.mxf" (line 33) ends above byte 1099511627776'),
            (23, label, many, "257 files are left in partition b; a run sheet has at most 256")):
        at.write("a", first)
        at.write("b", second)
        at.must("./violstream ltfs VX0041 a b", 3, refusal(number), [f"violstream: VX0041: refused ({number}): ", words])
    at.write("b", index + b" " * (524288 - len(b"tape=VX0041\nlabel=480\nindex=523783\n" + label + index)))
    at.must(f"./violstream ltfs VX0041 {LABEL} b", 0, SHEET, [REPORT])
    at.must(f"./violstream ltfs vx0041 {LABEL} {INDEX}", 3, refusal(13), ['the tape name "vx0041" is not 1 to 16 of A-Z and 0-9'])
    at.write("b", b"<a b='" + b"<" * 20000)
    at.must(f"./violstream ltfs VX0041 {LABEL} b", 3, refusal(20), ["refused (20): a text that is not balanced"])


def keyboard(at):
    """A call that waits for somebody to type says so."""
    mine, theirs = pty.openpty()
    call = subprocess.Popen(["./violstream", "plan"], cwd=at.root, stdin=theirs, stdout=subprocess.PIPE, stderr=subprocess.PIPE, env=at.surroundings)
    os.close(theirs)
    os.write(mine, RUN + b"\x04")
    out, said = call.communicate(timeout=LIMIT)
    os.close(mine)
    if out != PLAN or b"Ctrl-D" not in said or call.returncode != 0:
        raise Wrong(f"typed in: printed {out!r}, said {said!r}, status {call.returncode}")


def blocks(name):
    """The indented blocks of a document, as lists of lines."""
    block = []
    for line in contents(name).decode().split("\n") + [""]:
        if line.startswith("    "):
            block.append(line[4:])
        elif block:
            yield block
            block = []


def transcripts(at):
    """The examples of README, OPERATOR, REFUSALS and AUDIT, as pasted, print what stands below them."""
    for page, least in (("docs/OPERATOR.md", 15), ("docs/REFUSALS.md", 21), ("docs/AUDIT.md", 1)):
        tried = sum(example(at, page, block) for block in blocks(page))
        if tried < least:
            raise Wrong(f"{page} has only {tried} examples that can be tried, and needs {least}")
    readme = list(blocks("README.md"))
    at.must("\n".join(readme[0]), 0, ("\n".join(readme[1]) + "\n").encode(), silent=True)
    said = [block[0] for block in blocks("docs/REFUSALS.md") if block[0].startswith("violstream: ")]
    if len(said) != 2:
        raise Wrong(f"docs/REFUSALS.md shows {len(said)} refusals in words, and not two")
    at.must("./violstream plan", 3, refusal(2, 3), said[:1], data=changed(8, b"file=13,30,0"))
    at.write("VX0041.run", changed(6, b"file=10;4"))
    at.must("./violstream plan VX0041.run", 3, refusal(11, 6), said[1:])


def example(at, page, block):
    """Runs the lines of a block that begin with `$ ` and compares what they print with the lines below them; how often it did."""
    tried, lines, must = 0, [], []
    for line in block + ["$ "]:
        if not line.startswith("$ "):
            must.append(line)
        elif must:
            if lines:
                out, said, _ = at.shell("\n".join(lines))
                printed = out.decode() + (said if not out.startswith(b"refused") else "")
                tried += 1
                if printed != "\n".join(must) + "\n":
                    raise Wrong(f"{page}: {lines} prints {printed!r}, and the page has {must}")
            lines, must = [], []
        if line.startswith("$ "):
            lines.append(line[2:])
    return tried


def manual(at):
    """The manual page has the version, the refusals and the statuses of the command."""
    page = contents("docs/violstream.1").decode()
    version = at.shell("./violstream version")[0].decode().split(" (")[0]
    if f'"{version}"' not in page:
        raise Wrong(f"docs/violstream.1 is not of {version}")
    text = " ".join(at.shell("./violstream help")[0].decode().split())
    for number in (2, 3, 4, 5, 6, 7, 9, 10, 11, 12, 13, 15, 16, 17, 18, 19, 20, 21, 22, 23, 24, 25, 43) + ((41, 42, 44) if "pick" in text else ()):
        words = re.search(r"\n%d\n([^.]*)\n\." % number, page)
        if words is None or " ".join(words[1].split()) not in text:
            raise Wrong(f"docs/violstream.1 does not say of refusal {number} what the help says: {words and words[1]!r}")


def waits(call):
    """Whether a process waits for something: all that it does before was done."""
    with open(f"/proc/{call.pid}/stat") as handle:
        return handle.read().rsplit(")", 1)[1].split()[0] == "S"


def interrupted(at):
    """A call that is ended from outside, alone or with its group, ends at once, and so do its programs. It leaves nothing behind."""
    for words in (["plan"], ["plan", "--any"], ["month"], ["record", "vault", "-"], ["desk", "examples/day.run"]):
        for number in (signal.SIGINT, signal.SIGTERM, signal.SIGHUP, signal.SIGKILL):
            for end in (os.kill, os.killpg):
                call = subprocess.Popen([at.path(BUILT), *words], cwd=at.root, stdin=subprocess.PIPE, stdout=subprocess.PIPE, stderr=subprocess.PIPE,
                                        env=at.surroundings, start_new_session=True)
                if words[0] == "desk":
                    call.stdin.write(b"file=1,1,1\n")
                    call.stdin.flush()
                    call.stdout.readline()
                until(lambda: waits(call), f"{words} does not wait for its input")
                began = time.monotonic()
                end(call.pid, number)
                # Its input is not at its end.
                said = call.stderr.read()
                call.wait(LIMIT)
                if call.returncode != -number or said or time.monotonic() - began > 5 or os.listdir(at.temporary):
                    raise Wrong(f"{words} ended by signal {number}: status {call.returncode}, said {said!r}, left {os.listdir(at.temporary)}")
                until(lambda: not in_session(call.pid), f"{words} ended by signal {number}: a program goes on")


def orphaned(at):
    """A call that is ended on its way to start a program: the program does not begin."""
    if not LINKED:
        return
    shim, started = faulty(at.root), at.path("started")
    os.remove(at.path("target/bin/cmd_plan"))
    at.write("target/bin/cmd_plan", b"#!/bin/sh\ntouch started\n")
    os.chmod(at.path("target/bin/cmd_plan"), 0o755)
    for fault, ended, begins in (("prctl:0:0", 1, True), ("prctl:1:0", -signal.SIGKILL, False)):
        call = subprocess.Popen([at.path(BUILT), "plan", "examples/VX0041.run"], cwd=at.root, stdout=subprocess.DEVNULL, stderr=subprocess.DEVNULL,
                                env=dict(at.surroundings, LD_PRELOAD=shim, VIOLSTREAM_FAULT=fault), start_new_session=True)
        call.wait(LIMIT)
        until(lambda: not in_session(call.pid), f"with {fault} something goes on")
        if (call.returncode, os.path.exists(started)) != (ended, begins):
            raise Wrong(f"with {fault} the call ended with {call.returncode}, and the program {'began' if os.path.exists(started) else 'did not begin'}")
        if begins:
            os.remove(started)


def in_session(session):
    """The processes of a session."""
    found = []
    for name in filter(str.isdigit, os.listdir("/proc")):
        try:
            with open(f"/proc/{name}/stat") as handle:
                fields = handle.read().rsplit(")", 1)[1].split()
        except OSError:
            continue
        if int(fields[3]) == session and fields[0] != "Z":
            found.append(int(name))
    return found


def manners(at):
    """Options in any place, words that begin with a dash, names that a terminal would obey."""
    run = "examples/VX0041.run"
    text = at.shell(f"./violstream explain {run}")[0]
    for line in (f"explain --svg=picture {run}", f"explain {run} --svg picture", f"explain {run} --svg=picture", f"explain --svg picture -- {run}", f"explain --svg first --svg=picture {run}"):
        at.must(f"rm -f picture && ./violstream {line} && tail -n 1 picture", 0, text + b"</svg>\n", silent=True)
    at.must("cp examples/VX0041.run ./-x && ./violstream plan -- -x", 0, PLAN, silent=True)
    at.must("./violstream plan ./-x", 0, PLAN, silent=True)
    at.must("./violstream plan -- - < ./-x", 0, PLAN, silent=True)
    at.must("./violstream plan --any -- -x", 0, PLAN, silent=True)
    at.must("./violstream plan -x", 2, b"", ["plan has no option -x (a file of that name is ./-x)"])
    at.must("./violstream field --any", 2, b"", ["field has no option --any"])
    at.must("./violstream plan --any=1", 2, b"", ["--any takes no value", "usage: ./violstream plan [--any] [--json] [FILE...]"])
    at.must(f"./violstream plan {run} --no-such", 2, b"", ["plan has no option --no-such"])
    for line in ("plan $'no\\e[2Jsuch'", "plan --any $'no\\e[2Jsuch'", "plan --any $'--\\e[2J'", "plan --any=$'\\e[2J'", "price $'\\e]0;x\\a' /dev/null", "month $'\\xc2\\x9b31m'", "ltfs A $'\\r' /dev/null", "desk $'\\xff'", "$'no\\e[2Jsuch'", "plan $'-\\e[2J'", "install $'\\e[2J'"):
        said = at.shell(f"./violstream {line}")[1]
        if not said or not said.replace("\n", "").isprintable() or not said.isascii():
            raise Wrong(f"./violstream {line} says {said!r}, which is not fit for a terminal")
    at.write("list", b"detour=2,2\n\x1b]0;x\x07\n")
    at.must(f"./violstream price {run} list", 3, refusal(11, 2), ['line 2 of list is not as described: "\\x1b]0;x\\x07"'])
    at.write("events", b"file=1,1,1\x1b[2J\n")
    at.must("./violstream desk examples/day.run events", 3, refusal(11, 1))
    for shell in ("bash", "zsh", "fish"):
        made = at.shell(f"./violstream completions {shell}")[0]
        if b"explain" not in made or b"svg" not in made:
            raise Wrong(f"completions for {shell} do not know explain --svg")
        if b"tape" not in made or b"html" not in made:
            raise Wrong(f"completions for {shell} do not know audit --tape and --html")
        if b"-l any" not in made and b"--any" not in made:
            raise Wrong(f"completions for {shell} do not know plan --any")
        at.must(f"command -v {shell} > /dev/null || exit 0; ./violstream completions {shell} | {shell} -n /dev/stdin", 0)


def as_json(at):
    """--json: one object for each answer, that says what the text says."""
    def objects(line, status=0):
        at.must(line, status)
        return [json.loads(one, parse_float=lambda text: 1 / 0) for one in at.shell(line)[0].decode().split("\n")[:-1]]

    def must(line, expected, status=0):
        found = objects(line, status)
        for one in found:
            one.pop("why", None)
        if found != expected:
            raise Wrong(f"{line} gives {found}, and must give {expected}")

    run = "examples/VX0041.run"
    plan = {"tape": "VX0041", "sum": 367, "reads": 5, "finish": 121, "end": 50, "detours": [{"from": 2, "to": 2}],
            "times": [{"file": 1, "time": 81, "leg": 2}, {"file": 2, "time": 55, "leg": 1}, {"file": 3, "time": 121, "leg": 2}]}
    must(f"./violstream plan --json {run}", [plan])
    must(f"./violstream plan {run} --json examples/head-too-far-left.run", [dict(plan, sheet=run), {"sheet": "examples/head-too-far-left.run", "refused": 7, "place": 0}], 3)
    if not objects("./violstream plan --json examples/head-too-far-left.run", 3)[0]["why"].startswith("the head (line 2, "):
        raise Wrong("a refusal in JSON does not say why")
    must(f"./violstream plan --json --any {run} examples/mounted-3.run", [dict(plan, sheet=run), {"sheet": "examples/mounted-3.run", "tape": "VX0041", "sum": 308, "reads": 6, "finish": 103, "end": 10,
         "detours": [{"from": 3, "to": 3}], "times": [{"file": 1, "time": 103, "leg": 2}, {"file": 3, "time": 41, "leg": 1}]}])
    if not objects("./violstream plan --json examples/mounted.run", 3)[0]["why"].endswith("; plan --any takes the head where it stands"):
        raise Wrong("a refusal in JSON does not name plan --any")
    must(f"./violstream buys --json {run}", [{"tape": "VX0041", "sum": 367, "detours": [{"from": 2, "to": 2, "buys": 40}]}])
    must(f"./violstream check --json {run} examples/VX0041.plan", [{"formed": True, "walk": True, "least": True}])
    must(f"./violstream check --json {run} examples/VX0041-damaged.plan",
         [{"formed": True, "walk": False, "line": 9, "least": True, "found": "time=2,56,1", "expected": "time=2,55,1"}], 3)
    must(f"sed 's/^detour=2,2/detour=1,2/' examples/VX0041.plan | ./violstream check {run} - --json", [{"formed": False, "detour": 1}], 3)
    must(f"./violstream month --json {run} examples/retired-rule.run", [{"accepted": 1, "refusals": [{"number": 19, "sheets": 1}], "reads": 5, "sum": 367,
         "mean": {"whole": 73, "remainder": 2}, "longest": {"time": 121, "tape": "VX0041", "file": 3}, "saved": 40}])
    must("printf '00\\n' | ./violstream month --json", [{"accepted": 0, "refusals": [], "reads": 0, "sum": 0, "mean": {"whole": 0, "remainder": 0},
         "longest": {"time": 0, "tape": "", "file": 0}, "saved": 0, "refused": 25, "place": 1}], 3)
    at.must(f"./violstream plan --json {run} > /dev/full", 1, b"", ["cannot write to standard output"])


def installing(at):
    """What is installed works by itself; nothing foreign is overwritten or removed; what was cut off can be removed."""
    os.makedirs(at.path("target/staticlib"))
    at.write("target/staticlib/libviolstream.a", ARCHIVE)
    prefix = at.path("prefix")
    listed = os.path.join(prefix, "libexec/violstream/installed")

    def files():
        return sorted(os.path.relpath(os.path.join(folder, name), prefix) for folder, _, names in os.walk(prefix) for name in names)

    at.must(f"umask 077 && ./violstream install {prefix}", 0, silent=True)
    whole = files()
    for name in ("bin/violstream", "libexec/violstream/cmd_plan", "libexec/violstream/cmd_plan_any", "share/man/man1/violstream.1", "share/doc/violstream/OPERATOR.md", "share/doc/violstream/RULES.md", "share/doc/violstream/examples/VX0041.run",
                 "share/bash-completion/completions/violstream", "lib/libviolstream.a", "lib/libviolstream.so", "lib/pkgconfig/violstream.pc", "include/violstream.h",
                 "lib/python3/dist-packages/violstream.py", "share/violstream/violstream.rs", "lib/systemd/system/violstream-desk@.service"):
        if name not in whole or not os.stat(os.path.join(prefix, name)).st_mode & 0o004 or not os.stat(os.path.dirname(os.path.join(prefix, name))).st_mode & 0o001:
            raise Wrong(f"{name} was not installed, or not for everybody")
    at.must("cd / && $OLDPWD/prefix/bin/violstream plan -", 0, PLAN, data=RUN, silent=True)
    at.must("cd / && $OLDPWD/prefix/bin/violstream plan --any -", 0, contents("examples/mounted.plan"), data=contents("examples/mounted.run"), silent=True)
    at.must("prefix/bin/violstream version", 0, at.shell("./violstream version")[0], silent=True)
    if shutil.which("systemd-analyze"):
        printed, said, _ = at.shell("systemd-analyze verify --man=no prefix/lib/systemd/system/violstream-desk@VX0041.service")
        if "violstream-desk" in printed.decode() + said:
            raise Wrong(f"systemd-analyze finds in the unit: {said}")
    at.must("prefix/bin/violstream build", 2, b"", ["build is for a checkout of the sources", "usage: violstream build"])
    text = at.shell("prefix/bin/violstream help")[0]
    if b"./violstream" in text or b"violstream build" in text or b"violstream uninstall" not in text:
        raise Wrong(f"the installed help is {text!r}")
    at.must(f"./violstream install {prefix}/ && ./violstream install {prefix}", 0, silent=True)
    if files() != whole:
        raise Wrong(f"installed again: {files()} and not {whole}")
    # Somebody's own files stay.
    at.must(f"cp -a {prefix}/bin/violstream kept && echo mine > {prefix}/bin/violstream && ./violstream install {prefix}", 1, b"", ["bin/violstream is there, and was changed since it was installed; nothing was installed"])
    at.must(f"cp -a kept {prefix}/bin/violstream && ./violstream install {prefix}", 0, silent=True)
    at.must(f"echo mine > {prefix}/include/violstream.h && ./violstream uninstall {prefix}", 1, b"", ["include/violstream.h was changed since it was installed, and stays"])
    at.must(f"rm {prefix}/include/violstream.h && ./violstream uninstall {prefix} && find {prefix} -mindepth 1", 0, f"removed what was installed below {prefix}\n".encode(), silent=True)
    at.must(f"mkdir -p {prefix}/bin && echo mine > {prefix}/bin/violstream && ./violstream install {prefix}", 1, b"", ["bin/violstream is there, and was not installed by this command; nothing was installed"])
    at.must(f"cat {prefix}/bin/violstream && find {prefix} -type f | wc -l && ls {prefix}", 0, b"mine\n1\nbin\n")
    at.must(f"rm -r {prefix} && mkdir -p {prefix} elsewhere && ln -s ../elsewhere {prefix}/lib && ./violstream install {prefix} && test -e elsewhere/libviolstream.a && ./violstream uninstall {prefix} && ls elsewhere {prefix}", 0, None, silent=True)
    # What an older version has left goes.
    at.must(f"rm -rf {prefix} && mkdir -p {prefix}/libexec/violstream && cd {prefix}/libexec/violstream && touch machine.sh && printf '%s\\n' libexec/violstream/machine.sh libexec/violstream/installed libexec/violstream/ libexec/ > installed", 0)
    at.must(f"./violstream install {prefix} && test ! -e {prefix}/libexec/violstream/machine.sh && ./violstream uninstall {prefix} && find {prefix} -mindepth 1 | wc -l", 0, None, silent=True)
    for odd in ("'/a b'", "'/a\"b'", "'/a$b'", "$'/a\\nb'"):
        at.must(f"./violstream install {odd}", 1, b"", ["PREFIX may not contain"])
    at.must("./violstream install /proc/no-such", 1, b"", ["cannot make /proc/no-such"])
    # Two at once.
    shutil.rmtree(prefix)
    calls = [subprocess.Popen(["./violstream", "install", prefix], cwd=at.root, stdout=subprocess.DEVNULL, stderr=subprocess.PIPE, env=at.surroundings) for _ in range(2)]
    ended = [(call.communicate(timeout=LIMIT)[1], call.returncode) for call in calls]
    if [status for _, status in ended] != [0, 0] or files() != whole:
        raise Wrong(f"two at once ended so: {ended}, with {files()}")
    # Cut off at any moment, also where something is installed already.
    for moment in range(16):
        shutil.rmtree(prefix, ignore_errors=True)
        if moment % 2:
            at.must(f"./violstream install {prefix}", 0, silent=True)
        call = subprocess.Popen([at.path(BUILT), "install", prefix], cwd=at.root, stdout=subprocess.PIPE, stderr=subprocess.DEVNULL, env=at.surroundings)
        for _ in range(3 * moment):
            call.stdout.readline()
        call.kill()
        call.communicate()
        if os.path.exists(listed):
            at.must(f"./violstream uninstall {prefix}", 0, silent=True)
        if files():
            raise Wrong(f"cut off, {files()} stay")


def packaged(at):
    """The Debian package has what install puts in place, and lintian finds no error in it."""
    if shutil.which("dpkg-deb") is None or os.uname().machine != "x86_64":
        return
    archive = os.path.join(programs.ROOT, "target/staticlib/libviolstream.a")
    os.makedirs(at.path("target/staticlib"))
    for name in ("target/staticlib/libviolstream.a", "target/command/linked.a"):
        at.write(name, contents(archive) if os.path.exists(archive) else ARCHIVE)
    number = at.shell("./violstream version")[0].decode().split()[1]
    at.must("umask 077 && ./violstream deb", 0, f"made {at.root}/target/command/deb/violstream_{number}-1_amd64.deb\n".encode(), silent=True)
    at.must("dpkg-deb -x target/command/deb/*.deb unpacked && unpacked/usr/bin/violstream plan examples/VX0041.run", 0, PLAN, silent=True)
    at.must("unpacked/usr/bin/violstream plan --any examples/mounted.run", 0, contents("examples/mounted.plan"), silent=True)
    for name in ("share/man/man1/violstream.1.gz", "share/doc/violstream/copyright", "lib/x86_64-linux-gnu/libviolstream.a", "lib/x86_64-linux-gnu/pkgconfig/violstream.pc", "include/violstream.h",
                 "lib/python3/dist-packages/violstream.py", "share/violstream/violstream.rs", "lib/systemd/system/violstream-desk@.service"):
        if not os.path.exists(at.path(f"unpacked/usr/{name}")):
            raise Wrong(f"the package has no {name}")
    at.must("find unpacked ! -perm -044 ! -type l", 0, b"")
    at.must("grep '^libdir=' unpacked/usr/lib/x86_64-linux-gnu/pkgconfig/violstream.pc", 0, b"libdir=${prefix}/lib/x86_64-linux-gnu\n")
    # dpkg puts it in place, below a folder that is a system to it, and removes it.
    if os.getuid() == 0 and shutil.which("dpkg"):
        at.must("mkdir -p system/var/lib/dpkg/info system/var/lib/dpkg/updates system/var/lib/dpkg/triggers && touch system/var/lib/dpkg/status && "
                "dpkg --root=$PWD/system --force-depends --log=/dev/null -i target/command/deb/*.deb 2> said && system/usr/bin/violstream plan examples/VX0041.run > plan && "
                "dpkg --root=$PWD/system --log=/dev/null -r violstream 2>> said && cmp plan examples/VX0041.plan && test ! -e system/usr", 0, None, silent=True)
    if shutil.which("lintian") and os.path.exists(archive):
        found = at.shell("mkdir theirs && TMPDIR=$PWD/theirs lintian --allow-root target/command/deb/*.deb")[0]
        if b"E: " in found:
            raise Wrong(f"lintian finds {found.decode()}")


def limits(at):
    """Few descriptors, small files, little stack: a whole answer, or a sentence."""
    sheet = "./violstream plan examples/VX0041.run"
    for limit in list(range(3, 20)):
        out, said, status = at.shell(f"ulimit -n {limit} && {sheet}")
        if (status, out) != (0, PLAN) and (status == 0 or out or not said):
            raise Wrong(f"with {limit} descriptors plan printed {out!r}, said {said!r} and ended with status {status}")
    at.must(f"ulimit -f 0 && {sheet} > out", 1, b"", ["cannot write to standard output: File too large"])
    at.must("ulimit -f 0 && ./violstream explain --svg out examples/VX0041.run", 1, b"", ["cannot write out: File too large"])
    # The stack that is enough for every program, as docs/OPERATOR.md says, and less. plan --any has its room there.
    at.write("large.run", b"tape=A\nhead=1099511627776\nturn=0\nrule=least\nfiles=256\n" + b"".join(b"file=%d,1,0\n" % (n * 4294967296) for n in range(256)) + b"wants=16\n" + b"".join(b"want=%d,1\n" % n for n in range(1, 17)))
    at.write("large.month", (b"%d\n" % len(contents("examples/VX0041.run")) + RUN) * 1000)
    at.write("deep.xml", b"<ltfsindex>" + b"<a>" * 31 + b"</a>" * 31 + b"<directory><contents/></directory>" + b"<a/>" * 120000 + b"</ltfsindex>")
    at.write("many.run", sheet_of(64, 159))
    at.write("many.plan", at.shell("./violstream plan --any many.run")[0])
    for enough, words in [(6144, f"{words} {run}") for words in ("plan --any", "buys --any", "explain") for run in ("large.run", "many.run")] + [(6144, words) for words in ("check examples/VX0041.run examples/VX0041.plan", "check many.run many.plan", "record book many.run")] + [(1024, words) for words in ("plan large.run", "buys large.run", "price large.run /dev/null", "rewrite large.run", "mend large.run", "month large.month", "field examples/VX0041.run",
                  "desk examples/day.run examples/day.events", f"ltfs VX0041 {LABEL} deep.xml")]:
        must = at.shell(f"./violstream {words}")
        if must[2] != 0 or at.shell(f"ulimit -s {enough} && ./violstream {words}") != must:
            raise Wrong(f"with a stack of {enough} KiB violstream {words} does not give {must}")
        for limit in (4096, 1024, 512, 256, 128, 96, 64, 32):
            out, said, status = at.shell(f"ulimit -s {limit} && ./violstream {words}")
            if (out, said, status) != must and (status in (0, 2, 3) or out or not said and status < 128):
                raise Wrong(f"with a stack of {limit} KiB violstream {words} printed {out!r}, said {said!r} and ended with status {status}")


def other_user(at):
    """Another user, in a checkout that is not theirs to write."""
    if os.getuid() != 0 or shutil.which("setpriv") is None:
        return
    at.must("chmod -R go+rX . && chmod 755 .. . && setpriv --reuid 65534 --regid 65534 --clear-groups ./violstream plan examples/VX0041.run", 0, PLAN, silent=True)
    at.must("mkdir theirs && printf '#!/bin/sh\\n' > theirs/cargo && chmod 755 theirs theirs/cargo && touch -d '+1 minute' command/Cargo.toml && "
            "PATH=$PWD/theirs:$PATH setpriv --reuid 65534 --regid 65534 --clear-groups ./violstream plan examples/VX0041.run", 1, b"", ["cannot write ", "/target/command/"])


def without_compiler(at):
    """Where nothing can compile the command, the proved program answers by itself, and one sentence says what to install."""
    os.remove(at.path(BUILT))
    os.makedirs(at.path("tools-alone"))
    for name in ("sh", "bash", "readlink", "dirname", "find", "uname", "cat", "grep", "sed", "touch", "rm", "mkdir", "cp", "ln", "mv"):
        os.symlink(shutil.which(name), at.path(f"tools-alone/{name}"))
    at.surroundings.update(PATH=at.path("tools-alone"))
    words = ["so the proved program answers by itself", "apt-get install cargo"]
    at.must("./violstream plan examples/VX0041.run", 0, PLAN, words)
    at.must("./violstream plan < examples/VX0041.run", 0, PLAN, words)
    at.must("./violstream plan examples/head-too-far-left.run", 3, refusal(7), words)
    at.must("./violstream plan no-such", 1, b"", ["cannot read no-such"])
    for line in ("plan --any examples/mounted.run", "plan --any < examples/mounted.run", "plan --any - < examples/mounted.run"):
        at.must(f"./violstream {line}", 0, contents("examples/mounted.plan"), words)
    for line in ("plan --any examples/mounted.run examples/VX0041.run", "plan --any --json examples/mounted.run", "field --any examples/VX0041.run", "plan_any examples/mounted.run"):
        at.must(f"./violstream {line}", 1, b"", ["the command itself is needed"])
    at.must("./violstream desk examples/day.run", 1, b"", ["the command itself is needed", "apt-get install cargo"])
    at.must("./violstream help", 1, b"", ["the command itself is needed"])


# A stand-in for rt, which proves nothing: it says what rt says, and makes what it is asked for, in the folder of a crate, from the programs kept beside it.
STAND_IN = """#!/bin/sh
crate=${PWD##*/}
printf '%s\\n' "$1 $crate" >> "${0%/*}/../calls"
exec 3>&1
[ "$1" != run ] || exec >&2
echo 'rt: chose --jobs 2 for refusals'
echo "rt: chose --jobs 2 for walk"
sleep "${SLOW:-0}"
[ -z "${FAULT:-}" ] || { echo "$FAULT"; exit 1; }
echo 'logic=proved functions=28'
mktemp -d > /dev/null
mkdir -p out
[ "$1" != run ] || { cp "../../kept/$crate" "out/$crate" && exec "out/$crate" >&3; }
"""
# And for rattle, for the library: the words of an archive that it is to make stand behind -o.
COMPILER = """#!/bin/sh
printf '%s\\n' "build $3" >> "${0%/*}/../../calls"
while [ "$1" != -o ]; do shift; done
printf '!<arch>\\n' > "$2"
echo 'logic=proved functions=4'
"""


def unbuilt(at):
    """The checkout with nothing built but the command, and stand-ins for rt, on PATH, and for the kit beside it."""
    os.rename(at.path("target/bin"), at.path("kept"))
    forget_built(at)
    kit = subprocess.run(["sh", "-c", '. "$0" && kit', programs.MACHINE], capture_output=True, text=True).stdout.strip()
    os.makedirs(at.path("stand-in/bin"))
    os.symlink(os.path.join(kit, "toolchain"), at.path("stand-in/toolchain"))
    for name, text in (("stand-in/rt", STAND_IN), ("stand-in/bin/rattle", COMPILER)):
        at.write(name, text.encode())
        os.chmod(at.path(name), 0o755)
    for name in PROGRAMS:
        os.makedirs(at.path(f"crates/{name}/src"))
        for part in ("src/main.rt", "stdin", "stdout"):
            shutil.copy(os.path.join(programs.ROOT, "crates", name, part), at.path(f"crates/{name}/{part}"))
            os.utime(at.path(f"crates/{name}/{part}"), (0, 0))
    for name in BOUNDARIES:
        os.makedirs(at.path(f"crates/{name}/src"))
    at.write("calls", b"")
    at.surroundings.update(PATH=at.path("stand-in") + ":" + os.environ["PATH"], RATTLE_HOME=at.path("stand-in"))


def forget_built(at):
    """What rt has made goes."""
    for name in os.listdir(at.path("target")):
        if name != "command":
            shutil.rmtree(at.path(f"target/{name}"))


def called(at):
    """The calls of rt for programs, and of rattle for the library."""
    with open(at.path("calls")) as handle:
        return [call for call in handle.read().split("\n")[:-1] if re.match("run cmd_|build ", call)]


def building(at):
    """A call builds what it needs, once, and says so."""
    unbuilt(at)
    at.must("./violstream plan no-such.run", 1, b"", ["cannot read no-such.run"])
    at.must("./violstream plan -x", 2, b"")
    if called(at):
        raise Wrong(f"something was built for a call that could not be answered: {called(at)}")
    at.must("./violstream plan examples/VX0041.run", 0, PLAN, ["proving and building cmd_plan; at most some 3 minutes", "violstream: walk proved ("])
    at.must("./violstream plan examples/VX0041.run", 0, PLAN, silent=True)
    if called(at) != ["run cmd_plan"]:
        raise Wrong(f"rt was called so: {called(at)}")
    at.must(f"./violstream ltfs VX0041 {LABEL} {INDEX}", 0, SHEET, ["building cmd_ltfs"])
    at.must("rm target/bin/cmd_plan && ./violstream plan examples/VX0041.run", 0, PLAN, ["building cmd_plan"])
    at.must("./violstream build", 0, b"", ["building cmd_plan_any", "building cmd_field", "building cmd_buys", "building cmd_buys_any", "building cmd_price", "building cmd_check", "building cmd_rewrite", "building cmd_mend", "building cmd_month", "building cmd_desk", "building libviolstream.a"])
    at.must("touch -d '+1 minute' crates/refusals/newer && ./violstream build", 0, b"", ["cmd_plan;", "cmd_plan_any", "cmd_field", "cmd_buys", "cmd_buys_any", "cmd_price", "cmd_check", "cmd_rewrite", "cmd_mend", "cmd_month", "cmd_ltfs", "cmd_desk", "libviolstream.a"])
    at.must("rm crates/refusals/newer && ./violstream build", 0, b"", ["violstream: built"])
    at.must("./violstream build more", 2, b"")
    every = [f"run {name}" for name in PROGRAMS] + [f"build {name}" for name in BOUNDARIES]
    if called(at) != ["run cmd_plan", "run cmd_ltfs", "run cmd_plan", *(call for call in every if call not in ("run cmd_plan", "run cmd_ltfs")), *every]:
        raise Wrong(f"rt was called so: {called(at)}")


def building_fails(at):
    unbuilt(at)
    sheet = "./violstream plan examples/VX0041.run"
    at.must(f"touch target/bin && {sheet}", 1, b"", ["cannot write ", "/target/bin/"])
    at.must(f"rm target/bin && mkdir -m 755 target/lock && {sheet}", 1, b"", ["cannot write ", "/target/lock/: it is not a folder of this user alone"])
    os.rmdir(at.path("target/lock"))
    if called(at):
        raise Wrong("rt was called although target/ cannot be written")
    at.must(f"FAULT='error: it is not so' {sheet}", 1, b"", ["error: it is not so", "'tools/build.sh check cmd_plan' failed"])
    at.must(f"mkdir -p target/bin && cp kept/cmd_plan target/bin/ && {sheet}", 0, PLAN, ["building cmd_plan"])
    at.must(f"rm target/stamp/cmd_plan && FAULT='error: it is not so' {sheet}", 1, b"", ["'tools/build.sh check cmd_plan' failed"])
    at.must(f"{sheet}", 0, PLAN, ["building cmd_plan"])
    at.must(f"rm -r target/bin target/stamp && TMPDIR=/no-such {sheet}", 1, b"", ["cannot make a temporary folder in /no-such"])
    at.must(f"FAULT='cp: No space left on device' {sheet}", 1, b"", ["cannot write ", "/target/: No space left on device"])
    at.must(f"cp examples/mounted.plan crates/cmd_plan/stdout && {sheet}", 1, b"", ["what cmd_plan writes is not what crates/cmd_plan/stdout has"])
    at.must(f"rm -f kept/cmd_plan && {sheet}", 1, b"", ["rt run in crates/cmd_plan ended with status 1"])
    without = ":".join(one for one in os.environ["PATH"].split(":") if not os.path.exists(os.path.join(one, "rt")))
    at.must(f"PATH={without} {sheet}", 1, b"", ["(rt) is not on PATH"])


def building_twice(at):
    """A second call waits for the first, says so, and does not build again. A long silence is broken."""
    unbuilt(at)
    at.surroundings.update(SLOW="4", VIOLSTREAM_SILENCE="1")
    first = subprocess.Popen(["./violstream", "plan", "examples/VX0041.run"], cwd=at.root, stdout=subprocess.PIPE, stderr=subprocess.PIPE, env=at.surroundings)
    until(lambda: called(at), "rt was not called")
    second = subprocess.run(["./violstream", "plan", "examples/VX0041.run"], cwd=at.root, capture_output=True, env=at.surroundings, timeout=LIMIT)
    out, said = first.communicate(timeout=LIMIT)
    if out != PLAN or b"still proving walk, " not in said:
        raise Wrong(f"the first of two calls printed {out!r} and said {said!r}")
    if second.stdout != PLAN or b"another call is building here; waiting for it" not in second.stderr or b"still waiting" not in second.stderr:
        raise Wrong(f"the second of two calls printed {second.stdout!r} and said {second.stderr!r}")
    if called(at) != ["run cmd_plan"] or os.listdir(at.temporary):
        raise Wrong(f"rt was called so: {called(at)}; left behind: {os.listdir(at.temporary)}")


def building_interrupted(at):
    """Ctrl-C while rt is at work, or a signal to the command alone, leaves no temporary files, and the next call builds."""
    unbuilt(at)
    for number, end in ((signal.SIGINT, os.killpg), (signal.SIGTERM, os.kill), (signal.SIGKILL, os.kill)):
        at.write("calls", b"")
        call = subprocess.Popen(["./violstream", "plan", "examples/VX0041.run"], cwd=at.root, stdout=subprocess.PIPE, stderr=subprocess.DEVNULL,
                                env=dict(at.surroundings, SLOW="30"), start_new_session=True)
        until(lambda: called(at), "rt was not called")
        end(call.pid, number)
        call.wait(LIMIT)
        if call.returncode != -number:
            raise Wrong(f"signal {number}: status {call.returncode}")
        until(lambda: not os.listdir(at.temporary), f"signal {number}: left {os.listdir(at.temporary)}")
        until(lambda: not at_work(at), f"signal {number}: still at work: {at_work(at)}")
        shutil.rmtree(at.path("target/stamp"), ignore_errors=True)
    at.must("./violstream plan examples/VX0041.run", 0, PLAN, ["building cmd_plan"])


# A stand-in for cargo, which compiles nothing: it brings the command that is kept beside it.
CARGO = """#!/bin/sh
printf 'cargo\\n' >> "${0%/*}/../calls"
sleep "${COMPILING:-0}"
[ -z "${CARGO_FAULT:-}" ] || { echo "error: $CARGO_FAULT"; exit 1; }
while [ "$1" != --target-dir ]; do shift; done
mkdir -p "$2/release" && cp "${0%/*}/../command.kept" "$2/release/violstream"
printf 'compiled\\n' >> "${0%/*}/../calls"
"""


def uncompiled(at):
    """The checkout with nothing built at all, and stand-ins for rt and cargo."""
    unbuilt(at)
    os.rename(at.path(BUILT), at.path("command.kept"))
    at.write("stand-in/cargo", CARGO.encode())
    os.chmod(at.path("stand-in/cargo"), 0o755)


def forget_compiled(at):
    forget_built(at)
    for name in (BUILT, "target/command/made/target/release/violstream"):
        if os.path.exists(at.path(name)):
            os.remove(at.path(name))
    at.write("calls", b"")


def all_calls(at):
    with open(at.path("calls")) as handle:
        return handle.read().split("\n")[:-1]


def beside(at):
    """On a fresh clone the command is compiled while rt is at work; whichever fails is told, and whatever ends the call ends both."""
    uncompiled(at)
    sheet = "./violstream plan examples/VX0041.run"
    words = ["compiling the command", "and proving and building cmd_plan beside it", "violstream: walk proved ("]
    at.must(f"COMPILING=2 {sheet}", 0, PLAN, words)
    calls = all_calls(at)
    if calls.count("run cmd_plan") != 1 or calls.count("cargo") != 1 or calls.index("run cmd_plan") > calls.index("compiled"):
        raise Wrong(f"rt and cargo were not called beside each other, and once each: {calls}")
    at.must(sheet, 0, PLAN, silent=True)
    # The command is there first: it waits for what was begun, and does not call it another's.
    forget_compiled(at)
    printed, said, status = at.shell(f"SLOW=3 VIOLSTREAM_SILENCE=1 {sheet}")
    if (printed, status) != (PLAN, 0) or "another call" in said or "still proving, " not in said or all_calls(at).count("run cmd_plan") != 1:
        raise Wrong(f"a call whose proofs outlast the compiler printed {printed!r}, said {said!r} and called {all_calls(at)}")
    for line, program in (("plan --any examples/mounted.run", "cmd_plan_any"), ("buys examples/VX0041.run", "cmd_buys")):
        forget_compiled(at)
        at.must(f"./violstream {line}", 0, None, [f"building {program} beside it"])
    for line, status in (("help", 0), ("plan --help", 0), ("version", 0), ("nothing", 2)):
        forget_compiled(at)
        at.must(f"./violstream {line}", status)
        if called(at):
            raise Wrong(f"{line} had {called(at)} built")
    # What fails is told: rt by the command, which tries again; the compiler by the plain answer.
    forget_compiled(at)
    at.must(f"FAULT='error: it is not so' {sheet}", 1, b"", ["error: it is not so", "'tools/build.sh check cmd_plan' failed"])
    forget_compiled(at)
    at.must(f"CARGO_FAULT='no such crate' {sheet}", 0, PLAN, ["error: no such crate", "so the proved program answers by itself", "beside it"])
    forget_compiled(at)
    at.must(f"CARGO_FAULT='no such crate' FAULT='error: it is not so' {sheet}", 1, b"", ["error: no such crate", "'tools/build.sh check cmd_plan' failed"])
    beside_ended(at)


def failed_once(at):
    """Where Debian's libraries are not there cargo asks the network for them, and waits. The next calls say the same at once; it is tried again where something has changed."""
    uncompiled(at)
    at.surroundings.update(CARGO_FAULT="no such crate")
    sheet, again = "./violstream plan examples/VX0041.run", "so said cargo when it last tried"

    def must(line, status, out, says, tried):
        before = all_calls(at).count("cargo")
        at.must(line, status, out, ["error: no such crate", *says])
        if all_calls(at).count("cargo") - before != tried:
            raise Wrong(f"{line} has called cargo {all_calls(at).count('cargo') - before} times, and must {tried} times")

    at.must("sed -i \"s|^registry=.*|registry='$PWD/registry'|\" violstream", 0)
    must(sheet, 0, PLAN, ["so the proved program answers by itself"], 1)
    for line, status, out, says in ((sheet, 0, PLAN, "so the proved program answers by itself"), ("./violstream plan -", 3, refusal(11, 1), "answers by itself"), ("./violstream help", 1, b"", "the command itself is needed")):
        must(line, status, out, [again, "./violstream build has it try again", says], 0)
    for change in ("mkdir -p registry/clap-3.2.0", "printf '\\n' >> command/src/main.rs", "cp stand-in/cargo another && mv another stand-in/cargo", "printf '#!/bin/sh\\n' > stand-in/cc && chmod 755 stand-in/cc"):
        at.must(change, 0)
        must(sheet, 0, PLAN, [], 1)
        must(sheet, 0, PLAN, [again], 0)
    must("./violstream build", 1, b"", ["the command itself is needed"], 1)
    must(sheet, 0, PLAN, [again], 0)
    # With the libraries nobody waits, and what has failed may have been the disk.
    at.must("mkdir registry/clap-4.0.32", 0)
    must(sheet, 0, PLAN, [], 1)
    must(sheet, 0, PLAN, [], 1)
    at.surroundings.update(CARGO_FAULT="")
    at.must(sheet, 0, PLAN)
    at.must(f"test ! -e target/command/failed && {sheet}", 0, PLAN, silent=True)


def beside_ended(at):
    """A call that cannot be answered, or is ended, leaves neither at work."""
    forget_compiled(at)
    at.surroundings.update(SLOW="30")
    printed, said, status = at.shell("./violstream plan no-such.run; echo $?; for n in $(seq 100); do [ -e $TMPDIR/violstream.* ] || break; sleep 0.05; done")
    if printed != b"1\n" or "cannot read no-such.run" not in said:
        raise Wrong(f"without its file a first call printed {printed!r} and said {said!r}")
    ends = ((signal.SIGINT, os.killpg), (signal.SIGTERM, os.kill), (signal.SIGKILL, os.kill), (signal.SIGHUP, os.killpg))
    for compiling, met in (("0", "compiled"), ("30", "cargo"), ("30", "run cmd_plan")):
        for number, end in ends:
            forget_compiled(at)
            call = subprocess.Popen(["./violstream", "plan", "examples/VX0041.run"], cwd=at.root, stdout=subprocess.PIPE, stderr=subprocess.DEVNULL,
                                    env=dict(at.surroundings, COMPILING=compiling), start_new_session=True)
            until(lambda: met in all_calls(at) and called(at), "rt or cargo was not called")
            end(call.pid, number)
            call.wait(LIMIT)
            until(lambda: not os.listdir(at.temporary), f"signal {number}: left {os.listdir(at.temporary)}")
            until(lambda: not at_work(at), f"signal {number}: still at work: {at_work(at)}")
    at.surroundings.update(SLOW="0")
    forget_compiled(at)
    at.must("./violstream plan examples/VX0041.run", 0, PLAN)


def at_work(at):
    """The stand-ins, and what they have started, that are still there."""
    found = []
    for number in filter(str.isdigit, os.listdir("/proc")):
        try:
            with open(f"/proc/{number}/cmdline", "rb") as handle:
                words = handle.read()
        except OSError:
            continue
        if at.path("stand-in").encode() in words or at.path("tools/build.sh").encode() in words:
            found.append(words)
    return found


SCRIPTS = ("violstream", "tools/beside.sh", "tools/build.sh", "tools/keep.sh", "tools/machine.sh", "tools/native.sh", "tools/rattle.sh")
# Names that are the caller's to set, and those of the shell itself.
OUTSIDE = {"PATH", "TMPDIR", "DESTDIR", "PREFIX", "RATTLE_HOME", "RT_JOBS", "VIOLSTREAM_SILENCE", "VIOLSTREAM_MAINTAINER", "PIPESTATUS", "SECONDS"}


def names_in(script):
    """The variables that a script reads, and those that it empties before anything else."""
    text = re.sub(r"<< 'TEXT'.*?\nTEXT\n", "", contents(script).decode(), flags=re.S)
    text = re.sub(r"(?m)(?:^|\s)#.*$", "", text)
    emptied = set(re.search(r"(?m)^unset -v ((?:.*\\\n)*.*)", text)[1].replace("\\\n", " ").split())
    text = re.sub(r"\\\$|'\$[a-z]", "", text)
    return set(re.findall(r"\$(?:\{[#!]?|\(\()?([A-Za-z_][A-Za-z_0-9]*)", text)) - OUTSIDE, emptied


def sources():
    """The command's own sources."""
    for folder, _, names in os.walk(os.path.join(programs.ROOT, "command/src")):
        yield from (os.path.relpath(os.path.join(folder, name), programs.ROOT) for name in names)


def linked_anew(at):
    """build ends with the command compiled with the library that it has made; then there is nothing left to do."""
    if not LINKED:
        return
    uncompiled(at)
    for _ in range(2):
        at.must("./violstream build && cmp target/command/linked.a target/staticlib/libviolstream.a", 0, b"", ["violstream: built: what plan, "])
        if all_calls(at).count("compiled") != 2:
            raise Wrong(f"build has called cargo so: {all_calls(at)}")


def surrounded(at):
    """No name of the environment reaches into the command: every one that a script uses is set to something hostile, and all is as without."""
    asked = re.findall(r'env::var(?:_os)?\("(\w+)"\)', "".join(contents(name).decode() for name in sources()))
    if set(asked) - OUTSIDE:
        raise Wrong(f"the command reads {sorted(set(asked) - OUTSIDE)} of the environment")
    names = {"CDPATH"}
    for script in SCRIPTS:
        read, emptied = names_in(script)
        names |= read | emptied
        machine = names_in("tools/machine.sh")[1] if b"/machine.sh\"" in contents(script) else set()
        machine |= names_in("tools/beside.sh")[1] if b"/beside.sh\"" in contents(script) else set()
        machine |= names_in("tools/keep.sh")[1] if b"/keep.sh\"" in contents(script) else set()
        machine |= names_in("tools/rattle.sh")[1] if b"/rattle.sh\"" in contents(script) else set()
        machine |= {"tools/beside.sh": {"here"}, "tools/rattle.sh": {"here"}}.get(script, set())
        if read - emptied - machine:
            raise Wrong(f"{script} reads what it has not emptied first: {sorted(read - emptied - machine)}")
    at.write("month", b"%d\n" % len(RUN) + RUN)
    run, plan = "examples/VX0041.run", "examples/VX0041.plan"
    lines = [f"./violstream plan {run}", "./violstream plan --any examples/mounted.run", f"./violstream field {run}", f"./violstream buys {run}", "./violstream buys --any examples/mounted-3.run", f"./violstream price {run} examples/VX0041.list",
             f"./violstream check {run} {plan}", f"./violstream explain --svg picture {run} && cat picture", f"./violstream rewrite {run}",
             f"./violstream mend {run}", "./violstream month month", f"./violstream ltfs VX0041 {LABEL} {INDEX}",
             "./violstream desk examples/day.run examples/day.events", f"./violstream plan {plan}", f"./violstream ltfs VX0041 {LABEL} /dev/null",
             "./violstream version", "./violstream help", "./violstream", "./violstream nothing", "./violstream build",
             f"rm -rf book && ./violstream record book {run} && ./violstream audit book | head -n 3", "./violstream install /nowhere/../proc/none", f"./violstream install '{at.root}/prefix'", f"./violstream uninstall '{at.root}/prefix'",
             "./violstream completions bash", "tools/edits.py no-such", "tools/native.sh"]
    unbuilt(at)
    os.rename(at.path("kept"), at.path("target.kept"))

    def untimed(said):
        """The lines in any order, and without the seconds that a proof took."""
        return sorted(re.sub(r" proved \(\d+ s\)$", "", line) for line in said.split("\n"))

    def all_lines():
        """What every line gives, from nothing built on."""
        forget_built(at)
        shutil.copytree(at.path("target.kept"), at.path("kept"), dirs_exist_ok=True)
        return [(line, *at.shell(line)) for line in lines]

    must = all_lines()
    canary = at.path("canary")
    os.makedirs(os.path.join(canary, "tools/tools"))
    sleeper = subprocess.Popen(["sleep", str(LIMIT * 10)])
    try:
        for hostile in (canary, str(sleeper.pid), "cat"):
            at.surroundings.update({name: hostile for name in names})
            for clean, now in zip(must, all_lines()):
                if (clean[1], clean[3]) != (now[1], now[3]) or untimed(clean[2]) != untimed(now[2]):
                    raise Wrong(f"with every name set to {hostile!r} {now[0]!r} gives {now[1:]}, and must give {clean[1:]}")
        if not os.path.isdir(os.path.join(canary, "tools/tools")) or os.listdir(canary) != ["tools"]:
            raise Wrong("a folder that a name of the environment holds was changed")
        if sleeper.poll() is not None:
            raise Wrong("a process whose number a name of the environment holds was ended")
    finally:
        sleeper.kill()
        sleeper.wait()


def until(true, otherwise):
    for _ in range(200):
        if true():
            return
        time.sleep(0.05)
    raise Wrong(otherwise)


TESTS = (answers, any_run, every_run, every_run_judged, without_library, fielding, figures, pairs, explained, timed, rewriting, mending, monthly, desk, replaying, statuses, help_and_version, nothing_lost, closed, odd_ends, quick, broken_program, several, ltfs_inputs, words_of_sheets, words_of_damaged_sheets,
         words_of_tapes, keyboard, transcripts, manual, interrupted, orphaned, manners, as_json, installing, packaged, limits, other_user, without_compiler, building, building_fails, building_twice, building_interrupted, beside, failed_once, linked_anew, surrounded)


def built():
    """The command of this checkout is built, where it must be."""
    subprocess.run([os.path.join(programs.ROOT, "violstream"), "version"], check=True, stdout=subprocess.DEVNULL)


def main():
    reader = argparse.ArgumentParser(description=__doc__.split("\n")[0])
    reader.add_argument("--only", choices=[one.__name__ for one in TESTS], help="this test alone")
    only = reader.parse_args().only
    tried = [one for one in TESTS if only in (None, one.__name__)]
    built()
    for one in tried:
        with tempfile.TemporaryDirectory() as folder:
            try:
                one(Checkout(folder))
            except Wrong as wrong:
                sys.exit(f"command.py: {one.__name__}: {wrong}")
    print(f"command.py: the command does what it must; tests: {', '.join(one.__name__ for one in tried)}")


if __name__ == "__main__":
    main()
