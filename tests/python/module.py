#!/usr/bin/env python3
"""Tries the module for Python, python/violstream.py: every function on the examples of the checkout and of violstream.h, every kind of refusal, several threads at once.

usage: tests/python/module.py LIBRARY [FOLDER]    (a libviolstream.so that this machine's own processor can load; the folder of violstream.py, default python/)

With FOLDER the module finds the library by itself, as it does where both were installed, and LIBRARY must be the one that it finds.
"""
import dataclasses
import inspect
import os
import re
import sys
import threading

ROOT = os.path.join(os.path.dirname(os.path.abspath(__file__)), "../..")
if len(sys.argv) not in (2, 3):
    sys.exit(__doc__)
if len(sys.argv) == 2:
    os.environ["VIOLSTREAM_LIBRARY"] = sys.argv[1]
else:
    os.environ.pop("VIOLSTREAM_LIBRARY", None)
sys.dont_write_bytecode = True
sys.path.insert(0, sys.argv[2] if len(sys.argv) == 3 else os.path.join(ROOT, "python"))
import violstream  # noqa: E402
from violstream import Boarding, Closed, Desk, Plan, Refused, Run, Tape, Ticket  # noqa: E402


def contents(name):
    with open(os.path.join(ROOT, "examples", name), "rb") as file:
        return file.read()


def must(what, found, expected):
    if found != expected:
        sys.exit(f"module.py: {what} gives\n{found!r}\nand must give\n{expected!r}")


def refused(what, number, place, call, *words):
    try:
        found = call(*words)
    except Refused as refusal:
        must(what, (refusal.number, refusal.place, refusal.words, str(refusal)), (number, place, violstream.reason(number), f"{number} at {place}: {violstream.reason(number)}"))
        return
    sys.exit(f"module.py: {what} is not refused, and gives {found!r}")


def runs():
    tape = Tape([0, 10, 16, 20], [10, 4, 4, 30], [0, 7, 7, 0])
    run = Run(tape, {1: 1, 3: 3, 4: 1}, head=60, turn=1)
    best = Plan(409, 133, 50, ((2, 2),), {1: 93, 3: 61, 4: 133}, {1: 2, 3: 1, 4: 2})
    for anywhere in (False, True):
        must("plan", violstream.plan(run, anywhere), best)
        must("price", violstream.price(run, [(2, 2)], anywhere), best)
    without = dataclasses.replace(tape, aggregates=None)
    must("plan without aggregates", violstream.plan(dataclasses.replace(run, tape=without)).sum, 349)
    left = dataclasses.replace(run, head=0)
    refused("plan of a head too far left", 7, 0, violstream.plan, left)
    must("plan of a head anywhere", violstream.plan(left, anywhere=True).detours, ())
    refused("price of another list", 10, 1, violstream.price, run, [(3, 3)])
    refused("plan of 65 wants", 3, 0, violstream.plan, dataclasses.replace(run, wants={n: 1 for n in range(1, 66)}))
    refused("plan of too many reads", 5, 0, violstream.plan, dataclasses.replace(run, wants={1: 1025}))
    refused("plan of file 9", 4, 2, violstream.plan, dataclasses.replace(run, wants={1: 1, 9: 1}))
    must("plan without wants", violstream.plan(dataclasses.replace(run, wants={})), Plan(0, 0, 60, (), {}, {}))
    for wrong in (-1, 2**64, 1.5, "1"):
        try:
            violstream.plan(dataclasses.replace(run, head=wrong))
            sys.exit(f"module.py: a head at {wrong!r} is taken")
        except ValueError:
            pass


def sheets():
    sheet, plan = contents("VX0041.run"), contents("VX0041.plan")
    must("answer", violstream.answer(sheet), plan)
    must("buys", violstream.buys(sheet), b"tape=VX0041\nsum=367\ndetours=1\nbuys=2,2,40\n")
    must("check", violstream.check(sheet, plan), b"formed=yes\nwalk=yes\nleast=yes\n")
    must("check of a damaged plan", violstream.check(sheet, contents("VX0041-damaged.plan")).split(b"\n")[1][:8], b"walk=no,")
    refused("answer of no sheet", 11, 1, violstream.answer, b"x\n")
    refused("figures of no sheet", 11, 1, violstream.buys, b"x\n")
    refused("check of a long plan", 12, 0, violstream.check, sheet, b"x" * 16385)
    refused("answer by the retired rule", 19, 4, violstream.answer, contents("retired-rule.run"))
    must("mend of a good sheet", violstream.mend(sheet), violstream.Mended(sheet, b""))
    mended = violstream.mend(contents("retired-rule.run"))
    must("changes", mended.changes.split(b"\n")[0], b"change=4,rule")
    if not violstream.answer(mended.sheet).startswith(b"tape="):
        sys.exit("module.py: a mended sheet has no plan")
    refused("mend of no sheet", 11, 1, violstream.mend, b"x\n")


def paths():
    """As in violstream.h; in blocks, with a head and a price; and each refusal that violstream_pick alone has."""
    label = b"<ltfslabel><partitions><index>a</index><data>b</data></partitions><blocksize>10</blocksize></ltfslabel>"

    def file(name, block, count, partition=b"b"):
        extent = b"<partition>%s</partition><startblock>%d</startblock><byteoffset>0</byteoffset><bytecount>%d</bytecount>" % (partition, block, count)
        return b"<file><name>%s</name><extentinfo><extent>%s</extent></extentinfo></file>" % (name, extent)

    inside = file(b"a.dpx", 4, 25) + file(b"b.dpx", 9, 10) + file(b"none", 9, 0) + file(b"high", 2**40, 1)
    index = (b"<ltfsindex><volumeuuid>1</volumeuuid><directory><name>VX0041</name><contents><directory><name>reel 1</name><contents>%s</contents></directory>"
             b"</contents></directory></ltfsindex>" % inside)
    asked = b"reel 1/b.dpx\nreel 1/a.dpx\n/reel 1/b.dpx\n"
    sheet, names = b"tape=VX0041\nhead=%d\nturn=%d\nrule=least\nfiles=2\n%swants=2\nwant=1,1\nwant=2,2\n", b"name=1,1,reel 1/a.dpx\nname=2,2,reel 1/b.dpx\n"
    must("pick", violstream.pick(b"VX0041", label, index, asked, head=0), (sheet % (0, 12000, b"file=40,25,0\nfile=90,10,0\n"), names))
    must("pick in blocks", violstream.pick(b"VX0041", label, index, asked, True, turn=7), (sheet % (10, 7, b"file=4,3,0\nfile=9,1,0\n"), names))
    must("the plan of a picked sheet", violstream.answer(violstream.pick(b"VX0041", label, index, asked, head=0)[0])[:12], b"tape=VX0041\n")
    refused("pick for no tape name", 13, 0, violstream.pick, b"vx", label, index, asked)
    refused("pick without a label", 20, 0, violstream.pick, b"VX0041", b"", index, asked)
    other = label.replace(b"<ltfslabel>", b"<ltfslabel><volumeuuid>2</volumeuuid>")
    refused("pick of another volume", 44, 0, violstream.pick, b"VX0041", other, index, asked)
    refused("pick of no path", 11, 4, violstream.pick, b"VX0041", label, index, asked + b"a//b\n")
    refused("pick of too many reads", 5, 0, violstream.pick, b"VX0041", label, index, b"x\n" * 1025)
    refused("pick of no file", 41, 4, violstream.pick, b"VX0041", label, index, asked + b"reel 1/c.dpx\n")
    refused("pick of no bytes", 42, 4, violstream.pick, b"VX0041", label, index, asked + b"reel 1/none\n")
    refused("pick of a high file", 23, 4, violstream.pick, b"VX0041", label, index, asked + b"reel 1/high\n")
    many = b"".join(file(b"%d" % i, 2 * i, 1) for i in range(65))
    index = b"<ltfsindex><directory><contents>%s</contents></directory></ltfsindex>" % many
    refused("pick of 65 entries", 3, 0, violstream.pick, b"VX0041", label, index, b"".join(b"%d\n" % i for i in range(65)))


def tickets():
    tape = Tape([0, 10, 14, 20, 30, 45], [10, 4, 2, 5, 10, 5], [0, 7, 7, 0, 0, 0])
    desk, said = Desk(tape), b""
    for line in contents("day.events").splitlines(keepends=True):
        try:
            said += desk.event(line)
        except Refused as refusal:
            said += b"refused=%d\nplace=%d\n" % (refusal.number, refusal.place)
    must("a day of events", said + b"waiting=0,0\n", contents("day.answers"))
    refused("an event that is none", 11, 0, desk.event, b"waiting\n")
    desk = Desk(tape)
    must("file", [desk.file(1, 3, 2), desk.file(2, 5, 4), desk.file(2, 6)], [Ticket(1, 3, 2, 1), Ticket(2, 5, 4, 1), Ticket(2, 6, 1, 2)])
    refused("file of file 7", 15, 0, desk.file, 1, 7)
    desk.withdraw(2, 1)
    refused("withdraw again", 17, 0, desk.withdraw, 2, 1)
    must("who waits", desk.who_waits(), b"waits=1,1,3,2,0,1\nwaits=2,2,6,1,0,1\nwaiting=1,1\n")
    kept = Desk(tape, list(desk.waiting), desk.lasts)
    refused("board of a head too far left", 7, 0, desk.board, 10, 1)
    must("the desk after a refusal", desk, kept)
    plan = violstream.plan(Run(tape, {3: 2, 6: 1}, 70, 3))
    left = tuple(Closed(ticket, plan.times[ticket.file], plan.legs[ticket.file]) for ticket in kept.waiting)
    must("board", desk.board(70, 3), Boarding(left, plan))
    must("the desk after a boarding", desk, Desk(tape, [], (1, 2)))
    must("board of nobody", desk.board(70, 3), Boarding((), Plan(0, 0, 70, (), {}, {})))
    full = Desk(tape, [Ticket(1, 1, 1, n + 1) for n in range(16)], (16, 0))
    refused("file at a full office", 16, 0, full.file, 1, 1)
    refused("file behind the last number", 18, 0, Desk(tape, [], (65535, 0)).file, 1, 1)
    refused("a table that is none", 26, 1, Desk(tape, [Ticket(1, 1, 1, 5)], (4, 0)).withdraw, 1, 5)
    refused("17 tickets of an office", 26, 16, Desk(tape, [Ticket(1, 1, 1, n + 1) for n in range(17)], (17, 0)).who_waits)


def same_words():
    """The words of a refusal, and every name with its type and its sentence."""
    with open(os.path.join(ROOT, "include/violstream.h"), encoding="utf-8") as file:
        header = file.read()
    numbers = dict(re.findall(r"^    VIOLSTREAM_(\w+) = (\d+),? ", header, re.M))
    told = {int(numbers[name]): words for name, words in re.findall(r"case VIOLSTREAM_(\w+):\s+return \"([^\"]+)\";", header) if name != "ACCEPTED"}
    must("the words of refusals", {n: violstream.reason(n) for n in told}, told)
    for name in violstream.__all__:
        thing = getattr(violstream, name)
        if not thing.__doc__:
            sys.exit(f"module.py: {name} has no docstring")
        for function in [thing] if inspect.isfunction(thing) else [part for _, part in inspect.getmembers(thing, inspect.isfunction) if not part.__name__.startswith("_")]:
            types = inspect.signature(function)
            if types.return_annotation is inspect.Signature.empty or any(p.annotation is p.empty and p.name != "self" for p in types.parameters.values()):
                sys.exit(f"module.py: {name}.{function.__name__} has a parameter without a type")


def at_once():
    """Threads with a desk and a room of their own."""
    wrong = []

    def work():
        try:
            for _ in range(3):
                runs()
                sheets()
                paths()
                tickets()
        except BaseException as error:  # a thread's own end is not the test's
            wrong.append(error)

    threads = [threading.Thread(target=work) for _ in range(3)]
    for thread in threads:
        thread.start()
    for thread in threads:
        thread.join()
    if wrong:
        sys.exit(f"module.py: in a thread: {wrong[0]}")


def main():
    must("version", violstream.version(), (4, 0, 0))
    if len(sys.argv) == 3 and not os.path.samefile(next(iter(violstream._names())), sys.argv[1]):
        sys.exit("module.py: the module does not find the library that was installed with it")
    runs()
    sheets()
    paths()
    tickets()
    same_words()
    at_once()
    print("module.py: every call of the module for Python as it must be")


if __name__ == "__main__":
    main()
