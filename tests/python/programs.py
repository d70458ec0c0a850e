"""For the comparisons: programs as rt builds them and as this machine starts them."""
import argparse
import os
import subprocess
import sys
import time

ROOT = os.path.dirname(os.path.dirname(os.path.dirname(os.path.abspath(__file__))))
MACHINE = os.path.join(ROOT, "tools/machine.sh")


def arguments(about, crate):
    """A reader of arguments, with those that every comparison of a program takes."""
    reader = argparse.ArgumentParser(description=about)
    reader.add_argument("program", metavar="PROGRAM", nargs="?", default=os.path.join(ROOT, "target/bin", crate),
                        help=f"default target/bin/{crate}, which 'tools/build.sh check {crate}' makes")
    reader.add_argument("--native", action="store_true", help="PROGRAM was made by tools/native.sh, for this machine's own processor")
    reader.add_argument("--time", action="store_true", help="say how long one call takes, and compare nothing")
    return reader


def started(words):
    """The words that start the program of these arguments: on x86-64 its name alone."""
    if not os.path.exists(words.program):
        sys.exit(f"{sys.argv[0]}: no program {words.program}; --help says what makes it")
    if words.native:
        return [words.program]
    found = subprocess.run(["sh", "-c", '. "$0" && starter', MACHINE], stdout=subprocess.PIPE, text=True)
    if found.returncode != 0:
        sys.exit(f"{sys.argv[0]}: the program cannot be started on this machine, as said above")
    return found.stdout.splitlines() + [words.program]


def say_if_emulated(start):
    if len(start) > 1:
        print("EMULATED: the times below say nothing of the program on x86-64.")


def timed(start, sheet, calls=300):
    """How long a call takes that reads this; a sheet of no bytes is the one that is refused."""
    taken = []
    for _ in range(calls):
        began = time.perf_counter()
        out = subprocess.run(start, input=sheet, capture_output=True).stdout
        taken.append(1000 * (time.perf_counter() - began))
        if out.startswith(b"refused") != (sheet == b""):
            sys.exit(f"{sys.argv[0]}: the program printed {out!r}")
    taken.sort()
    return f"best {taken[0]:.2f} ms, median {taken[calls // 2]:.2f} ms of {calls} calls"


def tried(about, crate, compare, sheets):
    """The comparison of a program, or with --time how long it takes for sheets, each behind its name."""
    words = arguments(about.split("\n")[0], crate).parse_args()
    start = started(words)
    if not words.time:
        compare(start)
        return
    say_if_emulated(start)
    for name, sheet in sheets:
        print(f"{name} ({len(sheet)} bytes): {timed(start, sheet)}")


def recorded(about, crate, text):
    """Compares a text with the one that the gate holds a program to, crates/CRATE/stdout; or with --print prints it, and does no more."""
    reader = argparse.ArgumentParser(description=about.split("\n")[0])
    reader.add_argument("--print", action="store_true", help="print the text, and compare nothing")
    if reader.parse_args().print:
        sys.stdout.write(text)
        sys.exit()
    path = os.path.join(ROOT, "crates", crate, "stdout")
    with open(path, encoding="utf-8") as handle:
        held = handle.read()
    for i, (must, stands) in enumerate(zip(text.split("\n"), held.split("\n")), 1):
        if must != stands:
            sys.exit(f"{sys.argv[0]}: line {i} of {path} is {stands!r} and must be {must!r}")
    if held != text:
        sys.exit(f"{sys.argv[0]}: {path} has not as many lines as it must have")
