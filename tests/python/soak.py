#!/usr/bin/env python3
"""Draws sheets, calls, days, months, lists and tapes for so many minutes, and compares every answer with the models of the other tests.

usage: tests/python/soak.py MINUTES MADE [--cores N] [--seed S]      (tests/soak.sh makes what stands in MADE, and calls this)
       tests/python/soak.py --batch KIND SEED MADE [--share N]       one batch of one kind; --share: an N-th of it
       tests/python/soak.py --short MADE                             every kind, a twentieth of a batch each; and that a wrong answer of each is seen

MADE holds the programs of tests/c and tests/rust by their names, and `bin`, the proved programs. A batch is a process of its own, so that
one that is ended by a signal is a difference too. Its draws go by its seed alone: a difference is told with the words that make it again. SIGTERM, or an
interrupt at the keyboard, ends the whole earlier: what was compared until then is told.
"""
import argparse
import collections
import glob
import json
import os
import random
import re
import shutil
import signal
import subprocess
import sys
import tempfile
import threading
import time

import answer_calls
import buys
import check
import day
import desk_calls
import field
import ltfs
import mend
import month
import pick
import pick_calls
import plan
import programs
import rewrite
from pick_readers import answer as picked, by_tree
from runs import Refused, lists
from sheets import read

NUMBERS = (0, 1, 63, 64, 65, 128, 129, 255, 256, 257, 1023, 1024, 1025, 4096, 4097, 2**32, 2**32 + 1, 2**40 - 1, 2**40, 2**40 + 1, 2**64 - 1, 2**64)
BATCH_LIMIT = 900


# ---- What is drawn

def renumbered(draw, text):
    """A text with one of its numbers changed, most often to one at a limit or beside what it was."""
    found = draw.choice(list(re.finditer(rb"[0-9]+", text)))
    number = draw.choice(NUMBERS + (int(found.group()) + 1, max(0, int(found.group()) - 1)))
    return text[:found.start()] + b"%d" % number + text[found.end():]


def whole_sheet(draw, most=6):
    """A run sheet of few wants, its head right of everything or anywhere."""
    wants = draw.randrange(1, most + 1)
    text = plan.drawn(draw, wants, draw.randrange(wants, 51))
    return check.moved(text, draw.randrange(30 * wants)) if draw.random() < 0.4 else text


def any_sheet(draw, most=6):
    """One of these, whole or damaged."""
    text, kind = whole_sheet(draw, most), draw.random()
    return renumbered(draw, text) if kind < 0.25 else rewrite.damaged(draw, text) if kind < 0.4 else text


def sheet_and_list(draw, as_plan):
    """A run sheet, and a list or a plan sheet for it, one in three damaged."""
    sheet = whole_sheet(draw, 5)
    run = read(sheet)
    files, own = check.named(run)
    formed = list(lists(files, own))
    detours = check.least(sheet) if draw.random() < 0.4 else draw.choice(formed)
    text = check.text_of(run, detours)[0] if as_plan or draw.random() < 0.5 else check.listed(detours)
    if text and draw.random() < 0.3:
        text = draw.choice((renumbered, rewrite.damaged))(draw, text)
    return (any_sheet(draw, 5) if draw.random() < 0.05 else sheet), text


# ---- Batches: each gives how many answers there were, by name, and how many of these were refusals

class Batch:
    def __init__(self, seed, made, share):
        self.seed, self.made, self.share = seed, made, share
        self.draw, self.answers, self.refusals = random.Random(seed), collections.Counter(), collections.Counter()

    def many(self, count):
        return max(1, count // self.share)

    def note(self, name, refused, count=1):
        self.answers[name] += count
        self.refusals[name] += count * bool(refused)

    def caller(self):
        return os.path.join(self.made, "caller")

    def program(self, crate):
        return [os.path.join(self.made, "bin", crate)]

    def hold(self, crate, text, must, errors=None):
        """What a program prints for a text, on standard error too where that is given."""
        done = subprocess.run(self.program(crate), input=text, stdout=subprocess.PIPE, stderr=subprocess.PIPE, timeout=600)
        if done.stdout != must or errors is not None and done.stderr != errors:
            sys.exit(f"{crate}: for\n{text!r}\nit printed\n{done.stdout!r}\n{done.stderr!r}\nand should have printed\n{must!r}\n{errors!r}")
        self.note(crate, must.startswith(b"refused="))


def calls_in_c(batch):
    # Below 100,000 calls: of more it asks that every kind of call is met, which is the gate's affair.
    said = run(batch, "compare_c", "--calls", batch.many(90000), "--seed", batch.seed)
    by_summary(batch, "c/compare", said)
    batch.note("c/compare: on the stops alone", False, number(said, r"(\d+) also against"))


def calls_in_rust(batch):
    said = run(batch, "compare_rust", "--calls", batch.many(60000), "--seed", batch.seed)
    by_summary(batch, "rust/compare", said)
    batch.note("rust/compare: on tables joined", False, number(said, r"(\d+) also against"))


def heads_anywhere(batch):
    said = run(batch, "any_head", "--runs", batch.many(60), "--calls", batch.many(30000), "--seed", batch.seed)
    batch.note("rust/any_head: calls", False, number(said, r"(\d+) calls with the head anywhere"))
    batch.note("rust/any_head: plans against all lists", False, number(said, r"runs at (\d+) head places"))
    batch.note("rust/any_head: lists priced", False, number(said, r"with (\d+) lists priced"))


def all_movements(batch):
    said = run(batch, "movements", "--runs", batch.many(300), "--seed", batch.seed)
    batch.note("rust/movements: plans", False, number(said, r"runs at (\d+) head places"))


def run(batch, program, *words):
    done = subprocess.run([os.path.join(batch.made, program), *map(str, words)], stdout=subprocess.PIPE, stderr=subprocess.PIPE, text=True, timeout=BATCH_LIMIT)
    if done.returncode != 0:
        sys.exit(f"{program} {words}: status {done.returncode}\n{done.stderr}")
    return done.stdout


def number(said, pattern):
    return int(re.search(pattern, said).group(1))


def by_summary(batch, name, said):
    for call in ("price", "plan"):
        batch.note(f"{name}: {call}", False, number(said, call + r" (\d+) accepted"))
        batch.note(f"{name}: {call}", True, number(said, call + r" \d+ accepted(?: \([^)]*\))?, (\d+) refused"))


def calls_for_tickets(batch):
    calls = desk_calls.Calls(batch.caller(), batch.draw)
    for _ in range(batch.many(6000)):
        calls.file()
        calls.withdraw()
    for _ in range(batch.many(500)):
        calls.board()
    for _ in range(batch.many(30)):
        calls.events(40)
    note_met(batch, calls)


def calls_for_sheets(batch):
    draw = batch.draw
    calls = answer_calls.Calls(batch.caller(), draw)
    for _ in range(batch.many(250)):
        sheet = any_sheet(draw, 5)
        must = plan.answer(sheet, True)
        pair = sheet_and_list(draw, True)
        verdict = check.check_answer(*pair)
        mail = mend.drawn(draw) if draw.random() < 0.7 else mend.damaged(draw, mend.drawn(draw))
        mended = answer_calls.mended(mail)
        for _ in range(4):
            calls.answer(sheet, must)
            calls.check(pair, verdict)
            calls.mend(mail, mended)
    note_met(batch, calls)


def calls_for_paths(batch):
    calls = pick_calls.Calls(batch.caller(), batch.draw)
    for cases in (pick.drawn(batch.many(400), batch.seed), pick_calls.large(batch.many(20), batch.seed)):
        for case in cases:
            tape, label, index, listed, blocks, head, turn = case
            must = picked(tape, by_tree, label, index, listed, blocks, head, turn)
            for _ in range(3):
                calls.pick(case, must)
    note_met(batch, calls)


def note_met(batch, calls):
    calls.close()
    for (call, refusal), times in calls.met.items():
        batch.note("violstream_" + call, refusal != 0, times)


def plans(batch):
    for _ in range(batch.many(600)):
        sheet = any_sheet(batch.draw)
        batch.hold("cmd_plan", sheet, plan.answer(sheet))
        batch.hold("cmd_plan_any", sheet, plan.answer(sheet, True))


def fields(batch):
    for _ in range(batch.many(900)):
        sheet = any_sheet(batch.draw)
        batch.hold("cmd_field", sheet, field.answer(sheet))


def figures(batch):
    for _ in range(batch.many(500)):
        sheet = any_sheet(batch.draw, 5)
        batch.hold("cmd_buys", sheet, buys.answer(sheet, False)[0])
        batch.hold("cmd_buys_any", sheet, buys.answer(sheet, True)[0])


def prices(batch):
    for _ in range(batch.many(900)):
        pair = sheet_and_list(batch.draw, False)
        batch.hold("cmd_price", check.framed(*pair), check.price_answer(*pair))


def checks(batch):
    for _ in range(batch.many(900)):
        pair = sheet_and_list(batch.draw, True)
        batch.hold("cmd_check", check.framed(*pair), check.check_answer(*pair))


def rewritten(batch):
    draw = batch.draw
    for _ in range(batch.many(2000)):
        sheet = rewrite.drawn(draw) if draw.random() < 0.5 else rewrite.damaged(draw, rewrite.drawn(draw))
        batch.hold("cmd_rewrite", sheet, rewrite.answer(sheet))


def mended(batch):
    draw = batch.draw
    for _ in range(batch.many(2000)):
        sheet = mend.drawn(draw) if draw.random() < 0.6 else mend.damaged(draw, mend.drawn(draw))
        batch.hold("cmd_mend", sheet, *mend.answer(sheet))


def months(batch):
    draw = batch.draw
    pool = [any_sheet(draw) for _ in range(batch.many(120))] + list(month.refused())
    for _ in range(batch.many(300)):
        text = month.framed(*(draw.choice(pool) for _ in range(draw.choice((0, 1, 5, 30, 90)))))
        if text and draw.random() < 0.2:
            text = draw.choice((renumbered, rewrite.damaged))(draw, text)
        batch.hold("cmd_month", text, month.page(text))


def days(batch):
    """An answer is that to an event; the days are counted too."""
    for _ in range(batch.many(150)):
        met, text = {}, day.drawn_day(batch.draw, batch.draw.randrange(10, 70))
        batch.hold("cmd_desk", text, day.model(text, met))
        for kind, times in met.items():
            batch.note("cmd_desk: events", "refused" in kind, times)


def tapes(batch):
    met = {}
    count = ltfs.compare(batch.program("cmd_ltfs"), ltfs.generated(batch.many(700), batch.seed), met)
    batch.note("cmd_ltfs", True, count - met.get(0, 0))
    batch.note("cmd_ltfs", False, met.get(0, 0))


KINDS = {function.__name__: function for function in (
    calls_in_c, calls_in_rust, heads_anywhere, all_movements, calls_for_tickets, calls_for_sheets, calls_for_paths, plans, fields, figures, prices, checks, rewritten, mended, months, days, tapes)}
OF_C_AND_RUST = tuple(KINDS)[:4]
# Half of the batches are calls in C and Rust, which give most answers in a second.
TURNS = [kind for i, one in enumerate(tuple(KINDS)[4:]) for kind in (one, OF_C_AND_RUST[i % 4])]


def one_batch(kind, seed, made, share):
    """In a process of its own: the counts as a line of JSON."""
    batch = Batch(seed, made, share)
    with tempfile.TemporaryDirectory() as folder:
        os.chdir(folder)  # where a model keeps what differs
        KINDS[kind](batch)
    print(json.dumps([batch.answers, batch.refusals]))


# ---- All batches

class Soak:
    def __init__(self, made, seed, share=1):
        self.made, self.seed, self.share = made, seed, share
        self.lock, self.batches, self.differences, self.until = threading.Lock(), 0, 0, 0
        self.answers, self.refusals = collections.Counter(), collections.Counter()

    def words(self, kind, seed, made):
        return ["--batch", kind, str(seed), made] + ["--share", str(self.share)] * (self.share > 1)

    def batch(self, kind, seed):
        done = subprocess.run([sys.executable, os.path.abspath(__file__), *self.words(kind, seed, self.made)], stdout=subprocess.PIPE, stderr=subprocess.PIPE, text=True, start_new_session=True)
        with self.lock:
            if done.returncode != 0:
                self.differences += 1
                again = " ".join(self.words(kind, seed, "MADE"))
                print(f"soak.py: DIFFERENCE in {kind}, seed {seed}, status {done.returncode}; again: tests/python/soak.py {again}\n{done.stderr[-3000:]}", flush=True)
                return
            answers, refusals = json.loads(done.stdout)
            self.batches += 1
            self.answers.update(answers)
            self.refusals.update(refusals)

    def lane(self, taken):
        """Batches, one after the other, until the time is over."""
        while time.monotonic() < self.until:
            with self.lock:
                turn = next(taken)
            self.batch(TURNS[turn % len(TURNS)], self.seed + turn)

    def table(self):
        print(f"{'kind':<42} {'answers':>12} {'refusals':>12}")
        for name in sorted(self.answers):
            print(f"{name:<42} {self.answers[name]:>12,} {self.refusals[name]:>12,}")
        print(f"{'in all':<42} {sum(self.answers.values()):>12,} {sum(self.refusals.values()):>12,}")


def soak(minutes, made, cores, seed):
    began, all_of_it, taken = time.monotonic(), Soak(made, seed), iter(range(10**9))
    all_of_it.until = began + 60 * minutes

    def end(*_):
        all_of_it.until = 0  # the batches that have begun are counted still
    signal.signal(signal.SIGTERM, end)
    signal.signal(signal.SIGINT, end)
    lanes = [threading.Thread(target=all_of_it.lane, args=(taken,)) for _ in range(cores)]
    for lane in lanes:
        lane.start()
    for lane in lanes:
        lane.join()
    all_of_it.table()
    print(f"soak.py: {all_of_it.batches} batches in {(time.monotonic() - began) / 60:.1f} minutes on {cores} cores, seed {seed}; differences: {all_of_it.differences}")
    return all_of_it.differences


def planted(made, folder):
    """What stands in MADE, with wrong answers: programs that print what they read, calls that do nothing."""
    os.makedirs(os.path.join(folder, "bin"))
    for crate in os.listdir(os.path.join(made, "bin")):
        os.symlink("/bin/cat", os.path.join(folder, "bin", crate))
    calls = re.findall(r"^uint64_t (violstream_\w+)\(", open(os.path.join(programs.ROOT, "include/violstream.h"), encoding="utf-8").read(), re.M)
    source = "".join(f"unsigned long {call}(void) {{ return 0; }}\n" for call in calls)
    own = glob.glob(os.path.join(programs.ROOT, "tests/c/caller/*.c"))
    subprocess.run([os.environ.get("CC", "cc"), "-I", os.path.join(programs.ROOT, "include"), *own, "-x", "c", "-", "-o", os.path.join(folder, "caller")], input=source.encode(), check=True)
    for name in ("compare_c", "compare_rust", "any_head", "movements"):
        shutil.copy("/bin/false", os.path.join(folder, name))


def short(made):
    right = Soak(made, 1, 20)
    for kind in KINDS:
        right.batch(kind, right.seed)
    with tempfile.TemporaryDirectory() as folder:
        planted(made, folder)
        for kind in KINDS:
            done = subprocess.run([sys.executable, os.path.abspath(__file__), *right.words(kind, 1, folder)], stdout=subprocess.DEVNULL, stderr=subprocess.PIPE, text=True)
            if done.returncode == 0:
                sys.exit(f"soak.py: {kind} does not see a wrong answer")
    if right.differences:
        sys.exit(1)
    print(f"soak.py: {sum(right.answers.values())} answers of {len(KINDS)} kinds as they must be, and a wrong one of each kind is seen")


def main():
    reader = argparse.ArgumentParser(description=__doc__.split("\n")[0])
    reader.add_argument("words", nargs="*", help="MINUTES MADE; with --batch and --short MADE alone")
    reader.add_argument("--batch", nargs=2, metavar=("KIND", "SEED"))
    reader.add_argument("--short", action="store_true")
    reader.add_argument("--share", type=int, default=1, metavar="N")
    reader.add_argument("--cores", type=int, default=os.cpu_count(), metavar="N")
    reader.add_argument("--seed", type=int, default=int(time.time()), metavar="S", help="default: the clock's")
    given = reader.parse_args()
    made = os.path.abspath(given.words[-1])
    if given.batch:
        one_batch(given.batch[0], int(given.batch[1]), made, given.share)
    elif given.short:
        short(made)
    else:
        sys.exit(1 if soak(float(given.words[0]), made, given.cores, given.seed) else 0)


if __name__ == "__main__":
    main()
