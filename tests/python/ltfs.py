#!/usr/bin/env python3
"""Runs the program behind `./violstream ltfs` on whole and damaged labels and indexes and compares every byte it prints with an answer worked out here.

usage: tests/python/ltfs.py [--cases N] [PROGRAM]    (default target/bin/cmd_ltfs, 4,000 generated cases beside the fixed ones)
       tests/python/ltfs.py --time [PROGRAM]         how long one call takes, at three sizes of the index
       tests/python/ltfs.py --native ... PROGRAM     the program was made by tools/native.sh, for this machine's own processor
       tests/python/ltfs.py --examples [PROGRAM]     the pairs of examples/ltfs alone

The answers are those of ltfs_readers.py, the cases those of ltfs_cases.py.
"""
import os
import random
import subprocess
import time

import programs
from ltfs_cases import damaged, fixed, pair, simple_label
from ltfs_readers import expat_tree, expected, framed, table, tree


def full_index(files, padding):
    rows = []
    for i in range(files):
        rows.append(b"""                <file><name>clip%04d.mxf</name><length>10485760</length><readonly>false</readonly>
                    <creationtime>2024-05-01T10:00:00.000000000Z</creationtime><changetime>2024-05-01T10:00:00.000000000Z</changetime>
                    <modifytime>2024-05-01T10:00:00.000000000Z</modifytime><accesstime>2024-05-01T10:00:00.000000000Z</accesstime>
                    <backuptime>2024-05-01T10:00:00.000000000Z</backuptime><fileuid>%d</fileuid>
                    <extendedattributes><xattr><key>k</key><value type="text">%s</value></xattr></extendedattributes>
                    <extentinfo><extent><fileoffset>0</fileoffset><partition>b</partition><startblock>%d</startblock><byteoffset>0</byteoffset><bytecount>10485760</bytecount></extent></extentinfo></file>
""" % (i, i, b"v" * padding, (i * 37 % files) * 20 + 4))
    return b"<ltfsindex version='2.4.0'><directory><name>A</name><contents>\n" + b"".join(rows) + b"</contents></directory></ltfsindex>\n"


def run(program, text):
    done = subprocess.run(program, input=text, stdout=subprocess.PIPE, stderr=subprocess.PIPE)
    return done.stdout, done.stderr


def examples():
    folder = os.path.join(programs.ROOT, "examples/ltfs")
    for name in sorted(os.listdir(folder)):
        if name.endswith(".label.xml"):
            stem = os.path.join(folder, name[:-len(".label.xml")])
            label, index = open(stem + ".label.xml", "rb").read(), open(stem + ".index.xml", "rb").read()
            if not expat_tree(label) or not expat_tree(index):
                raise SystemExit(f"{stem}: no well-formed XML")
            if table(expat_tree(label), expat_tree(index)) != table(tree(label), tree(index)):
                raise SystemExit(f"{stem}: the two readers of ltfs_readers.py differ")
            written, report = expected(framed(os.path.basename(stem).encode(), label, index), {})
            if written != open(stem + ".run", "rb").read() or report != open(stem + ".report", "rb").read():
                raise SystemExit(f"{stem}: the stored sheet and report are not what its label and index say")
            yield framed(os.path.basename(stem).encode(), label, index)


def compare(program, texts, met):
    count = 0
    for text in texts:
        wanted = expected(text, met)
        found = run(program, text)
        if found != wanted:
            with open("ltfs-differs.in", "wb") as kept:
                kept.write(text)
            raise SystemExit(f"ltfs: case {count} (kept as ltfs-differs.in): expected {wanted}, found {found}")
        count += 1
    return count


def generated(cases, seed=20919):
    r = random.Random(seed)
    for i in range(cases):
        label, index = pair(r)
        if i % 2:
            label, index = (damaged(r, label), index) if r.random() < 0.25 else (label, damaged(r, index))
        yield framed(r.choice([b"VX0041", b"A"]), label, index)


def print_times(start):
    programs.say_if_emulated(start)
    for files, padding in ((128, 300), (256, 300), (256, 1100)):
        text = framed(b"A", simple_label(524288), full_index(files, padding))
        run(start, text)
        began = time.perf_counter()
        for _ in range(20):
            run(start, text)
        spent = (time.perf_counter() - began) / 20
        print(f"{files} files, {len(text)} bytes: {spent * 1000:.1f} ms a call, the start of the program included")


def main():
    reader = programs.arguments(__doc__.split("\n")[0], "cmd_ltfs")
    reader.add_argument("--cases", metavar="N", type=int, default=4000, help="generated cases beside the fixed ones (default 4000)")
    reader.add_argument("--examples", action="store_true", help="the pairs of examples/ltfs alone")
    words = reader.parse_args()
    start = programs.started(words)
    if words.time:
        print_times(start)
        return
    met = {}
    count = compare(start, examples(), met)
    if not words.examples:
        count += compare(start, fixed(), met)
        count += compare(start, generated(words.cases), met)
        for number in (0, 13, 20, 21, 22, 23, "by both"):
            if not met.get(number):
                raise SystemExit(f"ltfs: no case met {number}")
    print(f"ltfs: {count} cases as expected; met " + ", ".join(f"{key}: {met[key]}" for key in sorted(met, key=str)))


if __name__ == "__main__":
    main()
