#!/usr/bin/env python3
"""Writes an LTFS index of many files (schema 2.4, all times, as the drives' software writes it) and a list of paths, for bench/index/run.sh.

usage: bench/index/make.py INDEX LIST [--files N] [--lines N] [--wanted N] [--indent N]

N files (default 100,000) in folders three deep, each with its five times, its uid and one extent, every tenth with an extended attribute and every
twentieth with a second extent. --indent N: so many blanks for each element around a line (default 0: all on one line). The list asks for N of the files
(default 1,000), spread over the index; with --wanted so many different files, the lines of which are then asked for again and again. The same bytes each time.
"""
import argparse
import random


def stamp(r):
    return "20%02d-%02d-%02dT%02d:%02d:%02d.%09dZ" % (r.randint(18, 25), r.randint(1, 12), r.randint(1, 28), r.randint(0, 23), r.randint(0, 59), r.randint(0, 59), r.randint(0, 999999999))


def times(r):
    return [(name, stamp(r)) for name in ("creationtime", "changetime", "modifytime", "accesstime", "backuptime")]


class Writer:
    """Elements to a file, each on a line of its own if there is an indent."""

    def __init__(self, out, indent):
        self.out, self.indent, self.depth = out, indent, 0

    def line(self, text):
        self.out.write(" " * (self.indent * self.depth) + text + "\n" if self.indent else text)

    def value(self, name, text):
        self.line(f"<{name}>{text}</{name}>")

    def open(self, name):
        self.line(f"<{name}>")
        self.depth += 1

    def close(self, name):
        self.depth -= 1
        self.line(f"</{name}>")


def write_file(w, r, uid, name, block):
    sizes = [r.randint(1, 1 << 22) for _ in range(2 if uid % 20 == 0 else 1)]
    w.open("file")
    w.value("name", name)
    w.value("length", sum(sizes))
    w.value("readonly", "false")
    w.value("openforwrite", "false")
    for key, text in times(r):
        w.value(key, text)
    w.value("fileuid", uid)
    if uid % 10 == 0:
        w.open("extendedattributes")
        w.open("xattr")
        w.value("key", "ltfs.hash.sha256sum")
        w.line('<value type="text">%064x</value>' % r.getrandbits(256))
        w.close("xattr")
        w.close("extendedattributes")
    w.open("extentinfo")
    at = 0
    for size in sizes:
        w.open("extent")
        for key, text in (("fileoffset", at), ("partition", "b"), ("startblock", block), ("byteoffset", 0), ("bytecount", size)):
            w.value(key, text)
        w.close("extent")
        at, block = at + size, block + (size + 524287) // 524288
    w.close("extentinfo")
    w.close("file")
    return block


def open_directory(w, r, uid, name):
    w.open("directory")
    w.value("name", name)
    w.value("readonly", "false")
    for key, text in times(r):
        w.value(key, text)
    w.value("fileuid", uid)
    w.open("contents")


def close_directory(w):
    w.close("contents")
    w.close("directory")


def write_index(w, r, files):
    """The index; all paths are returned."""
    paths, uid, block = [], 1, 6
    w.out.write('<?xml version="1.0" encoding="UTF-8"?>\n')
    w.open('ltfsindex version="2.4.0"')
    w.value("creator", "IBM LTFS 2.4.4.0 - Linux - ltfs")
    w.value("volumeuuid", "5d217f76-53e6-4d6f-91d1-c4213d94a742")
    w.value("generationnumber", 3)
    w.value("updatetime", stamp(r))
    for name, partition, start in (("location", "a", 6), ("previousgenerationlocation", "b", 30)):
        w.open(name)
        w.value("partition", partition)
        w.value("startblock", start)
        w.close(name)
    w.value("allowpolicyupdate", "true")
    w.value("volumelockstate", "unlocked")
    w.value("highestfileuid", 2 * files)
    open_directory(w, r, uid, "VX0041")
    while len(paths) < files:
        top = "project-%04d" % (len(paths) // 2000)
        uid += 1
        open_directory(w, r, uid, top)
        for part in range(20):
            shots = "%s_day_%02d" % (r.choice(["rushes", "sound", "masters", "stills"]), part)
            uid += 1
            open_directory(w, r, uid, shots)
            for _ in range(min(100, files - len(paths))):
                uid += 1
                name = "clip%06d_%s.%s" % (uid, r.choice(["A", "B", "cam-one", "take&amp;retake"]), r.choice(["mxf", "wav", "mov", "dpx"]))
                paths.append("/".join((top, shots, name.replace("&amp;", "&"))))
                block = write_file(w, r, uid, name, block)
            close_directory(w)
        close_directory(w)
    close_directory(w)
    w.depth -= 1
    w.line("</ltfsindex>")
    return paths


def main():
    words = argparse.ArgumentParser(usage=__doc__)
    words.add_argument("index")
    words.add_argument("list")
    words.add_argument("--files", type=int, default=100000)
    words.add_argument("--lines", type=int, default=1000)
    words.add_argument("--wanted", type=int)
    words.add_argument("--indent", type=int, default=0)
    words = words.parse_args()
    r = random.Random(2024)
    with open(words.index, "w", encoding="utf-8", newline="\n") as out:
        paths = write_index(Writer(out, words.indent), r, words.files)
    wanted = r.sample(paths, min(words.wanted or words.lines, len(paths)))
    with open(words.list, "w", encoding="utf-8", newline="\n") as out:
        out.writelines(wanted[line % len(wanted)] + "\n" for line in range(min(words.lines, len(paths))))


main()
