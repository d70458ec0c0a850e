#!/usr/bin/env python3
"""Sees to it that what an auditor must believe stays short, stands apart from proofs, has one meaning to a name, and is all named in AUDIT.

usage: tests/python/reading.py

Fails where tools/reading.py counts 500 lines or more for demands 1 to 3; where that reading passes through a file Private, which holds what no
statement cites; where a file of demands/specs or promises/specs holds a proof and not statements alone; where two public files of specs/, of
any crates, define one name; where a word that some statement or the contract of a public function rests on is neither in AUDIT's tables of what a
statement says by conditions nor in its list of what must be read; where a word stands there that neither rests on, that stands in both, or that the
statements beside it do not cite; where the list misstates its lines; and where a public function asks something of its caller, which AUDIT says that none does (R58).

So that a reader that sees nothing does not pass, each of these is then planted in a copy, and must be found.
"""
import collections
import glob
import os
import re
import shutil
import sys
import tempfile

import programs

sys.path.insert(0, os.path.join(programs.ROOT, "tools"))
import reading  # noqa: E402

MOST = 500
STATEMENTS = ("crates/demands/specs", "crates/promises/specs")
PRIVATE = re.compile(r"/specs/Private[/.]")
# A law: a name and its type, with nothing before them that makes it a definition; and the words that proofs are made of.
LAW = re.compile(r"^(?:pub )?([\w'-]+) :")
PROVES = re.compile(r"\b(refl|rw|omega|search|absurd|subst|sym|tt|proofs)\b")


def too_long():
    lines = sum(reading.counted(reading.reading()).values())
    return [f"demands 1 to 3 ask for {lines} lines, and {MOST} are too many"] if lines >= MOST else []


def through_private():
    return [f"the reading passes through {path}: {', '.join(sorted(names))}" for path, names in reading.reading().items() if PRIVATE.search(path)]


def proofs_among_statements():
    found = []
    for path in sorted(path for folder in STATEMENTS for path in glob.glob(f"{folder}/**/*.antt", recursive=True)):
        for at, line in enumerate(open(path, encoding="utf-8"), 1):
            if not line.startswith("--") and (LAW.match(line) or PROVES.search(line) or line.startswith("module")):
                found.append(f"{path}:{at} holds a proof: {line.strip()}")
    return found


def names_twice():
    defined = collections.defaultdict(set)
    for path in glob.glob("crates/*/specs/**/*.antt", recursive=True):
        if not PRIVATE.search(path):
            for line in open(path, encoding="utf-8"):
                match = reading.DEFINES.match(line) or re.match(r"\s+(?:pub )?(?:abbrev|unfoldable|record|data) (?:pub )?([^\s:{(]+)", line)
                if match and match.group(1) != "mod":
                    defined[match.group(1)].add(path)
    return [f"{name} is defined in {' and in '.join(sorted(paths))}" for name, paths in sorted(defined.items()) if len(paths) > 1]


def words_unlisted():
    _, met, pinned, read, _ = reading.all_words()
    return [f"{reading.AUDIT} does not say of {name} in {path} what it is, nor that it must be read" for path, name in sorted(set(met) - pinned - read)]


def words_uncited():
    _, met, pinned, read, whole = reading.all_words()
    named = pinned | {word for word in read if word[0] not in whole}
    found = [f"{reading.AUDIT} lists {name} in {path}, on which no statement and no public contract rests" for path, name in sorted(named - set(met))]
    found += [f"{reading.AUDIT} lists {path}, on which no statement and no public contract rests" for path in sorted(whole - {path for path, _ in met})]
    return found + [f"{reading.AUDIT} lists {name} in {path} as said and as to be read" for path, name in sorted(pinned & read) if path not in whole]


def said_by_another():
    return [f"{reading.AUDIT}: {name} in {path} is cited by none of: {by}" for (path, name), by in reading.said_elsewhere()]


def lines_misstated():
    return [f"{reading.AUDIT} says {said} lines, and there are {lines}: {cell[:60]}" for cell, said, lines in reading.rows_to_read() if said != str(lines)]


def asked_of_callers():
    """A clause `requires` between the head of a public function and its body."""
    found = []
    for path in sorted(glob.glob("crates/*/src/**/*.rt", recursive=True)):
        code = re.sub(r"//[^\n]*", "", open(path, encoding="utf-8").read())
        heads = re.finditer(r"^ *pub (?:const )?(?:extern \"C\" )?fn (\w+)(.*?)^ *\{$|^ *pub (?:const )?(?:extern \"C\" )?fn (\w+)([^\n]*)\{", code, re.M | re.S)
        found += [f"{path}: {head[1] or head[3]} asks something of its caller" for head in heads if re.search(r"\brequires\b", head[2] or head[4] or "")]
    return found


CHECKS = (too_long, through_private, proofs_among_statements, names_twice, words_unlisted, words_uncited, said_by_another, lines_misstated, asked_of_callers)

# What is planted: the check that must find it, the file, and pairs of a text that stands there once and what is put in its place.
DEMAND, OTHER, FIRST = "crates/demands/specs/Demand3.antt", "crates/demands/specs/Alone.antt", "abbrev pub AloneAsBefore : Type 0\n"
PLANTED = (
    (too_long, DEMAND, [("\n-- Every movement", "\n" + "-- A line more.\n" * 40 + "-- Every movement")]),
    (through_private, DEMAND, [("use Rattle.runs.specs.Run.", "use Rattle.runs.specs.Private.{row_named}\nuse Rattle.runs.specs.Run."),
                               ("    → AsksNoLess first second\n", "    → row_named [] [] 0 ≡ row_named [] [] 0\n")]),
    (proofs_among_statements, OTHER, [(FIRST, "pub alone : AloneAsBefore\n" + FIRST)]),
    (proofs_among_statements, OTHER, [(FIRST, "abbrev pub same : 0 ≡ 0\nsame = refl\n" + FIRST)]),
    (names_twice, OTHER, [(FIRST, "abbrev pub stops_of : Type 0\n" + FIRST)]),
    (words_unlisted, reading.AUDIT, [("`text_bytes/specs/Text`: `line_feed`, `comma`", "`text_bytes/specs/Text`: `line_feed`")]),
    (words_unlisted, reading.AUDIT, [("| `runs/specs/Lists`: `Detour`, ", "| `runs/specs/Lists`: ")]),
    (words_unlisted, DEMAND, [("use Rattle.runs.specs.Run.", "use Rattle.runs.specs.Judging.{head_checks}\nuse Rattle.runs.specs.Run."),
                              ("    → AsksNoLess first second\n", "    → head_checks 0 0 0 ≡ head_checks 0 0 0\n")]),
    (words_unlisted, "crates/runs/src/any_head.rt", [("AnyHead.{smaller, lifted_head}", "AnyHead.{pulled, lifted_head}"), ("result ≡ smaller start head", "result ≡ pulled start head")]),
    (words_uncited, reading.AUDIT, [("`text_bytes/specs/Text`: `line_feed`, `comma`", "`text_bytes/specs/Text`: `line_feed`, `comma`, `decimal_in`")]),
    (words_uncited, reading.AUDIT, [("| `walk/specs/Walk`; ", "| `walk/specs/Walk`; `least/specs/Slopes`; ")]),
    (words_uncited, reading.AUDIT, [("| `runs/specs/Lists`: `Detour`, ", "| `text_bytes/specs/Text`: `comma`; `runs/specs/Lists`: `Detour`, ")]),
    (said_by_another, reading.AUDIT, [("| `demands/specs/Letters`: `KeysAreSpelled` |", "| `demands/specs/Letters`: `Digits` |")]),
    (lines_misstated, reading.AUDIT, [("`boarding_of` | 9 |", "`boarding_of` | 8 |")]),
    (asked_of_callers, "crates/text_inputs/src/lib.rt", [("pub fn read_line(line: &mut [u8]) -> usize\n", "pub fn read_line<F: FnOnce(&[u8]) -> u64>(line: &mut [u8], answer: F) -> usize\n    requires { F.IsAlwaysCallable answer }\n")]),
    (asked_of_callers, "crates/walk/src/pricing.rt", [("pub fn price(\n", "pub fn asked(n: u64) -> u64\n    requires { n < 8 }\n{\n    n\n}\n\npub fn price(\n")]),
)


def write(path, text):
    with open(path, "w", encoding="utf-8") as file:
        file.write(text)


def planted_and_unseen():
    """Which of the planted faults is not found in a copy."""
    unseen = []
    with tempfile.TemporaryDirectory() as copy:
        for path in glob.glob("crates/*/specs") + glob.glob("crates/*/src"):
            shutil.copytree(path, f"{copy}/{path}")
        os.makedirs(os.path.dirname(f"{copy}/{reading.AUDIT}"))
        shutil.copy(reading.AUDIT, f"{copy}/{reading.AUDIT}")
        os.chdir(copy)
        for check, path, pairs in PLANTED:
            text = wrong = open(path, encoding="utf-8").read()
            for old, new in pairs:
                if wrong.count(old) != 1:
                    unseen.append(f"{path} has {wrong.count(old)} times: {old.strip()}")
                wrong = wrong.replace(old, new)
            write(path, wrong)
            if not check():
                unseen.append(f"{check.__name__} does not see: {pairs[-1][1].strip()[:80]}")
            write(path, text)
        os.chdir(programs.ROOT)
    return unseen


def main():
    os.chdir(programs.ROOT)
    faults = [fault for check in CHECKS for fault in check()] or planted_and_unseen()
    if faults:
        sys.exit("\n".join(faults))
    print(f"reading: {sum(reading.counted(reading.reading()).values())} lines for demands 1 to 3, none of them in a Private file; no proof among the "
          f"statements; no public name twice; {len(reading.all_words()[1])} words, all listed; all {len(PLANTED)} planted faults are found")


if __name__ == "__main__":
    main()
