#!/usr/bin/env python3
"""Reads the pages and fails where one names what is not there, where a row of AUDIT is too long, or where README is.

usage: tests/python/pages.py [TREE]    TREE: the repository to read, by default this one

Functions and paths in AUDIT, ENGINEER and README must be there. In AUDIT's tables each name behind a path must be a definition or a law of that file;
`FILE`: goes on with another file of the folder, and a path in a column's head stands before each of its cells. They name every rule of RULES, whose words
behind "D:" are in DECISIONS, and every public function. No page but the landing notes names a retired crate. A mistake of each kind is planted.
"""
import glob
import os
import re
import sys

import programs

MOST_WORDS, MOST_LINES_OF_README = 60, 90
AUDIT, DECISIONS, ENGINEER, README, RULES = "docs/AUDIT.md", "docs/DECISIONS.md", "docs/ENGINEER.md", "README.md", "docs/RULES.md"
RETIRED = re.compile(r"`((?:crates/)?(?:texts|lines|prints|inputs|sheets|writers|figure_sheets|loose|lists|recalls|fields|checks|outcomes|months|turns"
                     r"|mends|ranges|markup|tickets|boardings|days|joins|tables)(?:::|/specs|/proofs)[^`\n]*)`")
PATH = re.compile(r"(?:crates/)?([a-z_]+)/(specs|proofs)(?:/([\w+/-]*?))?(?:\.antt|/)?$")
# Mistakes to plant behind the first line of a page, with words of the complaint that each must bring.
TABLE = "\n| A |\n|---|\n| {} |\n"
PLANTED = (
    (ENGINEER, "`walk::no_such_function`", "no function"),
    (README, "`walk/specs/NoSuchFile`", "no file"),
    (AUDIT, TABLE.format("`walk/specs/Walk`: `noSuchDefinition`"), "no definition"),
    (AUDIT, TABLE.replace("A", "`walk/specs`").format("`Walk`: `legsOf`"), "no definition"),
    (AUDIT, TABLE.format("word " * (MOST_WORDS + 1)), "over 60 words"),
    (AUDIT, TABLE.format("R1 to R9999"), "no such rule"),
    (RULES, "- **R9999.** A rule.", "not in the tables"),
    (RULES, "- **R1.** A rule.", "count up"),
    (RULES, "(D: no such words).", "has no words"),
    (AUDIT, "## Every public function\n\n| `walk::refuse` |\n\n## More", "no row for walk::price"),
    (README, "\n" * MOST_LINES_OF_README, "over 90 lines"),
    (DECISIONS, "`recalls::recall`", "`recalls::recall` is of a retired"),
    ("docs/OPERATOR.md", "`crates/tables/specs/Listing`", "Listing` is of a retired"),
)


def read(pattern):
    return [open(file, encoding="utf-8").read() for file in sorted(glob.glob(pattern, recursive=True))]


def rows(page):
    """The rows of a page's tables, each as its cells with the heads of their columns."""
    lines, head = page.replace(r"\|", "/").split("\n"), None
    for line, above in zip(lines, [""] + lines):
        cells = [cell.strip() for cell in line.strip("|").split("|")]
        head = head if above.startswith("|") else cells
        if above.startswith("|") and line.startswith("|") and not line.startswith("|--"):
            yield list(zip(cells, head))


def files(crate, folder, name):
    """The texts that a path names: one, or all below a folder."""
    return [text for end in (".antt", "/**/*.antt") for text in read(f"crates/{crate}/{folder}/{name or '.'}{end}")]


def undefined(cell, head):
    """The names in a cell that the file before them does not define."""
    at = PATH.match(head.split("`")[1]) if "`" in head else None
    for name, colon in re.findall(r"`([^`]+)`(:?)", cell):
        if PATH.match(name) or "::" in name:
            at = PATH.match(name)
        elif at and colon and files(at[1], at[2], name):
            at = PATH.match(f"{at[1]}/{at[2]}/{name}")
        elif at and re.fullmatch(r"[A-Za-z][\w′-]*", name):
            law = re.compile(rf"^ *(?:(?:abbrev|unfoldable|pub|record|data) )*{re.escape(name)} *(?:[:({{]|where|$)", re.M)
            if not any(map(law.search, files(at[1], at[2], at[3]))):
                yield f"no definition {name} in {at[0]}"


def unfound(page):
    """The functions and paths in a page that are not there."""
    for name in re.findall(r"`([^`\n]+)`", page):
        function, path = re.fullmatch(r"([a-z_]+)::(\w+)", name), PATH.match(name)
        if function and function[1] not in ("io", "libc") and not re.search(rf"\b(fn|struct|enum) {function[2]}\b", "".join(read(f"crates/{function[1]}/src/*.rt"))):
            yield f"no function {name}"
        if path and not files(*path.groups()):
            yield f"no file {name}"


def judged(pages, public):
    """What is wrong with the pages, by their names and texts."""
    found = [f"{name}: {said}" for name in (AUDIT, ENGINEER, README) for said in unfound(pages[name])]
    for row in rows(pages[AUDIT]):
        said = [what for cell, head in row for what in undefined(cell, head)]
        said += [f"over {MOST_WORDS} words"] if sum(len(cell.split()) for cell, _ in row) > MOST_WORDS else []
        found += [f"{AUDIT}: {what}: {row[0][0][:60]}" for what in said]
    rules = [int(n) for n in re.findall(r"\*\*R(\d+)\.\*\*", pages[RULES])]
    named = {n for row in re.findall(r"^\|.*", pages[AUDIT], re.M) for a, b in re.findall(r"\bR(\d+)(?: to R(\d+))?", row) for n in range(int(a), int(b or a) + 1)}
    found += [f"{AUDIT}: R{n}: no such rule" for n in sorted(named - set(rules))]
    found += [f"{RULES}: R{n} is not in the tables of {AUDIT}" for n in rules if n not in named]
    found += [f"{RULES}: the numbers do not count up from 1"] if not rules or rules != list(range(1, len(rules) + 1)) else []
    said, decided = re.findall(r"\(D: (.*?)\)(?=[.\s])", pages[RULES]), re.sub(r"[*\s]+", " ", pages[DECISIONS]).lower()
    found += [f"{RULES}: {DECISIONS} has no words: {words}" for words in "; ".join(said).split("; ") if words.lower() not in decided]
    functions = {name for row in rows(pages[AUDIT].split("## Every public function")[1].split("\n## ")[0]) for name in re.findall(r"`([\w:]+)`", row[0][0])}
    found += [f"{AUDIT}: no row for {name}" for name in sorted(public - functions)]
    found += [f"{README}: over {MOST_LINES_OF_README} lines"] if pages[README].count("\n") > MOST_LINES_OF_README else []
    return found + [f"{name}: `{old}` is of a retired crate" for name, page in pages.items() for old in RETIRED.findall(page)]


def main():
    os.chdir(sys.argv[1] if len(sys.argv) > 1 else programs.ROOT)
    pages = {name: read(name)[0] for name in glob.glob("**/*.md", recursive=True) if not name.startswith(("docs/landings/", "target/"))}
    public = {name if external else f"{crate[7:-1]}::{name}" for crate in glob.glob("crates/*/")
              for external, name in re.findall(r'^pub (extern "C" )?fn (\w+)', "\n".join(read(crate + "src/*.rt")), re.M)}
    found = judged(pages, public)
    for page, mistake, words in PLANTED:
        told = "\n".join(judged({**pages, page: pages[page].replace("\n", f"\n{mistake}\n", 1)}, public))
        found += [] if words in told else [f"planted in {page} and not found: {mistake}"]
    if found:
        sys.exit("\n".join(found))
    print(f"pages: {len(pages)} name what is there, AUDIT every rule and {len(public)} functions; {len(PLANTED)} mistakes planted and found")


if __name__ == "__main__":
    main()
