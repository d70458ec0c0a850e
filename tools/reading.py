#!/usr/bin/env python3
"""Counts the lines that an auditor reads for demands 1 to 3, and prints them by file; or prints every word that any statement rests on.

    tools/reading.py [--all]

Every definition in demands/specs/Demand1, Demand2 and Demand3 is read. Each name in it is followed to its definition, in specs/ of any
crate or, if it is a struct or an enum of the code, in src/; and so on, until nothing new is met. Counted are the lines of these definitions
with the comments right above them; of an enum the variants that are named. Not counted are empty lines, the comment at the head of a
file, and the 'use' lines, which say where a name stands. What the kit defines (numbers, lists, Booleans, equality) is not followed.

Plans, price_answer and price_rows are not followed either: they are the contracts of the planner and of the pricer, by formulas. The demands
have them as premises alone, "whatever answer fits the contract", and say of such an answer all that an auditor must know. That for every
input an answer fits is proved: demands/proofs/Fits.

With --all: every definition that some statement or public contract rests on, each with its file and with what docs/AUDIT.md says of it. Read are
all definitions of STATEMENTS, and the contracts of all public functions of crates/*/src but main. Each name there is followed as above, but not past a
name of those tables of AUDIT whose first column a statement determines ("pinned"): whatever such a definition says, the statement named
beside it holds of it. What is met must be pinned or be on AUDIT's list of what must be read; `neither` is a word that nobody has
looked at. Structs and enums of the code are not listed: they have fields and variants, and mean nothing by themselves.
"""
import glob
import os
import re
import sys

AUDIT = "docs/AUDIT.md"
STATEMENTS = ("crates/demands/specs/*.antt", "crates/promises/specs/*.antt", "crates/promises_calls/specs/*.antt",
              "crates/answer_ltfs/specs/Promises.antt", "crates/answer_pick/specs/Promises.antt", "crates/answer_pick/specs/Applies.antt",
              "crates/sheet_picks/specs/Promises.antt", "crates/tape_markup/specs/Promises.antt", "crates/tape_spans/specs/Promises.antt")
ROOTS = ["crates/demands/specs/Demand%d.antt" % n for n in (1, 2, 3)]
CUT_OFF = {"Plans", "price_answer", "price_rows"}
DEFINES = re.compile(r"^(?:pub |abbrev |unfoldable |record |data )+([^\s:{(]+)")
TYPE = re.compile(r"^pub (struct|enum) (\w+)")
IMPORT = re.compile(r"^use Rattle\.(\w+)\.specs\.([\w.-]+)\.\{([^}]*)\}", re.M)
DECLARED = re.compile(r"declared\.(?:\w+\.)*?(\w+)(\.TheVariants)?$")
WORD = re.compile(r"(?:(\w+)::)?([A-Za-z][\w'-]*)")
# With --all: a word that is no field (`r.field`, `Type.Variant`); a constructor of a data type; what a program of the code cites; a public function up to its body.
CITED = re.compile(r"(?<![\w.:'-])([A-Za-z][\w'-]*)")
CONSTRUCTOR = re.compile(r"^  ([A-Za-z][\w'-]*) :")
GHOST = re.compile(r"^ghost use Rattle\.(\w+)\.specs\.([\w.]+)\.\{([^}]*)\}", re.M)
CONTRACT = re.compile(r"^pub (?:extern \"C\" )?fn (?!main\b).*?^\{", re.M | re.S)


def with_comment(lines, first, end, mark):
    """The lines of a definition, with the comment lines right above it and without empty ones."""
    while first > 0 and lines[first - 1].strip().startswith(mark):
        first -= 1
    return [line for line in lines[first:end] if line.strip()]


def in_specs(path):
    """The definitions in a file of specs/, and where it has its other names from."""
    text = open(path, encoding="utf-8").read()
    lines = text.split("\n")
    starts = [(at, DEFINES.match(line).group(1)) for at, line in enumerate(lines) if DEFINES.match(line)]
    defined, names = {}, {}
    for (at, name), (end, _) in zip(starts, starts[1:] + [(len(lines), None)]):
        while not lines[end - 1].strip() or lines[end - 1].startswith("--"):
            end -= 1
        defined[name] = with_comment(lines, at, end, "--")
    for crate, module, imported in IMPORT.findall(text):
        if not os.path.isdir("crates/%s" % crate):
            continue
        declared = DECLARED.match(module)
        for name in re.split(r",\s*", imported):
            if declared:
                names[name] = ("crates/%s/src" % crate, "%s::%s" % (declared.group(1), name) if declared.group(2) else declared.group(1))
            else:
                names[name] = ("crates/%s/specs/%s.antt" % (crate, module.replace(".", "/")), name)
    return defined, names


def in_src(folder):
    """The structs and enums of a crate, and each variant of an enum by itself."""
    defined = {}
    for path in sorted(glob.glob(os.path.join(folder, "**", "*.rt"), recursive=True)):
        lines = open(path, encoding="utf-8").read().split("\n")
        for at, kind, name in [(at, *TYPE.match(line).groups()) for at, line in enumerate(lines) if TYPE.match(line)]:
            end = at if lines[at].endswith(";") else lines.index("}", at)
            if kind == "enum":
                for row in range(at + 1, end):
                    if not lines[row].strip().startswith("//"):
                        defined["%s::%s" % (name, WORD.search(lines[row]).group(2))] = with_comment(lines, row, row + 1, "//")
                defined[name] = with_comment(lines, at, at + 1, "//") + [lines[end]]
            else:
                defined[name] = with_comment(lines, at, end + 1, "//")
    return defined, {}


def reading():
    """For each file, or src/ of a crate, that the reading passes through: the definitions read there, each with its lines."""
    files, read = {}, {}

    def file(path):
        if path not in files:
            files[path] = in_specs(path) if path.endswith(".antt") else in_src(path)
        return files[path]

    todo = [(path, name) for path in ROOTS for name in file(path)[0]]
    while todo:
        path, name = todo.pop()
        if name in CUT_OFF or name in read.get(path, {}):
            continue
        defined, names = file(path)
        if name not in defined:
            raise SystemExit("tools/reading.py: %s is not defined in %s" % (name, path))
        read.setdefault(path, {})[name] = defined[name]
        if "::" in name:
            todo.append((path, name.split("::")[0]))
        for line in defined[name]:
            for crate, word in WORD.findall("" if line.strip().startswith(("--", "//")) else line):
                if crate:
                    todo.append(("crates/%s/src" % crate, word))
                elif word in defined:
                    todo.append((path, word))
                elif word in names:
                    todo.append(names[word])
    return read


def counted(read):
    """The lines read in each file."""
    return {path: sum(len(lines) for lines in read[path].values()) for path in sorted(read)}


def constructors(defined):
    """The constructors of the data types among some definitions, each with its type."""
    return {CONSTRUCTOR.match(line).group(1): name for name, lines in defined.items()
            if any(line.startswith("pub data ") for line in lines) for line in lines if CONSTRUCTOR.match(line)}


class Specs:
    """The files of specs/, each read once."""

    def __init__(self):
        self.files = {}

    def file(self, path):
        if path not in self.files:
            defined, names = in_specs(path)
            self.files[path] = defined, names, constructors(defined)
        return self.files[path]

    def definition(self, path, name):
        """Where a name that a file hands out is defined: itself, or its data type."""
        defined, _, built = self.file(path)
        if name not in defined and name not in built:
            raise SystemExit("tools/reading.py: %s is not defined in %s" % (name, path))
        return path, name if name in defined else built[name]

    def cited(self, path, name):
        """The definitions in specs/ that one cites."""
        defined, names, built = self.file(path)
        words = {word for line in defined[name] if not line.strip().startswith("--") for word in CITED.findall(line)}
        for word in words - {name}:
            if word in defined or word in built:
                yield self.definition(path, word)
            elif word in names and names[word][0].endswith(".antt"):
                yield self.definition(*names[word])

    def in_contracts(self):
        """The definitions that the contracts of public functions cite."""
        for path in sorted(glob.glob("crates/*/src/*.rt")):
            text = open(path, encoding="utf-8").read()
            names = {name: ("crates/%s/specs/%s.antt" % (at, module.replace(".", "/")), name)
                     for at, module, imported in GHOST.findall(text) if os.path.isdir("crates/%s" % at)
                     for name in re.split(r",\s*", imported) if not module.startswith("declared")}
            for contract in CONTRACT.findall(text):
                for word in set(CITED.findall(" ".join(re.findall(r"^ +(?:ensures|requires) .*", contract, re.M)))) & set(names):
                    yield self.definition(*names[word])


def section(page, begin, end):
    return page.split(begin)[1].split(end)[0]


def cells(text, column):
    """The cells of one column of the tables in a text."""
    rows = [[cell.strip() for cell in line.strip("|").split("|")] for line in text.split("\n") if line.startswith("| `")]
    return [row[column] for row in rows]


def listed(specs, text):
    """The definitions that the first cells of the tables in a text name, behind their files; all of a file behind which no name stands."""
    found = set()
    for part in (part for cell in cells(text, 0) for part in re.split(r";\s*", cell)):
        path, *names = re.findall(r"`([^`]+)`", part)
        path = "crates/%s.antt" % path
        found |= {(path, name) for name in names or specs.file(path)[0]}
    return found


def whole(text):
    """The files of which all is listed."""
    return {"crates/%s.antt" % re.findall(r"`([^`]+)`", part)[0] for cell in cells(text, 0) for part in re.split(r";\s*", cell) if part.count("`") == 2}


def in_audit():
    """What AUDIT's tables have: formulas and words that a statement says by conditions; behind them what must be read."""
    return section(open(AUDIT, encoding="utf-8").read(), "### What you need not read", "### What the demands say").split("**You must read**")


def all_words():
    """Every definition that is met, with what cites it; those that are pinned, and those that must be read; the files of which all is listed."""
    specs, (formulas, must) = Specs(), in_audit()
    pinned, read = listed(specs, formulas), listed(specs, must)
    todo = [(found, "a contract") for found in specs.in_contracts()]
    todo += [((path, name), path) for pattern in STATEMENTS for path in sorted(glob.glob(pattern)) for name in specs.file(path)[0]]
    statements, met = {found for found, by in todo if by != "a contract"}, {}
    while todo:
        found, by = todo.pop()
        if found not in met:
            met[found] = by
            todo += [] if found in pinned else [(cited, found) for cited in specs.cited(*found)]
    return specs, {found: by for found, by in met.items() if found not in statements}, pinned, read, whole(must)


def lines_of(specs, words):
    return sum(len(specs.file(path)[0][name]) for path, name in words)


def said_elsewhere():
    """The words that AUDIT says some statements determine, and that none of these statements cites."""
    specs, found = Specs(), []
    for row in (line for line in in_audit()[0].split("\n") if line.startswith("| `")):
        todo, seen, path = [], set(), None
        for name in re.findall(r"`([^`]+)`", cells(row, -1)[0]):
            path = "crates/%s.antt" % name if "/specs/" in name else path
            todo += [] if "/specs/" in name else [(path, name)]
        while todo:
            word = todo.pop()
            todo += [] if word in seen else list(specs.cited(*word))
            seen.add(word)
        found += [(word, cells(row, -1)[0]) for word in sorted(listed(specs, row) - seen)]
    return found


def rows_to_read():
    """For each row of what must be read: its first cell, the lines that it says, and those that there are."""
    specs, met, pinned, _, _ = all_words()
    rows = [line for line in in_audit()[1].split("\n") if line.startswith("| `")]
    return [(cells(row, 0)[0], cells(row, 1)[0], lines_of(specs, (listed(specs, row) & set(met)) - pinned)) for row in rows]


def print_all():
    specs, met, pinned, read, _ = all_words()
    for path, name in sorted(met):
        state = "pinned" if (path, name) in pinned else "must be read" if (path, name) in read else "neither"
        print("%-36s %-20s %s" % (path[len("crates/"):].replace(".antt", ""), name, state))
    to_read = (read & set(met)) - pinned
    print("%d words: %d pinned, %d must be read (%d lines), %d neither" % (
        len(met), len(pinned & set(met)), len(to_read), lines_of(specs, to_read), len(set(met) - pinned - read)))


def main():
    read = reading()
    lines = counted(read)
    for path in lines:
        print("%-32s %4d lines, %2d definitions" % (path[len("crates/"):].replace(".antt", ""), lines[path], len(read[path])))
    print("%-32s %4d lines" % ("in all", sum(lines.values())))


if __name__ == "__main__":
    os.chdir(os.path.join(os.path.dirname(os.path.abspath(__file__)), ".."))
    print_all() if sys.argv[1:] == ["--all"] else main()
