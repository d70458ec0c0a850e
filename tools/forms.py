#!/usr/bin/env python3
"""Counts the places in src/ that are written in an older form, by the points of docs/DESIGN-PASS.md.

usage: tools/forms.py [--places] [--point N] [FOLDER]    (a checkout; by default the one this script is in)

It reads text and proves nothing: a count is of places that look so, and the page says of each point what stays and why.
"""
import collections
import os
import re
import sys

HERE = os.path.dirname(os.path.dirname(os.path.abspath(__file__)))
# Cases of an enum that say that nothing, or nothing good, is there.
EMPTY = {"Bad", "Nowhere", "Missing", "Never", "No", "Nothing", "Done", "Far", "End", "Over", "Broken"}
FEW = 7  # from so many parameters on they are counted


class Source:
    """A file of a crate's src/, with the comments taken out of what is looked at, line for line."""

    def __init__(self, root, name):
        self.name = name
        with open(os.path.join(root, name), encoding="utf-8") as handle:
            self.text = handle.read()
        self.code = re.sub(r"//[^\n]*", "", self.text)
        self.crate = name.split("/")[1]

    def line(self, at):
        return self.code.count("\n", 0, at) + 1

    def block(self, at):
        """What stands between the brace at or behind a place and the one that shuts it."""
        start = self.code.index("{", at)
        depth = 0
        for end in range(start, len(self.code)):
            depth += {"{": 1, "}": -1}.get(self.code[end], 0)
            if depth == 0:
                return self.code[start + 1:end]
        return ""

    def functions(self):
        for found in re.finditer(r"^[ ]*(?:pub(?:\(crate\))? )?fn (\w+)(?:<[^>]*>)?\(([^)]*)\)", self.code, re.M):
            behind = self.code[found.end():]
            body = re.search(r"^[ ]*\{\n|^(?!\s*(?:requires|ensures)).*\{\n", behind, re.M)
            start = found.end() + (body.end() - 2 if body else 0)
            clauses = self.code[found.end():start]
            yield found, found[1], [one.strip() for one in found[2].split(",") if one.strip()], clauses, self.block(start) if body else ""


def own_options(source):
    for found in re.finditer(r"^(?:pub(?:\(crate\))? )?enum (\w+)", source.code, re.M):
        inside = source.block(found.end())
        cases = re.findall(r"^    (\w+)\s*([({]?)", inside, re.M)
        if any(name in EMPTY for name, _ in cases) and any(data for _, data in cases):
            yield source.line(found.start()), f"enum {found[1]}: " + " | ".join(name for name, _ in cases)


def flags(source):
    for found in re.finditer(r"^(?:pub(?:\(crate\))? )?struct (\w+)", source.code, re.M):
        fields = re.findall(r"^    (?:pub(?:\(crate\))? )?(\w+): ([^\n]*),", source.block(found.end()), re.M)
        told = [name for name, kind in fields if kind == "bool" or re.fullmatch(r"(refusals::)?(Verdict|Refusal)", kind)]
        if told and len(fields) > len(told) and [name for name, _ in fields] != ["refusal", "place"]:
            yield source.line(found.start()), f"struct {found[1]}: {', '.join(told)} beside values"


def refusals_by_hand(source):
    for found in re.finditer(r"\bif (?:[\w:]+::)?refused\(", source.code):
        yield source.line(found.start()), source.code.split("\n")[source.line(found.start()) - 1].strip()


def none_by_zero(source):
    for found in re.finditer(r"(?<![\d,])0 (?:where there is (?:none|neither)|for none|: none|where none)|\b0: none", source.text):
        yield source.text.count("\n", 0, found.start()) + 1, "a number of which 0 says that there is none"


def twins(sources):
    shapes = collections.defaultdict(list)
    for source in sources:
        for found, name, parameters, clauses, body in source.functions():
            shape = re.sub(r"\b(?!if|while|for|in|return|let|mut|loop|match|else|true|false|as)[a-zA-Z_]\w*(?:::\w+)*\b", "x", body)
            shape = re.sub(r"\b\d[\d_]*\b|b?\"[^\"\n]*\"|b'[^']*'", "0", shape)
            lines = [one.strip() for one in shape.split("\n") if one.strip()]
            if len(lines) >= 4:
                shapes["\n".join(lines)].append((source, source.line(found.start()), name))
    for places in shapes.values():
        if len(places) > 1:
            for source, line, name in places[1:]:
                yield source, line, f"{name} has the shape of {places[0][2]} in {places[0][0].name}:{places[0][1]}"


def counted_loops(source):
    for found in re.finditer(r"^[ ]*(?:'\w+: )?(while [^\n]*|loop) \{", source.code, re.M):
        inside = source.block(found.end() - 1)
        stepped = set(re.findall(r"^[ ]*([\w.]+) [-+]= 1;", inside, re.M)) | set(re.findall(r"^[ ]*([\w.]+) = \1 [-+] 1;", inside, re.M))
        if any(found[1] == "loop" or re.search(rf"\b{re.escape(one)}\b", found[1]) for one in stepped):
            yield source.line(found.start()), found[1]


def by_hand(source):
    for found, name, parameters, clauses, body in source.functions():
        lines = [one.strip() for one in body.split("\n") if one.strip()]
        plain = " ".join(lines)
        if re.fullmatch(r"if (\w+) <=? (\w+) \{ (return )?(\1|\2);? \} (else \{ )?(\1|\2)( \})?", plain):
            yield source.line(found.start()), f"{name}: the smaller or the larger of two"
        elif re.fullmatch(r"match \w+ \{ (\w+::\w+ => \d+, ?)+ \}", plain):
            yield source.line(found.start()), f"{name}: a number for each case of an enum"
        elif re.fullmatch(r"\w+ as \w+", plain):
            yield source.line(found.start()), f"{name}: a conversion"
        elif "bool" in clauses and re.search(r"\[\w+\] [!=]= \w+\[\w+\]", plain):
            yield source.line(found.start()), f"{name}: rows compared by index"
        elif "bool" in clauses and len(re.findall(r"(\w+)\.(\w+) [!=]= (\w+)\.\2", plain)) > 1:
            yield source.line(found.start()), f"{name}: a struct compared field by field"


def long_parameters(source):
    for found, name, parameters, clauses, body in source.functions():
        if len(parameters) >= FEW:
            yield source.line(found.start()), f"{name}: {len(parameters)} parameters"


def repeated_facts(sources):
    facts = collections.defaultdict(list)
    for source in sources:
        for found in re.finditer(r"^[ ]*requires (?:\w+ )?\{ (.*) \}$", source.code, re.M):
            facts[source.crate, found[1]].append((source, source.line(found.start())))
    for (crate, fact), places in facts.items():
        if len(places) >= 3:
            yield places[0][0], places[0][1], f"{len(places)} times in {crate}: {fact}"


def rows_with_lengths(source):
    for found in re.finditer(r"^(?:pub(?:\(crate\))? )?struct (\w+)", source.code, re.M):
        rows = re.findall(r"^    (?:pub(?:\(crate\))? )?(\w+): \[[^;\n]*; [^\]\n]*\],", source.block(found.end()), re.M)
        if rows:
            yield source.line(found.start()), f"struct {found[1]}: {', '.join(rows)} of a fixed length"


def steps_by_kind(source):
    for found in re.finditer(r"^(?:pub(?:\(crate\))? )?enum (\w+)", source.code, re.M):
        inside = source.block(found.end())
        if not re.search(r"[({]", inside) and re.search(rf"match \w+ \{{[^}}]*{found[1]}::\w+ => [^,\n]*\w+\(", source.code):
            yield source.line(found.start()), f"enum {found[1]}: a call for each case"


def hand_walks(root):
    for crate in sorted(os.listdir(os.path.join(root, "crates"))):
        folder = os.path.join(root, "crates", crate, "proofs")
        for path, folders, names in sorted(os.walk(folder)):
            if "Proof.antt" in names:
                yield os.path.relpath(os.path.join(path, "Proof.antt"), root), 1, "a walk by hand"


# Points, what is counted of them, and how: of one file, of all files, or of the checkout.
COUNTS = (
    (1, "own enums of the shape of Option or Result", own_options, "one"),
    (1, "a flag or a refusal beside values", flags, "one"),
    (1, "refusals handed on by hand", refusals_by_hand, "one"),
    (1, "0 for none", none_by_zero, "one"),
    (2, "functions of one shape", twins, "all"),
    (3, "loops that count an index by hand", counted_loops, "one"),
    (4, "order, equality and conversion by hand", by_hand, "one"),
    (5, f"functions with {FEW} parameters or more", long_parameters, "one"),
    (5, "a fact required by three functions or more", repeated_facts, "all"),
    (6, "structs with rows of a fixed length", rows_with_lengths, "one"),
    (7, "an enum that says which call to make", steps_by_kind, "one"),
    (8, "proofs that walk the code by hand", hand_walks, "root"),
)


def main():
    words = sys.argv[1:]
    places = "--places" in words
    words = [one for one in words if one != "--places"]
    point = None
    if "--point" in words:
        at = words.index("--point")
        point = int(words[at + 1])
        del words[at:at + 2]
    root = words[0] if words else HERE
    sources = []
    for crate in sorted(os.listdir(os.path.join(root, "crates"))):
        for path, _, names in sorted(os.walk(os.path.join(root, "crates", crate, "src"))):
            sources += [Source(root, os.path.relpath(os.path.join(path, name), root)) for name in sorted(names) if name.endswith(".rt")]
    for number, what, look, over in COUNTS:
        if point not in (None, number):
            continue
        if over == "one":
            found = [(source.name, line, told) for source in sources for line, told in look(source)]
        elif over == "all":
            found = [(source.name, line, told) for source, line, told in look(sources)]
        else:
            found = list(look(root))
        print(f"{number} {what}: {len(found)}")
        if places:
            for name, line, told in found:
                print(f"    {name}:{line}: {told}")


if __name__ == "__main__":
    main()
