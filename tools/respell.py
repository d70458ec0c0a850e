#!/usr/bin/env python3
"""Brings the definitions and lemmas of crates/ to one spelling: words in snake case, a dash only behind a name that begins with a capital.

usage: python3 tools/respell.py            at the top of the repository, once, right after port.py
       python3 tools/respell.py --list     the names, old and new, and nothing written

What is renamed: each name that a file of specs/, or a file of lemmas in proofs/, declares at its margin, each field and constructor that it declares, and the names
that are local to one such file. Functions, types and parameters of src/, exported C names, strings, inputs and outputs keep their names.
"""

import glob
import os
import re
import sys

NAME = r"[^\s(){}\[\].,;:\"`λ∀]+"
TOKEN = re.compile(r"(?<![^\s(){}\[\].,;:\"`λ∀])(" + NAME + r")(?![^\s(){}\[\].,;:\"`λ∀])")
HEAD = re.compile(r"^((?:(?:abbrev|unfoldable|pub|data|record|opaque|irrelevant|ruleset) )*)(" + NAME + r")\s*(.*)$")
WORDS = {"use", "where", "module", "open", "record", "data", "in", "let", "field", "mod", "pub", "abbrev", "unfoldable", "unfolding", "infix", "infixl", "infixr", "syntax"}
# Where the plain rule would give two things one name, or a name that a parameter of the same clause has.
OTHERWISE = {n: n + "_lem" for n in "sum_below same_row goes_on reads_in count_at last_within first_some first_by is_later".split()}


def snake(name):
    if not re.search(r"[A-Za-z]", name) or "◌" in name:
        return name
    name = name.replace("′", "'")
    parts = name.split("-")
    if "" in parts:
        return name
    done = []
    for part in parts:
        if part[0].isupper():
            done.append(part)
        else:
            done.append(re.sub(r"(?<=[a-z0-9'])([A-Z])", lambda m: "_" + m.group(1).lower(), part))
    if done[0][0].isupper():
        # A type joined to a name: one dash, and words behind it.
        return done[0] + ("-" + "_".join(d if d[0].isupper() else d for d in done[1:]) if done[1:] else "")
    return "_".join(done)


def new_name(name):
    return OTHERWISE.get(name, snake(name))


def files():
    specs, lemmas, walks = [], [], []
    for p in sorted(glob.glob("crates/*/specs/**/*.antt", recursive=True)):
        specs.append(p)
    for p in sorted(glob.glob("crates/*/proofs/**/*.antt", recursive=True)):
        # A walk, and what is written beside one.
        walk = os.path.basename(p) == "Proof.antt" or "/Proof/" in p or "/Walks/" in p
        (walks if walk else lemmas).append(p)
    return specs, lemmas, walks


def declared(path):
    """The names at the margin, the fields and constructors below a record or data, and the names local to the file."""
    margin, members, local = set(), set(), set()
    inside = False
    for line in open(path, encoding="utf-8"):
        line = line.rstrip("\n")
        if not line.strip() or line.lstrip().startswith("--"):
            continue
        if not line.startswith(" "):
            m = HEAD.match(line)
            inside = bool(m and re.search(r"\b(record|data)\b", m.group(1)) and line.rstrip().endswith("where"))
            if m and m.group(2) not in WORDS:
                margin.add(m.group(2))
            continue
        m = re.match(r"^\s+(?:pub )?(" + NAME + r")(?: \([^)]*\)| \{[^}]*\})* : ", line) or re.match(r"^\s+(?:pub )?(" + NAME + r") :$", line)
        if m and m.group(1) not in WORDS:
            # What a section or a record of lemmas exports is used by name elsewhere.
            (members if inside else margin if line.lstrip().startswith("pub ") else local).add(m.group(1))
    return margin, members, local


def of_others(text):
    """The names that a file takes from the library."""
    own = {os.path.basename(os.path.dirname(d)) for d in glob.glob("crates/*/src")}
    taken = set()
    for m in re.finditer(r"^\s*(?:pub )?(?:ghost )?use ([\w.·]+)\.\{([^}]*)\}", text, re.M):
        path = m.group(1).split(".")
        if path[0] != "Rattle" or path[1] not in own:
            taken |= {n.strip() for n in m.group(2).split(",")}
    return taken


def plan():
    specs, lemmas, walks = files()
    names, fields, locals_of = {}, {}, {}
    present = set()
    for p in specs + lemmas + walks + sorted(glob.glob("crates/*/src/**/*.rt", recursive=True)):
        with open(p, encoding="utf-8") as f:
            present |= set(TOKEN.findall("\n".join(l for l in f.read().split("\n") if not l.lstrip().startswith(("--", "//")))))
    for p in specs + lemmas:
        margin, members, local = declared(p)
        for n in margin:
            if new_name(n) != n:
                names[n] = new_name(n)
        for n in members:
            if snake(n) != n or n in OTHERWISE:
                fields[n] = snake(n)
        here = {n: snake(n) for n in local if snake(n) != n}
        if here:
            locals_of[p] = here
    # A lemma that would have the name of what it speaks of ends in `_lem`.
    for old in sorted(names):
        if "-" in old and (names[old] in present or any(n != old and names[n] == names[old] and "-" not in n for n in names)):
            names[old] += "_lem"
    # A local name that would have the name of what stands at a margin ends in `_here`.
    margins = present | set(names.values())
    for here in locals_of.values():
        for old in here:
            if here[old] in margins:
                here[old] += "_here"
    return names, fields, locals_of


def turn(text, names, fields, comment, members=frozenset()):
    """Comments change only between backticks. In src/ and in paths a name in snake case is that of a function or a module, and stays."""
    out = []
    respelled = {k: v for k, v in names.items() if "-" in k or re.search(r"[a-z0-9'][A-Z]", k)}
    if comment != "--":
        names = respelled
    for line in text.split("\n"):
        code, note = line, ""
        at = line.find(comment)
        while at > 0 and not line[at - 1].isspace():
            at = line.find(comment, at + 1)
        if at >= 0:
            code, note = line[:at], line[at:]

        def one(m, whole):
            t = m.group(1)
            before = whole[m.start() - 1] if m.start() else ""
            if before == "." and m.start() >= 2 and not whole[m.start() - 2].isspace():
                path = re.search(r"[^\s(){},;]*$", whole[: m.start()]).group(0)
                if path.startswith("Rattle."):
                    return respelled.get(t, t)
                return fields.get(t, names.get(t, t) if re.match(r"^[A-Z]\w*\.$", path) else t)
            if t in fields and (re.match(r"\s*=\s", whole[m.end() :]) and re.search(r"[{;,]\s*$|^\s*$", whole[: m.start()]) or t in members and re.match(r"\s+(pub )?$", whole[: m.start()]) and re.match(r"[^=]* : | :$", whole[m.end() :])):
                return fields[t]
            return names.get(t, fields.get(t, t))

        pieces = re.split(r'("(?:[^"\\]|\\.)*")', code) if comment == "//" else [code]
        code = "".join(p if p.startswith('"') else TOKEN.sub(lambda m, w=p: one(m, w), p) for p in pieces)
        note = re.sub(r"`[^`]*`", lambda q: TOKEN.sub(lambda m: one(m, q.group(0)), q.group(0)), note)
        out.append(code + note)
    return "\n".join(out)


def clash(path, text, names, fields):
    """Names of a file that would fall together: of src/, names of the logic with one another and with the parameters that a clause sees."""
    tokens = set(TOKEN.findall("\n".join(re.sub(r"(^|\s)--.*", "", l) for l in text.split("\n"))))
    if path.endswith(".rt"):
        clauses = [l for l in text.split("\n") if re.match(r"\s*(ghost|requires|ensures|pub ghost)\b", l)]
        named = set(TOKEN.findall("\n".join(clauses)))
        params = set(re.findall(r"(?<![\w:])(?:mut )?([a-z_]\w*): ", text))
        tokens = {t for t in named if t in names or t in fields} | params
    elif os.path.basename(path) == "Proof.antt":
        # The names of steps and functions stand behind a dot, or in a path.
        tokens = set(re.findall(r"(?<![.\w'-])(" + NAME + r")", re.sub(r"--.*|Rattle\.[^\s{]*", "", text)))
    seen = {}
    bad = []
    for t in tokens:
        if t in fields and t not in names:
            continue  # A field, or a constructor, goes by its type.
        n = names.get(t, t)
        if n in seen and seen[n] != t:
            bad.append((path, seen[n], t, n))
        seen[n] = t
    return bad


def mine(path, text, names, locals_of, walks):
    """The names to turn in a file. What a walk declares for itself, goals among them, keeps its name; so does what comes from the library."""
    here = {**names, **locals_of.get(path, {})}
    own = of_others(text) | (declared(path)[0] if path in walks else set())
    return {k: v for k, v in here.items() if k not in own}


def main(argv):
    names, fields, locals_of = plan()
    if argv == ["--list"]:
        for old, new in sorted({**names, **fields}.items()):
            print(old, new)
        return 0
    specs, lemmas, walks = files()
    sources = sorted(glob.glob("crates/*/src/**/*.rt", recursive=True))
    bad = []
    for p in specs + lemmas + walks + sources:
        with open(p, encoding="utf-8") as f:
            text = f.read()
        here = mine(p, text, names, locals_of, walks)
        bad += clash(p, text, here, fields)
    for b in bad:
        print("falls together: %s: %s and %s, as %s" % b)
    if bad or argv == ["--look"]:
        return 1 if bad else 0
    for p in specs + lemmas + walks + sources:
        with open(p, encoding="utf-8") as f:
            text = f.read()
        here = mine(p, text, names, locals_of, walks)
        done = turn(text, here, fields, "//" if p.endswith(".rt") else "--", declared(p)[1] if p.endswith(".antt") else frozenset())
        if done != text:
            with open(p, "w", encoding="utf-8") as f:
                f.write(done)
    for p in sorted(glob.glob("crates/*/must-fail/*.edit")):
        with open(p, encoding="utf-8") as f:
            lines = f.read().split("\n")
        done = []
        for line in lines:
            if line.startswith(("old:", "new:")):
                line = turn(line, names, fields, "\0")
            done.append(line)
        with open(p, "w", encoding="utf-8") as f:
            f.write("\n".join(done))
    return 0


if __name__ == "__main__":
    raise SystemExit(main(sys.argv[1:]))
