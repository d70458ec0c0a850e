#!/usr/bin/env python3
"""Reads the source of the pricer, and what it was compiled to, and fails where it holds anything of its own for each want, leg or file.

usage: tests/python/pricer_rows.py [TREE] [--library FILE]    TREE: the repository to read, by default this one; FILE: the library for C

Judged is every function of crates/walk, walk::price among them, and of crates/runs and crates/refusals every function
that is called from there, with the types and constants that these name. Wrong are: an array (`[x; n]`, `[x, y]`, or the
type `[T; n]`), a type other than numbers, rows lent by reference, the structs and enums of these crates, and Option and
Result of these; recursion; a call of anything else but the methods of Rattle's library that go over a row that is lent, or choose among numbers.
What is left takes stack for the single variables of a chain of calls, whatever the input.

What those methods take is read with --library, as all that the two calls of the pricer go through in the compiled library: by objdump, for
every input. Wrong are recursion, a call that cannot be followed, a function from outside other than one that copies, sets or compares
memory, and frames that together, along any chain of calls, are above the 1,024 bytes that the header promises; tests/c/stack.c measures
how much of that is used.

So that a reader that sees nothing does not pass, each of these mistakes is then planted in each function, and must be found.
"""
import argparse
import functools
import glob
import os
import re
import shutil
import subprocess
import sys
from collections import namedtuple

import programs

JUDGED, BELOW = "walk", ("walk", "runs", "refusals")
ENTRY = ("walk", None, "price")
NUMBERS = {"u8", "u16", "u32", "u64", "usize", "i8", "i16", "i32", "i64", "isize", "bool"}
WORDS_IN_TYPES = NUMBERS | {"mut", "self", "Self", "Option", "Result"}
CASES = {"Some", "None", "Ok", "Err"}
# What is asked of a row that is lent, or of two, one entry after the other; and of numbers. None of these holds anything for each entry.
METHODS_OF_ROWS = {"len", "is_empty", "last", "split_first", "iter", "zip", "enumerate", "rev", "any", "fold"}
METHODS_OF_NUMBERS = {"min", "max"}
KEYWORDS = {"if", "while", "match", "return", "in", "as", "let", "mut", "else", "for", "loop", "break"}
# Mistakes to plant, each with words of the complaint that it must bring; FUNCTION is the one in which it is planted.
PLANTED = (
    ("let own = [0u64; 64];", "an array of its own"),
    ("let own = [1u64, 2u64];", "an array of its own"),
    ("fill(&mut [0u64]);", "an array of its own"),
    ("let own: [u64; 64] = other;", "the type of an array"),
    ("let own: &[u64; 64] = other;", "the type of an array"),
    ("let own: Vec<u64> = other;", "the type Vec"),
    ("let own = vec![0u64];", "the macro vec"),
    ("engine_table::list(own);", "calls engine_table::list"),
    ("io::price(own);", "calls io::price"),
    ("FUNCTION();", "recursion"),
)

TOKEN = re.compile(r"""//[^\n]* | b?"(?:\\.|[^"\\])*" | b?'(?:\\.|[^'\\])' | [^\W\d]\w* | \d\w* | :: | -> | => | \S""", re.X)
Token = namedtuple("Token", "text at")
Function = namedtuple("Function", "crate kind name file uses signature body opened")  # kind: the type whose method it is
Item = namedtuple("Item", "name file types variants")


class Wrong(Exception):
    pass


# ---- Reading ----

def tokens_of(text):
    return [Token(m.group(), m.start()) for m in TOKEN.finditer(text) if not m.group().startswith("//")]


class Reader:
    """The functions, types and constants of one file."""

    def __init__(self, crate, file, text):
        self.crate, self.file, self.tokens, self.next = crate, file, tokens_of(text), 0
        self.uses, self.functions, self.items = {}, [], []
        while self.next < len(self.tokens):
            self.read_item(None)

    def peek(self):
        return self.tokens[self.next].text if self.next < len(self.tokens) else ""

    def take(self, wanted=None):
        if self.next == len(self.tokens) or wanted not in (None, self.peek()):
            raise Wrong(f"{self.file}: {self.peek() or 'the end'} where {wanted or 'more'} must stand")
        self.next += 1
        return self.tokens[self.next - 1]

    def until(self, *ends):
        """The tokens before the next of these that is in no brackets."""
        found, depth = [], 0
        while depth > 0 or self.peek() not in ends:
            depth += (self.peek() in "([{") - (self.peek() in ")]}")
            found.append(self.take())
        return found

    def enclosed(self, opening, closing):
        self.take(opening)
        found = self.until(closing)
        self.take(closing)
        return found

    def read_item(self, kind):
        word = self.take().text
        if word == "#":
            if self.peek() == "!":
                self.take("!")
            self.enclosed("[", "]")
        elif word == "ghost" or word == "mod":
            self.until(";")
            self.take(";")
        elif word == "use":
            self.read_use("".join(t.text for t in self.until(";")))
            self.take(";")
        elif word == "fn":
            self.read_function(kind)
        elif word == "impl":
            kind = self.until("{")[-1].text
            self.take("{")
            while self.peek() != "}":
                self.read_item(kind)
            self.take("}")
        elif word in ("struct", "enum"):
            name = self.take().text
            self.items.append(item_of(word, name, self.file, self.enclosed("{", "}")))
        elif word == "const":
            name = self.take().text
            self.items.append(item_of(word, name, self.file, self.until("=")))
            self.until(";")
            self.take(";")
        elif word == "pub":
            if self.peek() == "(":
                self.enclosed("(", ")")
        elif word not in ("extern", '"C"'):
            raise Wrong(f"{self.file}: this check cannot read an item that begins with {word}")

    def read_use(self, path):
        head, _, names = path.partition("{")
        for name in names.rstrip("}").split(",") if names else [""]:
            parts = (head + name).split("::")
            self.uses[parts[-1]] = [p for p in parts if p not in ("crate", "self", "super")]

    def read_function(self, kind):
        name = self.take().text
        signature = self.enclosed("(", ")") + self.until("requires", "ensures", "{")
        while self.peek() != "{":
            # A clause, which may have a name.
            self.take()
            self.until("{")
            self.enclosed("{", "}")
        opened = self.tokens[self.next].at + 1
        body = self.enclosed("{", "}")
        self.functions.append(Function(self.crate, kind, name, self.file, self.uses, types_in(signature), body, opened))


@functools.cache
def read(crate, file, text):
    return Reader(crate, file, text)


def types_in(tokens):
    """The words of a list of parameters or fields, without the names in front of the colons."""
    words = [t.text for t in tokens]
    return [w for w, after in zip(words, words[1:] + [""]) if w not in (":", "->", ",", "pub") and after != ":"]


def item_of(word, name, file, tokens):
    """A type or a constant: the types of its fields; of an enum, of what its variants hold."""
    if word != "enum":
        return Item(name, file, types_in(tokens), set())
    held, variants, depth = [], set(), 0
    for token in tokens:
        depth -= token.text in ")}"
        if depth > 0:
            held.append(token)
        elif is_name(token.text):
            variants.add(token.text)
        depth += token.text in "({"
    return Item(name, file, types_in(held), variants)


def is_name(word):
    return re.fullmatch(r"[^\W\d]\w*", word) is not None and word not in KEYWORDS


# ---- Judging ----

class Judge:
    """Reads the texts and judges them; `calls` has the functions that were judged, each with those that it calls."""

    def __init__(self, texts, crates):
        self.crates, self.functions, self.items, self.calls, self.judged_items = crates, {}, {}, {}, set()
        for (crate, file), text in texts.items():
            reader = read(crate, file, text)
            for f in reader.functions:
                self.enter(self.functions, (crate, f.kind, f.name), f)
            for item in reader.items:
                self.enter(self.items, item.name, item)
        if ENTRY not in self.functions:
            raise Wrong("walk::price is not there")
        for key in self.functions:
            if key[0] == JUDGED:
                self.follow(key, [])

    @staticmethod
    def enter(table, key, entry):
        if table.setdefault(key, entry) is not entry:
            raise Wrong(f"{entry.file}: {entry.name} is there twice, and this check cannot tell which is meant")

    def follow(self, key, above):
        """Judges a function and all that it calls; `above` are those that are calling."""
        if key in above:
            raise Wrong("recursion: " + ", ".join(shown(k) for k in above[above.index(key):] + [key]))
        if key not in self.calls:
            self.calls[key] = self.judge(self.functions[key])
        for called in self.calls[key]:
            self.follow(called, above + [key])

    def judge(self, f):
        """The functions that a function calls, if nothing in it is wrong."""
        self.judge_types(f, f.signature)
        words = self.without_types(f)
        for i, word in enumerate(words):
            if word == "[" and not (i > 0 and (words[i - 1] in ")]" or is_name(words[i - 1]))):
                raise Wrong(f"{f.file}: {f.name} has an array of its own")
            if word == "!" and words[i + 1] in "([{" and is_name(words[i - 1]):
                raise Wrong(f"{f.file}: {f.name} has the macro {words[i - 1]}")
            if word in self.items:
                self.judge_item(word)
        calls = [i for i, word in enumerate(words) if word == "(" and i > 0 and is_name(words[i - 1]) and words[i - 1] not in CASES]
        return {key for i in calls for key in self.called(f, words, i)}

    def without_types(self, f):
        """The words of a body without the types at `let`, which are judged."""
        words, rest, i = [t.text for t in f.body], [], 0
        while i < len(words):
            if words[i] == ":" and i > 1 and words[i - 2] in ("let", "mut"):
                end = words.index("=", i)
                self.judge_types(f, words[i + 1:end])
                i = end
            rest.append(words[i])
            i += 1
        return rest

    def judge_types(self, where, words):
        for i, word in enumerate(words):
            lent = words[i - 1:i] == ["&"] or i > 1 and words[i - 2:i] == ["&", "mut"]
            if word == "[" and (not lent or ";" in words[i:words.index("]", i)]):
                raise Wrong(f"{where.file}: {where.name} has the type of an array")
            if not is_name(word) or word in WORDS_IN_TYPES or words[i + 1:i + 2] == ["::"]:
                continue
            if word not in self.items:
                raise Wrong(f"{where.file}: {where.name} has the type {word}, which is none of {', '.join(BELOW)}")
            self.judge_item(word)

    def judge_item(self, name):
        if name not in self.judged_items:
            self.judged_items.add(name)
            self.judge_types(self.items[name], self.items[name].types)

    def called(self, f, words, at):
        """The functions that the bracket at this word may call: one, or each method of a name; none for a method of rows or numbers and a variant of an enum."""
        i = at - 1
        while i > 1 and words[i - 1] == "::":
            i -= 2
        path = [f.kind if p == "Self" else p for p in words[i:at:2] if p not in ("crate", "self", "super")]
        if i > 0 and words[i - 1] == ".":
            found = [key for key in self.functions if key[1] is not None and key[2] == path[0]]
            if found or path[0] in METHODS_OF_ROWS | METHODS_OF_NUMBERS:
                return found
        else:
            path = f.uses.get(path[0], path[:1]) + path[1:]
            crate = path[0] if path[0] in self.crates else f.crate
            kind = path[-2] if len(path) > 1 and path[-2] in self.items else None
            if kind and path[-1] in self.items[kind].variants:
                return []
            found = [key for key in self.functions if key == (crate, kind, path[-1])]
        if len(found) != 1:
            raise Wrong(f"{f.file}: {f.name} calls {'::'.join(path)}, which is no one function of {', '.join(BELOW)}")
        return found


def shown(key):
    return "::".join(part for part in key if part)


# ---- The check of the check ----

def plant(texts, f, line):
    """The texts with a line at the beginning of a function's body."""
    text = texts[f.crate, f.file]
    return {**texts, (f.crate, f.file): text[:f.opened] + line + text[f.opened:]}


def try_mistakes(texts, crates, judge):
    """Plants every mistake in every function that was judged; how many they were."""
    for key in judge.calls:
        for line, complaint in PLANTED:
            try:
                Judge(plant(texts, judge.functions[key], line.replace("FUNCTION", shown(key))), crates)
                found = "nothing"
            except Wrong as wrong:
                found = str(wrong)
            if complaint not in found:
                sys.exit(f"{sys.argv[0]}: '{line}', planted in {shown(key)}, brought '{found}': this check does not check")
    return len(judge.calls) * len(PLANTED)


# ---- What it was compiled to ----

CALLS, MOST, OUTSIDE = ("violstream_price", "violstream_price_any"), 1024, {"memcpy", "memmove", "memset", "memcmp"}
# Mistakes to plant behind the first line of a compiled function, as objdump would show them, each with words of the complaint.
COMPILED = (
    ("  0:\tcall   *%rax", "a call that cannot be followed"),
    ("  0:\tcall   5 <f>\n\t\t1: R_X86_64_PLT32\tmalloc-0x4", "calls malloc"),
    ("  0:\tcall   5 <f>\n\t\t1: R_X86_64_PLT32\t.text.FUNCTION-0x4", "recursion"),
    ("  0:\tsub    $0x400,%rsp", "bytes of stack"),
    ("  0:\tadd    $0xfffffffffffffc00,%rsp", "bytes of stack"),
)
HEAD = re.compile(r"^[0-9a-f]+ <(.*)>:$")
# A jump within a function, which a relocation does not belong to, is no call; what takes stack; what is called.
PUSHED, LOWERED, ADDED = re.compile(r"\tpush\b"), re.compile(r"\tsub +\$0x([0-9a-f]+),%rsp"), re.compile(r"\tadd +\$0x(f{4}[0-9a-f]+),%rsp")
WILD, CALLED = re.compile(r"\t(?:call|jmp) +\*|\tsub +%\w+,%rsp"), re.compile(r"R_X86_64_(?:PLT|PC)32\t(?:\.text\.)?(\S+?)-0x[0-9a-f]+$")


def disassembled(library):
    """The object of a library that has the pricer's calls, as objdump shows it."""
    tool = shutil.which("x86_64-linux-gnu-objdump") or shutil.which("objdump")
    if tool is None:
        sys.exit(f"{sys.argv[0]}: no objdump (on Debian, as root: apt-get install binutils)")
    said = subprocess.run([tool, "-dr", "--no-show-raw-insn", library], capture_output=True, text=True, check=True).stdout
    return next((part for part in said.split("file format") if all(f"<{call}>:" in part for call in CALLS)), "")


def frames(said):
    """Each function by its name: the bytes of stack that it takes with its return address, and what it calls."""
    found, name = {}, None
    for line in said.split("\n"):
        head = HEAD.match(line)
        if head:
            name = head[1]
            found[name] = [8, set()]
        elif name:
            lowered, added, called = LOWERED.search(line), ADDED.search(line), CALLED.search(line)
            found[name][0] += 8 * bool(PUSHED.search(line)) + (int(lowered[1], 16) if lowered else 0) + (2**64 - int(added[1], 16) if added else 0)
            if WILD.search(line):
                raise Wrong(f"{name} has a call that cannot be followed: {line.strip()}")
            if called and not called[1].startswith("."):
                found[name][1].add(called[1])
    return found


def deepest(found, name, above=()):
    """The bytes of stack that a function takes with all below it, and the functions that it goes through."""
    if name in above:
        raise Wrong(f"recursion in the compiled {name}")
    if name in OUTSIDE:
        return 0, set()
    if name not in found:
        raise Wrong(f"{above[-1] if above else 'the library'} calls {name}, which is not in the library")
    below = [deepest(found, called, (*above, name)) for called in sorted(found[name][1])]
    return found[name][0] + max((taken for taken, _ in below), default=0), {name}.union(*(met for _, met in below))


def judge_compiled(said):
    """How much stack the pricer's calls can take at most, and the functions that they go through."""
    found = frames(said)
    taken = [deepest(found, call) for call in CALLS]
    if max(most for most, _ in taken) > MOST:
        raise Wrong(f"the compiled pricer can take {max(most for most, _ in taken)} bytes of stack, allowed are {MOST}")
    return [most for most, _ in taken], set().union(*(met for _, met in taken))


def try_compiled(library):
    said = disassembled(library)
    try:
        taken, met = judge_compiled(said)
    except Wrong as wrong:
        sys.exit(f"{sys.argv[0]}: {library}: {wrong}")
    for name in sorted(met):
        for line, complaint in COMPILED:
            try:
                judge_compiled(said.replace(f"<{name}>:\n", f"<{name}>:\n{line.replace('FUNCTION', name)}\n"))
                found = "nothing"
            except Wrong as wrong:
                found = str(wrong)
            if complaint not in found:
                sys.exit(f"{sys.argv[0]}: '{line}', planted in the compiled {name}, brought '{found}': this check does not check")
    print(f"pricer_rows.py: compiled, {' and '.join(f'{call} takes at most {most}' for call, most in zip(CALLS, taken))} bytes of stack, whatever the input, "
          f"in {len(met)} functions; {len(met) * len(COMPILED)} planted mistakes found")


def main():
    reader = argparse.ArgumentParser(description="Fails where the pricer holds anything of its own for each want, leg or file.")
    reader.add_argument("tree", metavar="TREE", nargs="?", default=programs.ROOT, help="the repository to read, by default this one")
    reader.add_argument("--library", metavar="FILE", help="the library for C, of which the two calls are read")
    given = reader.parse_args()
    tree = given.tree
    with open(os.path.join(tree, "crates.txt"), encoding="utf-8") as file:
        crates = {name for line in file if not line.startswith("#") for name in line.replace(":", " ").split()}
    texts = {}
    for crate in BELOW:
        for path in sorted(glob.glob(f"crates/{crate}/src/*.rt", root_dir=tree)):
            with open(os.path.join(tree, path), encoding="utf-8") as file:
                texts[crate, path] = file.read()
    try:
        judge = Judge(texts, crates)
    except Wrong as wrong:
        sys.exit(f"{sys.argv[0]}: {wrong}")
    mistakes = try_mistakes(texts, crates, judge)
    counted = ", ".join(f"{sum(key[0] == crate for key in judge.calls)} of {crate}" for crate in BELOW)
    print(f"pricer_rows.py: nothing that grows in the functions of the pricer ({counted}); {mistakes} planted mistakes found")
    if given.library:
        try_compiled(given.library)


if __name__ == "__main__":
    main()
