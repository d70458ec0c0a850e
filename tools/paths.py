#!/usr/bin/env python3
"""Gives names to the long paths of proofs: where a proof climbs by many `.before` from the record of one place in the code to
that of an earlier one, an `abbrev` says which place that is.

    tools/paths.py [--lines] [--unchecked] [--generated DIR] CRATE..      in the root of a checkout whose crates are proved

`rt dev CRATE --generated` prints the records of each function: which one each `before` leads to, and at which one each need
stands. From these the type of each path follows. In a proof that has a path of eight `.before` or more, each place that a long
path leads to gets an abbrev for the way there from the next such place behind it, and the paths go from one to the next:

    abbrev at-start : tie.After-read → tie.Start
    at-start c = c .before .before ..

A path that is used twice in a declaration, or that a longer one goes through, is bound by a `let` there. Lines that are too
long are broken between the arguments of an application. What cannot be typed stands as it was and is listed. An abbrev is
transparent, but `rw` matches what is written: where `rt dev` refuses a declaration, its paths go by lets alone, and where it is
refused again it stands as it was. What comes out is a proof like any other: a mistake of this program is a proof that is refused.

Several crates are taken from the top floor down, so that none has to be proved again for a change below it.

--lines: breaks the long lines of the crate's other proofs too. --unchecked: leaves the check to the caller. --generated DIR: what `rt
dev CRATE --generated DIR` has written before.
"""
import collections
import glob
import os
import re
import subprocess
import sys
import tempfile

LONG = 8        # so many `.before` in a row must have a name
TOUCH = 5       # a declaration with so many in a row is written anew, in a file that has a long one
INLINE = 3      # so many may stand as they are
ONCE = 5        # and so many where only one path goes by them
WIDTH = 170     # where a line is broken that is longer than LIMIT
LIMIT = 200
HEADING = "-- The way back from a place in the code to the one that the name says."


# ---- The records of a function

class Walk:
    def __init__(self, text):
        self.before = dict(re.findall(r"^ *pub record (\S+) : [^\n]*\n *pub before : (\S+)", text, re.M))
        self.needs = dict(re.findall(r"^ *(Need-\S+) =\s+\(c : ([^\s()]+)\)\s+→", text, re.M))
        self.records = set(self.before) | {"Start"}

    def climb(self, record, steps):
        """The record that so many `.before` lead to, or None."""
        for _ in range(steps):
            record = self.before.get(record)
        return record

    def line(self, record):
        """The record and those before it."""
        found = [record]
        while found[-1] in self.before:
            found.append(self.before[found[-1]])
        return found

    def steps(self, low, high):
        line = self.line(low)
        return line.index(high) if high in line else None


def thing(record):
    """What a record is called in a name: the call, the branch or the loop whose outcome it has."""
    if record.startswith("After-"):
        return record[len("After-"):]
    return record[0].lower() + record[1:]


def way(record):
    """The name of a path to a record."""
    name = thing(record)
    return name if re.match(r"(at|in|left)-", name) else "at-" + name


# ---- The text of a proof

WORD = re.compile(r"--[^\n]*|\s+|[(){}\[\],;]|[^\s(){}\[\],;]+")
NAME = re.compile(r"[^\s(){}\[\],;.]+$")
KEYWORDS = {"let", "in", "λ", "=", ":", "→", "elim", "as", "record", "rw", "where", "unfolding", "unfold"}


# What no let may bind: words of antt, its tactics, and constructors that are in scope everywhere
RESERVED = set("""data record deriving module where use mod pub package using open as unfoldable abbrev axiom unfold unfolding ruleset mutual infix
infixl infixr elim let in do coe fcoe tcoe hcom com V vin vproj rw simp search grw cc omega cap at yes no refl tt zero suc true false some none
inl inr nil cons""".split())


class Token:
    def __init__(self, text, at):
        self.text, self.start, self.end = text, at, at + len(text)


def tokens(text):
    """The words of a text, without spaces and comments."""
    return [Token(m.group(), m.start()) for m in WORD.finditer(text) if not m.group().isspace() and not m.group().startswith("--")]


def is_name(word):
    return bool(NAME.match(word)) and word not in KEYWORDS


def operator(word):
    return not re.match(r"[\w_.«]", word) or word == "_≡_"


def heads(words, i):
    """Whether an application can begin at the word: a projection behind it takes nothing before it."""
    if i == 0:
        return True
    last = words[i - 1].text
    return last in KEYWORDS or last in "([{,;" or (last.endswith(".") and last != ".") or (operator(last) and last not in ")]}")


def split(words, by):
    """The words between those at no depth that are `by`."""
    found, depth = [[]], 0
    for word in words:
        depth += (word.text in "([{") - (word.text in ")]}")
        if depth == 0 and word.text == by:
            found.append([])
        else:
            found[-1].append(word)
    return found


class Declaration:
    """A signature at the left margin with the clause below it."""
    def __init__(self, name, marks, start, end):
        self.name, self.marks, self.signature, self.clauses = name, marks, (start, end), []


SIGNATURE = re.compile(r"((?:(?:unfoldable|abbrev|pub|axiom) )*)(\S+)(?: \{[^}\n]*\})? :\s")


def declarations(text):
    found, last = [], None
    starts = [m.start() for m in re.finditer(r"^(?=[^\s])", text, re.M)]
    for start, end in zip(starts, starts[1:] + [len(text)]):
        piece = text[start:end].rstrip()
        m = SIGNATURE.match(piece + " ")
        if m and m.group(2) not in ("use", "mod", "module", "--"):
            last = Declaration(m.group(2), m.group(1).split(), start, start + len(piece))
            found.append(last)
        elif last and piece.split(None, 1)[0] == last.name:
            last.clauses.append((start, start + len(piece)))
    return found


class Path:
    """So many `.before` behind a variable."""
    def __init__(self, base, steps):
        self.base, self.steps = base, steps


class Edge:
    """An abbrev for the path from one record to another."""
    def __init__(self, low, high, name, steps, place=-1):
        self.low, self.high, self.name, self.steps, self.place, self.body = low, high, name, steps, place, None


class Module:
    """The proof of one function, or of one member of a cycle, that a file names as `tie` or `x-lts`."""
    def __init__(self, alias, walk):
        self.alias, self.walk, self.args, self.free, self.binders = alias, walk, None, [], ""
        self.known = []         # the abbrevs that the file has
        self.new = {}           # those that it gets, by the two records

    def type(self, record):
        return f"{self.alias}.{record}" + (f" {self.args}" if self.args else "")

    # -- expressing a path

    def best(self, low, high, place):
        """The shortest way from one record to another: a list of numbers of `.before` and edges, the first taken first."""
        line = self.walk.line(low)
        line = line[:line.index(high) + 1]
        index = {r: i for i, r in enumerate(line)}
        edges = [e for e in list(self.known) + list(self.new.values()) if e.place < place and e.low in index and e.high in index]
        cost = [(0, [])] + [None] * (len(line) - 1)
        for i in range(len(line)):
            if cost[i] is None:
                continue
            here, parts = cost[i]
            moves = [(i + e.steps, 2.5, e) for e in edges if e.low == line[i]]
            if not (parts and isinstance(parts[-1], int)):
                moves += [(i + k, k if k <= INLINE else 2 * k if k < LONG else 10 * k, k) for k in range(1, len(line) - i)]
            for j, price, part in moves:
                if j < len(cost) and (cost[j] is None or cost[j][0] > here + price):
                    cost[j] = (here + price, parts + [part])
        return cost[-1][1]

    def write(self, base, parts):
        """The parts of a path as an expression that begins at a variable, and whether it is more than a name."""
        text, kind = base, "name"
        for part in parts:
            if isinstance(part, int):
                text, kind = text + " .before" * part, "path"
            else:
                argument = text if kind == "name" else f"({text})"
                text, kind = " ".join([part.name] + self.free + [argument]), "call"
        return text


class Proof:
    def __init__(self, file, text, walks, modes):
        self.file, self.text, self.modes = file, text, modes
        self.left = []          # what could not be typed
        self.modules = {}
        for module, alias in re.findall(r"^use \S+?·proofs\.proofs\.(\S+) as (\S+)$", self.text, re.M):
            parts = module.split(".")
            if parts[-1] == "Tie" or parts[-1].startswith("Lts"):
                name = "/".join(parts[:-1] + ["Lts" if parts[-1] == "Tie" else parts[-1]])
                if name in walks:
                    self.modules[alias] = Module(alias, walks[name])
        self.declarations = declarations(self.text)
        self.names = {d.name for d in self.declarations} | set(re.findall(r"[^\s(){}\[\],;]+", self.text))

    # -- types

    def record(self, words):
        """The module and the record that a type names, or None."""
        m = re.match(r"([^\s.]+)\.(\S+)$", words[0].text) if words else None
        if not m or m.group(1) not in self.modules:
            return None
        module = self.modules[m.group(1)]
        args = self.text_of(words[1:])
        if m.group(2) in module.walk.records:
            return (module, m.group(2), args)
        if m.group(2) in module.walk.needs:
            return (module, module.walk.needs[m.group(2)], args)
        return None

    def text_of(self, words):
        return re.sub(r"\s+", " ", self.text[words[0].start:words[-1].end]) if words else ""

    def parameters(self, declaration):
        """The parameters of a declaration in order: their names in the signature, or None, and their records, or None."""
        start, end = declaration.signature
        words = self.words(start, end)
        colon = next(i for i, w in enumerate(words) if w.text == ":")
        found = []
        parts = split(words[colon + 1:], "→")
        for i, part in enumerate(parts):
            if not part or part[0].text == "let":
                break
            if part[0].text == "{":
                continue
            if part[0].text == "(" and part[-1].text == ")" and len(part) > 3 and any(w.text == ":" for w in part):
                inner = part[1:-1]
                at = next(k for k, w in enumerate(inner) if w.text == ":")
                found += [(w.text, self.record(inner[at + 1:])) for w in inner[:at]]
            elif i < len(parts) - 1 or self.is_need(part):
                found.append((None, self.record(part)))
        return found

    def is_need(self, words):
        return bool(words) and ".Need-" in words[0].text

    def words(self, start, end):
        found = tokens(self.text[start:end])
        for word in found:
            word.start, word.end = word.start + start, word.end + start
        return found

    def clause(self, declaration):
        """The variables of the clause with their records, and its words behind the `=`."""
        if len(declaration.clauses) != 1:
            return None
        words = self.words(*declaration.clauses[0])
        equals = next((i for i, w in enumerate(words) if w.text == "="), None)
        if equals is None:
            return None
        left = [w.text for w in words[1:equals]]
        if not all(is_name(w) for w in left):
            return None
        return left, words[equals + 1:]

    # -- paths

    def path(self, words, i, scope, place):
        """The path that begins at a word and the number of the word behind it, or None."""
        if i >= len(words):
            return None
        word, at = words[i].text, i + 1
        if word in scope:
            found = scope[word]
        elif word == "(":
            inner = self.path(words, at, scope, place)
            if not inner or inner[1] >= len(words) or words[inner[1]].text != ")":
                return None
            found, at = inner[0], inner[1] + 1
        else:
            edge = next(((m, e) for m in self.modules.values() for e in m.known if e.name == word), None)
            if not edge:
                return None
            module, edge = edge
            for free in module.free:
                if at >= len(words) or words[at].text != free:
                    return None
                at += 1
            if at < len(words) and words[at].text in scope:
                inner = (scope[words[at].text], at + 1)
            elif at < len(words) and words[at].text == "(":
                inner = self.path(words, at, scope, place)
                if inner and words[inner[1] - 1].text != ")":
                    return None
            else:
                return None
            if not inner:
                return None
            found, at = inner
            if self.at(found) != (module, edge.low):
                return None
            found = Path(found.base, found.steps + edge.steps)
        while at < len(words) and words[at].text == ".before" and self.at(Path(found.base, found.steps + 1)):
            found, at = Path(found.base, found.steps + 1), at + 1
            if word == "(" and words[at - 2].text == ")":
                pass
        return found, at

    def at(self, path):
        """The module and the record that a path leads to."""
        module, record = path.base[1]
        record = module.walk.climb(record, path.steps)
        return (module, record) if record else None

    def uses(self, words, scope, place):
        """The paths among the words: the first word, the one behind the last, and the path. What a let among them binds is a variable
        of its own."""
        found, i, scope = [], 0, dict(scope)
        while i < len(words):
            path = self.path(words, i, scope, place) if heads(words, i) and words[i].text != "(" else None
            if path and i > 2 and words[i - 3].text == "let" and path[1] < len(words) and words[path[1]].text == "in":
                name = words[i - 2].text
                scope[name] = scope.get(name) or Path((name, self.at(path[0]), "let"), 0)
            if path and path[1] > i + 1:
                found.append((i, path[1], path[0]))
                i = path[1]
            else:
                i += 1
        return found


class Piece:
    """What is to be done to one declaration."""
    def __init__(self, declaration, place):
        self.declaration, self.place = declaration, place
        self.signature = []     # the uses in the signature
        self.words, self.body = [], []
        self.lets = []          # the leading lets that are paths: name, path, the span of their words
        self.left = []          # the clause's variables
        self.plain = 0          # where no abbrev may stand: 0 nowhere, 1 in what `rw` rewrites by, 2 in the whole clause
        self.rewrites = set()   # the variables and distances in what `rw` rewrites by

    def plain_steps(self, base):
        every = [p for _, _, p in self.body] + [p for _, p, _, _ in self.lets]
        return {p.steps for p in every if p.base == base and (self.plain == 2 or (self.plain == 1 and (base, p.steps) in self.rewrites))}


def runs(words):
    """The longest row of `.before` among the words."""
    longest = here = 0
    for word in words:
        here = here + 1 if word.text == ".before" else 0
        longest = max(longest, here)
    return longest


def rewriting(words):
    """The numbers of the words in what `rw` rewrites by and, behind `at`, in what it rewrites: these are matched as they are written."""
    found = set()
    for i, word in enumerate(words):
        if word.text == "rw" or (word.text == "at" and i - 1 in found):
            depth = 0
            for k in range(i + 1, len(words)):
                depth += (words[k].text in "([{") - (words[k].text in ")]}")
                found.add(k)
                if depth == 0:
                    break
    return found


def read(proof):
    """What each declaration is to be given, or nothing for those that stay as they are."""
    pieces = []
    for place, declaration in enumerate(proof.declarations):
        parameters = proof.parameters(declaration)
        piece = Piece(declaration, place)
        scope = {name: Path((name, record[:2]), 0) for name, record in parameters if name and record}
        signature = proof.words(*declaration.signature)
        piece.words = signature
        for module in proof.modules.values():
            takes = [record for _, record in parameters if record and record[0] is module]
            for record in takes:
                if module.args is None:
                    module.args = record[2]
                    module.free = [n for n, r in parameters if n and not r and re.search(rf"(?<![^\s()]){re.escape(n)}(?![^\s()])", record[2])]
                    module.binders = "".join(m.group() + " → " for n in module.free for m in [re.search(rf"\({re.escape(n)} : [^()]*\)", proof.text_of(signature))])
                elif module.args != record[2]:
                    scope = {}
        if scope:
            piece.signature = proof.uses(signature, scope, place)
        clause = proof.clause(declaration)
        if not clause:
            if any(runs(proof.words(*c)) >= LONG for c in declaration.clauses):
                proof.left.append((declaration.name, "its clause is not of a plain form"))
            continue
        left, words = clause
        explicit = [record for _, record in parameters]
        args_differ = any(r and r[0].args != r[2] for r in explicit)
        scope = {n: Path((n, r[:2]), 0) for n, r in zip(left, explicit) if r} if not args_differ else {}
        piece.left, at = left, 0
        bound = collections.Counter(w.text for k, w in enumerate(words) if k and words[k - 1].text == "let")
        # The lets that the body begins with
        while at < len(words) and words[at].text == "let":
            depth, end = 0, at + 1
            while end < len(words) and not (words[end].text == "in" and depth == 0):
                depth += (words[end].text == "let") - (words[end].text == "in")
                end += 1
            if end >= len(words):
                break
            name, path = words[at + 1].text, None
            if words[at + 2].text == "=" and is_name(name) and bound[name] == 1 and name not in left:
                path = proof.path(words, at + 3, scope, place)
            if path and path[1] == end:
                piece.lets.append((name, path[0], at, end + 1))
                scope[name] = path[0]
            at = end + 1
        taken = {k for _, _, a, b in piece.lets for k in range(a, b)}
        piece.words = words
        piece.scope = scope
        piece.body = [u for u in proof.uses(words, scope, place) if u[0] not in taken]
        inside = rewriting(words)
        piece.rewrites = {(p.base, p.steps) for start, _, p in piece.body if start in inside}
        piece.rewrites |= {(scope[words[k].text].base, scope[words[k].text].steps) for k in inside if words[k].text in scope}
        piece.plain = max(proof.modes.get(declaration.name, 0), 1)
        # An abbrev that is a path and nothing else
        own = proof.uses(words, scope, place)
        if "abbrev" in declaration.marks and len(explicit) >= 1 and explicit[-1] and not piece.lets and len(own) == 1 and own[0][:2] == (0, len(words)):
            module, record = explicit[-1][:2]
            end = proof.at(own[0][2])
            if end and left[:-1] == module.free:
                module.known.append(Edge(record, end[1], declaration.name, own[0][2].steps, place))
                continue
        if proof.modes.get(declaration.name) == 3:
            proof.left.append((declaration.name, "refused with names for its paths"))
        elif runs(words) >= TOUCH or (runs(signature) >= TOUCH and piece.signature):
            pieces.append(piece)
    return pieces


def rows(proof, module, pieces, marks):
    """The rows of `.before` that the declarations would have: from which record to which. One that ends where nothing is asked goes on by
    the abbrev behind it."""
    for piece in pieces:
        for m, low, high in demands(proof, piece):
            if m is module:
                parts = module.best(low, high, piece.place)
                for part, next_ in zip(parts, parts[1:] + [None]):
                    steps = part if isinstance(part, int) else part.steps
                    end = module.walk.climb(low, steps)
                    if part is steps and steps > INLINE:
                        yield (low, end, steps) if end in marks or not next_ else (low, next_.high, steps + next_.steps)
                    low = end


def plan(proof, pieces):
    """The abbrevs that the file gets: again and again the one that saves most."""
    proof.first = min([piece.place for piece in pieces], default=0)
    for module in proof.modules.values():
        walk = module.walk
        marks = {walk.climb(p.base[1][1], p.steps) for piece in pieces for _, _, p in piece.body + piece.signature if p.base[1][0] is module}
        marks |= {walk.climb(p.base[1][1], p.steps) for piece in pieces for _, p, _, _ in piece.lets if p.base[1][0] is module}
        while True:
            saved, served = collections.Counter(), collections.Counter()
            for low, high, steps in rows(proof, module, pieces, marks):
                for before, record in enumerate(walk.line(low)[:INLINE + 1]):
                    if steps - before > INLINE:
                        saved[(record, high)] += steps - before - 1
                        served[(record, high)] += 1
            worth = [pair for pair in saved if pair not in module.new and (served[pair] > 1 or walk.steps(*pair) > ONCE)]
            if not worth:
                break
            low, high = max(worth, key=lambda pair: (saved[pair], pair[0] in marks, walk.steps(*pair), pair))
            module.new[(low, high)] = Edge(low, high, None, walk.steps(low, high))


class Way:
    """How a place is reached in a declaration: from the place of a let or of the variable itself, by which parts; and the let's name."""
    def __init__(self, start, parts, name=None, bound=False):
        self.start, self.parts, self.name, self.bound = start, parts, name, bound


def ways(piece, base):
    """How each place of a variable is reached in a declaration, by its distance, the nearest first."""
    uses = collections.Counter(p.steps for _, _, p in piece.body if p.base == base)
    named = {p.steps: n for n, p, _, _ in reversed(piece.lets) if p.base == base}
    plain = piece.plain_steps(base)
    far = sorted(set(uses) | set(named))
    module, record = base[1]
    found, last, last_plain, k = {}, 0, 0, 0
    while k < len(far):
        steps = far[k]
        if steps in plain:
            # No abbrev may stand there: by way of places between, so that no row is long
            if steps - last_plain >= LONG:
                near = [f for f in far if last_plain + 1 < f < min(steps, last_plain + LONG)]
                middle = near[-1] if near else last_plain + min(LONG - 1, (steps - last_plain + 1) // 2)
                if middle not in found:
                    plain.add(middle)
                    far = sorted(set(far) | {middle})
                    k = far.index(middle)
                    uses[middle] = max(2, uses[middle])
                    continue
                found[middle] = Way(last_plain, [middle - last_plain], found[middle].name, True)
                last_plain = middle
                continue
            bound = steps in named or uses[steps] > 1
            found[steps] = Way(last_plain, [steps - last_plain] if steps > last_plain else [], named.get(steps), bound and len(base) < 3)
            if found[steps].bound:
                last = last_plain = steps
            k += 1
            continue
        low = module.walk.climb(record, last)
        bound = steps in named or (steps > last + 1 and uses[steps] > 1)
        if not bound and steps > last + 1 and k + 1 < len(far):
            # A longer path goes through it
            parts, passed, here = module.best(low, module.walk.climb(record, far[k + 1]), piece.place), set(), last
            for part in parts:
                here += part if isinstance(part, int) else part.steps
                passed.add(here)
            bound = steps in passed or (isinstance(parts[0], int) and len(parts) == 1 and far[k + 1] - last > INLINE)
        bound = bound and len(base) < 3
        found[steps] = Way(last, module.best(low, module.walk.climb(record, steps), piece.place), named.get(steps), bound)
        if bound:
            last = steps
        k += 1
    return found


def demands(proof, piece):
    """The paths that a declaration writes, but for those in which no abbrev may stand: from which record to which."""
    found = []
    for base in {p.base for _, _, p in piece.body} | {p.base for _, p, _, _ in piece.lets}:
        module, record = base[1]
        plain = piece.plain_steps(base)
        for steps, way_ in ways(piece, base).items():
            if steps not in plain and steps > way_.start:
                found.append((module, module.walk.climb(record, way_.start), module.walk.climb(record, steps)))
    for _, _, path in piece.signature if piece.plain < 2 else []:
        module, record = path.base[1]
        found.append((module, record, module.walk.climb(record, path.steps)))
    return found


def bodies(proof, module, pairs):
    """How the abbrevs for these pairs, and those that they go by, are written."""
    found, queue = {}, list(pairs)
    while queue:
        pair = queue.pop()
        if pair not in found and pair in module.new:
            edge = module.new.pop(pair)
            found[pair] = module.best(pair[0], pair[1], proof.first)
            module.new[pair] = edge
            queue += [(p.low, p.high) for p in found[pair] if not isinstance(p, int)]
    return found


def usage(proof, module, pieces):
    """How often each abbrev is used, and the bodies of those that are."""
    used = collections.Counter()
    for piece in pieces:
        for m, low, high in demands(proof, piece):
            if m is module:
                used.update((p.low, p.high) for p in module.best(low, high, piece.place) if not isinstance(p, int))
    made = bodies(proof, module, list(used))
    for body in made.values():
        used.update((p.low, p.high) for p in body if not isinstance(p, int))
    return used, made


def choose(proof, pieces):
    """Adds abbrevs for paths that would go by three others, leaves out those that are not worth it, and names the rest."""
    for module in proof.modules.values():
        skips = {}
        for piece in pieces:
            for m, low, high in demands(proof, piece):
                if m is module:
                    calls = [p for p in module.best(low, high, piece.place) if not isinstance(p, int)]
                    if len(calls) > 2:
                        skips[(calls[0].low, high)] = module.walk.steps(calls[0].low, high)
        for pair, steps in skips.items():
            if not any((e.low, e.high) == pair for e in module.known):
                module.new.setdefault(pair, Edge(pair[0], pair[1], None, steps))
        while True:
            used, made = usage(proof, module, pieces)
            kept = {pair: edge for pair, edge in module.new.items() if pair in made and (used[pair] > 1 or edge.steps > ONCE)}
            if len(kept) == len(module.new):
                break
            module.new = kept
        for pair, edge in module.new.items():
            edge.body = made[pair]
        name_edges(proof, module, used)


def name_edges(proof, module, used):
    by = collections.defaultdict(list)
    for (low, high), edge in module.new.items():
        by[high].append(edge)
    for high, edges in by.items():
        edges.sort(key=lambda e: (-used[(e.low, e.high)], e.steps))
        name = way(high)
        other = {"Then": "Else", "Else": "Then"}.get(high[:4])
        if other and (other + high[4:]) not in by:
            name = "at-if" + high[4:]
        if len(proof.modules) > 1:
            name = re.sub(r"-?lts$", "", module.alias) + "-" + name
        for k, edge in enumerate(edges):
            edge.name = name if k == 0 else f"{name}-from-{thing(edge.low)}"
            while edge.name in proof.names:
                edge.name += "'"
            proof.names.add(edge.name)


def short(record, used):
    """A name for what a let binds: the first letters of the thing's words."""
    name = thing(record)
    m = re.match(r"(.*?)(\d*)$", name)
    first = "".join(w[0] for w in re.split(r"[-·]", m.group(1)) if w and w[0].isalpha()) + m.group(2)
    for candidate in [first, name] + [name + "'" * k for k in range(1, 9)]:
        if candidate not in used and is_name(candidate) and not candidate[0].isdigit() and candidate not in RESERVED:
            return candidate
    raise SystemExit(f"paths.py: no name is left for {record}")


def split_by_lets(words, start, end, path, taken):
    """A long path that a let binds in a signature, by way of lets before it."""
    if path.steps < LONG or start < 3 or words[start - 3].text != "let" or any(w.text != ".before" for w in words[start + 1:end]):
        return []
    module, record = path.base[1]
    count = -(-path.steps // (LONG - 1))
    last, name, lets = 0, path.base[0], ""
    for k in range(1, count):
        steps = path.steps * k // count
        next_ = short(module.walk.climb(record, steps), taken)
        taken.add(next_)
        lets += f"let {next_} = {name}{' .before' * (steps - last)} in\n    "
        last, name = steps, next_
    return [(words[start - 3].start, words[start - 3].start, lets), (words[start].start, words[end - 1].end, name + " .before" * (path.steps - last))]


def rewrite(proof, piece):
    """The new texts of a declaration: spans and what stands there instead."""
    found = []
    signature = proof.words(*piece.declaration.signature)
    taken = {w.text.rstrip(".") for w in signature} | proof.names
    for start, end, path in piece.signature:
        module, record = path.base[1]
        if piece.plain == 2:
            found += split_by_lets(signature, start, end, path, taken)
        elif path.steps > INLINE:
            parts = module.best(record, module.walk.climb(record, path.steps), piece.place)
            found.append((signature[start].start, signature[end - 1].end, module.write(path.base[0], parts)))
    if not piece.body and not piece.lets:
        return found
    words = piece.words
    used = {w.text.rstrip(".") for w in words} | set(piece.left) | {w.text.split(".")[0] for w in words}
    names, lines = {}, []
    for base in sorted({p.base for _, _, p in piece.body} | {p.base for _, p, _, _ in piece.lets}, key=lambda b: piece.left.index(b[0]) if b[0] in piece.left else 99):
        module, record = base[1]
        here, reached = {0: base[0]}, ways(piece, base)
        for steps in sorted(reached):
            if reached[steps].bound:
                name = reached[steps].name or short(module.walk.climb(record, steps), used)
                used.add(name)
                lines.append(f"let {name} = {module.write(here[reached[steps].start], reached[steps].parts)} in")
                here[steps] = name
        for name, path, _, _ in piece.lets:
            if path.base == base and here[path.steps] != name:
                lines.append(f"let {name} = {here[path.steps]} in")
        names[base] = (here, reached)
    for _, _, start, end in piece.lets:
        stop = words[end].start if end < len(words) else words[end - 1].end
        found.append((words[start].start, stop, ""))
    for start, end, path in piece.body:
        module, record = path.base[1]
        here, reached = names[path.base]
        if path.steps in here:
            text = here[path.steps]
            if start and words[start - 1].text == "(" and end < len(words) and words[end].text == ")":
                found.append((words[start - 1].start, words[end].end, text))
                continue
        else:
            text = module.write(here[reached[path.steps].start], reached[path.steps].parts)
        found.append((words[start].start, words[end - 1].end, text))
    if lines:
        start = words[0].start
        first = "" if proof.text[:start].rstrip(" ").endswith("\n") else "\n    "
        found.append((start, start, first + "\n    ".join(lines) + "\n    "))
    return found


def block(module):
    """The abbrevs of a module as text, each behind those that it goes by."""
    order, lines = [], []

    def put(pair):
        if pair in order or pair not in module.new:
            return
        for part in module.new[pair].body:
            if not isinstance(part, int):
                put((part.low, part.high))
        order.append(pair)
    for pair in sorted(module.new, key=lambda p: (len(module.walk.line(p[1])), len(module.walk.line(p[0])))):
        put(pair)
    for pair in order:
        edge = module.new[pair]
        lines.append(f"abbrev {edge.name} : {module.binders}{module.type(edge.low)} → {module.type(edge.high)}\n"
                     + f"{' '.join([edge.name] + module.free)} c = {module.write('c', edge.body)}\n")
    return lines


def insert(proof):
    """Where the abbrevs of a file go, which is before the first declaration that is written anew, and what they are."""
    lines = [line for module in proof.modules.values() for line in block(module)]
    if not lines:
        return []
    start = proof.declarations[proof.first].signature[0]
    while True:
        last = proof.text.rfind("\n", 0, start - 1) + 1
        if not proof.text.startswith("--", last):
            break
        start = last
    return [(start, start, HEADING + "\n" + "\n".join(lines) + "\n")]


# ---- Lines

def items(text):
    """The text cut at the spaces at no depth, a projection with what it is taken of."""
    found, depth, last = [], 0, 0
    words = [m for m in re.finditer(r"\s+|[(){}\[\],;]|[^\s(){}\[\],;]+", text)]
    for m in words:
        word = m.group()
        depth += (word in "([{") - (word in ")]}") if not word.isspace() else 0
        if word.isspace() and depth == 0 and m.end() < len(text) and (text[m.end()] in "(_" or re.match(r"[∙]", text[m.end()])):
            found.append(text[last:m.start()])
            last = m.end()
    return found + [text[last:]]


def broken(text, width):
    """The text on lines of at most so many characters, where it can be had."""
    if len(text) <= width:
        return [text]
    lines = [""]
    for item in items(text):
        if len(item) > width:
            inner = re.match(r"\((.*)\)(.*)$", item, re.S)
            if inner and balanced(inner.group(1)):
                parts = tuple_parts(inner.group(1))
                rows = []
                for k, part in enumerate(parts):
                    row = broken(part, width)
                    row[-1] += "," if k + 1 < len(parts) else ""
                    rows += row
                rows[0] = "(" + rows[0]
                rows[-1] += ")" + inner.group(2)
                lines += rows + [""]
                continue
        if lines[-1] and len(lines[-1]) + 1 + len(item) > width:
            lines.append("")
        lines[-1] = (lines[-1] + " " + item).lstrip()
    return [line for line in lines if line]


def balanced(text):
    depth = 0
    for c in text:
        depth += (c in "([{") - (c in ")]}")
        if depth < 0:
            return False
    return depth == 0


def tuple_parts(text):
    found, depth, last = [], 0, 0
    for i, c in enumerate(text):
        depth += (c in "([{") - (c in ")]}")
        if c == "," and depth == 0:
            found.append(text[last:i].strip())
            last = i + 1
    return [p for p in found + [text[last:].strip()] if p]


def wrapped(text):
    """The text with its long lines broken."""
    lines = []
    for line in text.split("\n"):
        if len(line) <= LIMIT or line.startswith(("--", "use ")):
            lines.append(line)
            continue
        m = re.match(r"(\s*)((?:let \S+ = |\S+ = )?)", line)
        clause = re.match(r"([^\s(:]+(?: [^\s(:=]+)* =) (.*)$", line)
        if SIGNATURE.match(line) and len(split(tokens(line), "→")) > 1:
            words = split(tokens(line), "→")
            cuts = [line[a[0].start:b[0].start].rstrip() for a, b in zip(words, words[1:])] + [line[words[-1][0].start:]]
            cuts = [re.sub(r"\s*→$", "", cut) for cut in cuts]
            lines += [row for k, cut in enumerate(cuts) for row in (broken(cut, WIDTH) if not k else ["    → " + r if not n else "    " + r for n, r in enumerate(broken(cut, WIDTH))])]
        elif clause:
            lines.append(clause.group(1))
            lines += ["    " + row for row in broken(clause.group(2), WIDTH)]
        else:
            rows = broken(line.strip(), WIDTH)
            lines += [m.group(1) + rows[0]] + [m.group(1) + "    " + row for row in rows[1:]]
    return "\n".join(lines)


# ---- A file, a crate

NAMING = re.compile(r"^abbrev [^\n]*\n(?: [^\n]*\n)*\S+(?: \S+)* = \S+(?: \.before)+$", re.M)


def long_rows(text):
    """How many long paths no abbrev names."""
    return len(re.findall(r"\.before(?:\s+\.before){%d,}" % (LONG - 1), NAMING.sub("", text)))


def name_paths(file, text, walks, modes):
    """Writes the file anew; what is left is returned."""
    proof = Proof(file, text, walks, modes)
    pieces = read(proof)
    if not any(runs(piece.words) >= LONG or runs(proof.words(*piece.declaration.signature)) >= LONG for piece in pieces):
        return proof.left
    plan(proof, pieces)
    choose(proof, pieces)
    changes = insert(proof) + [change for piece in pieces for change in rewrite(proof, piece)]
    for start, end, new in sorted(changes, key=lambda c: (c[0], c[1]), reverse=True):
        text = text[:start] + new + text[end:]
    open(file, "w", encoding="utf-8").write(wrapped(re.sub(r" +\n", "\n", text)))
    return proof.left


def walks_of(crate, folder):
    """The walks of a crate's functions, by the name of the module."""
    found = {}
    places = [os.path.join(folder, "**", "Lts*.antt"), os.path.join("crates", crate, "proofs", "**", "Lts*.antt")]
    for place in places:
        for file in glob.glob(place, recursive=True):
            name = re.sub(r"^.*?/proofs/", "", file)[:-len(".antt")]
            found[name] = Walk(open(file, encoding="utf-8").read())
    return found


def refused(crate, files):
    """The declarations of these files that are refused for themselves, as `rt dev` says."""
    run = subprocess.run(["rt", "dev", crate], capture_output=True, text=True, env={**os.environ, "RT_CUT": "0"})
    found, said = set(), run.stdout + run.stderr
    for file, name, what in re.findall(r"^(\S+?/crates/\S+?\.antt):\d+:\d+: error: `([^`]+)`: (.*)$", said, re.M):
        file = next((f for f in files if file.endswith("/" + f)), None)
        if file and "was not admitted" not in what:
            found.add((file, name))
    return found, bool(re.search(r"^logic=proved", said, re.M)), said


def laid_out(texts):
    """Has `rt fmt` lay the files out; where it cannot read one, that one gets its old text back."""
    run = subprocess.run(["rt", "fmt"], capture_output=True, text=True)
    if run.returncode:
        bad = [file for file in texts if re.search(rf"{re.escape(file)}\b", run.stdout + run.stderr)]
        if not bad:
            sys.exit(f"paths.py: rt fmt failed:\n{run.stdout}{run.stderr}")
        for file in bad:
            print(f"{file}: left as it was: rt fmt cannot read it otherwise")
            open(file, "w", encoding="utf-8").write(texts[file])
        laid_out({file: text for file, text in texts.items() if file not in bad})


def break_lines(crate):
    """Breaks the long lines of each proof of the crate that a person wrote."""
    texts = {}
    for file in glob.glob(f"crates/{crate}/proofs/**/*.antt", recursive=True):
        text = open(file, encoding="utf-8").read()
        if not text.startswith("-- Derived by tools/derive.py") and any(len(line) > LIMIT + 20 for line in text.splitlines()):
            texts[file] = text
            open(file, "w", encoding="utf-8").write(wrapped(text))
    laid_out(texts)


def work(crate, place, check):
    files = [f for f in sorted(glob.glob(f"crates/{crate}/proofs/**/Proof.antt", recursive=True)) if long_rows(open(f, encoding="utf-8").read())]
    if not files:
        return True
    with tempfile.TemporaryDirectory() as made:
        if place is None:
            run = subprocess.run(["rt", "dev", crate, "--generated", made], capture_output=True, text=True)
            if run.returncode:
                sys.exit(f"paths.py: rt dev {crate} failed:\n{run.stdout[-2000:]}{run.stderr[-2000:]}")
        walks = walks_of(crate, place or made)
    texts = {f: open(f, encoding="utf-8").read() for f in files}
    modes, todo, proved = {f: {} for f in files}, files, not check
    while todo:
        left = {}
        for file in todo:
            open(file, "w", encoding="utf-8").write(texts[file])
            left[file] = name_paths(file, texts[file], walks, modes[file])
        laid_out(texts)
        todo = []
        if check:
            errors, proved, said = refused(crate, files)
            for file, name in sorted(errors):
                modes[file][name] = max(modes[file].get(name, 1), 1) + 1
                print(f"  {file}: {name} is refused; written in another way", flush=True)
                if modes[file][name] > 3:
                    sys.exit(f"paths.py: {file}: {name} is refused as it stood")
            todo = sorted({file for file, _ in errors})
            if not proved and not todo:
                sys.exit(f"paths.py: rt dev {crate} refuses something else:\n" + "\n".join(l for l in said.split("\n") if "error" in l)[:3000])
    for file in files:
        new = open(file, encoding="utf-8").read()
        print(f"{file}: {long_rows(texts[file])} long paths before, {long_rows(new)} after; longest line {max(map(len, texts[file].splitlines()))}, {max(map(len, new.splitlines()))}")
        for name, how in modes[file].items():
            print(f"  {name}: " + {2: "by lets alone", 3: "as it stood"}[how])
    return proved


def from_the_top(crates):
    """The crates, each before those that it stands on: a changed crate has all above it proved again."""
    lines = [line.split("#")[0].split(":") for line in open("crates.txt", encoding="utf-8")]
    below = {line[0].strip(): line[1].split() for line in lines if len(line) == 2}
    order = []

    def put(crate):
        if crate not in order:
            for low in below.get(crate, []):
                put(low)
            order.append(crate)
    for crate in below:
        put(crate)
    unknown = [crate for crate in crates if crate not in below]
    if unknown:
        sys.exit(f"paths.py: crates.txt has no {unknown[0]}")
    return sorted(crates, key=order.index, reverse=True)


def main(words):
    folder, check, lines = None, True, False
    while words and words[0].startswith("--"):
        if words[0] == "--generated":
            folder, words = words[1], words[1:]
        elif words[0] == "--unchecked":
            check = False
        elif words[0] == "--lines":
            lines = True
        else:
            sys.exit(__doc__)
        words = words[1:]
    if not words:
        sys.exit(__doc__)
    proved = True
    for crate in from_the_top(words):
        proved = work(crate, folder, check) and proved
        if lines:
            break_lines(crate)
    return 0 if proved else 1


if __name__ == "__main__":
    sys.exit(main(sys.argv[1:]))
