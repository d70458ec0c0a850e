#!/usr/bin/env python3
"""Reads every wrong program and wrong statement as rt would, and what rt said of those that one check tries together.

usage: tests/python/edits.py

Each 'old' must stand once in its file after the pairs before it, and 'new' must be another text. No name may be given twice in a crate,
every name must stand in docs/AUDIT.md, once for each crate that has it, and each row of its table of public functions must name two.

A file with lines 'wrong: NAME' holds several wrong programs, for one check, or one whose refusal is read as theirs are. rt sees to it that the file is refused;
here each of them must be. Each changes a function that has a proof of its own and that none of the others changes. The log (target/must-fail, which tools/edits.py
writes) must be of that text, and must have an error in that proof that neither follows from another nor says that the
proof file names what the code no longer has; or say that a goal of the function is open, to which no file has an answer.
Of several wrong statements each has a line 'law: FILE NAME': the error must be in the proof of that law, which no other of them names. NAME may be
a goal of a function, in its Answers.antt or Proof.antt; where FILE is not there, the function is proved without one, and a goal of it must be open. One may
stand beside wrong programs where no contract of the crate rests on the file that it changes.
"""
import collections
import glob
import os
import re
import sys

import programs

FUNCTION = re.compile(r'^\s*(?:#\[.*\] )?(?:pub(?:\(crate\))? )?(?:extern "C" )?fn (\w+)', re.M)
# What rt says where the proof of something else is missing, and where a proof file names what is not in the code: neither shows anything.
SHOWS_NOTHING = ("was not admitted", "that can be named from here", "was not checked", "were not checked", "has no field", "is not in scope")
# The files in which a function's proof can stand.
PROOFS = ("Proof.antt", "Answers.antt", "Invariants.antt")


def wrongs(edit):
    """The wrong programs of an edit, each with its name, its triples of file, old and new text, and its law, if it has one."""
    file = old = None
    found = [[os.path.basename(edit)[:-len(".edit")], [], None]]
    for line in open(edit, encoding="utf-8").read().split("\n"):
        if line.startswith("wrong: "):
            found.append([line[len("wrong: "):], [], None])
        elif line.startswith("law: "):
            found[-1][2] = line[len("law: "):]
        elif line.startswith("file: "):
            file = line[len("file: "):]
        elif line.startswith("old: "):
            old = line[len("old: "):]
        elif line.startswith("new:"):
            new = line[len("new:"):]
            found[-1][1].append((file, old, new[1:] if new.startswith(" ") else new))
            old = None
    return found[1:] if len(found) > 1 and not found[0][1] else found


def is_read(edit):
    """Whether the log of an edit is read: that of each with a line 'wrong: NAME'."""
    return re.search(r"^wrong: ", open(edit, encoding="utf-8").read(), re.M) is not None


def changed(crate, triples, texts, found):
    """Makes the changes in 'texts', adds what is wrong with them to 'found', and gives the functions of src/ that they are made in."""
    functions = set()
    for file, old, new in triples:
        path = f"crates/{crate}/{file}"
        if file is None or old is None or not os.path.isfile(path):
            found.append(f"a pair has no file or no old text ({file}, {old})")
            continue
        text = texts.get(file) or open(path, encoding="utf-8").read()
        if text.count(old) != 1:
            found.append(f"{text.count(old)} times in {file}: {old}")
        if old == new:
            found.append(f"nothing is changed in {file}: {old}")
        if file.startswith("src/"):
            above = FUNCTION.findall(text[:text.find(old) + len(old)])
            functions.update((file[len("src/"):-len(".rt")], name) for name in above[-1:])
        texts[file] = text.replace(old, new)
    return functions


def shared(triple):
    """Whether a change is of a definition or of a contract, and so not of one function alone."""
    file, old, new = triple
    return file.startswith("specs/") or any(word + " {" in text for word in ("ensures", "requires") for text in (old, new))


def under_contracts(crate):
    """The files of specs/ that contracts of a crate rest on: those that its code cites, and what these cite of their own crate."""
    cites = re.compile(rf"^(?:pub )?(?:ghost )?use Rattle\.{crate}\.specs\.([\w.]+)\.\{{", re.M)
    todo, found = glob.glob(f"crates/{crate}/src/**/*.rt", recursive=True), set()
    while todo:
        path = todo.pop()
        if path not in found and os.path.isfile(path):
            found.add(path)
            todo += [f"crates/{crate}/specs/{module.replace('.', '/')}.antt" for module in cites.findall(open(path, encoding="utf-8").read())]
    return found


def misplaced(crate, triples, several):
    """Whether a statement stands beside programs and changes what contracts rest on, so that it could break these."""
    return not all(law for _, _, law in several) and any(f"crates/{crate}/{file}" in under_contracts(crate) for file, _, _ in triples)


def path_of(function):
    """A function as the check names it: modules, type and name."""
    module, name = function
    return f"{'' if module == 'lib' else module.replace('/', '::') + '::'}{name}"


def proof_of(crate, function):
    """Where the proof of a function stands below the crate's proofs/, or its name, where rt proves it without a file."""
    module, name = function
    top = f"crates/{crate}/proofs/" + ("" if module == "lib" else module + "/")
    source = f"crates/{crate}/src/{module}.rt"
    cycle = re.search(rf"#\[cycle\((\w+)\)\]\s*(?:#\[[^\]]*\]\s*)*(?:pub(?:\(\w+\))? )?fn {name}\b", open(source, encoding="utf-8").read() if os.path.isfile(source) else "")
    if cycle and any(os.path.isfile(f"{top}+{cycle[1]}/{file}") for file in PROOFS):
        return f"{top}+{cycle[1]}/"[len(f"crates/{crate}/"):]
    for folder in glob.glob(top + "*/") + glob.glob(top + "[A-Z]*/*/"):
        if name in os.path.basename(folder[:-1]).split("+") and any(os.path.isfile(folder + file) for file in PROOFS):
            return folder[len(f"crates/{crate}/"):]
    return path_of(function)


def is_open(log, crate, function):
    """Whether a log says that a goal of a function, by its path, is open: its proof has no answer to it, and none is found."""
    return re.search(rf"^fn {crate}::(?:[A-Z]\w*::)?{re.escape(function)}: (?:no proof|not proved): .*`search` did not prove ", log, re.M)


def refused(log, crate, proof):
    """Whether a log says that a fact of this function, or this law, is not proved, whatever it says of what these rest on."""
    if not proof.startswith("proofs/"):
        return is_open(log, crate, proof)
    path, _, law = proof.partition(" ")
    folder = path if path.endswith("/") else os.path.dirname(path) + "/"
    files = [folder + file for file in PROOFS] if path.endswith("/") else [path]
    said = [text for file in files for text in re.findall(rf"^(?:\./)?{re.escape(file)}:\d+:\d+: error: " + (rf"`{re.escape(law)}`: " if law else "") + "(.*)", log, re.M)]
    if any(not any(nothing in error for nothing in SHOWS_NOTHING) for error in said):
        return True
    # A function whose proof has a file of invariants alone, or none any more.
    is_function = path.endswith("/") or os.path.basename(path) in PROOFS and not os.path.isfile(f"crates/{crate}/{path}")
    return is_function and is_open(log, crate, folder[len("proofs/"):-1].replace("/", "::"))


def together(edit, crate, proofs, texts):
    """What is wrong with an edit of several: a log of another text, one without a proof of its own, or one that is not refused."""
    where = f"target/must-fail/{crate}/{os.path.basename(edit)[:-len('.edit')]}"
    tried = [f"{where}/{file}.txt" for file in texts] + [f"{where}/.log"]
    if not all(map(os.path.isfile, tried)):
        return [f"{where} is not there: tools/edits.py writes it"]
    if any(open(f"{where}/{file}.txt", encoding="utf-8").read() != text for file, text in texts.items()):
        return [f"{where}/.log is of another text: tools/edits.py writes it again"]
    log, found = open(f"{where}/.log", encoding="utf-8").read(), []
    times = collections.Counter(proof for _, own in proofs for proof in own)
    for wrong, own in proofs:
        if not own or any(times[proof] > 1 for proof in own):
            found.append(f"{wrong} has no proof of its own")
        elif not any(refused(log, crate, proof) for proof in own):
            found.append(f"{wrong} is not refused: {', '.join(sorted(own))}")
    return found


def unnamed(names, gate):
    """What docs/AUDIT.md does not name: a wrong program once for each crate that has it, and two in each row of public functions."""
    page = open("docs/AUDIT.md", encoding="utf-8").read()
    times = collections.Counter(re.findall(r"`([\w-]+)`", page))
    crates = collections.Counter(name for _, name in names)
    found = [f"docs/AUDIT.md names {name} less than {n} times" for name, n in sorted(crates.items()) if times[name] < n]
    rows = [row for row in page.split("## Every public function")[1].split("\n## ")[0].split("\n") if row.startswith("| `")]
    few = [row for row in rows if sum(name in gate for name in re.findall(r"`([\w-]+)`", row.split(" | ")[-1])) < 2]
    return found + [f"docs/AUDIT.md names less than two edits: {row.split(' | ')[0]}" for row in few] + ([] if rows else ["no rows"])


def main():
    os.chdir(programs.ROOT)
    faults, names, gate, checks, tried = [], collections.Counter(), set(), 0, 0
    for edit in sorted(glob.glob("crates/*/must-fail/*.edit")):
        crate, texts, found, proofs = edit.split("/")[1], {}, [], []
        several = wrongs(edit)
        for wrong, triples, law in several:
            names[crate, wrong] += 1
            functions = changed(crate, triples, texts, found)
            proofs.append((wrong, {law} if law else {proof_of(crate, function) for function in functions}))
            found += [] if triples else [f"{wrong} changes nothing"]
            found += [f"{wrong} is there twice in {crate}"] if names[crate, wrong] > 1 else []
            found += [f"{wrong}: a statement that changes code, or what programs beside it rest on"] if law and (functions or misplaced(crate, triples, several)) else []
            found += [f"{wrong} changes what its callers rest on"] if len(several) > 1 and not law and any(map(shared, triples)) else []
        checks, tried = checks + 1, tried + len(several)
        gate.update(wrong for wrong, _, _ in several)
        found += together(edit, crate, proofs, texts) if is_read(edit) else []
        faults += [f"{edit}: {said}" for said in found]
    faults += unnamed(names, gate)
    if faults or not tried:
        sys.exit("\n".join(faults) or "edits.py: no edits were found")
    print(f"edits: {tried}, in {checks} checks, fit the texts that they change; of those that are named in their file each is refused for itself")


if __name__ == "__main__":
    main()
