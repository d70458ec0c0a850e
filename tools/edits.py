#!/usr/bin/env python3
"""Has the prover try wrong programs and wrong statements, and keeps all that it says of them: rt says no more of an edit than that it is refused, and why first.

    tools/edits.py [--several] [NAME..]      those of crates/NAME/must-fail; without a name of all crates. --several: the files with lines `wrong: NAME`, of several
                                             or of one, which tests/python/edits.py takes apart; the others are told by rt itself

A file of edits costs a check of its whole crate. It is tried on a copy of the crate's src/, specs/ and proofs/, over the libraries that stand in crates/*/out (of
`rt ci`, or of `rt check`; else `rt lib` makes them first), and over what the check of the crate's edit before proved of the same text. The changed files stand in
target/must-fail/NAME/EDIT afterwards, with .txt behind their names, what was said of them in .log there: tests/python/edits.py reads both. A log of the same text is not made again.
RT_JOBS says how many are tried side by side, by default as many as there are processors, at most four. The status is 1 where an edit could not be applied or was not refused.
"""
import concurrent.futures
import glob
import hashlib
import os
import re
import shutil
import subprocess
import sys
import tempfile

ROOT = os.path.dirname(os.path.dirname(os.path.abspath(__file__)))
PARTS = ("src", "specs", "proofs")


def applied(edit, folder):
    """The texts that an edit makes, by their files, as rt makes them; or what is wrong with it."""
    file, old, texts = None, None, {}
    for line in open(edit, encoding="utf-8").read().split("\n"):
        if line.startswith("file: "):
            file = line[len("file: "):].strip()
        elif line.startswith("old: "):
            old = line[len("old: "):]
        elif line.startswith("new:"):
            if file not in texts:
                texts[file] = open(f"{folder}/{file}", encoding="utf-8").read()
            if not old or texts[file].count(old) != 1:
                return None, f"an old text stands in {file} {texts[file].count(old) if old else 0} times, and not once: {old}"
            new = line[len("new:"):]
            texts[file], old = texts[file].replace(old, new[1:] if new.startswith(" ") else new), None
    return texts, None if texts else "it has no pair of old and new"


def asked(words):
    """What tools/rattle.sh answers."""
    script = f'here=$0; . "$here/tools/machine.sh"; . "$here/tools/rattle.sh"; {words}'
    return subprocess.run(["sh", "-c", script, ROOT], capture_output=True, text=True, check=False)


def sum_of(crate, below, texts):
    """Of all that the check reads: the crate's own files, the edit, and the libraries below it."""
    found = hashlib.sha256(repr(sorted(texts.items())).encode())
    for part in PARTS:
        for path in sorted(glob.glob(f"{ROOT}/crates/{crate}/{part}/**", recursive=True)):
            if os.path.isfile(path):
                found.update(path.encode() + open(path, "rb").read())
    for name in below:
        found.update(open(f"{ROOT}/crates/{name}/out/rlib/{name}.rlib/format", "rb").read())
    return found.hexdigest()


def tried(crate, edit, words, below, kept):
    """Tries an edit of a crate, and returns what is to be said of it, and whether it was refused."""
    texts, wrong = applied(edit, f"{ROOT}/crates/{crate}")
    label = f"{crate}/{os.path.basename(edit)}"
    if wrong:
        return f"{label}: BAD EDIT: {wrong}", False
    where = f"{ROOT}/target/must-fail/{crate}/{os.path.basename(edit)[:-len('.edit')]}"
    is_of = sum_of(crate, below, texts)
    if os.path.isfile(f"{where}/.log") and os.path.isfile(f"{where}/.sum") and open(f"{where}/.sum", encoding="utf-8").read() == is_of:
        return f"{label}: refused, as an earlier try has found", True
    shutil.rmtree(where, ignore_errors=True)
    with tempfile.TemporaryDirectory() as room:
        for part in PARTS:
            if os.path.isdir(f"{ROOT}/crates/{crate}/{part}"):
                shutil.copytree(f"{ROOT}/crates/{crate}/{part}", f"{room}/{part}")
        for file, text in texts.items():
            # A file of source stands in no other folder of a checkout, says rt ci; so what was changed bears another ending.
            for path in (f"{room}/{file}", f"{where}/{file}.txt"):
                os.makedirs(os.path.dirname(path), exist_ok=True)
                with open(path, "w", encoding="utf-8") as out:
                    out.write(text)
        ran = subprocess.run([*words, "--incremental", kept], cwd=room, stdin=subprocess.DEVNULL, stdout=subprocess.PIPE, stderr=subprocess.STDOUT, errors="replace", check=False)
    with open(f"{where}/.log", "w", encoding="utf-8") as out:
        out.write(ran.stdout)
    if ran.returncode != 1 or not re.search(r"^logic=not-proved", ran.stdout, re.M):
        return f"{label}: NOT REFUSED: the check ended with status {ran.returncode}, see target/must-fail/{label[:-len('.edit')]}/.log", False
    with open(f"{where}/.sum", "w", encoding="utf-8") as out:
        out.write(is_of)
    return f"{label}: refused", True


def is_chosen(edit, several):
    """Whether a file of edits is to be tried: each, or one that names what it holds."""
    return not several or re.search(r"^wrong: ", open(edit, encoding="utf-8").read(), re.M) is not None


def tried_all(crate, several):
    """The edits of a crate, one behind the other."""
    words, below = asked(f"words_for {crate}"), asked(f"below {crate}").stdout.split()
    check = [asked("kit").stdout.strip() + "/bin/rattle", "check", *words.stdout.split("\n")[:-1], "--jobs", "1"]
    with tempfile.TemporaryDirectory() as room:
        return [tried(crate, edit, check, below, f"{room}/kept") for edit in sorted(glob.glob(f"{ROOT}/crates/{crate}/must-fail/*.edit")) if is_chosen(edit, several)]


def main():
    every = sorted({path.split("/")[-3] for path in glob.glob(f"{ROOT}/crates/*/must-fail/*.edit")})
    several = sys.argv[1:2] == ["--several"]
    names = sys.argv[1 + several:] or every
    if any(name not in every for name in names):
        sys.exit(f"edits.py: there are no edits in crates/{next(name for name in names if name not in every)}/must-fail")
    for name in names:
        if asked(f"are_below {name}").returncode and any(subprocess.run(["rt", "lib"], cwd=f"{ROOT}/crates/{one}", check=False).returncode for one in asked(f"named {name}").stdout.split()
                                                         if os.path.isdir(f"{ROOT}/crates/{one}")):
            sys.exit(f"edits.py: the libraries under {name} are not proved")
    jobs, well = os.environ.get("RT_JOBS", ""), True
    with concurrent.futures.ThreadPoolExecutor(int(jobs) if jobs.isdigit() and jobs != "0" else min(4, len(os.sched_getaffinity(0)))) as pool:
        for found in pool.map(lambda name: tried_all(name, several), names):
            for said, refused in found:
                print(said, flush=True)
                well = well and refused
    sys.exit(0 if well else 1)


if __name__ == "__main__":
    main()
