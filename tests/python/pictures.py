#!/usr/bin/env python3
"""Has `./violstream explain --svg` draw tapes of up to 64 stops and positions up to 2^40, and looks whether every number and name stands by itself and within the picture.

usage: tests/python/pictures.py [--browser FOLDER]    (the programs are those in target/bin, the command is that in target/command)

The room of a text is reckoned by the widths of a wide font (DejaVu Sans), which are written out below. --browser measures it in chromium too, for the pictures and for those of
`audit --html` on a desk and a telephone, and leaves what was seen in FOLDER, to be looked at.
"""
import argparse
import json
import os
import random
import re
import subprocess
import sys
import tempfile
import xml.etree.ElementTree as tree

import programs

COMMAND = os.path.join(programs.ROOT, "target/command/violstream")
SVG = "{http://www.w3.org/2000/svg}"
# Of 1,000 to the size of a letter: digits, capitals and small letters of DejaVu Sans; bold is wider.
WIDTHS = dict(zip("abcdefghijklmnopqrstuvwxyz", (613, 635, 550, 635, 615, 352, 635, 634, 278, 278, 579, 278, 974, 634, 612, 635, 635, 411, 521, 392, 634, 592, 818, 592, 592, 525)))
WIDTHS.update(zip("ABCDEFGHIJKLMNOPQRSTUVWXYZ", (684, 686, 698, 770, 632, 575, 775, 752, 295, 295, 656, 557, 863, 748, 787, 603, 787, 695, 635, 611, 732, 684, 989, 685, 611, 685)))
WIDTHS.update({".": 318, ",": 318, ":": 337, ";": 337, " ": 318, "\u2009": 200, "(": 390, ")": 390, "/": 337, "-": 361, "_": 500, "&": 780, "'": 275, "$": 636, "\\": 337, "\u2026": 1000})


def must(true, otherwise):
    if not true:
        sys.exit(f"pictures.py: {otherwise}")


def room(text, size, bold):
    return sum(WIDTHS.get(letter, 636 if letter.isdigit() else 1000) for letter in text) * size / 1000 * (1.1 if bold else 1)


# ---- Runs ----

class Run:
    """A drawn run: so many stops between two places, reads of each, and a path for some."""

    def __init__(self, name, stops, low, high, turn, named=None, reads=155, seed=1):
        r = random.Random(seed + stops)
        self.name, self.stops = name, stops
        ends = sorted(r.sample(range(low, high), 2 * stops)) if stops else []
        counts = [1] * stops
        for _ in range(min(reads - stops, 2 * stops)):
            counts[r.randrange(stops)] += 1
        files = "".join(f"file={ends[2 * i]},{ends[2 * i + 1] - ends[2 * i]},0\n" for i in range(stops))
        wants = "".join(f"want={i},{count}\n" for i, count in enumerate(counts, 1))
        self.sheet = f"tape=VX0041\nhead={high}\nturn={turn}\nrule=least\nfiles={stops}\n{files}wants={stops}\n{wants}"
        self.names = None
        if named:
            self.names = "".join(f"name={i},{count},{named.format(i)}\n" for i, count in enumerate(counts, 1))


LONG = "projects/Mammoth & Whale (WWW)/" + "M" * 60 + "/scan_{:04}.dpx"
MOST = 2**40


def runs():
    for stops in (1, 3, 13, 40, 64):
        yield Run(f"{stops}-far", stops, 0, MOST, 600000000)
        yield Run(f"{stops}-near", stops, MOST // 2, MOST // 2 + MOST // 90, 2**32, "reel_03/scan_{:04}.dpx")
        yield Run(f"{stops}-named", stops, 0, MOST, 0, "reel_{0:02}/<scan> & 'more' {0:04}.dpx", seed=7)
    yield Run("64-long", 64, MOST - 500, MOST, 2**32, LONG)
    yield Run("small", 5, 0, 100, 3)
    yield Run("none", 0, 0, 100, 3)


# ---- By reckoning ----

def boxes(picture):
    """Each text with the box that it takes."""
    for text in picture.iter(f"{SVG}text"):
        if text.get("transform"):
            continue
        kind, words = text.get("class"), "".join(text.itertext())
        size = 16 if kind == "title" else 12
        wide, x, y = room(words, size, kind in ("title", "name")), float(text.get("x")), float(text.get("y"))
        left = x - {"start": 0, "middle": wide / 2, "end": wide}[text.get("text-anchor")]
        yield left, y - 0.74 * size, left + wide, y + 0.2 * size, words


def reckoned(name, text):
    picture = tree.fromstring(text)
    width, height = (float(picture.get(side)) for side in ("width", "height"))
    found = list(boxes(picture))
    for at, (left, top, right, bottom, words) in enumerate(found):
        must(0 <= left and right <= width and 0 <= top and bottom <= height, f"{name}: {words!r} goes over the edge: {left:.0f} to {right:.0f} of {width:.0f}, {top:.0f} to {bottom:.0f} of {height:.0f}")
        for other in found[at + 1:]:
            must(not (left < other[2] and other[0] < right and top < other[3] and other[1] < bottom), f"{name}: {words!r} and {other[4]!r} stand on one another")
    return found


def drawn(run, folder):
    """The picture of a run, and the words beside its dots."""
    path, svg = os.path.join(folder, run.name + ".run"), os.path.join(folder, run.name + ".svg")
    with open(path, "w") as handle:
        handle.write(run.sheet)
    words = []
    if run.names:
        with open(path + ".names", "w") as handle:
            handle.write(run.names)
        words = ["--names", path + ".names", "--speed", "300000000", "--begin", "2026-11-16T08:00:00"]
    done = subprocess.run([COMMAND, "explain", "--svg", svg, *words, path], capture_output=True, text=True)
    must(done.returncode == 0, f"{run.name}: explain says {done}")
    with open(svg) as handle:
        text = handle.read()
    found = reckoned(run.name, text)
    plan = subprocess.run([COMMAND, "plan", "--any", path], capture_output=True, text=True).stdout
    times = [line[5:].split(",") for line in plan.split("\n") if line.startswith("time=")]
    said = [words for *_, words in found if words.startswith("file ")]
    must(len(said) == len(times) == run.stops == text.count('class="read"'), f"{run.name}: {len(said)} of {run.stops} files have words")
    for file, time, _ in sorted(times, key=lambda one: int(one[1])):
        must(said.pop(0).replace("\u2009", "").startswith(f"file {file} at {time}"), f"{run.name}: beside the dots stands something else than file {file} at {time}")
    return path, svg


# ---- In a browser ----

MEET = """(() => { const out = []; document.querySelectorAll('svg').forEach(picture => { const box = picture.getBoundingClientRect();
  const all = [...picture.querySelectorAll('text')].map(text => [text.getBoundingClientRect(), text.textContent]).filter(([r]) => r.width > 0);
  all.forEach(([a, words], i) => { if (a.left < box.left - 1 || a.right > box.right + 1 || a.top < box.top - 3 || a.bottom > box.bottom + 3) out.push('over the edge: ' + words);
    all.slice(i + 1).forEach(([b, others]) => { if (a.left < b.right && b.left < a.right && a.top + 3 < b.bottom - 3 && b.top + 3 < a.bottom - 3) out.push(words + ' on ' + others); }); }); });
  return JSON.stringify(out); })()"""


def in_browser(pictures, page, folder):
    import browser
    os.makedirs(folder, exist_ok=True)
    seen = browser.Browser()
    try:
        for svg in pictures:
            with open(svg) as handle:
                width, height = (int(side) for side in re.search(r'width="(\d+)" height="(\d+)"', handle.read()).groups())
            seen.look(width, height)
            seen.open(svg)
            met = json.loads(seen.value(MEET))
            must(not met, f"{svg} in chromium: {met[:3]}")
            seen.shot(os.path.join(folder, os.path.basename(svg)[:-4] + ".png"))
        for name, width in (("desk", 1280), ("telephone", 390)):
            seen.look(width, 900, mobile=width < 500)
            seen.open(page)
            seen.value("(() => { const style = document.createElement('style'); style.textContent = 'article { content-visibility: visible !important }'; document.head.append(style); })()")
            met = json.loads(seen.value(MEET))
            must(not met and not seen.messages, f"the page in chromium, {width} pixels wide: {met[:3]} {seen.messages[:3]}")
            seen.shot(os.path.join(folder, f"page-{name}.png"), whole=True)
    finally:
        seen.close()
    print(f"pictures.py: {len(pictures)} pictures and a page as they must be in chromium; see {folder}")


def main():
    reader = argparse.ArgumentParser(description=__doc__.split("\n")[0])
    reader.add_argument("--browser", metavar="FOLDER", help="in chromium too; what was seen is left in FOLDER")
    words = reader.parse_args()
    subprocess.run([os.path.join(programs.ROOT, "violstream"), "version"], check=True, stdout=subprocess.DEVNULL)
    with tempfile.TemporaryDirectory() as folder:
        made = [drawn(run, folder) for run in runs()]
        if words.browser:
            book, page = os.path.join(folder, "book"), os.path.join(folder, "page.html")
            subprocess.run([COMMAND, "record", book, *(path for path, _ in made)], check=True, stdout=subprocess.DEVNULL)
            subprocess.run([COMMAND, "audit", "--html", page, book], check=True, stdout=subprocess.DEVNULL)
            in_browser([svg for _, svg in made], page, words.browser)
    print(f"pictures.py: {len(made)} pictures as they must be")


if __name__ == "__main__":
    main()
