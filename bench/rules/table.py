"""The table of bench/rules/run.sh, and the performance profiles, from the lines that compare.c prints.

    python3 bench/rules/table.py LINES [--svg FILE]
"""
import argparse
import csv
from collections import defaultdict
from statistics import mean, median

BARS = (2.5, 5, 10)
PRICES = ("no turn price", "half the mean segment", "the mean segment")
SPEED = 360_000  # kilobytes a second: document 003's drive
MATCHED = ("100/25/2.38", "100/50/2.38", "200/25/2.38")  # document 003's tapes that fit within the limits whole

COLOURS = {"NODETOUR": "#555555", "GS": "#9467bd", "FGS": "#d62728", "LFL": "#ff7f0e", "NFGS": "#1f77b4", "LOGNFGS(5)": "#17becf",
           "ADP": "#8c564b", "LOGDP(1)": "#2ca02c", "LOGDP(5)": "#006400"}
DASHES = {"LFL": "7 5", "ADP": "2 4", "LOGNFGS(5)": "7 5"}


def percentile(values, share):
    values = sorted(values)
    return values[min(len(values) - 1, int(share * len(values)))]


class Lines:
    """What was measured, by set and price, and by rule."""

    def __init__(self, path):
        self.overheads = defaultdict(lambda: defaultdict(list))  # percent above the least
        self.times = defaultdict(lambda: defaultdict(list))  # microseconds
        self.responses = defaultdict(lambda: defaultdict(list))  # seconds, as document 003 counts them
        with open(path, newline="") as lines:
            for line in csv.DictReader(lines):
                self.add(line)

    def add(self, line):
        rule, total, least = line["rule"], int(line["sum"]), int(line["least"])
        self.overheads[line["set"], int(line["price"])][rule].append(100 * (total / least - 1))
        self.times[line["set"]][rule].append(float(line["microseconds"]))
        if line["set"] == "003" and line["price"] == "0" and line["kind"] in MATCHED:
            self.responses[line["kind"]][rule].append((total - int(line["reading"])) / int(line["reads"]) / SPEED)


def cells(values):
    """Median, 90th percentile, and the shares of the runs within the bars."""
    shares = (100 * sum(value <= bar for value in values) / len(values) for bar in BARS)
    return f"{median(values):7.2f} {percentile(values, 0.9):7.2f} " + " ".join(f"{share:4.0f}" for share in shares)


def print_table(lines):
    head = " median    90th " + " ".join(f"{f'≤{bar:g}':>4}" for bar in BARS)
    print(" " * 23 + "| " + " | ".join(f"{price:30}" for price in PRICES) + " | microseconds")
    print(f"{'tapes':11} {'rule':10} | " + " | ".join([head] * len(PRICES)) + " |       a plan")
    for tapes in lines.times:
        for rule, times in lines.times[tapes].items():
            print(f"{tapes:11} {rule:10} | " + " | ".join(cells(lines.overheads[tapes, price][rule]) for price in range(len(PRICES)))
                  + f" | {median(times):12.1f}")


def print_responses(lines):
    """Document 003's tables 2 and 3, for the tapes that fit whole."""
    print(f"\n{'files/percent wanted/sigma':26} |  FIFF  FILA   LFL   ADP    DP   mean response in seconds, no turn price")
    for kind, rules in lines.responses.items():
        print(f"{kind:26} | " + " ".join(f"{mean(rules[rule]):5.2f}" for rule in ("NODETOUR", "GS", "LFL", "ADP", "least")))


# ---- The picture ----

WIDE, HIGH, LEFT, TOP, GAP, MOST = 300, 200, 70, 46, 56, 30  # a panel in points; the axis goes to MOST percent


def curve(values, x, y):
    """How many runs are within so many percent, at every quarter of a percent."""
    points = [(0, 0)]
    for over in (step / 4 for step in range(4 * MOST + 1)):
        points.append((over, sum(value <= over for value in values) / len(values)))
    return " ".join(f"{x + WIDE * over / MOST:.1f},{y + HIGH * (1 - share):.1f}" for over, share in points)


def axes(x, y, title):
    yield f'<text x="{x + WIDE / 2}" y="{y - 10}" text-anchor="middle" font-weight="bold">{title}</text>'
    for share in range(0, 101, 25):
        at = y + HIGH * (1 - share / 100)
        yield f'<line x1="{x}" y1="{at}" x2="{x + WIDE}" y2="{at}" stroke="#dddddd"/>'
        yield f'<text x="{x - 8}" y="{at + 4}" text-anchor="end">{share} %</text>'
    for over in range(0, MOST + 1, 5):
        at = x + WIDE * over / MOST
        yield f'<line x1="{at}" y1="{y}" x2="{at}" y2="{y + HIGH}" stroke="#dddddd"/>'
        yield f'<text x="{at}" y="{y + HIGH + 17}" text-anchor="middle">{over} %</text>'
    yield f'<rect x="{x}" y="{y}" width="{WIDE}" height="{HIGH}" fill="none" stroke="#333333"/>'


def stroke(rule):
    dash = f' stroke-dasharray="{DASHES[rule]}"' if DASHES.get(rule) else ""
    return f'fill="none" stroke="{COLOURS[rule]}" stroke-width="2"{dash}'


def panel(place, tapes, price, rules):
    x, y = LEFT + place[0] * (WIDE + GAP), TOP + place[1] * (HIGH + GAP + 18)
    yield from axes(x, y, f"{tapes}, {PRICES[price]}")
    for rule, values in rules.items():
        if rule in COLOURS:
            yield f'<polyline points="{curve(values, x, y)}" {stroke(rule)}/>'


def legend(y):
    for i, rule in enumerate(COLOURS):
        x = LEFT + i * 113
        yield f'<polyline points="{x},{y} {x + 26},{y}" {stroke(rule)}/>'
        yield f'<text x="{x + 31}" y="{y + 4}">{rule}</text>'


def picture(lines):
    sets = list(lines.times)
    wide, high = LEFT + 3 * (WIDE + GAP), TOP + len(sets) * (HIGH + GAP + 18) + 34
    yield (f'<svg xmlns="http://www.w3.org/2000/svg" width="{wide}" height="{high}" viewBox="0 0 {wide} {high}"'
           ' font-family="sans-serif" font-size="12">')
    yield f'<rect width="{wide}" height="{high}" fill="white"/>'
    for (tapes, price), rules in lines.overheads.items():
        yield from panel((price, sets.index(tapes)), tapes, price, rules)
    yield (f'<text x="{wide / 2}" y="{high - 44}" text-anchor="middle">'
           'across: percent above the least sum; upward: share of the runs that are within it</text>')
    yield from legend(high - 18)
    yield "</svg>"


def main():
    parser = argparse.ArgumentParser()
    parser.add_argument("lines")
    parser.add_argument("--svg")
    words = parser.parse_args()
    lines = Lines(words.lines)
    print_table(lines)
    print_responses(lines)
    if words.svg:
        with open(words.svg, "w") as file:
            file.write("\n".join(picture(lines)) + "\n")


main()
