"""For the comparisons: a reader of run sheets. It shares nothing with the crates."""
import re

from runs import Refused

NUMBER = rb"(0|[1-9][0-9]*)"


def field(sheet, line, at, pattern):
    """The groups of the line that starts at `at`, and where the next one starts; 11 where it is not as described."""
    end = sheet.find(b"\n", at)
    found = re.fullmatch(pattern, sheet[at:end]) if end >= 0 else None
    if not found:
        raise Refused(11, line)
    for value in found.groups():
        if re.fullmatch(rb"[0-9]+", value or b"x") and not pattern.startswith(rb"tape") and int(value) >= 2**64:
            raise Refused(11, line)
    return found.groups(), end + 1


def rows(sheet, line, at, key, numbers, count):
    """So many lines of a key and `numbers` numbers each."""
    found = []
    for _ in range(count):
        values, at = field(sheet, line, at, key + b"=" + b",".join([NUMBER] * numbers))
        found.append(tuple(int(value) for value in values))
        line += 1
    return found, line, at


def described(sheet, empty=12000):
    """What stands on the lines of a sheet, where an empty `turn=` means `empty`; 12 and 11 alone."""
    if len(sheet) > 16384:
        raise Refused(12)
    (name,), at = field(sheet, 1, 0, rb"tape=([A-Z0-9]{1,16})")
    (head,), at = field(sheet, 2, at, rb"head=" + NUMBER)
    (turn,), at = field(sheet, 3, at, rb"turn=(|0|[1-9][0-9]*)")
    (rule,), at = field(sheet, 4, at, rb"rule=(least|sweep)")
    (files,), at = field(sheet, 5, at, rb"files=" + NUMBER)
    if int(files) > 256:
        raise Refused(11, 5)
    table, line, at = rows(sheet, 6, at, rb"file", 3, int(files))
    (wants,), at = field(sheet, line, at, rb"wants=" + NUMBER)
    if int(wants) > 64:
        raise Refused(11, line)
    asked, line, at = rows(sheet, line + 1, at, rb"want", 2, int(wants))
    if at < len(sheet):
        raise Refused(11, line)
    return name, int(head), int(turn or empty), rule, table, asked


def read(sheet, empty=12000):
    """What a sheet holds. There is one rule: one that names the other is refused by 19, once all its lines are as described."""
    name, head, turn, rule, table, asked = described(sheet, empty)
    if rule == b"sweep":
        raise Refused(19, 4)
    return name, head, turn, table, asked
