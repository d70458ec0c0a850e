"""For ltfs.py: what the program behind `./violstream ltfs` must write, by two readers of labels and indexes that share nothing with it:
one of every text, by regular expressions, after docs/DECISIONS.md; and Python's own XML parser (expat) for those that are
well-formed, which must find the same table.
"""
import re
import xml.parsers.expat

LIMIT = 2**40
NAME = rb"[A-Za-z_:\x80-\xff][A-Za-z0-9_:.\-\x80-\xff]*"
START = re.compile(rb"<(" + NAME + rb")((?:[^<>\"']|\"[^\"]*\"|'[^']*')*)>", re.S)
END = re.compile(rb"</(" + NAME + rb")[ \t\r\n]*>")
NUMBER = re.compile(rb"0|[1-9][0-9]*")
EXTENT = ("partition", "startblock", "byteoffset", "bytecount")


class Refused(Exception):
    def __init__(self, number):
        super().__init__(number)
        self.number = number


class Node:
    def __init__(self, name):
        self.name, self.inside, self.chars = name, [], b""

    def under(self, *path):
        if not path:
            return [self]
        return [end for one in self.inside if one.name == path[0].encode() for end in one.under(*path[1:])]


def declaration_end(text, at):
    quote, depth = None, 0
    while at < len(text):
        byte = text[at:at + 1]
        if quote:
            quote = None if byte == quote else quote
        elif byte in (b'"', b"'"):
            quote = byte
        elif byte == b"[":
            depth += 1
        elif byte == b"]":
            depth = max(0, depth - 1)
        elif byte == b">" and depth == 0:
            return at + 1
        at += 1
    raise Refused(20)


def behind(text, at, wanted):
    found = text.find(wanted, at)
    if found < 0:
        raise Refused(20)
    return found + len(wanted)


def tree(text):
    """Every element of a text, by regular expressions."""
    open_now, at = [Node(None)], 0
    while at < len(text):
        if text[at:at + 1] != b"<":
            end = text.find(b"<", at)
            end = len(text) if end < 0 else end
            open_now[-1].chars += text[at:end]
            at = end
        elif text.startswith(b"<!--", at):
            at = behind(text, at + 4, b"-->")
        elif text.startswith(b"<![CDATA[", at):
            end = behind(text, at + 9, b"]]>")
            open_now[-1].chars += text[at + 9:end - 3]
            at = end
        elif text.startswith(b"<?", at):
            at = behind(text, at + 2, b"?>")
        elif text.startswith(b"<!", at):
            at = declaration_end(text, at + 2)
        elif text.startswith(b"</", at):
            found = END.match(text, at)
            if not found or open_now[-1].name != found[1] or len(open_now) == 1:
                raise Refused(20)
            open_now.pop()
            at = found.end()
        else:
            found = START.match(text, at)
            if not found or len(open_now) > 32:
                raise Refused(20)
            one = Node(found[1])
            open_now[-1].inside.append(one)
            if not found[2].endswith(b"/"):
                open_now.append(one)
            at = found.end()
    if len(open_now) != 1:
        raise Refused(20)
    return open_now[0]


def expat_tree(text):
    """The same by Python's parser; None where the text is no well-formed XML."""
    root = Node(None)
    stack = [root]
    parser = xml.parsers.expat.ParserCreate()
    parser.buffer_text = True

    def start(name, _):
        one = Node(name.encode())
        stack[-1].inside.append(one)
        stack.append(one)

    def chars(data):
        stack[-1].chars += data.encode()

    parser.StartElementHandler = start
    parser.EndElementHandler = lambda name: stack.pop()
    parser.CharacterDataHandler = chars
    try:
        parser.Parse(text, True)
    except (xml.parsers.expat.ExpatError, LookupError, ValueError):
        return None
    return root


def value(nodes, letter=False):
    if not nodes:
        raise Refused(20)
    for one in nodes:
        if letter and not re.fullmatch(rb"[a-z]", one.chars):
            raise Refused(20)
        if not letter and not (NUMBER.fullmatch(one.chars) and int(one.chars) < 2**64):
            raise Refused(20)
    return nodes[0].chars if letter else int(nodes[0].chars)


def files_in(contents):
    for one in contents.inside:
        if one.name == b"file":
            yield one
        if one.name == b"directory":
            for deeper in one.under("contents"):
                yield from files_in(deeper)


def table(label, index):
    """The accepted ranges in tape order, and how many files are empty or elsewhere."""
    size = value(label.under("ltfslabel", "blocksize"))
    data = value(label.under("ltfslabel", "partitions", "data"), letter=True)
    if not index.under("ltfsindex"):
        raise Refused(20)
    files = []
    for contents in index.under("ltfsindex", "directory", "contents"):
        for one in files_in(contents):
            files.append([[value(extent.under(key), key == "partition") for key in EXTENT] for extent in one.under("extentinfo", "extent")])
    if any(len(extents) > 1 for extents in files):
        raise Refused(21)
    empty = sum(1 for extents in files if not extents or extents[0][3] == 0)
    left = [extents[0] for extents in files if extents and extents[0][3] != 0]
    ranges = sorted((block * size + offset, count) for partition, block, offset, count in left if partition == data)
    if len(ranges) > 256 or any(start + count > LIMIT for start, count in ranges):
        raise Refused(23)
    if any(a[0] + a[1] > b[0] for a, b in zip(ranges, ranges[1:])):
        raise Refused(22)
    return ranges, empty, len(left) - len(ranges)


def taken_apart(text):
    first = re.match(rb"tape=([A-Z0-9]{1,16})\n", text)
    if not first:
        raise Refused(13)
    if len(text) > 524288:
        raise Refused(20)
    at, parts = first.end(), []
    for key in (rb"label", rb"index"):
        found = re.compile(key + rb"=(0|[1-9][0-9]*)\n").match(text, at)
        if not found or found.end() + int(found[1]) > len(text):
            raise Refused(20)
        at = found.end() + int(found[1])
        parts.append(text[found.end():at])
    if at != len(text):
        raise Refused(20)
    return first[1], parts[0], parts[1]


def sheet(name, ranges):
    head = ranges[-1][0] + ranges[-1][1] if ranges else 0
    rows = "".join(f"file={start},{count},0\n" for start, count in ranges)
    return f"tape={name.decode()}\nhead={head}\nturn=0\nrule=least\nfiles={len(ranges)}\n{rows}wants=0\n".encode()


def expected(text, met):
    """What the program must write to standard output and to standard error."""
    try:
        name, label, index = taken_apart(text)
        trees = [tree(label), tree(index)]
        by_expat = [expat_tree(label), expat_tree(index)]
        answer = None
        try:
            answer = table(*trees)
        finally:
            # Entities are text to the program, so expat is asked only about texts without them.
            if all(by_expat) and b"&" not in label + index:
                met["by both"] = met.get("by both", 0) + 1
                try:
                    again = table(*by_expat)
                except Refused:
                    again = None
                if again != answer:
                    raise SystemExit(f"the two readers of ltfs_readers.py differ on\n{text!r}")
        ranges, empty, other = answer
        met[0] = met.get(0, 0) + 1
        return sheet(name, ranges), f"empty={empty}\nother={other}\n".encode()
    except Refused as refusal:
        met[refusal.number] = met.get(refusal.number, 0) + 1
        return f"refused={refusal.number}\nplace=0\n".encode(), b""


def framed(name, label, index):
    return b"tape=" + name + b"\nlabel=%d\n" % len(label) + label + b"index=%d\n" % len(index) + index
