"""For pick.py: from file names to a run sheet and a text of names, by two readers that share only the last steps. One goes through the forest that
ltfs_readers.tree makes of any text, and decodes references itself; the other is Python's own XML parser, for texts that are well-formed.
"""
import re
import xml.parsers.expat

from ltfs_readers import EXTENT, LIMIT, Refused, tree, value

REFERENCE = re.compile(rb"&(?:(amp|lt|gt|quot|apos)|#([0-9]+)|#x([0-9A-Fa-f]+));")
NAMED = {b"amp": b"&", b"lt": b"<", b"gt": b">", b"quot": b'"', b"apos": b"'"}
MOST_LINES, MOST_ENTRIES, TURN = 1024, 64, 12000


class Placed(Refused):
    def __init__(self, number, place=0):
        super().__init__(number)
        self.place = place


def utf8(number):
    """The bytes of a character's number, by UTF-8's own table; None where there is no such character."""
    if not 1 <= number <= 1114111 or 55296 <= number <= 57343:
        return None
    if number < 128:
        return bytes([number])
    more = 1 if number < 2048 else 2 if number < 65536 else 3
    return bytes([(0xC0, 0xE0, 0xF0)[more - 1] | number >> 6 * more] + [0x80 | (number >> 6 * i) & 63 for i in reversed(range(more))])


def decoded(text):
    """The bytes that a name stands for. What is no reference stands for itself."""
    def one(found):
        if found[1]:
            return NAMED[found[1]]
        made = utf8(int(found[2]) if found[2] else int(found[3], 16))
        return found[0] if made is None else made
    return REFERENCE.sub(one, text)


def name_of(node):
    names = node.under("name")
    return decoded(names[0].chars) if names else b""


def extents_of(node):
    return [[value(extent.under(key), key == "partition") for key in EXTENT] for extent in node.under("extentinfo", "extent")]


def files_below(directory, path):
    """Each file below a directory, by its path and its extents, in the order of the index."""
    for contents in directory.under("contents"):
        for one in contents.inside:
            if one.name == b"file":
                yield b"/".join(path + [name_of(one)]), extents_of(one)
            elif one.name == b"directory":
                yield from files_below(one, path + [name_of(one)])


def volume_of(nodes):
    return nodes[0].chars if nodes else None


def by_tree(label, index):
    """Block size, data partition, both volumes, and the files of an index: a list of paths with their extents."""
    label, index = tree(label), tree(index)
    size = value(label.under("ltfslabel", "blocksize"))
    data = value(label.under("ltfslabel", "partitions", "data"), letter=True)
    if not index.under("ltfsindex"):
        raise Refused(20)
    files = [one for outermost in index.under("ltfsindex", "directory") for one in files_below(outermost, [])]
    return size, data, volume_of(label.under("ltfslabel", "volumeuuid")), volume_of(index.under("ltfsindex", "volumeuuid")), files


class Collector:
    """What expat's handlers find: text by the path of elements around it, and files as they end. A name may stand behind its directory's contents,
    so a path is a list of cells that are filled later."""

    def __init__(self):
        self.around, self.cells, self.files, self.extent, self.text = [], [], [], None, None
        self.values = {}

    def start(self, name, _):
        self.around.append(name)
        way = self.around
        role = way[-1]
        if way[:2] == ["ltfsindex", "directory"]:
            below = way[2:]
            folders = 0
            while below[:1] == ["contents"] and below[1:2] == ["directory"]:
                folders, below = folders + 1, below[2:]
            if not below and folders == len(self.cells):
                self.cells.append([])
            if below == ["contents", "file"]:
                self.files.append([list(self.cells[1:]) + [[]], []])
            if below == ["contents", "file", "extentinfo", "extent"]:
                self.extent = {}
                self.files[-1][1].append(self.extent)
            if below == ["name"] and folders < len(self.cells) or below == ["contents", "file", "name"]:
                cell = self.cells[folders] if below == ["name"] else self.files[-1][0][-1]
                cell.append("")
                self.text = (len(way), cell)
                return
            if below[:-1] == ["contents", "file", "extentinfo", "extent"] and role in EXTENT:
                self.extent.setdefault(role, []).append("")
                self.text = (len(way), self.extent[role])
                return
        if way in (["ltfsindex", "volumeuuid"], ["ltfslabel", "volumeuuid"], ["ltfslabel", "blocksize"], ["ltfslabel", "partitions", "data"]):
            self.values.setdefault("/".join(way), []).append("")
            self.text = (len(way), self.values["/".join(way)])

    def end(self, name):
        if self.text and self.text[0] == len(self.around):
            self.text = None
        if name == "directory" and self.around[:2] == ["ltfsindex", "directory"]:
            below = self.around[2:]
            if all(a == b for a, b in zip(below, ["contents", "directory"] * len(below))) and len(below) // 2 + 1 == len(self.cells) and len(below) % 2 == 0:
                self.cells.pop()
        self.around.pop()

    def chars(self, data):
        if self.text and self.text[0] == len(self.around):
            self.text[1][-1] += data


def collected(text):
    """What expat finds, or None where the text is no well-formed XML."""
    found = Collector()
    parser = xml.parsers.expat.ParserCreate()
    parser.StartElementHandler, parser.EndElementHandler, parser.CharacterDataHandler = found.start, found.end, found.chars
    try:
        parser.Parse(text, True)
    except (xml.parsers.expat.ExpatError, LookupError, ValueError):
        return None
    return found


def expat_value(texts, letter=False):
    form = r"[a-z]" if letter else r"0|[1-9][0-9]*"
    if not texts or not all(re.fullmatch(form, one) and (letter or int(one) < 2**64) for one in texts):
        raise Refused(20)
    return texts[0].encode() if letter else int(texts[0])


def by_expat(label, index):
    """The same as by_tree, or None where one of the texts is no well-formed XML."""
    label, found = collected(label), collected(index)
    if label is None or found is None:
        return None
    size = expat_value(label.values.get("ltfslabel/blocksize"))
    data = expat_value(label.values.get("ltfslabel/partitions/data"), letter=True)
    if not index_root(index):
        raise Refused(20)
    files = []
    for cells, extents in found.files:
        path = b"/".join((cell[0] if cell else "").encode() for cell in cells)
        files.append((path, [[expat_value(extent.get(key), key == "partition") for key in EXTENT] for extent in extents]))
    volumes = [one.encode() if one is not None else None for one in
               ((label.values.get("ltfslabel/volumeuuid") or [None])[0], (found.values.get("ltfsindex/volumeuuid") or [None])[0])]
    return size, data, volumes[0], volumes[1], files


def index_root(text):
    root = []
    parser = xml.parsers.expat.ParserCreate()
    parser.StartElementHandler = lambda name, _: root.append(name) if not root else None
    parser.Parse(text, True)
    return root == ["ltfsindex"]


def lines_of(text):
    """The paths of a list, without the `/` before them."""
    lines = text.split(b"\n")
    if lines.pop() != b"":
        lines.append(None)
    paths = []
    for at, line in enumerate(lines, 1):
        path = None if line is None else line[1:] if line.startswith(b"/") else line
        if path is None or b"" in path.split(b"/"):
            raise Placed(11, at)
        paths.append(path)
    if len(paths) > MOST_LINES:
        raise Placed(5)
    return paths


def range_of(extents, size, data, blocks):
    """Start and end of a file, or None where it has no bytes or some lie in the other partition."""
    held = [one for one in extents if one[3] > 0]
    if not held or any(one[0] != data for one in held):
        return None
    start = min(block * size + offset for _, block, offset, _ in held)
    end = max(block * size + offset + count for _, block, offset, count in held)
    return (start // size, -(-end // size)) if blocks else (start, end)


def entries_of(ranges):
    """The least cover of overlapping ranges, in tape order."""
    entries = []
    for start, end in sorted(ranges):
        if entries and start < entries[-1][1]:
            entries[-1][1] = max(entries[-1][1], end)
        else:
            entries.append([start, end])
    return entries


def picked(tape, reader, label, index, text, blocks, head, turn):
    """Both texts, or a refusal. `reader` is by_tree or by_expat."""
    if not re.fullmatch(rb"[A-Z0-9]{1,16}", tape):
        raise Placed(13)
    size, data, volume, other, files = reader(label, index)
    if blocks and size == 0:
        raise Placed(20)
    if volume is not None and other is not None and volume != other:
        raise Placed(44)
    paths = lines_of(text)
    met = {}
    for path, extents in files:
        met.setdefault(path, []).append(extents)
    for at, path in enumerate(paths, 1):
        if len(met.get(path, [])) != 1:
            raise Placed(41, at)
    ranges = [range_of(met[path][0], size, data, blocks) for path in paths]
    if None in ranges:
        raise Placed(42, ranges.index(None) + 1)
    for at, (_, end) in enumerate(ranges, 1):
        if end > LIMIT:
            raise Placed(23, at)
    entries = entries_of(ranges)
    if len(entries) > MOST_ENTRIES:
        raise Placed(3)
    entry = [next(i for i, one in enumerate(entries, 1) if one[0] <= start < one[1]) for start, _ in ranges]
    head = head if head is not None else entries[-1][1] if entries else 0
    turn = TURN if turn is None else turn
    sheet = "tape=%s\nhead=%d\nturn=%d\nrule=least\nfiles=%d\n" % (tape.decode(), head, turn, len(entries))
    sheet += "".join("file=%d,%d,0\n" % (start, end - start) for start, end in entries)
    sheet += "wants=%d\n" % len(entries) + "".join("want=%d,%d\n" % (i, entry.count(i)) for i in range(1, len(entries) + 1))
    first = {}
    for at, path in enumerate(paths):
        first.setdefault(path, at)
    names = b""
    for path, at in sorted(first.items(), key=lambda one: (entry[one[1]], one[1])):
        names += b"name=%d,%d,%s\n" % (entry[at], paths.count(path), path)
    return sheet.encode(), names


def answer(tape, reader, label, index, text, blocks=False, head=None, turn=None):
    """(0, 0, sheet, names), or (number, place, b"", b"")."""
    try:
        return (0, 0) + picked(tape, reader, label, index, text, blocks, head, turn)
    except Refused as refusal:
        return refusal.number, getattr(refusal, "place", 0), b"", b""
