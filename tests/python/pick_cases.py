"""For pick.py: tapes as LTFS software writes them, drawn by `r`: nested folders, all times, extended attributes, links, percentencoded names, files of
several extents, in the layout of schema 2.4 or 2.5; lists of paths of them; both damaged; and fixed ones at each limit.
"""
from ltfs_readers import LIMIT

LETTERS = ["a", "b", "reel", "scan", "A", "Reel", "x y", "tab\there", "ü", "ß", "日本", "𝄞", "&", "<", ">", '"', "'", "&amp;", "&#38;", "..", ".", "%41", "-", "_", "0", "00", "1", "a&b", "]]", "=", ","]
TIMES = ["creationtime", "changetime", "modifytime", "accesstime", "backuptime"]


def escaped(r, text):
    """A name as a writer may write it: always the same character, as itself or by a reference."""
    out = ""
    for letter in text:
        kind = r.random()
        if letter in "&<" or letter == ">" or kind < 0.04:
            named = {"&": "&amp;", "<": "&lt;", ">": "&gt;", '"': "&quot;", "'": "&apos;"}
            forms = ["&#%d;" % ord(letter), "&#x%x;" % ord(letter), "&#x%X;" % ord(letter), "&#%08d;" % ord(letter), "&#x000%x;" % ord(letter)]
            out += named[letter] if letter in named and r.random() < 0.7 else r.choice(forms)
        else:
            out += letter
    return out.encode()


def split(r, text):
    """The same text, in pieces that are one to a reader (a reference never cut, so that an XML parser reads it alike)."""
    cuts = [at for at in range(len(text) + 1) if b"&" not in text[max(0, at - 12):at]]
    cut = r.choice(cuts)
    return text[:cut] + r.choice([b"", b"", b"", b"", b"<!-- a/b -->", b"<?p n?>", b"<x>q</x>"]) + text[cut:]


def name(r, text, newer):
    raw = escaped(r, text)
    attributes = r.choice([b"", b"", b' percentencoded="true"', b" percentencoded='false'"]) if newer else b""
    return b"<name" + attributes + b">" + split(r, raw) + b"</name>"


def times(r):
    stamp = b"2024-05-%02dT10:%02d:00.%09dZ" % (r.randint(1, 28), r.randrange(60), r.randrange(10**9))
    return b"".join(b"<%s>%s</%s>" % (key.encode(), stamp, key.encode()) for key in TIMES)


def attributes(r):
    if r.random() < 0.7:
        return b""
    return b"<extendedattributes><xattr><key>user.md5</key><value type=\"text\">0a1b</value></xattr><xattr><key>name</key><value>file</value></xattr></extendedattributes>"


def extent(r, partition, block, offset, count, newer):
    fields = [b"<partition>%s</partition>" % partition, b"<startblock>%d</startblock>" % block, b"<byteoffset>%d</byteoffset>" % offset, b"<bytecount>%d</bytecount>" % count]
    fields.insert(0 if newer else 4, b"<fileoffset>%d</fileoffset>" % r.randrange(1 << 20))
    return b"<extent>" + b"".join(fields) + b"</extent>"


class Tape:
    """A drawn tape: its label, its index, and the paths of its files in the order of the index."""

    def __init__(self, r, most=12):
        self.r, self.paths, self.newer = r, [], r.random() < 0.5
        self.size = r.choice([524288, 524288, 1048576, 4096, 1, 7, 0, 2**40, 2**64 - 1])
        self.data, self.other = r.choice([(b"b", b"a"), (b"a", b"b")])
        self.block, self.left, self.uid = r.choice([0, 5, 1000]), r.choice([0, 1, 3, most, most, 2 * most]), 0
        uuid = b"%08x-0000-4000-8000-%012x" % (r.randrange(2**32), r.randrange(2**48))
        seen = r.choice([uuid, uuid, uuid, uuid, uuid, uuid, None, b"x" + uuid])
        lines = [b"<creator>IBM LTFS 2.4.4.0 - Linux - ltfs</creator>", b"<formattime>2024-05-01T10:00:00.000000000Z</formattime>",
                 b"<volumeuuid>%s</volumeuuid>" % uuid if r.random() < 0.9 else b"", b"<location><partition>%s</partition></location>" % self.data,
                 b"<partitions><index>%s</index><data>%s</data></partitions>" % (self.other, self.data), b"<blocksize>%d</blocksize>" % self.size, b"<compression>true</compression>"]
        self.label = b'<?xml version="1.0" encoding="UTF-8"?>\n<ltfslabel version="2.4.0">' + b"\n".join(lines) + b"</ltfslabel>\n"
        inside = [b"<creator>x</creator>", b"<volumeuuid>%s</volumeuuid>" % seen if seen else b"", b"<generationnumber>3</generationnumber>",
                  b"<location><partition>a</partition><startblock>6</startblock></location>", b"<allowpolicyupdate>true</allowpolicyupdate>"]
        inside.append(self.directory([], 0))
        if r.random() < 0.05:
            self.left = 2
            inside.append(self.directory([], 0))
        self.index = b'<?xml version="1.0" encoding="UTF-8"?>\n<ltfsindex version="%s">' % (b"2.5.0" if self.newer else b"2.4.0") + b"\n".join(inside) + b"</ltfsindex>\n"

    def word(self):
        r = self.r
        return "".join(r.choice(LETTERS) for _ in range(r.choice([1, 1, 2, 3]))) + r.choice(["", "", ".dpx", "_%04d" % r.randrange(30)])

    def directory(self, path, depth):
        r, rows = self.r, []
        own = self.word() if depth else "VOLUME"
        here = path + [own] if depth else []
        while self.left > 0 and (depth == 0 or r.random() < 0.8):
            if depth < 11 and r.random() < 0.35:
                rows.append(self.directory(here, depth + 1))
            else:
                self.left -= 1
                rows.append(self.file(here))
        names = [name(r, own, self.newer)] if r.random() < 0.97 else []
        if r.random() < 0.03:
            names.append(name(r, "second", self.newer))
        if not names and depth:
            names = [name(r, own, self.newer)]
        head = [b"<fileuid>%d</fileuid>" % self.uid, times(r), b"<readonly>false</readonly>", attributes(r)]
        body = b"<contents>" + b"\n".join(rows) + b"</contents>"
        parts = names + head + [body] if r.random() < 0.9 else head + [body] + names
        return b"<directory>" + b"".join(parts) + b"</directory>"

    def file(self, here):
        r = self.r
        own = self.word()
        if self.paths and r.random() < 0.05:
            own = self.paths[-1].split("/")[-1]
        self.uid += 1
        self.paths.append("/".join(here + [own]))
        extents, count = [], r.choice([0, 1, 1, 1, 1, 1, 1, 1, 2, 3])
        for _ in range(count):
            size = r.choice([0, 1, self.size or 1, 3 * (self.size or 1) + 1, r.randint(1, 2**22), r.randint(1, 2**22)])
            offset = r.choice([0, 0, 0, 1, 4095, self.size])
            if offset >= 2**63 or size >= 2**63:
                offset, size = 0, 5
            where = self.data if r.random() < 0.95 else self.other
            block = self.block if r.random() < 0.995 else r.choice([LIMIT, 2**64 - 1])
            extents.append(extent(r, where, block, offset, size, self.newer))
            self.block += (offset + size) // (self.size or 1) + r.choice([0, 1, 1, 1, 2, 7])
        if r.random() < 0.2:
            r.shuffle(extents)
        body = b"<extentinfo>" + b"".join(extents) + b"</extentinfo>" if extents else r.choice([b"", b"<extentinfo/>", b"<symlink>%s</symlink>" % escaped(r, "a/b")])
        names = [name(r, own, self.newer)] + ([name(r, "later", self.newer)] if r.random() < 0.02 else [])
        parts = names + [b"<length>12</length><readonly>false</readonly>", times(r), b"<fileuid>%d</fileuid>" % self.uid, attributes(r), body]
        if r.random() < 0.05:
            parts = parts[1:] + parts[:1]
        return b"<file>" + b"".join(parts) + b"</file>"


def a_list(r, paths):
    """Lines for a drawn tape: paths of it, some again, some with a `/` before them, some that are of no file, some that are none."""
    known = [one for one in paths if "" not in one.split("/")]
    lines = []
    for _ in range(r.choice([0, 1, 1, 2, 3, 5, 9])):
        kind = r.random()
        if known and kind < 0.93:
            lines.append((b"/" if r.random() < 0.2 else b"") + r.choice(known).encode())
        elif lines and kind < 0.97:
            lines.append(r.choice(lines))
        else:
            lines.append(r.choice([b"", b"/", b"a//b", b"a/", b"//a", b"nothing", b"VOLUME", b"\xff", b"a\r", b"scan/x/y", b"&amp;"]))
    text = b"".join(line + b"\n" for line in lines)
    return text[:-1] if text and r.random() < 0.02 else text


def one_file(path_parts, extents, around=b""):
    inside = b"<file><name>%s</name><extentinfo>%s</extentinfo></file>" % (path_parts[-1], extents)
    for part in reversed(path_parts[:-1]):
        inside = b"<directory><name>%s</name><contents>%s</contents></directory>" % (part, inside)
    return inside + around


def an_index(*rows, volume=b""):
    return b"<ltfsindex>" + volume + b"<directory><name>V</name><contents>" + b"".join(rows) + b"</contents></directory></ltfsindex>"


def an_extent(block, offset, count, partition=b"b"):
    return b"<extent><partition>%s</partition><startblock>%d</startblock><byteoffset>%d</byteoffset><bytecount>%d</bytecount></extent>" % (partition, block, offset, count)


def a_label(size=1, data=b"b", volume=b""):
    return b"<ltfslabel>" + volume + b"<partitions><index>a</index><data>%s</data></partitions><blocksize>%d</blocksize></ltfslabel>" % (data, size)


def fixed():
    """(tape, label, index, list, blocks, head, turn, expected), each expected answer written down by hand: the number and place, or the two texts."""
    near = an_extent(0, 0, 5)
    one = an_index(one_file([b"a"], near))
    plain = b"tape=T\nhead=5\nturn=12000\nrule=least\nfiles=1\nfile=0,5,0\nwants=1\nwant=1,%d\n"
    yield b"T", a_label(), one, b"", 0, None, None, (b"tape=T\nhead=0\nturn=12000\nrule=least\nfiles=0\nwants=0\n", b"")
    yield b"T", a_label(), one, b"a\n", 0, None, None, (plain % 1, b"name=1,1,a\n")
    yield b"T", a_label(), one, b"/a\na\n/a\n", 0, None, None, (plain % 3, b"name=1,3,a\n")
    yield b"T", a_label(), one, b"a\n", 0, 77, 9, (plain.replace(b"head=5", b"head=77").replace(b"12000", b"9") % 1, b"name=1,1,a\n")
    for bad, place in ((b"\n", 1), (b"a\n\n", 2), (b"a", 1), (b"a\na", 2), (b"/\n", 1), (b"//a\n", 1), (b"a//b\n", 1), (b"a/\n", 1), (b"a\n/\n\n", 2)):
        yield b"T", a_label(), one, bad, 0, None, None, (11, place)
    for missing in (b"b\n", b"A\n", b"a/a\n", b"V/a\n", b"aa\n", b"a \n", b"a\r\n", b"&#97;\n"):
        yield b"T", a_label(), one, missing, 0, None, None, (41, 1)
        yield b"T", a_label(), one, b"a\n" + missing + missing, 0, None, None, (41, 2)
    for written, asked in ((b"a&amp;b", b"a&b"), (b"&lt;&gt;&quot;&apos;", b"<>\"'"), (b"&#65;", b"A"), (b"&#x4a;&#x4A;", b"JJ"), (b"&#0065;", b"A"), (b"&#xe4;", b"\xc3\xa4"),
                           (b"&#8364;", b"\xe2\x82\xac"), (b"&#x1D11E;", b"\xf0\x9d\x84\x9e"), (b"&#1114111;", b"\xf4\x8f\xbf\xbf"), (b"&#1114112;", b"&#1114112;"), (b"&#0;", b"&#0;"),
                           (b"&#55295;", b"\xed\x9f\xbf"), (b"&#55296;", b"&#55296;"), (b"&#57343;", b"&#57343;"), (b"&#57344;", b"\xee\x80\x80"), (b"&#;", b"&#;"), (b"&#x;", b"&#x;"), (b"&#X41;", b"&#X41;"),
                           (b"&amp", b"&amp"), (b"&Amp;", b"&Amp;"), (b"&nbsp;", b"&nbsp;"), (b"&", b"&"), (b"&&amp;", b"&&"), (b"&amp;amp;", b"&amp;"), (b"&#38;lt;", b"&lt;"), (b"&a<!-- -->mp;", b"&"),
                           (b"<![CDATA[&amp;<]]>", b"&<"), (b"&#<x/>65;", b"A"), (b"&#18446744073709551681;", b"&#18446744073709551681;"), (b"&#000000000000000000000000065;", b"A"), (b"&#6a;", b"&#6a;"),
                           (b"&#x6g;", b"&#x6g;"), (b"x<y>z</y>w", b"xw"), (b"a</name><name>b", b"a"), (b"&am&amp;", b"&am&"), (b"&#127;&#128;&#2047;&#2048;&#65535;&#65536;", "\x7f\x80\u07ff\u0800\uffff\U00010000".encode())):
        yield b"T", a_label(), an_index(one_file([written], near)), asked + b"\n", 0, None, None, (plain % 1, b"name=1,1," + asked + b"\n")
    late = b"<directory><contents><file><extentinfo>%s</extentinfo><name>f</name></file></contents><name>d</name><name>e</name></directory>" % near
    yield b"T", a_label(), an_index(late), b"d/f\n", 0, None, None, (plain % 1, b"name=1,1,d/f\n")
    yield b"T", a_label(), an_index(late), b"e/f\n", 0, None, None, (41, 1)
    yield b"T", a_label(), an_index(one_file([b"d/e", b"f"], near)), b"d/e/f\n", 0, None, None, (plain % 1, b"name=1,1,d/e/f\n")
    yield b"T", a_label(), an_index(one_file([b"d/e", b"f"], near), one_file([b"d", b"e", b"f"], near)), b"d/e/f\n", 0, None, None, (41, 1)
    yield b"T", a_label(), an_index(one_file([b"", b"f"], near), one_file([b"/f"], near)), b"/f\n", 0, None, None, (41, 1)
    yield b"T", a_label(), one + an_index(one_file([b"b"], an_extent(9, 0, 1))), b"b\na\n", 0, None, None, (
        b"tape=T\nhead=10\nturn=12000\nrule=least\nfiles=2\nfile=0,5,0\nfile=9,1,0\nwants=2\nwant=1,1\nwant=2,1\n", b"name=1,1,a\nname=2,1,b\n")
    for extents, wanted in ((b"", 42), (an_extent(0, 0, 0), 42), (an_extent(0, 0, 5, b"a"), 42), (near + an_extent(9, 0, 1, b"a"), 42), (near + an_extent(9, 0, 0, b"a"), 0), (an_extent(LIMIT - 5, 0, 5), 0),
                            (an_extent(LIMIT - 5, 0, 6), 23), (an_extent(2**64 - 1, 2**64 - 1, 2**64 - 1), 23)):
        if wanted:
            yield b"T", a_label(), an_index(one_file([b"a"], extents), one_file([b"b"], near)), b"b\na\na\n", 0, None, None, (wanted, 2)
    yield b"T", a_label(), an_index(one_file([b"a"], an_extent(20, 0, 5) + an_extent(3, 0, 2) + an_extent(90, 0, 0))), b"a\n", 0, None, None, (
        b"tape=T\nhead=25\nturn=12000\nrule=least\nfiles=1\nfile=3,22,0\nwants=1\nwant=1,1\n", b"name=1,1,a\n")
    for size, block, offset, count, start, end in ((10, 2, 0, 10, 2, 3), (10, 2, 0, 11, 2, 4), (10, 2, 9, 1, 2, 3), (10, 2, 9, 2, 2, 4), (10, 2, 10, 1, 3, 4), (10, 0, 35, 1, 3, 4), (1, 7, 0, 3, 7, 10),
                                                   (2**64 - 1, 5, 2**64 - 1, 2**64 - 1, 6, 7), (2**64 - 1, 5, 2**64 - 2, 2**64 - 1, 5, 7), (524288, LIMIT - 1, 0, 524288, LIMIT - 1, LIMIT)):
        yield b"T", a_label(size), an_index(one_file([b"a"], an_extent(block, offset, count))), b"a\n", 1, None, None, (
            b"tape=T\nhead=%d\nturn=12000\nrule=least\nfiles=1\nfile=%d,%d,0\nwants=1\nwant=1,1\n" % (end, start, end - start), b"name=1,1,a\n")
    yield b"T", a_label(524288), an_index(one_file([b"a"], an_extent(LIMIT - 1, 0, 524289))), b"a\n", 1, None, None, (23, 1)
    yield b"T", a_label(0), one, b"a\n", 1, None, None, (20, 0)
    yield b"T", a_label(0), one, b"a\n", 0, None, None, (plain % 1, b"name=1,1,a\n")
    rows = [one_file([b"a"], an_extent(0, 0, 5)), one_file([b"b"], an_extent(5, 0, 5)), one_file([b"c"], an_extent(9, 0, 5)), one_file([b"d"], an_extent(2, 0, 1)), one_file([b"e"], an_extent(13, 0, 1))]
    yield b"T", a_label(), an_index(*rows), b"e\nc\nb\na\nd\nb\n", 0, None, None, (
        b"tape=T\nhead=14\nturn=12000\nrule=least\nfiles=2\nfile=0,5,0\nfile=5,9,0\nwants=2\nwant=1,2\nwant=2,4\n", b"name=1,1,a\nname=1,1,d\nname=2,1,e\nname=2,1,c\nname=2,2,b\n")
    many = [one_file([b"f%d" % i], an_extent(2 * i, 0, 2)) for i in range(65)]
    sheet = b"tape=T\nhead=128\nturn=12000\nrule=least\nfiles=64\n" + b"".join(b"file=%d,2,0\n" % (2 * i) for i in range(64)) + b"wants=64\n" + b"".join(b"want=%d,1\n" % (i + 1) for i in range(64))
    yield b"T", a_label(), an_index(*many), b"".join(b"f%d\n" % i for i in range(64)), 0, None, None, (sheet, b"".join(b"name=%d,1,f%d\n" % (i + 1, i) for i in range(64)))
    yield b"T", a_label(), an_index(*many), b"".join(b"f%d\n" % i for i in range(65)), 0, None, None, (3, 0)
    yield b"T", a_label(), one, b"a\n" * 1024, 0, None, None, (plain % 1024, b"name=1,1024,a\n")
    yield b"T", a_label(), one, b"a\n" * 1025, 0, None, None, (5, 0)
    yield b"T", a_label(), one, b"b\n" * 1025, 0, None, None, (5, 0)
    yield b"T", a_label(), one, b"a\n" * 1025 + b"\n", 0, None, None, (11, 1026)
    same, another = b"<volumeuuid>1</volumeuuid>", b"<volumeuuid>2</volumeuuid>"
    for first, second, wanted in ((same, same, 0), (same, another, 44), (b"", another, 0), (same, b"", 0), (same + another, same, 0), (same + another, another, 44), (b"<volumeuuid>&#49;</volumeuuid>", same, 44),
                                  (b"<volumeuuid/>", same, 44), (b"<volumeuuid><![CDATA[1]]></volumeuuid>", same, 0), (b"<volumeuuid> 1</volumeuuid>", same, 44)):
        yield b"T", a_label(volume=first), an_index(one_file([b"a"], near), volume=second), b"a\n", 0, None, None, (44, 0) if wanted else (plain % 1, b"name=1,1,a\n")
        yield b"T", a_label(volume=first), an_index(one_file([b"a"], near), volume=second), b"\n", 0, None, None, (44, 0) if wanted else (11, 1)
    for tape in (b"", b"t", b"A" * 17, b"A B"):
        yield tape, b"<", b"<", b"\n", 0, None, None, (13, 0)
    for label, index in ((b"<", one), (a_label(), b"<"), (one, a_label()), (a_label(), b"<ltfsindex/>x</y>"), (a_label(data=b"bb"), one), (a_label(), one.replace(b">5<", b">05<")), (a_label(), one.replace(b"<byteoffset>0</byteoffset>", b""))):
        yield b"T", label, index, b"\n", 0, None, None, (20, 0)
    deep = [b"d"] * 12
    yield b"T", a_label(), an_index(one_file(deep + [b"a"], near)), b"/".join(deep) + b"/a\n", 0, None, None, (plain % 1, b"name=1,1," + b"/".join(deep) + b"/a\n")
    yield b"T", a_label(), an_index(one_file(deep + [b"d", b"a"], near)), b"/".join(deep) + b"/d/a\n", 0, None, None, (20, 0)
    folders = [b"<directory><name>f</name><contents>" + near.replace(b"extent>", b"file>") + b"</contents></directory>"]
    yield b"T", a_label(), an_index(one_file([b"a"], near), b"<v>" + one_file([b"a"], near) + b"</v>", *folders), b"a\n", 0, None, None, (plain % 1, b"name=1,1,a\n")
