"""For ltfs.py: labels and indexes as drives' software writes them, with every choice drawn by `r`; damaged ones; and fixed ones at
each limit.
"""
import re

from ltfs_readers import LIMIT, framed


def blank(r):
    return r.choice([b"", b"", b" ", b"\n", b"\n    ", b"\t", b"\r\n"])


def noise(r):
    """Something between elements that says nothing."""
    return r.choice([b"", b"", b"", blank(r), b"<!-- <file> -->", b"<!---->", b"<?pi <x> ?>", b"<!-- ' -->"])


def chars(r, text):
    """A value's text, in pieces that are one to a reader."""
    kind = r.randrange(12)
    if kind == 0:
        cut = r.randint(0, len(text))
        return text[:cut] + b"<!-- 9 -->" + text[cut:]
    if kind == 1:
        return b"<![CDATA[" + text + b"]]>"
    if kind == 2:
        cut = r.randint(0, len(text))
        return text[:cut] + b"<![CDATA[" + text[cut:] + b"]]>"
    if kind == 3:
        cut = r.randint(0, len(text))
        return text[:cut] + r.choice([b"<v>7</v>", b"<v/>", b"<?p 8?>", b"<![CDATA[]]>"]) + text[cut:]
    return text


def tagged(r, name, inside):
    attributes = r.choice([b"", b"", b"", b' a="1"', b" b='/>'", b' xmlns="urn:x"', b' c=">" d=\'"\'', b"\n"])
    if r.random() < 0.002:
        attributes = b' c="</file><"'
    if not inside and r.random() < 0.5:
        return b"<" + name + attributes + r.choice([b"", b" "]) + b"/>"
    return b"<" + name + attributes + b">" + inside + b"</" + name + r.choice([b"", b"", b" ", b"\n"]) + b">"


def extent(r, values, partition):
    block, offset, count = values
    fields = [(b"partition", partition), (b"startblock", b"%d" % block), (b"byteoffset", b"%d" % offset), (b"bytecount", b"%d" % count)]
    if r.random() < 0.3:
        r.shuffle(fields)
    if r.random() < 0.4:
        fields.insert(r.randint(0, 4), (b"fileoffset", b"0"))
    if r.random() < 0.03:
        fields.append(r.choice(fields[:4]))
    inside = b"".join(noise(r) + tagged(r, key, chars(r, text)) for key, text in fields)
    return tagged(r, b"extent", inside + noise(r))


def a_file(r, values, partition):
    parts = [tagged(r, b"name", r.choice([b"a", b"<![CDATA[<file>]]>", b"B\xc3\xa9", b"x y"])), tagged(r, b"length", b"12")]
    if r.random() < 0.2:
        parts.append(tagged(r, b"extendedattributes", tagged(r, b"xattr", tagged(r, b"key", b"k") + tagged(r, b"value", b"partition"))))
    if r.random() < 0.1:
        parts.append(tagged(r, b"vendor:x", tagged(r, b"extentinfo", tagged(r, b"extent", b""))))
    if values is not None:
        again = extent(r, values, partition) if r.random() < 0.004 else b""
        parts.append(tagged(r, b"extentinfo", noise(r) + extent(r, values, partition) + noise(r) + again))
    elif r.random() < 0.5:
        parts.append(r.choice([tagged(r, b"extentinfo", b""), tagged(r, b"symlink", b"/x")]))
    if r.random() < 0.3:
        r.shuffle(parts)
    return tagged(r, b"file", b"".join(noise(r) + part for part in parts))


def contents(r, files, depth):
    files, parts = list(files), []
    while files:
        if depth < 5 and r.random() < 0.3:
            cut = r.randint(0, len(files))
            parts.append(tagged(r, b"directory", tagged(r, b"name", b"d") + contents(r, files[:cut], depth + 1)))
            files = files[cut:]
        else:
            parts.append(files.pop(0))
    return tagged(r, b"contents", b"".join(noise(r) + part for part in parts) + noise(r))


def pair(r):
    """A label and an index, most of them without a fault."""
    size = r.choice([524288, 524288, 524288, 1048576, 65536, 1, 0, 4096, 2**40, 2**64 - 1])
    data, other = r.choice([(b"b", b"a"), (b"a", b"b"), (b"q", b"z")])
    label_parts = [tagged(r, b"creator", b"IBM LTFS 2.4.4.0 - Linux - ltfs"), tagged(r, b"location", tagged(r, b"partition", b"b")),
                   tagged(r, b"partitions", tagged(r, b"index", other) + noise(r) + tagged(r, b"data", chars(r, data))),
                   tagged(r, b"blocksize", chars(r, b"%d" % size)), tagged(r, b"compression", b"true")]
    label = r.choice([b"", b'<?xml version="1.0" encoding="UTF-8"?>\n']) + tagged(r, b"ltfslabel", noise(r).join(label_parts)) + blank(r)
    files, block = [], r.choice([0, 5, 1000])
    for _ in range(r.choice([0, 1, 2, 3, 5, 8, 12])):
        count = r.choice([1, size or 1, max(1, size - 1), 3 * size + 1, r.randint(1, 2**22)])
        offset = r.choice([0, 0, 0, 0, 1, 4095])
        kind = r.random()
        if kind < 0.08:
            files.append(a_file(r, None, data))
        elif kind < 0.14:
            files.append(a_file(r, (block, offset, 0), r.choice([data, other])))
        elif kind < 0.22:
            files.append(a_file(r, (r.choice([block, 2**64 - 1]), offset, count), other))
        else:
            files.append(a_file(r, (block, offset, count), data))
            block += (offset + count) // (size or 1) + r.choice([1, 1, 1, 1, 2, 7, 0 if r.random() < 0.1 else 1])
    if r.random() < 0.6:
        r.shuffle(files)
    inside = b"".join([tagged(r, b"creator", b"x"), tagged(r, b"generationnumber", b"3"),
                       tagged(r, b"location", tagged(r, b"partition", b"a") + tagged(r, b"startblock", b"6")), noise(r),
                       tagged(r, b"directory", tagged(r, b"name", b"root") + contents(r, files, 0))])
    index = r.choice([b"", b'<?xml version="1.0"?>', b'<!DOCTYPE ltfsindex [ <!ENTITY a ">"> ]>']) + tagged(r, b"ltfsindex", inside) + blank(r)
    if r.random() < 0.3:
        index = index.replace(b"\n", b" ")
    return label, index


PIECES = [b"<", b">", b"/", b'"', b"'", b"<!--", b"-->", b"<![CDATA[", b"]]>", b"<?", b"?>", b"<!", b"[", b"]", b"<x>", b"</x>", b"<x/>", b"0", b"9", b"a",
          b" ", b"\n", b"\x00", b"\xff", b"<extent>", b"</extent>", b"<file>", b"</file>", b"<extentinfo/>", b"18446744073709551616", b"&", b"=", b"<1>", b"</>"]


def damaged(r, text):
    """One or a few faults at any place, more of them near values and tags."""
    for _ in range(r.choice([1, 1, 1, 2, 4])):
        at, kind = r.randint(0, len(text)), r.randrange(7)
        if kind < 2:
            text = text[:at] + r.choice(PIECES) + text[at:]
        elif kind == 2:
            text = text[:at] + text[at + r.choice([1, 1, 1, 2, 5, 40]):]
        elif kind == 3 and text:
            at = min(at, len(text) - 1)
            text = text[:at] + bytes([r.choice([text[at] ^ (1 << r.randrange(8)), r.randrange(256)])]) + text[at + 1:]
        elif kind == 4:
            numbers = list(re.finditer(rb"[0-9]+", text))
            if numbers:
                found = r.choice(numbers)
                new = r.choice([b"0", b"1", b"00", b"01", b"", b"-1", b"+1", b" 1", b"18446744073709551615", b"18446744073709551616", b"1099511627776",
                                b"1099511627777", b"2097152", b"2097151", b"99999999999999999999999", b"%d" % r.randrange(2**64), found[0] + b"0"])
                text = text[:found.start()] + new + text[found.end():]
        elif kind == 5:
            tags = list(re.finditer(rb"</?[a-z:]+[^<>]*>", text))
            if tags:
                found, again = r.choice(tags), r.choice(tags)
                text = text[:found.start()] + r.choice([b"", again[0], found[0] * 2]) + text[found.end():]
        else:
            elements = list(re.finditer(rb"<(file|extent|extentinfo|directory|partition|startblock|bytecount|byteoffset|data|blocksize)\b[^<>]*>.*?</\1\s*>", text, re.S))
            if elements:
                found = r.choice(elements)
                text = text[:found.start()] + r.choice([b"", found[0] * 2, b"<!--" + found[0] + b"-->", b"<v>" + found[0] + b"</v>"]) + text[found.end():]
    return text


def simple_extent(block, offset, count, partition=b"b"):
    return b"<extent><partition>%s</partition><startblock>%d</startblock><byteoffset>%d</byteoffset><bytecount>%d</bytecount></extent>" % (partition, block, offset, count)


def simple_index(*files):
    rows = b"".join(b"<file><extentinfo>" + one + b"</extentinfo></file>" for one in files)
    return b"<ltfsindex><directory><contents>" + rows + b"</contents></directory></ltfsindex>"


def simple_label(size=1, data=b"b"):
    return b"<ltfslabel><partitions><index>a</index><data>%s</data></partitions><blocksize>%d</blocksize></ltfslabel>" % (data, size)


def fixed():
    """Each limit from both sides, and each refusal before the next."""
    one = simple_extent
    label = simple_label()
    whole = framed(b"VX0041", label, simple_index(one(0, 0, 5)))
    yield whole
    for name in (b"", b"A" * 16, b"A" * 17, b"a", b"A B", b"0"):
        yield framed(name, label, simple_index())
        yield framed(name, b"<", b"<")
    for text in (b"", b"tape=", b"tape=A", b"tape=A\n", b"Tape=A\n", whole[:-1], whole + b"\n", whole.replace(b"label", b"Label", 1), whole.replace(b"index=", b"index ", 1),
                 whole.replace(b"label=", b"label=0", 1), whole.replace(b"label=", b"label=1", 1), whole.replace(b"label=", b"label=99999999999999999999", 1),
                 whole.replace(b"label=", b"label=-", 1), b"tape=A\nlabel=0\nindex=0\n", b"tape=A\nlabel=0\nindex=", b"tape=A\nlabel=\nindex=0\n"):
        yield text
    for deep in (27, 28, 29, 30):
        inside = b"<d>" * deep + b"</d>" * deep
        yield framed(b"A", label, b"<ltfsindex><directory><contents>" + inside + b"</contents></directory></ltfsindex>")
        yield framed(b"A", label, b"<ltfsindex><directory><contents>" + b"<d>" * deep + b"<e/>" + b"</d>" * deep + b"</contents></directory></ltfsindex>")
        yield framed(b"A", label + inside + b"<d>" * (deep + 3) + b"</d>" * (deep + 3), simple_index())
    for n in (255, 256, 257):
        files = [one(2 * i, 0, 2) for i in range(n)]
        yield framed(b"A", label, simple_index(*files))
        yield framed(b"A", label, simple_index(*reversed(files)))
        yield framed(b"A", label, simple_index(*files, *[one(0, 0, 0)] * 70, *[one(0, 0, 3, b"a")] * 50))
    for size, block, offset, count in ((1, LIMIT - 1, 0, 1), (1, LIMIT - 1, 0, 2), (1, LIMIT, 0, 1), (2**20, 2**20 - 1, 2**20 - 1, 1), (2**20, 2**20, 0, 1), (0, 2**64 - 1, 7, 1),
                                       (2**32, 2**32, 0, 1), (2**63, 2, 5, 1), (2**64 - 1, 2**64 - 1, 2**64 - 1, 2**64 - 1), (1, 2**64 - 1, 1, 1), (1, 0, 2**64 - 1, 2), (2, 2**63, 3, 1),
                                       (3, (2**64 + 2) // 3, 0, 1), (1, 1, 1, 2**64 - 1), (LIMIT, 1, 0, 1), (LIMIT, 0, 0, LIMIT), (LIMIT, 0, 1, LIMIT), (LIMIT + 1, 1, 0, 1)):
        yield framed(b"A", simple_label(size), simple_index(one(block, offset, count)))
        yield framed(b"A", simple_label(size), simple_index(one(block, offset, count, b"a")))
        yield framed(b"A", simple_label(size), simple_index(one(block, offset, 0)))
    for a, b in (((0, 5), (5, 5)), ((0, 5), (4, 5)), ((5, 5), (0, 5)), ((5, 5), (0, 6)), ((0, 5), (0, 5)), ((0, 9), (3, 2)), ((3, 2), (0, 9)), ((0, 1), (0, 1))):
        yield framed(b"A", label, simple_index(one(a[0], 0, a[1]), one(b[0], 0, b[1])))
        yield framed(b"A", label, simple_index(one(a[0], 0, a[1]), one(100, 0, 1), one(b[0], 0, b[1])))
    two = one(0, 0, 1) + one(8, 0, 1)
    bad = one(0, 0, 1).replace(b">1<", b">x<")
    far, near = one(LIMIT, 0, 1), one(0, 0, 1)
    for files in ((two,), (two, bad), (bad, two), (two, far), (far, two), (far, near, near), (near, near), (two, near, near), (near, near, two), (far, bad), (one(0, 0, 0) * 2,), (one(0, 0, 0) + bad,),
                  (one(3, 0, 1, b"a") * 2,), (b"</extentinfo><extentinfo>".join([near, near]),), (near + b"</extentinfo><extentinfo>",), (b"<v>" + near + b"</v>",), (b"",), (b"<extent/>",)):
        yield framed(b"A", label, simple_index(*files))
    index = simple_index(near)
    for text in (b"", label, b"<ltfsindex/>", b"<ltfsindex></ltfsindex>", index + index.replace(b"block>0", b"block>7"), b"x" + index + b"y", b"<x>" + index + b"</x>", index + b"<", index + b"<!", index + b"<!-- -",
                 index + b"<!-->", index + b"<!--->", index + b"<!---->", index + b"<?", index + b"<?>", index + b"<??>", index + b"<![CDATA[", index + b"<![CDATA[]]>", index + b"<![CDATA[]]]]>", index + b"<!D>",
                 index + b"<!D [>]>", index + b"<!D [[>]>", index + b"<!D ']'>", index + b"<!D '[>'>", index + b"<!D ]>", index + b"<![CDATA>", index + b"<a", index + b"<a>", index + b"</a>", index + b"<a/>",
                 index + b"<a//>", index + b"<a/ >", index + b"<a b='/'>", index + b"<a b='/'/>", index + b"<a b='>'/>", index + b"<a b='</a>", index + b"<a <b/>", index + b"<a '<'/>", index + b"<1/>", index + b"< a/>",
                 index + b"<-/>", index + b"<_/>", index + b"<:/>", index + b"<\x80/>", index + b"<\x7f/>", index + b"<a></a >", index + b"<a></a\t\n\r >", index + b"<a></ a>", index + b"<a></a b>", index + b"<a></a/>",
                 index + b"<a></b>", index + b"<a></aa>", index + b"<aa></a>", index + b"<a><b></a></b>", index + b"<A></a>", index + b"</>", index + b"<>", index + b"<a=1></a>", index + b"<a\"x\"></a>", index + b"<a.-9:_></a.-9:_>",
                 index + b"<a\x00></a>", index + b">&;'\"", index.replace(b"<file>", b"<File>").replace(b"</file>", b"</File>"), index.replace(b"file>", b"x:file>"), index.replace(b"contents", b"content")):
        yield framed(b"A", label, text)
    for text in (b"0", b"1", b"01", b"00", b"", b" 1", b"1 ", b"+1", b"-1", b"1.0", b"&#49;", b"18446744073709551615", b"18446744073709551616", b"99999999999999999999", b"1<!-- -->0", b"<![CDATA[1]]>0",
                 b"1<x>2</x>3", b"1<x/>3", b"<![CDATA[0]]>1", b"1<?2?>", b"1<!x>", b"a", b"b", b"z", b"{", b"`", b"A", b"bb", b"<!-- -->b", b"<![CDATA[b]]>", b"<![CDATA[b]]>b", b"b<x>b</x>", b"<x/>"):
        for key in (b"startblock", b"byteoffset", b"bytecount", b"partition"):
            yield framed(b"A", label, re.sub(b"<%s>.*?</%s>" % (key, key), lambda _: b"<%s>%s</%s>" % (key, text, key), index))
            yield framed(b"A", label, index.replace(b"</extent>", b"<%s>%s</%s></extent>" % (key, text, key)))
            yield framed(b"A", label, index.replace(b"<extent>", b"<extent><%s>%s</%s>" % (key, text, key)))
        for key in (b"blocksize", b"data"):
            yield framed(b"A", re.sub(b"<%s>.*?</%s>" % (key, key), lambda _: b"<%s>%s</%s>" % (key, text, key), label), index)
            yield framed(b"A", label + label.replace(b"<blocksize>1<", b"<blocksize>" + text + b"<"), index)
    for key in (b"startblock", b"byteoffset", b"bytecount", b"partition", b"extent", b"extentinfo", b"file", b"contents", b"directory"):
        yield framed(b"A", label, re.sub(b"<%s>.*</%s>" % (key, key), b"", index))
        yield framed(b"A", label, re.sub(b"<%s>.*</%s>" % (key, key), b"<%s/>" % key, index))
    for key in (b"blocksize", b"data", b"partitions", b"ltfslabel"):
        yield framed(b"A", re.sub(b"<%s>.*</%s>" % (key, key), b"", label), index)
        yield framed(b"A", re.sub(b"<%s>.*</%s>" % (key, key), b"<%s/>" % key, label), index)
    filler = b"<!--" + b"x" * 523000 + b"-->"
    for more in (-1, 0, 1):
        text = framed(b"A", label, index + filler)
        yield framed(b"A", label, index + filler.replace(b"x", b"x" * (524288 + more - len(text) + 1), 1))
