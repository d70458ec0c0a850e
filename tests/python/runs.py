"""For the comparisons: document 01's judging, walk and lists, in its sentences. They share nothing with the crates.

A table has a start, a length and the number of an aggregate for each file, 0 for none. The files of one aggregate are read together: a want
of any of them is a want of all, from the first start to the last end, and lists name them by the first.

Walk and search go by any place of the head: a leg from a start that lies right of the head's first place turns at that place, and no
detour starts right of the head's own stop, the first that starts at or right of the head. Right of everything wanted neither occurs.
"""


class Refused(Exception):
    def __init__(self, number, place=0):
        super().__init__(f"refused={number}\nplace={place}\n".encode())


def together(table, number):
    """The numbers of the files that are read with a file, itself among them."""
    aggregate = table[number - 1][2]
    return [n for n, entry in enumerate(table, 1) if n == number or (aggregate != 0 and entry[2] == aggregate)]


def extent(table, number):
    """Where what is read with a file starts, and where it ends."""
    files = together(table, number)
    return table[files[0] - 1][0], sum(table[files[-1] - 1][:2])


def stops(table, asked):
    """The first file of each thing wanted, and how many reads of it wait."""
    counts = {}
    for number, count in asked:
        first = together(table, number)[0]
        counts[first] = counts.get(first, 0) + count
    return sorted(counts.items())


def judge(head, turn, table, asked, most=64, anywhere=False):
    """Raises the first refusal of 2, 24 where the wants are over so many, 4, 5, 6 and 7, which where the head may stand anywhere is the limit alone."""
    before = 0
    for i, (start, length, aggregate) in enumerate(table):
        again = aggregate != 0 and any(entry[2] == aggregate for entry in table[:i]) and table[i - 1][2] != aggregate
        if length == 0 or start < before or start + length > 2**40 or aggregate > 4096 or again:
            raise Refused(2, i + 1)
        before = start + length
    if len(asked) > most:
        raise Refused(24)
    last = 0
    for i, (number, count) in enumerate(asked):
        if number > len(table) or number <= last or count == 0:
            raise Refused(4, i + 1)
        last = number
    if sum(count for _, count in asked) > 1024:
        raise Refused(5)
    if turn > 2**32:
        raise Refused(6)
    if head > 2**40 or (asked and not anywhere and head < extent(table, asked[-1][0])[1]):
        raise Refused(7)


def walk(head, turn, table, asked, detours):
    """The times of the wants and the legs that read them, counted from 1, and the clock and the place at the end."""
    place, clock, times, read_by = head, 0, {}, {}
    legs = [(extent(table, a)[0], extent(table, b)[1]) for a, b in detours]
    if asked:
        unread = [first for first, _ in stops(table, asked) if not any(a <= first <= b for a, b in detours)]
        legs.append((extent(table, asked[0][0])[0], extent(table, unread[-1])[1]))
    for i, (left, right) in enumerate((min(start, head), end) for start, end in legs):
        clock += (turn if i else 0) + (place - left) + turn
        for number, _ in asked:
            start, end = extent(table, number)
            if number not in times and left <= start and end <= right:
                times[number] = clock + end - left
                read_by[number] = i + 1
        clock += right - left
        place = right
    return times, read_by, clock, place


def own_stop(head, table, files):
    """The head's own stop, the first that starts at or right of the head; the last file where none does."""
    return min((file for file in files if head <= extent(table, file)[0]), default=len(table))


def lists(files, own=None):
    """Every well-formed list over these files, the first of each thing wanted; with the head's own stop, those that start nowhere right of it."""
    def grow(done):
        yield done
        for a in [a for a in files[1:] if own is None or a <= own]:
            for b in files:
                if b >= a and all(a < c and (b < c or d < b) for c, d in done):
                    yield from grow(done + [(a, b)])
    yield from grow([])


def order(files, detours):
    starts = {b: a for a, b in detours}
    return [(f in starts, -starts.get(f, 0)) for f in reversed(files)]


def total(head, turn, table, asked, detours):
    """What all reads wait by a list, added up."""
    times = walk(head, turn, table, asked, detours)[0]
    return sum(count * times[number] for number, count in asked)


def least(head, turn, table, asked):
    """The least rule's list, by a search over all."""
    files = [first for first, _ in stops(table, asked)]
    return min(lists(files, own_stop(head, table, files)), key=lambda d: (total(head, turn, table, asked, d), order(files, d)))
