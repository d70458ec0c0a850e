"""Plans and prices the recall of files from tape, by number or by path, and keeps the waiting tickets of two offices: the proved library for Python.

    import violstream

    tape = violstream.Tape(starts=[0, 10, 20], lengths=[10, 4, 30])
    run = violstream.Run(tape, wants={1: 1, 2: 3, 3: 1}, head=60, turn=1)
    print(violstream.plan(run).sum)                        # 367
    print(violstream.answer(open("VX0041.run", "rb").read()).decode())

Every function calls one of the library's and gives what violstream.h says of it. What the library refuses is raised as Refused, with the number of the refusal table,
its place and its words; nothing has changed then. A number that is no whole number from 0 to 2^64 - 1 is a ValueError.

The library is libviolstream.so.4: the one that the variable VIOLSTREAM_LIBRARY names, or the one of the same installation, or what the loader finds. It is loaded at
the first call. Calls from several threads go on side by side; a Desk belongs to one thread at a time.
"""
from __future__ import annotations

import ctypes
import os
import threading
from dataclasses import dataclass, field
from typing import Iterable, Mapping, Optional, Sequence

__all__ = ["Closed", "Desk", "Boarding", "Mended", "Plan", "Refused", "Run", "Tape", "Ticket", "answer", "buys", "check", "mend", "pick", "plan", "price", "reason", "version"]

MAJOR = 4
_PLACES, _SUMS, _TAKEN, _BOARDERS = 32, 4, 10, 8
_MOST_WANTS, _MOST_READS = 64, 1024
_PLAN_MOST, _BUYS_MOST, _CHECK_MOST, _SHEET_MOST, _CHANGES_MOST, _TEXT_MOST, _NAMES_MORE = 7644, 4492, 24115, 16384, 98424, 2677, 10240

_REASONS = {
    1: "over 4,096 files, or starts, lengths and aggregates of unequal number",
    2: "file of length 0, before the previous end or ending above 2^40, or aggregate number above 4,096 or returning",
    3: "over 64 wants, or numbers and counts of unequal number",
    4: "want of a file not in the table or not ascending, or with count 0",
    5: "over 1,024 reads",
    6: "turn price above 2^32",
    7: "head above 2^40, or left of the end of the rightmost wanted file or its aggregate",
    8: "row for the answer too short",
    9: "working room too small",
    10: "list of detours not well formed",
    11: "line that is not as described",
    12: "sheet of over 16,384 bytes",
    13: "tape name that is none",
    14: "rule number other than 1",
    15: "office, file or count of a ticket out of range",
    16: "that office has 16 tickets waiting",
    17: "no such ticket waits",
    18: "that office has been given its last number",
    19: "the sheet names the retired rule sweep",
    20: "label or index not balanced, too deep, or without a value that is needed",
    23: "wanted file that ends above 2^40",
    26: "record of the waiting table that no ticket can have left there",
    41: "path of no file of the index, or of several",
    42: "file without bytes, or with some in the other partition",
    43: "event that is not for this window",
    44: "label and index of different volumes",
}


def reason(number: int) -> str:
    """A refusal in the words of violstream.h."""
    return _REASONS.get(number, "no refusal of this library")


class Refused(Exception):
    """What the library refuses: `number` by the refusal table, `place` (a file, want, entry, line or record, from 1; 0 for none), and `words`."""

    def __init__(self, number: int, place: int) -> None:
        self.number, self.place, self.words = number, place, reason(number)
        super().__init__(number, place)

    def __str__(self) -> str:
        return f"{self.number} at {self.place}: {self.words}"


# ---- What is handed in and comes back


@dataclass(frozen=True)
class Tape:
    """The files of a tape in tape order: start, length and aggregate of each (0, or nothing at all, for none)."""

    starts: Sequence[int]
    lengths: Sequence[int]
    aggregates: Optional[Sequence[int]] = None

    @property
    def files(self) -> int:
        """How many there are."""
        return len(self.starts)

    def _rows(self) -> list:
        aggregates = [0] * len(self.starts) if self.aggregates is None else self.aggregates
        return _row(self.starts) + _row(self.lengths) + _row(aggregates)


@dataclass(frozen=True)
class Run:
    """A run: the tape, how many reads wait for each wanted file, by its number, and where the head stands and what a turn costs."""

    tape: Tape
    wants: Mapping[int, int]
    head: int
    turn: int = 12000

    def _rows(self) -> list:
        numbers = sorted(self.wants)
        return self.tape._rows() + _row(numbers) + _row([self.wants[number] for number in numbers]) + [_word(self.head), _word(self.turn)]


@dataclass(frozen=True)
class Plan:
    """A list of detours and what it costs: the total of reads times time, the clock and the head's place at the end, and time and leg of each wanted file."""

    sum: int
    finish: int
    end: int
    detours: tuple[tuple[int, int], ...]
    times: Mapping[int, int]
    legs: Mapping[int, int]


@dataclass(frozen=True)
class Ticket:
    """A ticket that waits: its office, 1 or 2, the file, how often it is to be read, and the number given."""

    office: int
    file: int
    count: int
    number: int


@dataclass(frozen=True)
class Closed:
    """A ticket that has left, with the time and the leg of its own want."""

    ticket: Ticket
    time: int
    leg: int


@dataclass(frozen=True)
class Boarding:
    """Who left, office 1's first and each office's in order of filing, and the plan of their run."""

    closed: tuple[Closed, ...]
    plan: Plan


@dataclass(frozen=True)
class Mended:
    """A run sheet put in order, and a line for each change."""

    sheet: bytes
    changes: bytes


# ---- The library


class _Record(ctypes.Structure):
    _fields_ = [(name, ctypes.c_uint64) for name in ("office", "file", "count", "number")]


_loaded: Optional[ctypes.CDLL] = None
_loading = threading.Lock()


def _names() -> Iterable[str]:
    named = os.environ.get("VIOLSTREAM_LIBRARY")
    if named:
        yield named
        return
    soname = f"libviolstream.so.{MAJOR}"
    beside = os.path.join(os.path.dirname(os.path.abspath(__file__)), "..", "..", soname)
    if os.path.exists(beside):
        yield beside
    yield soname


def _library() -> ctypes.CDLL:
    global _loaded
    with _loading:
        if _loaded is None:
            why: Optional[OSError] = None
            for name in _names():
                try:
                    found = ctypes.CDLL(name)
                    break
                except OSError as error:
                    why = error
            else:
                raise ImportError(f"violstream: no library: {why}")
            found.violstream_version.restype = ctypes.c_uint64
            if found.violstream_version() // 10000 != MAJOR:
                raise ImportError(f"violstream: the library is version {found.violstream_version()}, and this module is for {MAJOR}.*")
            _loaded = found
        return _loaded


def version() -> tuple[int, int, int]:
    """The version of the library that is loaded."""
    number = _call_plain("version")
    return number // 10000, number // 100 % 100, number % 100


def _call_plain(name: str, *words: object) -> int:
    call = getattr(_library(), "violstream_" + name)
    call.restype = ctypes.c_uint64
    return call(*words)


def _call(name: str, *words: object) -> None:
    result = _call_plain(name, *words)
    if result != 0:
        raise Refused(result % 256, result // 256)


def _word(number: int) -> ctypes.c_uint64:
    if not isinstance(number, int) or not 0 <= number < 1 << 64:
        raise ValueError(f"not a whole number from 0 to 2^64 - 1: {number!r}")
    return ctypes.c_uint64(number)


def _words(many: int) -> ctypes.Array:
    return (ctypes.c_uint64 * many)()


def _row(numbers: Sequence[int]) -> list:
    row = _words(len(numbers))
    for i, number in enumerate(numbers):
        row[i] = _word(number)
    return _lent(row)


def _lent(row: ctypes.Array) -> list:
    return [row, ctypes.c_size_t(len(row))]


def _bytes(text: bytes) -> list:
    return [(ctypes.c_uint8 * len(text)).from_buffer_copy(text), ctypes.c_size_t(len(text))]


# The room is made once for each thread, and is cleared whenever it is lent again.
_own = threading.local()


def _room(words: int) -> list:
    if len(getattr(_own, "room", ())) < words:
        _own.room = _words(words)
    return _lent(_own.room)


def _room_for(run: Run) -> list:
    wants, reads = len(run.wants), sum(run.wants.values())
    if wants > _MOST_WANTS or reads > _MOST_READS:
        return _room(0)  # refused before the room is looked at
    return _room(wants * wants * (reads + 1))


def _text(out: ctypes.Array, size: int) -> bytes:
    return bytes(out[:size])


# ---- Runs


class _Rows:
    """For the answer to so many wants."""

    def __init__(self, wants: int) -> None:
        self.times, self.legs, self.sums = _words(wants), _words(wants), _words(_SUMS)

    def plan(self, detours: Iterable[tuple[int, int]], numbers: Sequence[int]) -> Plan:
        return Plan(self.sums[0], self.sums[1], self.sums[2], tuple(detours), dict(zip(numbers, self.times)), dict(zip(numbers, self.legs)))


def plan(run: Run, anywhere: bool = False) -> Plan:
    """The best list of detours, and what it costs. The head stands at or right of everything wanted (7), or anywhere."""
    rows, most = _Rows(len(run.wants)), max(len(run.wants) - 1, 0)
    starts, ends = _words(most), _words(most)
    rule = [] if anywhere else [ctypes.c_uint64(1)]
    _call("plan_any" if anywhere else "plan", *run._rows(), *rule, *_lent(starts), *_lent(ends), *_lent(rows.times), *_lent(rows.legs), *_lent(rows.sums), *_room_for(run))
    return rows.plan(list(zip(starts, ends))[: rows.sums[3]], sorted(run.wants))


def price(run: Run, detours: Sequence[tuple[int, int]], anywhere: bool = False) -> Plan:
    """What a list of detours costs."""
    rows = _Rows(len(run.wants))
    _call("price_any" if anywhere else "price", *run._rows(), *_row([a for a, _ in detours]), *_row([b for _, b in detours]), *_lent(rows.times), *_lent(rows.legs),
          *_lent(rows.sums))
    return rows.plan([(a, b) for a, b in detours], sorted(run.wants))


# ---- Sheets


def answer(sheet: bytes) -> bytes:
    """The plan sheet of a run sheet, for a head anywhere."""
    out, size = (ctypes.c_uint8 * _PLAN_MOST)(), _words(1)
    _call("answer", *_bytes(sheet), *_lent(out), *_room(_MOST_WANTS * _MOST_WANTS * (_MOST_READS + 1)), *_lent(size))
    return _text(out, size[0])


def buys(sheet: bytes) -> bytes:
    """The figure sheet of a run sheet, for a head anywhere: what each detour of its plan buys."""
    out, size = (ctypes.c_uint8 * _BUYS_MOST)(), _words(1)
    _call("buys", *_bytes(sheet), *_lent(out), *_room(_MOST_WANTS * _MOST_WANTS * (_MOST_READS + 1)), *_lent(size))
    return _text(out, size[0])


def check(sheet: bytes, plan_sheet: bytes) -> bytes:
    """Whether a plan sheet is right for a run sheet, in lines: formed, walk and least, each yes or no."""
    out, size = (ctypes.c_uint8 * _CHECK_MOST)(), _words(1)
    _call("check", *_bytes(sheet), *_bytes(plan_sheet), *_lent(out), *_room(_MOST_WANTS * _MOST_WANTS * (_MOST_READS + 1)), *_lent(size))
    return _text(out, size[0])


def mend(sheet: bytes) -> Mended:
    """A run sheet from mail put in order, and a line for each change."""
    out, changes, sizes = (ctypes.c_uint8 * _SHEET_MOST)(), (ctypes.c_uint8 * _CHANGES_MOST)(), _words(2)
    _call("mend", *_bytes(sheet), *_lent(out), *_lent(changes), *_lent(sizes))
    return Mended(_text(out, sizes[0]), _text(changes, sizes[1]))


# ---- Files by path


def pick(tape: bytes, label: bytes, index: bytes, list: bytes, blocks: bool = False, head: Optional[int] = None, turn: Optional[int] = None) -> tuple[bytes, bytes]:
    """The run sheet of the files that a list asks for by their paths, a path and its LF for each read, and a line name=ENTRY,READS,PATH for each different path.
    Label and index are the tape's, as LTFS writes them; positions count bytes or, with `blocks`, blocks. Without `head` it stands at the end of the last entry, and
    without `turn` the price is 12,000."""
    out, names, sizes = (ctypes.c_uint8 * _SHEET_MOST)(), (ctypes.c_uint8 * (len(list) + _NAMES_MORE))(), _words(2)
    given = [_row([] if word is None else [word]) for word in (head, turn)]
    _call("pick", *_bytes(tape), *_bytes(label), *_bytes(index), *_bytes(list), _word(int(blocks)), *given[0], *given[1], *_lent(out), *_lent(names), *_lent(sizes))
    return _text(out, sizes[0]), _text(names, sizes[1])


# ---- Tickets


@dataclass
class Desk:
    """The waiting table of two offices on one tape, and the last number given to each. `waiting` and `lasts` are what a program keeps from day to day."""

    tape: Tape
    waiting: list[Ticket] = field(default_factory=list)
    lasts: tuple[int, int] = (0, 0)

    def _table(self) -> ctypes.Array:
        table = (_Record * _PLACES)()
        for office in (1, 2):
            mine = [ticket for ticket in self.waiting if ticket.office == office]
            if len(mine) > _PLACES // 2:
                raise Refused(26, office * _PLACES // 2)
            for i, ticket in enumerate(mine):
                table[(office - 1) * _PLACES // 2 + i] = _Record(*(_word(n).value for n in (ticket.office, ticket.file, ticket.count, ticket.number)))
        if any(ticket.office not in (1, 2) for ticket in self.waiting):
            raise Refused(26, 1)
        return table

    def _take(self, table: ctypes.Array, lasts: Optional[ctypes.Array] = None) -> None:
        self.waiting = [Ticket(record.office, record.file, record.count, record.number) for record in table if record.office != 0]
        if lasts is not None:
            self.lasts = (lasts[0], lasts[1])

    def _lasts(self) -> ctypes.Array:
        return _row(self.lasts)[0]

    def file(self, office: int, file: int, count: int = 1) -> Ticket:
        """A ticket filed behind its office's tickets, with the next number."""
        table, lasts, given = self._table(), self._lasts(), _words(1)
        _call("file", *_lent(table), *_lent(lasts), _word(office), _word(file), _word(count), _word(self.tape.files), *_lent(given))
        self._take(table, lasts)
        return Ticket(office, file, count, given[0])

    def withdraw(self, office: int, number: int) -> None:
        """The ticket of an office with a number withdrawn; its number is never given again."""
        table = self._table()
        _call("withdraw", *_lent(table), *_lent(self._lasts()), _word(office), _word(number))
        self._take(table)

    def board(self, head: int, turn: int = 12000) -> Boarding:
        """Up to eight tickets leave on one run, four of each office or what the other does not need."""
        table, rows, taken = self._table(), _Rows(_BOARDERS), _words(_TAKEN)
        starts, ends = _words(_BOARDERS - 1), _words(_BOARDERS - 1)
        before = [[ticket for ticket in self.waiting if ticket.office == office] for office in (1, 2)]
        _call("board", *_lent(table), *_lent(self._lasts()), *self.tape._rows(), _word(head), _word(turn), *_lent(starts), *_lent(ends), *_lent(rows.times),
              *_lent(rows.legs), *_room(_BOARDERS * _BOARDERS * (_MOST_READS + 1)), *_lent(taken), *_lent(rows.sums))
        self._take(table)
        left = before[0][: taken[0]] + before[1][: taken[1]]
        closed = tuple(Closed(ticket, rows.times[taken[2 + i] - 1], rows.legs[taken[2 + i] - 1]) for i, ticket in enumerate(left))
        return Boarding(closed, rows.plan(list(zip(starts, ends))[: rows.sums[3]], sorted({ticket.file for ticket in left})))

    def event(self, line: bytes) -> bytes:
        """An event's line, with its LF, as at the desk, and the text that is answered."""
        table, lasts, out, size = self._table(), self._lasts(), (ctypes.c_uint8 * _TEXT_MOST)(), _words(1)
        _call("event", *_lent(table), *_lent(lasts), *self.tape._rows(), *_bytes(line), *_lent(out), *_room(_BOARDERS * _BOARDERS * (_MOST_READS + 1)), *_lent(size))
        self._take(table, lasts)
        return _text(out, size[0])

    def who_waits(self) -> bytes:
        """A line for each ticket, and how many wait at each office."""
        out, size = (ctypes.c_uint8 * _TEXT_MOST)(), _words(1)
        _call("waiting", *_lent(self._table()), *_lent(out), *_lent(size))
        return _text(out, size[0])
