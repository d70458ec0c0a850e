"""For the comparisons of the library's calls: has a program in C (tests/c/caller) make them, and holds each to what a model says.

The program lends every row in memory that ends at a page which cannot be touched, or has a pattern behind it; what stands before it is a pattern too. It tells the code of each call,
the rows that have changed, and whether every pattern is whole. Calls go to it in batches: no call here waits for the answer of another, since the model says what that must leave.
"""
import collections
import resource
import struct
import subprocess
import sys

NUMBER, ROW, FILLED = 0, 1, 256
ENDED, SAME, BROKEN = 1, 0, 2
BATCH_CALLS, BATCH_BYTES = 256, 1 << 24

Row = collections.namedtuple("Row", "name contents behind")
Call = collections.namedtuple("Call", "name arguments code must")


def words(*numbers):
    return struct.pack(f"<{len(numbers)}Q", *numbers)


def is_filled(contents):
    """Whether it is long, and of one byte value: this and its length are then told."""
    return len(contents) > 64 and contents == contents[:1] * len(contents)


def request(argument):
    if not isinstance(argument, Row):
        return words(NUMBER, argument)
    contents = argument.contents
    if is_filled(contents):
        return words(FILLED + contents[0], argument.behind, len(contents))
    return words(ROW, argument.behind, len(contents)) + contents


def shown(argument):
    """An argument for a person, who makes the call again by it."""
    if not isinstance(argument, Row):
        return str(argument)
    contents = argument.contents
    return f"{argument.name}: " + (f"{len(contents)} bytes {contents[0]}" if is_filled(contents) else repr(contents)) + f" and {argument.behind} behind it"


class Caller:
    """`test` is the name by which differences are told; `met` says how often a call gave which number."""
    errors = None  # where the program's own words go, by default to where those of the test go

    def __init__(self, test, program, draw):
        self.test, self.draw, self.met = test, draw, collections.Counter()
        self.program = subprocess.Popen([program], stdin=subprocess.PIPE, stdout=subprocess.PIPE, stderr=self.errors)
        self.batch, self.requests, self.lent, self.made = [], [], 0, 0

    def lend(self, name, contents, unit=8):
        """A row, of words or records, or by unit 1 of bytes."""
        self.lent += len(contents)
        return Row(name, contents, self.draw.choice((0, 0, unit, 5 * unit)))

    def hold(self, name, arguments, code, must):
        """A call with these arguments must give this code and leave its rows as they were, but for those in `must`."""
        self.batch.append(Call(name, arguments, code, must))
        self.requests += [name.encode().ljust(8, b"\0"), words(len(arguments)), *map(request, arguments)]
        if len(self.batch) == BATCH_CALLS or self.lent > BATCH_BYTES:
            self.flush()

    def flush(self):
        """Has the batch made, and looks at what came of it."""
        if not self.batch:
            return
        requests = b"".join(self.requests)
        try:
            self.program.stdin.write(words(len(requests)) + requests)
            self.program.stdin.flush()
        except BrokenPipeError:
            pass  # the answers say why
        for call in self.batch:
            self.made += 1
            self.judge(call)
        self.batch, self.requests, self.lent = [], [], 0

    def judge(self, call):
        state, code = self.told(call, 2)
        if state == ENDED:
            self.ended(call, code, *self.told(call, 2))
        if code != call.code:
            self.differs(call, f"gives {code % 256} at {code // 256}, must be {call.code % 256} at {call.code // 256}")
        for row in call.arguments:
            if isinstance(row, Row):
                self.judge_row(call, row)
        if call.arguments:
            self.met[call.name, code % 256] += 1

    def judge_row(self, call, row):
        kind, found = self.told(call, 1)[0], row.contents
        if kind == BROKEN:
            self.differs(call, f"with code {call.code}: what stands before or behind the row {row.name} has changed")
        if kind != SAME:
            at, length = self.told(call, 2)
            now = self.read(call, length) if kind == ROW else bytes([kind - FILLED]) * length
            found = found[:at] + now + found[at + length:]
        must = call.must.get(row.name, row.contents)
        if found != must:
            self.differs(call, f"with code {call.code}: the row {row.name} is {found!r}, must be {must!r}")

    def ended(self, call, signal, argument, behind):
        if signal == 0:
            self.differs(call, "stopped by a sanitizer, whose words stand above")
        where = f", {behind} bytes behind the end of the row {call.arguments[argument - 1].name}" if argument else ""
        self.differs(call, f"ended by signal {signal}{where}")

    def differs(self, call, how):
        sys.exit(f"{self.test}: call {self.made}, violstream_{call.name}: {how}; it was made with\n" + "\n".join(map(shown, call.arguments)))

    def read(self, call, length):
        found = self.program.stdout.read(length)
        if len(found) < length:
            sys.exit(f"{self.test}: the program ended with status {self.program.wait()} in one of {len(self.batch)} calls that it was handed at once, the last of them violstream_{self.batch[-1].name};"
                     f" call {self.made}, violstream_{call.name}, has no answer")
        return found

    def told(self, call, many):
        return struct.unpack(f"<{many}Q", self.read(call, 8 * many))

    def close(self):
        """The calls that are still to be made, and the end of the program: a sanitizer may have found something then."""
        self.flush()
        self.program.stdin.close()
        if self.program.wait() != 0:
            sys.exit(f"{self.test}: the program ended with status {self.program.returncode}, after its last call")

    def finish(self, must_meet):
        """The end, how many calls there were, and that these were met."""
        self.close()
        if not must_meet <= set(self.met):
            sys.exit(f"{self.test}: never met: {sorted(must_meet - set(self.met))}")
        by_call = {}
        for (name, number), times in sorted(self.met.items()):
            by_call.setdefault(name, {})[number] = times
        for name, found in by_call.items():
            print(f"{self.test}: {sum(found.values())} calls of violstream_{name}: " + ", ".join(f"{number}: {times}" for number, times in found.items()))
        used = [resource.getrusage(who) for who in (resource.RUSAGE_SELF, resource.RUSAGE_CHILDREN)]
        print(f"{self.test}: as the models, {sum(one.ru_utime + one.ru_stime for one in used):.0f} s of processor time")
