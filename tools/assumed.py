#!/usr/bin/env python3
"""Writes a module of the Rattle compiler, as LLVM's text, with a check for everything that it lets the back end assume.

    tools/assumed.py MODULE.ll ATTRIBUTE > CHECKED.ll

What C's own sanitizer calls undefined is found by C's front end, which such a module has never seen. But the module says itself what never happens: a sum, difference, product or
narrowing that loses a bit (nuw; of numbers with a sign nsw), a number out of a range (!range), a division by 0, a shift by too much, a place that is not reached. Each of these becomes a check here that ends the
program by a signal, at `llvm.trap`. A word of the kind that is not known here is refused. What is read and written is not looked at: that is the address sanitizer's, which watches
functions that have the ATTRIBUTE `sanitize_address` (`sanitize_thread` for the thread sanitizer, `nounwind` for none): every function is given it.
"""
import re
import sys

NAME = r'%(?:"[^"]*"|[\w.$-]+)'
OPERATION = re.compile(rf"^  ({NAME}) = (add|sub|mul|trunc|udiv|urem|shl|lshr)((?: nuw| nsw| exact)*) (i\d+) (\S+?)(?:,| to) (\S+)$")
LOAD = re.compile(rf"^  ({NAME}) = load (i\d+), .*!range !(\d+)")
RANGE = re.compile(r"^!(\d+) = !\{i\d+ (\d+), i\d+ (\d+)\}$", re.M)
OTHERS = re.compile(r"\b(nsw|exact|disjoint|nneg|samesign|nusw|fast|poison|undef|sdiv|srem|ashr|inttoptr|indirectbr|invoke)\b|!nonnull|!dereferenceable|!align|@llvm\.assume|noalias|nonnull|dereferenceable")
SIGNED = ("add", "sub", "mul")
CHECK = """
define internal void @violated(i1 %wrong) alwaysinline {
  br i1 %wrong, label %stop, label %go
stop:
  call void @llvm.trap()
  unreachable
go:
  ret void
}
"""


def intrinsic(what, flags):
    """LLVM's own word for an operation that says whether it lost anything: of numbers with a sign, and of products."""
    return "s" + what if "nsw" in flags else "umul" if what == "mul" and "nuw" in flags else None


def checks(number, name, what, flags, width, left, right):
    """The lines that stand for an operation: itself without its word, and whether the word was true."""
    plain, wrong = f"  {name} = {what} {width} {left}, {right}", f"%wrong.{number}"
    if "exact" in flags or what == "shl" and flags or "nsw" in flags and ("nuw" in flags or what not in SIGNED):
        sys.exit(f"assumed.py: not known here: {name} = {what} {' '.join(flags)}")
    if what in ("udiv", "urem", "shl", "lshr"):
        bound = f"eq {width} {right}, 0" if what in ("udiv", "urem") else f"uge {width} {right}, {width[1:]}"
        return [f"  {wrong} = icmp {bound}", f"  call void @violated(i1 {wrong})", plain]
    if not flags:
        return None
    if what == "trunc":
        back = f"%back.{number}"
        return [f"  {name} = trunc {width} {left} to {right}", f"  {back} = zext {right} {name} to {width}", f"  {wrong} = icmp ne {width} {back}, {left}", f"  call void @violated(i1 {wrong})"]
    if intrinsic(what, flags):
        pair, over = f"%pair.{number}", f"{{ {width}, i1 }}"
        return [f"  {pair} = call {over} @llvm.{intrinsic(what, flags)}.with.overflow.{width}({width} {left}, {width} {right})", f"  {name} = extractvalue {over} {pair}, 0",
                f"  {wrong} = extractvalue {over} {pair}, 1", f"  call void @violated(i1 {wrong})"]
    bound = f"{name}, {left}" if what == "add" else f"{left}, {right}"
    return [plain, f"  {wrong} = icmp ult {width} {bound}", f"  call void @violated(i1 {wrong})"]


def checked(text, attribute):
    ranges = {number: (int(low), int(high)) for number, low, high in RANGE.findall(text)}
    done, widths, counts = [], set(), {}
    for number, line in enumerate(text.split("\n")):
        found, loaded, lines = OPERATION.match(line), LOAD.match(line), None
        if found:
            name, what, flags, width, left, right = found.groups()
            lines = checks(number, name, what, flags.split(), width, left, right)
            if lines:
                kind = what + " with a sign" * ("nsw" in flags)
                counts[kind] = counts.get(kind, 0) + 1
                if intrinsic(what, flags.split()):
                    widths.add((intrinsic(what, flags.split()), width))
        elif loaded:
            low, high = ranges[loaded[3]]
            if low != 0:
                sys.exit(f"assumed.py: a range that does not begin at 0: {line}")
            lines = [line, f"  %wrong.{number} = icmp uge {loaded[2]} {loaded[1]}, {high}", f"  call void @violated(i1 %wrong.{number})"]
            counts["range"] = counts.get("range", 0) + 1
        elif line == "  unreachable":
            lines = ["  call void @llvm.trap()", line]
            counts["unreachable"] = counts.get("unreachable", 0) + 1
        elif line.startswith("  ") and (OTHERS.search(line) or re.search(r"\b(add|sub|mul|trunc|udiv|urem|shl|lshr)\b", line.split("(")[0].split(" = ")[-1].split(" ")[0])):
            sys.exit(f"assumed.py: not known here: {line}")
        done += lines or [line]
    declared = "" if "declare void @llvm.trap()" in text else "declare void @llvm.trap()\n"
    text = "\n".join(done) + CHECK + declared + "".join(f"declare {{ {width}, i1 }} @llvm.{word}.with.overflow.{width}({width}, {width})\n" for word, width in sorted(widths))
    if sum(counts.values()) == 0:
        sys.exit("assumed.py: the module assumes nothing")
    print(f"assumed.py: checked {', '.join(f'{what} {times}' for what, times in sorted(counts.items()))}", file=sys.stderr)
    return re.sub(r"^(attributes #\d+ = \{ nounwind)(?= \"probe-stack\")", rf"\1 {attribute}", text, flags=re.M)


def main():
    if len(sys.argv) != 3:
        sys.exit("usage: tools/assumed.py MODULE.ll ATTRIBUTE")
    with open(sys.argv[1], encoding="utf-8") as module:
        sys.stdout.write(checked(module.read(), sys.argv[2]))


if __name__ == "__main__":
    main()
