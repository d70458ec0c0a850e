#!/usr/bin/env python3
"""Tries tools/assumed.py: a module with one of each thing that the back end may assume is checked by it, compiled by the kit's compiler and run; each function must go on where the
assumption is true, and be stopped by a signal where it is not. A module with a word that is not known must be refused.

usage: tests/python/assumptions.py    (on x86-64, with gcc)
"""
import os
import subprocess
import sys
import tempfile

import programs

# What a function does with %a and %b, what it is called with where that may be, and where not.
KINDS = [
    ("add", "  %r = add nuw i64 %a, %b", (2**64 - 2, 1), (2**64 - 2, 2)),
    ("sub", "  %r = sub nuw i64 %a, %b", (7, 7), (7, 8)),
    ("mul", "  %r = mul nuw i64 %a, %b", (2**32, 2**32 - 1), (2**32, 2**32)),
    ("add_signed", "  %r = add nsw i64 %a, %b", (2**63 - 2, 1), (2**63 - 1, 1)),
    ("sub_signed", "  %r = sub nsw i64 %a, %b", (2**63 + 1, 1), (2**63, 1)),
    ("mul_signed", "  %r = mul nsw i64 %a, %b", (2**31, 2**31), (2**32, 2**31)),
    ("trunc", "  %t = trunc nuw i64 %a to i8\n  %r = zext i8 %t to i64", (255, 0), (256, 0)),
    ("udiv", "  %r = udiv i64 %a, %b", (7, 1), (7, 0)),
    ("urem", "  %r = urem i64 %a, %b", (7, 1), (7, 0)),
    ("shl", "  %r = shl i64 %a, %b", (7, 63), (7, 64)),
    ("lshr", "  %r = lshr i64 %a, %b", (7, 63), (7, 64)),
    ("range", "  %p = alloca i8, align 1\n  %t = trunc i64 %a to i8\n  store i8 %t, ptr %p, align 1\n  %l = load i8, ptr %p, align 1, !range !2, !noundef !1\n  %r = zext i8 %l to i64", (1, 0), (2, 0)),
    ("unreachable", "  %c = icmp eq i64 %a, 0\n  br i1 %c, label %never, label %on\nnever:\n  unreachable\non:\n  %r = add i64 %a, 1", (1, 0), (0, 0)),
]
UNKNOWN = ["  %r = add nuw nsw i64 %a, %b", "  %t = trunc nsw i64 %a to i8\n  %r = zext i8 %t to i64", "  %r = or disjoint i64 %a, %b", "  %r = sdiv i64 %a, %b", "  %r = add nuw <2 x i64> %a, %b"]


def function(name, body):
    return f'define i64 @{name}(i64 noundef %a, i64 noundef %b) #0 {{\n{body}\n  ret i64 %r\n}}\n'


def module(functions):
    return "".join(functions) + '\nattributes #0 = { nounwind "probe-stack"="inline-asm" }\n!1 = !{}\n!2 = !{i8 0, i8 2}\n'


def caller():
    cases = "".join(f"    case {at}: return (int)(try_{name}(a, b) & 0);\n" for at, (name, *_) in enumerate(KINDS))
    declared = "".join(f"uint64_t try_{name}(uint64_t, uint64_t);\n" for name, *_ in KINDS)
    return ("#include <stdint.h>\n#include <stdlib.h>\n" + declared + "int main(int words, char **word)\n{\n    if (words != 4) return 2;\n"
            "    uint64_t a = strtoull(word[2], 0, 10), b = strtoull(word[3], 0, 10);\n    switch (atoi(word[1])) {\n" + cases + "    }\n    return 2;\n}\n")


def checked(folder, text):
    path = os.path.join(folder, "module.ll")
    with open(path, "w", encoding="utf-8") as file:
        file.write(text)
    return subprocess.run([sys.executable, os.path.join(programs.ROOT, "tools/assumed.py"), path, "nounwind"], capture_output=True, text=True)


def main():
    kit = subprocess.run(["sh", "-c", '. "$0" && kit', programs.MACHINE], stdout=subprocess.PIPE, text=True, check=True).stdout.strip()
    clang = f"{kit}/toolchain/bin/clang"
    with tempfile.TemporaryDirectory() as folder:
        for body in UNKNOWN:
            if checked(folder, module([function("known", KINDS[0][1]), function("unknown", body)])).returncode == 0:
                sys.exit(f"assumptions.py: taken as if it were known: {body}")
        made = checked(folder, module(function("try_" + name, body) for name, body, *_ in KINDS))
        if made.returncode != 0:
            sys.exit(f"assumptions.py: {made.stderr}")
        names = {name: os.path.join(folder, name) for name in ("checked.ll", "checked.o", "caller.c", "caller")}
        for name, text in (("checked.ll", made.stdout), ("caller.c", caller())):
            with open(names[name], "w", encoding="utf-8") as file:
                file.write(text)
        subprocess.run([clang, "-O1", "-Wno-override-module", "-fPIC", "-c", "-x", "ir", names["checked.ll"], "-o", names["checked.o"]], check=True)
        subprocess.run(["gcc", names["caller.c"], names["checked.o"], "-o", names["caller"]], check=True)
        for at, (name, _, right, not_right) in enumerate(KINDS):
            for pair, must_stop in ((right, False), (not_right, True)):
                status = subprocess.run([names["caller"], str(at), *map(str, pair)]).returncode
                if status != 0 and not must_stop or status >= 0 and must_stop:
                    sys.exit(f"assumptions.py: {name} of {pair} ends with {status}")
    print(f"assumptions.py: {len(KINDS)} kinds of assumption are checked, each where it holds and where it does not; {len(UNKNOWN)} unknown words refused")


if __name__ == "__main__":
    main()
