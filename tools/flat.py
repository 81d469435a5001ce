#!/usr/bin/env python3
"""flat.py FILE.ll OUT.ll: a module that rattle wrote (as text, not optimised), made to mean the same where pointers have 32 bits. Only
WebAssembly is compiled from it.

Two things hang on the width there. What is returned in two parts, one of them a pointer, is loaded at once from where it lies: here each
part is loaded from its own eight bytes. And whether two places overlap is told by their addresses, as numbers of 64 bits: here they are
made by widening. Nothing rests on this tool. At each build check_ir.py finds every line as rattle wrote it, or one of these two in its
place, and says whether all means the same with 32 bits; and build_library.sh compiles OUT for the machine that it runs on, where the
object has to be that of FILE, byte for byte."""
import re
import sys

PAIR = re.compile(r"  (%[\w.]+) = load \{ (\w+), (\w+) \}, ptr (%[\w.]+), align (\d+)$", re.M)


def by_parts(m):
    x, a, b, at, align = m.groups()
    if "ptr" not in (a, b):
        return m[0]
    pair = "{ %s, %s }" % (a, b)
    return "\n".join("  " + line for line in (
        "%s.first = load %s, ptr %s, align %s" % (x, a, at, align),
        "%s.at = getelementptr i8, ptr %s, i64 8" % (x, at),
        "%s.second = load %s, ptr %s.at, align %d" % (x, b, x, min(8, int(align))),
        "%s.half = insertvalue %s poison, %s %s.first, 0" % (x, pair, a, x),
        "%s = insertvalue %s %s.half, %s %s.second, 1" % (x, pair, x, b, x)))


def main():
    text = open(sys.argv[1]).read()
    text = PAIR.sub(by_parts, text)
    text = re.sub(r"= ptrtoaddr ptr (%[\w.]+) to i64$", r"= ptrtoint ptr \1 to i64", text, flags=re.M)
    open(sys.argv[2], "w").write(text)


if __name__ == "__main__":
    main()
