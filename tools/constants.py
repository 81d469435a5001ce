#!/usr/bin/env python3
"""constants.py FILE.ll OUT.ll: a module that rattle wrote (as text, not optimised), with its constant tables as constants.

A constant array is a function that clears a local of its own, stores each number there and then copies that to where the caller wants it: a
call builds the whole table. Where a function is nothing else, line by line as below, its numbers become a constant of the module and its
body a copy of that, which LLVM leaves out where nobody writes to the copy. Every other function stays as it is."""
import re
import sys

LEAST = 64                                                              # bytes: what is smaller is as well left to LLVM
SIZE = {"i8": 1, "i16": 2, "i32": 4, "i64": 8}
BODY = re.compile(r'(define internal void (@"[^"]+")\(ptr noundef %a0\)[^\n]*\{\nstart:\n)((?:  [^\n]*\n)+)(\}\n)')


def table(lines):
    """The type and numbers that the lines of a body store, one behind the other, if they do just that, else None."""
    first = re.fullmatch(r"  %r0 = alloca \[(\d+) x i8\], align \d+", lines[0])
    if not first or lines[-1] != "  ret void" or lines[-2] != "  call void @llvm.memmove.p0.p0.i64(ptr %%a0, ptr %%r0, i64 %s, i1 false)" % first[1]:
        return None
    if lines[1] != "  call void @llvm.memset.p0.i64(ptr %%r0, i8 0, i64 %s, i1 false)" % first[1]:
        return None
    kind, numbers, place, name = None, [], 0, "%r0"
    for line in lines[2:-2]:
        step = re.fullmatch(r"  (%r\d+) = getelementptr i8, ptr %r0, i64 (\d+)", line)
        store = re.fullmatch(r"  store (i\d+) (\d+), ptr (%r\d+), align \d+", line)
        if step:
            name, place = step[1], int(step[2])
        elif store and kind in (None, store[1]) and store[3] == name and place == len(numbers) * SIZE[store[1]]:
            kind = store[1]
            numbers.append(store[2])
        else:
            return None
    return (kind, numbers) if kind and len(numbers) * SIZE[kind] == int(first[1]) >= LEAST else None


def constant(body):
    """The constant and the function in the place of a function that is a table; the function itself if it is none."""
    found = table(body[3].split("\n")[:-1])
    if not found:
        return body[0]
    kind, numbers = found
    name = body[2][:-1] + '.table"'
    return "%s = private unnamed_addr constant [%d x %s] [%s], align 16\n%s  call void @llvm.memmove.p0.p0.i64(ptr %%a0, ptr %s, i64 %d, i1 false)\n  ret void\n%s" % (
        name, len(numbers), kind, ", ".join(kind + " " + n for n in numbers), body[1], name, len(numbers) * SIZE[kind], body[4])


def main():
    text = open(sys.argv[1]).read()
    made = BODY.sub(constant, text)
    open(sys.argv[2], "w").write(made)
    print("%d constant tables" % made.count(" = private unnamed_addr constant "))


if __name__ == "__main__":
    main()
