#!/usr/bin/env python3
"""Keeps what docs/TOOL.md, tests/tool/diff.md and the gate show of the tool as the tool prints it, run over target/bin/typekey (build_tool.sh).

    tool_doc.py           run each command of the two pages and write its output below it; write crates/tool/stdin and stdout
    tool_doc.py --check   say whether all four are as this would write them, and write nothing

A command is a line that begins `$ ` in a block of a page; what the tool prints for it stands below, up to the next one
or the end of the block. The gate runs the tool on crates/tool/stdin with crates/tool/args: the twelve rows, then a text for
each refusal that a line can meet, and one for each diagnostic; then all sorts of members.
"""
import os
import subprocess
import sys
from concurrent.futures import ThreadPoolExecutor

ROOT = os.path.dirname(os.path.dirname(os.path.abspath(__file__)))
sys.path.insert(0, os.path.join(ROOT, "tools"))
import model

TOOL = os.path.join(ROOT, "target", "bin", "typekey")
ENV = dict(os.environ, PATH=os.path.dirname(TOOL) + ":" + os.environ["PATH"])

# ---- the gate's run
LINES = model.ROWS + [
    "A|" * 8200 + "A",                                              # 1
    r"A | b\u0063d",                                                # 2
    "A |", "A<=B>", "(A", "A B",                                    # 3, 3 in a half, 3 at the end, a rest
    "(" * 64 + "A", "(" * 63 + "A<<T>() => T>",                     # 5, 5 in a half
    "A" + "!" * 256,                                                # 6
    "A|" * 4095 + "A",                                              # 7
    "[" + "A," * 4000 + "] | [" + "A," * 300 + "]",                 # 8, with the room that args lend
    "A" + "<>|A" * 33,                                              # 9
    '"' + "a" * 800 + '"',                                          # 11, with the space that args lend
    "? A", "A[*]", "(readonly a: B) => C", "(a = 1) => A",          # 20, 21, 22
    "(a, this: B) => C", "(...this) => A", "(...a, b) => C",        # 23, 24
    "<const T>() => A", "import(A)", 'import("a", {})',             # 25, 26, 27
    "(infer A extends " * 5 + "B" + ")" * 5,                        # 28
    "{ [a]: B }", "{ get a(): B }", "{ static a: B }",              # 31
    "<>() => A", "A<>", "new (this) => A", "[A?, B]", "[a: ...B]", "[a: B?]", "[...a?: B]",
    "(infer U extends A<> ? X : Y)",                                # a trial that is undone reports once
    "A<string.b, -1n, `x${typeof import('m').y}z`>[0]!",
    "abstract new <T extends U = V>(a?: B, ...c: D) => asserts x is E",
    "{ -readonly [K in keyof T as `${K}s`]+?: T[K] }",
    "(this, a) => this is A /* a comment */ // and one more",
    "{ a: B; readonly c?: D; m<T>(x: A): B; (x: A): B; new (x: A): B; [k: string]: V }",
    "{ 'a'?<>(this, b?: C): D\n1, readonly [k: symbol]: B }", "{ a\nb\n}", "{}",
    "{ [k?: string]: A }", "{ [k: string,]: A }", "{ [k: 'a']: A }", "{ [k: null]: A }", "{ []: A; [k: B, i: C]: D }",
    "{ new (this: A): B }",
    "<string, T, undefined>(x: string) => string", "(infer any extends A<> ? X : Y)", "{ [string in K]: (any) => B }",
    "[A?, B?, C, [D?, E], ...F]", "[" + "a" * 70 + "?, B]",         # two places, in one line and in two parts of one
]


def run(args, data):
    return subprocess.run([TOOL] + args, input=data, stdout=subprocess.PIPE, stderr=subprocess.DEVNULL, check=True).stdout


def gate():
    at = os.path.join(ROOT, "crates", "tool")
    words = open(os.path.join(at, "args")).read().split()
    data = "".join(t.replace("\n", "\r") + "\n" for t in LINES).encode()
    return {os.path.join(at, "stdin"): data, os.path.join(at, "stdout"): run(words, data)}


# ---- the page
def shell(command):
    r = subprocess.run(["sh", "-c", command], env=ENV, cwd=ROOT, stdout=subprocess.PIPE, stderr=subprocess.STDOUT)
    return r.stdout.decode()


def page(*path):
    at = os.path.join(ROOT, *path)
    lines = open(at).read().split("\n")
    with ThreadPoolExecutor(os.cpu_count()) as pool:
        said = {c: pool.submit(shell, c[2:]) for c in lines if c.startswith("$ ")}
    out, inside, skip = [], False, False
    for line in lines:
        if line.startswith("```"):
            inside, skip = not inside, False
        if inside and line.startswith("$ "):
            out.append(line)
            out.extend(said[line].result().rstrip("\n").split("\n"))
            skip = True
        elif not skip:
            out.append(line)
    return {at: "\n".join(out).encode()}


def main():
    if sys.argv[1:] not in ([], ["--check"]):
        sys.exit(__doc__)
    if not os.path.exists(TOOL):
        sys.exit("no target/bin/typekey: run tools/build_tool.sh")
    wrong = 0
    for path, want in {**gate(), **page("docs", "TOOL.md"), **page("tests", "tool", "diff.md")}.items():
        have = open(path, "rb").read() if os.path.exists(path) else None
        name = os.path.relpath(path, ROOT)
        if sys.argv[1:]:
            wrong += have != want
            print(name, "as it should be" if have == want else "DIFFERENT")
        elif have != want:
            open(path, "wb").write(want)
            print("wrote", name)
    sys.exit(wrong != 0)


main()
