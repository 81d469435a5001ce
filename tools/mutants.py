#!/usr/bin/env python3
"""Further wrong programs, outside the gate: each must be refused by the prover.

mutants.py                      the stored ones, tests/mutants/CRATE/*.edit
mutants.py CRATE ...            those of these crates alone
mutants.py --random N CRATE ... N small changes of each crate's code, chosen by --seed S (1): a comparison turned or moved by one, a number
                                one more, a truth turned, a sum for a difference. What the compiler refuses counts for nothing.

The crates have to be proved before (`rt check`). They are copied into a folder of their own, where a crate is checked once; after that a
change costs what it touches. A change that the prover takes is printed with its place: code that says the same in other words, or a gap in
a contract.
"""
import argparse
import os
import random
import re
import shutil
import subprocess
import sys
import tempfile
import time

ROOT = os.path.dirname(os.path.dirname(os.path.abspath(__file__)))
TURNS = [(" < ", " <= "), (" <= ", " < "), (" == ", " != "), (" != ", " == "), (" + ", " - "), (" - ", " + "), ("true", "false"), ("false", "true")]
# A text that the prover cannot read: it says so of a place, and names no definition or proof there, or a name that is not in scope.
UNREAD = re.compile(r"(?m)^(?:src|specs)/\S+:\d+:\d+: error: (?:(?!`)|`[^`]*`: .*(?:is not in scope|has no field|is no name|expected the end|cannot continue))")


def copied(to):
    """The crates and what rt reads of the repository, without what checks have kept: rt finds that by itself."""
    for name in ("crates.txt", "HANDLES"):
        if os.path.isfile(os.path.join(ROOT, name)):
            shutil.copy(os.path.join(ROOT, name), to)
    for name in os.listdir(os.path.join(ROOT, "crates")):
        shutil.copytree(os.path.join(ROOT, "crates", name), os.path.join(to, "crates", name),
                        ignore=lambda at, names: {"out", "must-fail"} & set(names) if os.path.basename(os.path.dirname(at)) == "crates" else ())


class Crate:
    def __init__(self, name, room):
        self.name = name
        self.home = os.path.join(ROOT, "crates", name)
        self.copy = os.path.join(room, "crates", name)
        if not os.path.isdir(self.home):
            sys.exit("mutants: there is no crate " + name)
        began = time.time()
        if self.verdict() != "proved":
            sys.exit("mutants: %s itself is not proved" % name)
        print("%s: proved as it is (%d s)" % (name, time.time() - began), flush=True)

    def verdict(self):
        out = subprocess.run(["rt", "check"], cwd=self.copy, stdout=subprocess.PIPE, stderr=subprocess.STDOUT, text=True, errors="replace").stdout
        if re.search(r"^logic=proved", out, re.M):
            return "proved"
        if re.search(r"^logic=not-proved", out, re.M) and not UNREAD.search(out):
            return "refused"
        return "not compiled"

    def tried(self, label, changes):
        """The verdict on the crate with some texts of files replaced."""
        for path, text in changes.items():
            self.write(path, text)
        began = time.time()
        what = self.verdict()
        for path in changes:
            self.write(path, self.text(path))
        print("%s/%s: %s (%d s)" % (self.name, label, {"proved": "TAKEN"}.get(what, what), time.time() - began), flush=True)
        return what

    def write(self, path, text):
        with open(os.path.join(self.copy, path), "w", encoding="utf-8") as f:
            f.write(text)

    def text(self, path):
        with open(os.path.join(self.home, path), encoding="utf-8") as f:
            return f.read()


def stored(crate, path):
    """What an edit makes of the files that it names."""
    texts, name, old = {}, None, None
    with open(path, encoding="utf-8") as f:
        for line in f.read().split("\n"):
            if line.startswith("file: "):
                name = line[6:]
                texts.setdefault(name, crate.text(name))
            elif line.startswith("old: "):
                old = line[5:]
            elif line.startswith("new:"):
                if texts[name].count(old) != 1:
                    sys.exit("mutants: %s: the text to be replaced is there %d times" % (path, texts[name].count(old)))
                texts[name] = texts[name].replace(old, line[4:].removeprefix(" "))
    return texts


def chance(crate, rng):
    """A small change somewhere in a function's body, and where."""
    while True:
        path = os.path.join("src", rng.choice(sorted(f for f in os.listdir(os.path.join(crate.home, "src")) if f.endswith(".rt"))))
        lines = crate.text(path).split("\n")
        places = []
        for i, line in enumerate(lines):
            if not line.startswith("    ") or line.strip().startswith(("//", "requires", "ensures", "ghost", "invariant", "decreases")):
                continue
            places += [(i, m.start(), a, b) for a, b in TURNS for m in re.finditer(re.escape(a), line)]
            places += [(i, m.start(), m[0], str(int(m[0]) + 1)) for m in re.finditer(r"(?<![\w.])\d+(?![\w.])", line)]
        if places:
            i, at, a, b = rng.choice(places)
            lines[i] = lines[i][:at] + b + lines[i][at + len(a):]
            return {path: "\n".join(lines)}, "%s:%d: `%s` for `%s`" % (path, i + 1, b.strip(), a.strip())


def main():
    p = argparse.ArgumentParser(description=__doc__, formatter_class=argparse.RawDescriptionHelpFormatter)
    p.add_argument("crates", nargs="*")
    p.add_argument("--random", type=int, default=0, metavar="N")
    p.add_argument("--seed", type=int, default=1)
    a = p.parse_args()
    base = os.path.join(ROOT, "tests", "mutants")
    names = a.crates or sorted(os.listdir(base))
    counts = {"refused": 0, "proved": 0, "not compiled": 0}
    with tempfile.TemporaryDirectory(prefix="mutants-") as room:
        copied(room)
        for name in names:
            crate = Crate(name, room)
            if a.random:
                rng = random.Random("%d %s" % (a.seed, name))
                drawn = [chance(crate, rng) for _ in range(20 * a.random)]
                for where, changes in list({where: changes for changes, where in drawn}.items())[:a.random]:
                    counts[crate.tried(where, changes)] += 1
            else:
                for e in sorted(os.listdir(os.path.join(base, name))):
                    counts[crate.tried(e.removesuffix(".edit"), stored(crate, os.path.join(base, name, e)))] += 1
    print("mutants: %d refused, %d taken, %d that do not compile" % (counts["refused"], counts["proved"], counts["not compiled"]))
    sys.exit(1 if counts["proved"] or (not a.random and counts["not compiled"]) else 0)


if __name__ == "__main__":
    main()
