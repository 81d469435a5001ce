#!/usr/bin/env python3
"""Counts instructions by valgrind, which other work on a machine does not disturb.

    counts.py OUT       OUT has the program measure and the lists (bench.sh makes them); prints what report.py puts on the page
"""
import os
import re
import subprocess
import sys

SETS = ("one", "typical", "1000", "members")
PARTS = ("check", "tree", "key", "take", "read")
UNITS = {"check": "tokens", "tree": "tokens", "key": "bytes", "take": "bytes", "read": "tokens"}


def counted(out, part, side, which):
    """Instructions a unit of a part on a set, by function, those of the program measure itself left out."""
    to = os.path.join(out, "counts")
    done = subprocess.run(["valgrind", "--tool=callgrind", "--toggle-collect=counted", "--callgrind-out-file=" + to, os.path.join(out, "measure"), "once",
                           part, str(side), os.path.join(out, "lists", which)], capture_output=True, text=True)
    if done.returncode:
        sys.exit(done.stderr)
    words = done.stdout.split()
    units = int(words[words.index(UNITS[part]) + 1])
    said = subprocess.run(["callgrind_annotate", "--threshold=100", "--auto=no", "--show-percs=no", to], capture_output=True, text=True).stdout
    by = {}
    for count, name in re.findall(r"^ *([\d,]+) +\S*?:(\S.*?)(?: \[\S*\])?$", said[said.index("file:function"):], re.M):
        name = re.sub(r"^__(mem\w+?)_.*", r"\1", re.sub(r"'\d+$", "", name))
        if not re.match("counted|measure::", name):
            by[name] = by.get(name, 0) + int(count.replace(",", "")) / units
    return by


def all_counts(out):
    return {(p, side, s): counted(out, p, side, s) for p in PARTS for side in (0, 1) for s in SETS}


if __name__ == "__main__":
    for (part, side, which), by in all_counts(sys.argv[1]).items():
        print("%s %s %s: %.1f" % (part, ("library", "Rust")[side], which, sum(by.values())))
        for name, n in sorted(by.items(), key=lambda x: -x[1])[:14]:
            print("    %7.2f %s" % (n, name))
