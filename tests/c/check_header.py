#!/usr/bin/env python3
"""check_header.py: holds the numbers of include/typekey.h against docs/SCOPE.md (refusals, limits, tags, sorts, diagnostics) and tools/model.py (kinds, keywords,
words of a record)."""
import os
import re
import sys

root = os.path.join(os.path.dirname(os.path.abspath(__file__)), "..", "..")
sys.path.insert(0, os.path.join(root, "tools"))
import model as m

HEADER = open(os.path.join(root, "include", "typekey.h")).read()
SCOPE = open(os.path.join(root, "docs", "SCOPE.md")).read()
MACROS = {n: (int(v), c) for n, v, c in re.findall(r"#define TYPEKEY_(\w+) (\d+)(?: +/\* (.*?) \*/)?", HEADER)}


def expected():
    """Each macro's name and the number that it must have."""
    for number, name in re.findall(r"^\| (\d+) \| (\w+) \| .* \| .* \|$", SCOPE.split("## Refusal numbers")[1].split("##")[0], re.M):
        yield re.sub(r"(?<=[a-z])(?=[A-Z])", "_", name).upper(), int(number)
    limits = dict(re.findall(r"^\| `(\w+::\w+)` \| ([\d,]+) \|", SCOPE, re.M))
    for macro, name in zip("MOST_TEXT MOST_TOKENS MOST_OPEN TALLEST LONGEST_LIST MOST_NOTES MOST_KEY MOST_TRIALS".split(),
                           "Text::MOST Tokens::MOST OpenRules::MOST Tree::TALLEST List::LONGEST Notes::MOST Key::MOST Trials::MOST".split()):
        yield macro, int(limits[name].replace(",", ""))
    yield "MOST_ENTERED", int(re.search(r"at most (\d+) times the number of tokens", SCOPE)[1])
    tags, sorts = SCOPE.split("## The key")[1].split("##")[0].split("| Sort | Member |")
    for number, name in re.findall(r"^\| ([\d, ]+) \| ([a-z, ]+) \| .* \|$", tags, re.M):
        for k, s in zip(number.split(", "), name.split(", ")):
            yield {"template": "TEMPLATE_TYPE"}.get(s, s.upper()), int(k)
    for number, name in re.findall(r"^\| (\d) \| ([a-z ]+) \| .* \|$", sorts, re.M):
        yield "MEMBER_" + name.replace(" signature", "").upper(), int(number)
    for number, what in enumerate(re.search(r"member's key: .* from 0: (.*?);", sorts)[1].split(", ")): yield "KEYED_BY_" + what.upper(), number
    for s, k in m.FIXED.items():
        if s.isalpha(): yield "WORD_" + s.upper(), k
    for k, s in enumerate(m.KEYWORD): yield "KEYWORD_" + s.upper(), k


def main():
    wrong = [(n, v, MACROS.get(n)) for n, v in expected() if n not in MACROS or MACROS[n][0] != v]
    notes = re.findall(r"^\| (\d+) \|", SCOPE.split("## Diagnostics")[1].split("##")[0], re.M)
    for k in map(int, notes):
        if [v for n, (v, _) in MACROS.items() if n.startswith("NOTE_")].count(k) != 1: wrong.append(("NOTE_.. of diagnostic %d" % k, "one", "none or several"))
    record = int(re.search(r"#define TYPEKEY_READ_NOTE_WORDS \((\d+) \* TYPEKEY_MOST_NOTES\)", HEADER)[1])
    if record != m.RECORD: wrong.append(("READ_NOTE_WORDS", "%d a diagnostic" % m.RECORD, record))
    marks = {v: c for v, c in MACROS.values() if 16 <= v <= 40}
    for s, k in m.FIXED.items():
        if not s.isalpha() and not any(v == k and c == s for v, c in MACROS.values()): wrong.append((s, k, marks.get(k)))
    for w in wrong: print("typekey.h: %s is to be %s, and the header has %s" % w)
    print("%d numbers of typekey.h, %d wrong" % (len(list(expected())) + len(notes) + 1 + sum(not s.isalpha() for s in m.FIXED), len(wrong)))
    sys.exit(bool(wrong))


if __name__ == "__main__":
    main()
