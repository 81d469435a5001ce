#!/usr/bin/env python3
"""Writes crates/differs_run/data/vectors, the records that the program differs_run runs, and crates/differs_run/stdout, the
lines that it must print, from the answers of differs_model.py. The same bytes each time.

    differs_vectors.py            write both files (in the folder that holds crates.txt, or above it)
    differs_vectors.py --check    say whether both are as this would write them

As a module: record(op, words, left, right) is a record's bytes, line(..) the line that it must print. Op 1 checks the left
key: `key`, or `refused`, number, side and bit. Any other op compares: `found` and the number of pairs, or `refused` as
above; then the list as a sum.
"""
import random
import struct

import model
from differs_model import TYPE, Twins, differ, packed, pairs, refusal
from keys_model import wrap
from keys_vectors import sum_words
from model import bits, key_of, spell
from words_vectors import written

COMPARE, CHECK = 0, 1

# texts whose keys are compared, and words of the list
TEXTS = [
    ("A", "A"), ("A", "B"), ("A", "AB"), ("A", "A.B"), ("A.B.C", "X.B.D"), ("string", "number"), ("A", "A[]"),
    ("A | B", "A | C"), ("A | B", "A | B | C"), ("A | B", "A & B"), ("A | B", "A | B[]"), ("[A, B, C]", "[A?, X, ...C]"),
    ("{ [K in A]: B }", "{ [L in X]?: B }"), ("{ [K in A]: B }", "{ [L in X]: Y }"), ("(a: A, b?: B) => C", "(x: A, b: Y) => Z"),
    ("<T, U extends A>() => B", "<V, U>() => C"), ("`a${A}b${B}c`", "`x${Y}b${[Z]}d`"), ("'a'", '"a"'), ("1", "-1"),
    ("A | B | C", "X | Y | Z"), ("abstract new () => A", "new () => A"), ("(x: A) => x is B", "(x: A) => asserts x is B"),
    ("import('a').B", "typeof import('a').B"), ("[a: A]", "[a?: A]"), ("A extends B ? C : D", "A extends B ? C : E"),
]
KEYS = [("", "104004000504"), ("104004000504", "204004000504"), ("104004000505", ""), ("10400400050400", "11C270"),
        ("11C270", "11C271"), ("164006A0", "164000"), ("11C270", "11C270"), ("104004000504", "104004000504")]


def sum_list(words):
    return sum_words(words, len(words), 1)


def line(op, words, left, right):
    if op == CHECK:
        x = refusal(left)
        return "refused %d 1 %d" % x if x else "key"
    x, list_ = differ(left, right, words)
    said = "found %d" % len(x[1]) if x[0] == "found" else "refused %d %d %d" % x[1:]
    return "%s %d" % (said, sum_list(list_))


def record(op, words, left, right):
    return struct.pack("<BIII", op, words, len(left), len(right)) + left + right


def key(text):
    x = model.read(text.encode(), model.cut(text), 0, False)
    assert x[0] == "read", text
    return x[4]


def cases():
    c = []
    def both(a, b, rooms=None):
        x = pairs(a, b)
        enough = 2 * len(x[1]) if x[0] == "found" else 4
        for words in rooms or range(enough + 2):
            c.append((COMPARE, words, a, b))
            c.append((COMPARE, words, b, a))
        c.append((CHECK, 0, a, b""))
        c.append((CHECK, 0, b, b""))
    for a, b in TEXTS:
        both(key(a), key(b))
    for a, b in KEYS:
        both(bytes.fromhex(a), bytes.fromhex(b))
    for h in (255, 256, 257):
        deep = [key_of(wrap(h - 1, t)) for t in (7, 24)]
        both(deep[0], deep[0], (0, 3))
        both(deep[0], deep[1], (0, 3))
        both(deep[0], packed(bits(7, 6) * (h - 1) + bits(2, 6) + bits(5, 4)), (0, 3))
    late = lambda q: packed((bits(14, 6) + "00" + spell(b"K")) * 20 + bits(2, 6) + bits(3, 4) + ("0" + bits(q, 2) + "0") * 20)
    both(late(0), late(1), (0, 1, 2, 3))
    c.append((COMPARE, 2, bytes(262145), key("A")))
    c.append((COMPARE, 2, key("A"), bytes(262145)))
    twins = Twins(random.Random(7))
    for _ in range(300):
        twins.part = twins.chance.choice((0.01, 0.03, 0.1))
        a, b = twins.two(TYPE, twins.chance.choice((1, 2, 3)))
        if len(a) + len(b) < 2000:
            both(packed(a), packed(b))
    return c


def main():
    c = cases()
    data = b"".join(record(*x) for x in c) + record(COMPARE, 0, b"x", b"y")[:-1]        # the last record is cut
    written("differs_run", data, [line(*x) for x in c] + ["cut"])


if __name__ == "__main__":
    main()
