#!/usr/bin/env python3
"""Runs the crate `differs` beside differs_model.py on pairs of keys, sound and damaged, and compares each line.

    compare_differs.py [COUNT [SEED [BUILD]]]     COUNT pairs (100000), SEED (1), BUILD (O3, or O0, or checked)
    compare_differs.py --stack [BUILD]            the least stack that comparing two keys of height 256 takes

It runs in the folder that holds crates.txt, on target/unproved/differs_run.BUILD, which tools/unproved.sh differs_run leaves
there. Pairs are equal, mostly alike, unrelated, near the greatest height, or damaged on either side; lists have every
length from none to enough, and each pair of sound keys runs both ways. The stored vectors run first. That the model's
pairs turn with the sides, rise on both, and are none for equal keys alone, is checked as well.
"""
import random
import sys
import time
from collections import Counter

import differs_vectors as v
from compare import answers, compare
from compare_keys import BUILDS, damaged
from differs_model import TYPE, Twins, packed, pairs
from keys_model import wrap
from model import bits, key_of


def two(chance, twins, old):
    """Two keys, and of what sort they are."""
    if chance.random() < 0.03:
        twins.part = chance.choice((0.01, 0.1))
        a, b = twins.two(TYPE, chance.choice((0, 1, 1, 2)))
        h, more = chance.choice((chance.randint(1, 60), chance.randint(245, 258))), chance.choice((0, 0, 0, 1))
        return packed(bits(7, 6) * h + a), packed(bits(7, 6) * (h + more) + b), "deep"
    twins.part = chance.choice((0.01, 0.03, 0.1))
    a, b = (packed(s) for s in twins.two(TYPE, chance.choice((1, 2, 3))))
    how = chance.random()
    if how < 0.1:
        return a, a, "equal"
    if how < 0.3 and old:
        return a, chance.choice(old), "unrelated"
    if how < 0.4:
        return a, damaged(chance, a, [b]), "one damaged copy"
    if how < 0.45:
        return damaged(chance, a, [b]), b, "left damaged"
    if how < 0.5:
        return a, damaged(chance, b, [a]), "right damaged"
    if how < 0.55:
        return damaged(chance, a, [b]), damaged(chance, b, [a]), "both damaged"
    return a, b, "alike"


def runs(count, seed, sorts):
    chance, old = random.Random(seed), []
    twins = Twins(chance)
    for _ in range(count):
        a, b, sort = two(chance, twins, old)
        if max(len(a), len(b)) > 1500:
            continue
        sorts[sort] += 1
        old = (old + [b])[-300:]
        x = pairs(a, b)
        if x[0] == "refused":
            yield v.COMPARE, chance.choice((0, 1, 2, 3, 8)), a, b
            yield v.CHECK, 0, chance.choice((a, b)), b""
            continue
        n = len(x[1])
        assert (n == 0) == (a == b) and pairs(b, a)[1] == [(q, p) for p, q in x[1]]
        assert all(p[0] < q[0] and p[1] < q[1] for p, q in zip(x[1], x[1][1:]))
        for words in range(2 * n + 2) if n < 5 else (0, 1, 2 * n - 2, 2 * n - 1, 2 * n, 2 * n + 1, 2 * n + 9):
            yield v.COMPARE, words, a, b
            yield v.COMPARE, words, b, a


def least_stack(build):
    def least(left, right):
        r = v.COMPARE, 8, left, right
        low, high = 0, 8192                                             # in steps of 4 KiB
        while high - low > 1:
            mid = (low + high) // 2
            low, high = (low, mid) if answers("differs_run." + build, [v.record(*r)], 4096 * mid)[0] == [v.line(*r)] else (mid, high)
        return 4096 * high
    for h in (1, 64, 128, 256):
        a, b = (packed(bits(7, 6) * (h - 1) + bits(2, 6) + bits(k, 4)) for k in (3, 5))
        print("height %d: %d bytes, of which without a tree (a key cut short) %d" % (h, least(a, b), least(a[:1], b)), flush=True)


def main():
    if sys.argv[1:2] == ["--stack"]:
        return least_stack(sys.argv[2] if len(sys.argv) > 2 else "O3")
    count = int(sys.argv[1]) if len(sys.argv) > 1 else 100000
    seed = int(sys.argv[2]) if len(sys.argv) > 2 else 1
    build = sys.argv[3] if len(sys.argv) > 3 else "O3"
    sorts, said, began, wrong = Counter(), Counter(), time.time(), []

    def told(r, expected, got):
        said[" ".join(expected.split()[:3 if expected.startswith("refused") else 1])] += 1
        if expected != got:
            wrong.append(r)
            print("different", r[0], r[1], r[2].hex(), r[3].hex(), "expected", expected, "got", got, flush=True)
    for name, source in (("stored vectors", iter(v.cases())), ("seed %d" % seed, runs(count, seed, sorts))):
        compare("differs_run." + build, source, v.record, v.line, told, BUILDS[build])
        print("%s: %d records so far, %d different, %.0f s" % (name, sum(said.values()), len(wrong), time.time() - began), flush=True)
    print(", ".join("%s: %d" % x for x in sorted(sorts.items())))
    print(", ".join("%s: %d" % x for x in sorted(said.items())))
    if wrong:
        sys.exit(1)


if __name__ == "__main__":
    main()
