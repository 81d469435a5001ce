#!/usr/bin/env python3
"""Runs the crates `key_in`, `key_out` and `visits` beside model.py on keys, sound and damaged, and compares each line.

    compare_keys.py [COUNT [SEED [BUILD]]]     COUNT keys (200000), SEED (1), BUILD (O3, or O0, or checked)
    compare_keys.py --stack [BUILD]            the least stack that taking back and writing a tree of height 256 takes

It runs in the folder that holds crates.txt, on target/unproved/keys_run.BUILD, which tools/unproved.sh keys_run leaves
there. Sound keys come from generated texts that the model reads and from trees over every tag; the others from these by
bits turned, bytes changed, cuts, splices and bytes put in. Rooms are ample, exact, or too small by a little. Before them
the stored vectors run. A build that is not optimized holds the program's arrays twice, and gets a larger stack.
compare_rules.py --sorts keys runs the same keys through the open call.
"""
import random
import sys
import time
from collections import Counter

import keys_model
import keys_vectors as v
import model
from compare import answers, compare
from compare_words import some_type
from keys_model import gen, take_back, wrap
from model import Node, key_of

BUILDS = {"O3": None, "O0": 32 << 20, "checked": 32 << 20}


def sound(chance):
    """A sound key: of a text's reading, or of a tree."""
    while True:
        how = chance.random()
        if how < 0.35:
            s = some_type(chance, chance.choice((1, 2, 2, 3, 3, 4))) if how < 0.2 else keys_model.text(chance.choice((1, 2, 2, 3)))
            try:
                x = model.read(s.encode(), model.cut(s), 0, chance.random() < 0.5)
            except IndexError:                                      # a template that does not end
                continue
            if x[0] != "read":
                continue
            k = x[4]
        elif how < 0.95:
            k = key_of(gen("type", chance.choice((0, 1, 2, 2, 3, 3, 4)), chance.choice([None] * 3 + list(range(1, 20)) + [23, 24] + [25] * 6)))
        else:
            h = chance.choice((chance.randint(1, 40), chance.randint(250, 260)))
            k = key_of(wrap(h, chance.choice((4, 7, 23, 24)), gen("type", chance.choice((0, 1, 2)))))
        if len(k) <= 2000:
            return k


def damaged(chance, key, others):
    k = bytearray(key)
    for _ in range(chance.choice((1, 1, 1, 2, 3))):
        how = chance.randrange(9)
        i = chance.randrange(len(k)) if k else 0
        if not k:
            break
        if how in (0, 1, 2):
            j = chance.randrange(8 * min(len(k), chance.choice((4, 16, 10000))))
            k[j // 8] ^= 128 >> j % 8
        elif how == 3:
            k[i] = chance.choice((0, 255, chance.randrange(256)))
        elif how == 4:
            del k[i:]
        elif how == 5:                                              # the end of another
            other = chance.choice(others)
            k = k[:i] + other[min(i, len(other)):] if chance.random() < 0.5 else k[:i] + other[chance.randrange(len(other)):]
        elif how == 6:
            k[i:i] = bytes(chance.choice((0, 1, 255, chance.randrange(256))) for _ in range(chance.choice((1, 1, 2, 5))))
        elif how == 7:
            k += bytes(chance.choice((0, 0, 1, 128, 255)) for _ in range(chance.choice((1, 1, 2))))
        else:
            del k[i:i + chance.choice((1, 1, 2, 7))]
    return bytes(k)


def rooms(chance, key):
    how = chance.random()
    if how < 0.6:
        return [chance.choice((1600, 1603)), 400, 2500, 2500]
    x = take_back(key, 2000, 2000, 3000)
    if x[0] == "refused":
        return [chance.randrange(40), chance.randrange(10), chance.randrange(30), chance.randrange(40)]
    r = [4 * x[3], x[4], len(x[2]), len(key)]
    if how < 0.75:
        return r
    which = chance.randrange(4)
    r[which] = max(0, r[which] + chance.choice((-1, -1, -2, -4, -9, 1, 2, 3)))
    return r


def keys(count, seed):
    chance = random.Random(seed)
    keys_model.seed(seed)
    pool, made = [sound(chance) for _ in range(50)], 0
    while made < count:
        if chance.random() < 0.25:
            k = sound(chance)
            pool = pool[-80:] + [k]
        else:
            k = damaged(chance, chance.choice(pool), pool)
        made += 1
        yield chance.choice((0, 0, 1)), k, rooms(chance, k)


class Figures:
    def __init__(self):
        self.records, self.different, self.bytes = 0, 0, 0
        self.verdicts, self.longest = Counter(), 0

    def count(self, r, expected, got):
        self.records += 1
        self.bytes += len(r[1])
        self.longest = max(self.longest, len(r[1]))
        words = expected.split()
        self.verdicts["taken" if words[0] == "taken" else "refusal " + words[1]] += 1
        if got != expected:
            self.different += 1
            if self.different <= 10:
                print("op %d rooms %s key %s: program %r, model %r" % (r[0], r[2], r[1][:300].hex(), got, expected))


def least_stack(build):
    """By halving: the least stack, in steps of 4 KiB, that gives the right line for a key."""
    def least(key, rooms):
        right = [v.line(0, key, rooms)]
        low, high = 0, 8192                                         # in steps of 4 KiB
        while high - low > 1:
            mid = (low + high) // 2
            low, high = (low, mid) if answers("keys_run." + build, [v.record(0, key, rooms)], 4096 * mid)[0] == right else (mid, high)
        return 4096 * high
    for h in (1, 64, 128, 256):
        k = key_of(wrap(h - 1, 7, Node(1, 0, 0, 0, names=[b"a"], args=None)))
        print("height %d: %d bytes, of which without a tree (a key cut short) %d" % (h, least(k, v.AMPLE), least(k[:1], v.AMPLE)))


def main():
    if sys.argv[1:2] == ["--stack"]:
        return least_stack(sys.argv[2] if len(sys.argv) > 2 else "O3")
    count = int(sys.argv[1]) if len(sys.argv) > 1 else 200000
    seed = int(sys.argv[2]) if len(sys.argv) > 2 else 1
    build = sys.argv[3] if len(sys.argv) > 3 else "O3"
    figures, began = Figures(), time.time()
    for name, source in (("stored vectors", iter(v.cases())), ("seed %d" % seed, keys(count, seed))):
        compare("keys_run." + build, source, v.record, v.line, figures.count, BUILDS[build])
        print("%s: %d records so far, %d bytes of keys, longest %d, %d different, %.0f s" % (
            name, figures.records, figures.bytes, figures.longest, figures.different, time.time() - began), flush=True)
    print(", ".join("%s: %d" % x for x in sorted(figures.verdicts.items())))
    if figures.different:
        sys.exit(1)


if __name__ == "__main__":
    main()
