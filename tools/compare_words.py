#!/usr/bin/env python3
"""Runs the crates `words` and `checks` beside model.py on generated lists, sound and damaged, and compares each line.

    compare_words.py [COUNT [SEED [BUILD]]]     COUNT lists (120000), SEED (1), BUILD (O3, or O0, or checked)

It runs in the folder that holds crates.txt, on target/unproved/words_run.BUILD, which tools/unproved.sh words_run leaves
there. Each list goes through the check, and the other ops run at random places of it. The lists at and past each limit run too, a run of 16,383 `(`
before the starter test among them, with a stack of 512 KiB (the program's own arrays take 384 of it; a build that is not
optimized holds them twice, and gets 1 MiB).
"""
import random
import sys
import time
from collections import Counter

import model
import words_vectors as v
from compare import compare

STACK = 1024 * 1024 if sys.argv[3:] in (["O0"], ["checked"]) else 512 * 1024
BUILD = sys.argv[3] if len(sys.argv) > 3 else "O3"
NAMES = "A B T U K key value x args Promise Array Partial Record Foo _a $b any1 Any typeOf".split()
FIXED = model.TYPES + model.MODS + model.RES
OTHERS = sorted(model.MODWORDS) + sorted(model.RESWORDS)
LITERALS = ["1", "0.5", "10n", "'a'", '"b c"', "`t`", "'\\n'", "'any'"]


def some_type(chance, depth):
    """A text like a type."""
    if depth == 0 or chance.random() < 0.3:
        pick = chance.random()
        if pick < 0.45:
            return chance.choice(NAMES)
        if pick < 0.7:
            return chance.choice(FIXED)
        if pick < 0.9:
            return chance.choice(LITERALS)
        return chance.choice(OTHERS)
    t = lambda: some_type(chance, depth - 1)
    n = lambda: chance.choice(NAMES)
    m = lambda: chance.choice(["", "", "", "readonly ", "public ", "out ", "abstract ", "public readonly ", "static\n"])
    q = lambda: chance.choice(["", "", "?"])
    forms = [
        lambda: "%s | %s" % (t(), t()), lambda: "%s & %s" % (t(), t()), lambda: "%s[]" % t(), lambda: "%s[%s]" % (t(), t()),
        lambda: "%s extends %s ? %s : %s" % (t(), t(), t(), t()), lambda: "(%s)" % t(), lambda: "(" * chance.randint(2, 9) + t(),
        lambda: "(%s%s%s: %s) => %s" % (m(), n(), q(), t(), t()), lambda: "(%s%s) => %s" % (m(), n(), t()), lambda: "() => %s" % t(),
        lambda: "(...%s: %s) => %s" % (n(), t(), t()), lambda: "(this: %s, %s = %s) => %s" % (t(), n(), t(), t()),
        lambda: "(%s%s, %s) => %s" % (m(), n(), n(), t()), lambda: "new (%s) => %s" % (n(), t()), lambda: "abstract new () => %s" % t(),
        lambda: "<%s extends %s = %s>() => %s" % (n(), t(), t(), t()), lambda: "%s<%s, %s>" % (n(), t(), t()),
        lambda: "%s<<%s>() => %s>" % (n(), n(), t()), lambda: "%s <= %s <<= %s << %s" % (t(), t(), t(), t()),
        lambda: "{ %s[%s in %s]%s: %s }" % (chance.choice(["", "readonly ", "+readonly ", "-readonly "]), n(), t(), chance.choice(["", "?", "-?", "+?"]), t()),
        lambda: "{ %s: %s; %s%s: %s }" % (n(), t(), n(), q(), t()), lambda: "{ %s in %s }" % (chance.choice(["1", "'s'", "K", "(", "in"]), t()),
        lambda: "[%s, ...%s]" % (t(), t()), lambda: "[%s%s: %s]" % (n(), q(), t()), lambda: "keyof %s" % t(), lambda: "readonly %s" % t(),
        lambda: "unique symbol", lambda: "infer %s" % n(), lambda: "infer %s extends %s" % (n(), t()), lambda: "typeof %s.%s" % (n(), n()),
        lambda: "import('%s').%s<%s>" % (n(), n(), t()), lambda: "asserts %s is %s" % (n(), t()), lambda: "`a${%s}b${%s}c`" % (t(), t()),
        lambda: "-%s" % chance.choice(["1", "2n", "A"]), lambda: "%s!" % t(), lambda: "%s?" % t(), lambda: "%s\n%s" % (t(), t()),
        lambda: "@ # %s ; * + - = => . ... : , !" % t(), lambda: "(%s" % n(), lambda: "{ %s" % chance.choice(["[", "readonly", "+", "-", "readonly [ K in"]),
    ]
    return chance.choice(forms)()


def damaged(chance, text, words):
    """One or two changes of a list, of its text or of the start."""
    text, words, start = bytearray(text), list(words), chance.randrange(len(words))
    for _ in range(chance.choice((1, 1, 1, 2))):
        how = chance.randrange(12)
        i = chance.randrange(len(words)) if words else 0
        if not words:
            continue
        k, nl, zero, n, b = model.unpack(words[i])
        if how == 0:                                         # a field changed a little or wholly
            which = chance.randrange(5)
            k = chance.choice((k ^ 1, k + 1, k - 1, chance.randrange(256))) % 256 if which == 0 else k
            nl = nl ^ 1 if which == 1 else nl
            zero = 1 << chance.randrange(6) if which == 2 else zero
            n = chance.choice((n + 1, n - 1, 0, 65535, 65536, chance.randrange(131072))) % 131072 if which == 3 else n
            b = chance.choice((b + 1, b - 1, b + 2, 0, len(text), len(text) + 1, chance.randrange(2 ** 32), 2 ** 32 - 1)) % 2 ** 32 if which == 4 else b
            words[i] = v.word(k, nl, zero, n, b)
        elif how == 1:
            del words[i]
        elif how == 2:
            words.insert(i, words[i])
        elif how == 3:
            j = chance.randrange(len(words))
            words[i], words[j] = words[j], words[i]
        elif how == 4:
            del text[chance.randrange(len(text) + 1):]
        elif how == 5:                                       # another kind, that is there or not
            words[i] = v.word(chance.choice((1, 41, 83, 107, 2, 5, 0, chance.randrange(256))), nl, zero, n, b)
        elif how == 6:
            start = chance.choice((len(words) - 1, len(words), len(words) + 1, 0, 2 ** 32 - 1, chance.randrange(len(words) + 3)))
        elif how == 7 and text:                              # a byte of the text
            text[chance.randrange(len(text))] = chance.choice((0x5C, 0, 255, chance.randrange(256)))
        elif how == 8:
            words[i] ^= 1 << chance.randrange(64)
        elif how == 9 and text and n:                        # a byte of a token
            text[min(b + chance.randrange(n), len(text) - 1)] ^= 1 << chance.randrange(8)
        elif how == 10:
            del words[i:]
        elif how == 11:                                      # a token's length grows into the next or shrinks
            words[i] = v.word(k, nl, zero, (n + chance.choice((1, 2, -1))) % 131072, b)
    return bytes(text), words, start


def lists(count, seed):
    chance = random.Random(seed)
    sources, made = [], 0
    while made < count:
        if not sources or chance.random() < 0.25:
            s = some_type(chance, chance.choice((1, 2, 2, 3, 3, 4)))
            try:
                words = model.cut(s)
            except IndexError:                               # a template that does not end
                continue
            if len(s) > 1500:
                continue
            sources = sources[-50:] + [(s.encode(), words)]
            text, words = sources[-1]
            start = chance.randrange(len(words))
        else:
            text, words, start = damaged(chance, *chance.choice(sources))
        made += 1
        yield text, words, start, chance


def records(count, seed):
    for text, words, start, chance in lists(count, seed):
        yield v.CHECK, start, 0, text, words
        for op in (v.STARTER, v.FUNCTION, v.MAPPED, v.CURSOR):
            for _ in range(2):
                at = chance.choice((start, chance.randrange(len(words) + 2)))
                if op != v.CURSOR and chance.random() < 0.5:      # a place where there is something to see
                    wanted = {v.STARTER: (20, 38), v.FUNCTION: (20, 22, 74, 100), v.MAPPED: (16,)}[op]
                    there = [i for i, w in enumerate(words) if w >> 56 in wanted]
                    at = chance.choice(there) if there else at
                yield op, at, chance.randrange(2), b"", words
        if chance.random() < 0.1:
            yield v.FIELDS, 0, 0, b"", words
        if chance.random() < 0.1:
            yield v.CLASSES, chance.randrange(256), 0, b"", []


def limits():
    c = v.Cases()
    v.limits(c)
    return iter(c)


class Figures:
    def __init__(self):
        self.lists, self.records, self.different = 0, 0, 0
        self.verdicts, self.cases, self.truths = Counter(), Counter(), Counter()

    def count(self, op, expected):
        self.records += 1
        if op == v.CHECK:
            self.lists += 1
            self.verdicts[expected.split()[0]] += 1
        elif op == v.FUNCTION:
            self.cases[int(expected.split()[0])] += 1
        elif op in (v.STARTER, v.MAPPED):
            self.truths[{v.STARTER: "starter", v.MAPPED: "mapped"}[op] + " " + expected] += 1


def run(source, figures, stack=None):
    def count(r, expected, got):
        figures.count(r[0], expected)
        if got != expected:
            figures.different += 1
            if figures.different <= 10:
                print("op %d a %d b %d text %r words %s: program %r, model %r" % (r[0], r[1], r[2], r[3][:200], [hex(w) for w in r[4][:40]], got, expected))
    compare("words_run." + BUILD, source, v.record, v.line, count, stack)


def main():
    count = int(sys.argv[1]) if len(sys.argv) > 1 else 120000
    seed = int(sys.argv[2]) if len(sys.argv) > 2 else 1
    figures, began = Figures(), time.time()
    run(limits(), figures, STACK)
    print("limits: %d records, %d lists, %d different" % (figures.records, figures.lists, figures.different))
    run(records(count, seed), figures)
    print("seed %d: %d records, %d lists, %d different, %.0f s" % (seed, figures.records, figures.lists, figures.different, time.time() - began))
    print("checks:", ", ".join("%s %d" % (("sound" if k == "sound" else "refusal " + k), n) for k, n in sorted(figures.verdicts.items())))
    print("function starts by case:", ", ".join("%d %d" % x for x in sorted(figures.cases.items())))
    print(", ".join("%s: %d" % x for x in sorted(figures.truths.items())))
    if figures.different:
        sys.exit(1)


if __name__ == "__main__":
    main()
