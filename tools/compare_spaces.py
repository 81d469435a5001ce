#!/usr/bin/env python3
"""Spaces don't matter (02, W14): reads texts and the same tokens with other spaces through the compiled open call, and
compares; and looks whether the nodes of every tree stand in order.

    compare_spaces.py [--count N] [--seed S] [FOLDER ..]      N pairs, 100,000 if not said
    compare_spaces.py --break [..]                            moves line breaks too: some answers have to change
    compare_spaces.py --rows                                  a few pairs, with what comes of each

Texts: types of the folders' .d.ts files, or of those that Debian packages have installed (compare_typescript.py names the
packages; needs node-typescript); and generated ones, sound, damaged, from other starts and with little room (rules_model.py).
Between two tokens the second text has any mix of spaces, tabs and comments, line breaks where one was and only there, and
nothing at all where the tokens do not merge: it is cut again, and has to be the same tokens. Start, option and what is lent
are the same for both.

Compared: refusal number, token and half, or counts and end cursor; the key; the tree but for its places; the numbers of
diagnostics. In order: a node's first byte is below its end byte, its children lie inside, one behind the other, and all end
inside the text.

--break also adds or takes away a line break before some tokens, so the lists are not alike. It counts whose answer is another,
and fails if none is.

The library is libtypekey.so in target/lib, or in the folder that TYPEKEY_LIB names (tools/build_library.sh).
"""
import argparse
import collections
import itertools
import json
import os
import random
import re
import subprocess
import sys
import time

HERE = os.path.dirname(os.path.abspath(__file__))
sys.path.insert(0, os.path.join(HERE, "..", "bindings", "python"))
import model as m
import typekey
from compare_typescript import files
from rules_model import Cases, FormMaker, Maker, ObjectMaker, TrialMaker, damaged

# ---- the same tokens with other spaces
SPACES = " ", " ", " ", "  ", "\t", "    ", " \t ", "/**/", "/* a */", "/* | } ' \" ` */", "/* ${ */ "
BREAKS = "\n", "\n", "\n", "\r\n", "\n\n", "\n \n", "// a\n", "// ] => ' ${\n", "/* a\n   b */", "\n\t"
QUOTES, APART, WORD = "`'\"", "{ } [ ] ( ) > , ; :".split(), re.compile(r"[\w$#]")
COMMENT = re.compile(r"/\*.*?\*/|//[^\n]*", re.S)


def tokens(text, words):
    """Kind, newline flag and spelling of each."""
    return [(w >> 55, text[w & 0xFFFFFFFF:][:w >> 32 & 0x1FFFF]) for w in words]


def merges(a, b):
    """Whether two tokens with nothing between them may be cut otherwise: two words, a number and a dot, two marks but brackets and the like."""
    if a[-2:] == "${" or a[-1] in QUOTES or b[0] in QUOTES or b[0] == "}": return False
    if m.TOK.match(a + b).end() != len(a): return True
    if WORD.match(a[-1]) or WORD.match(b[0]): return bool(WORD.match(a[-1]) and WORD.match(b[0])) or a[-1] == "." and b[0].isdigit()
    return a not in APART and b not in APART


def gap(r, a, b, line):
    """What may stand between two tokens: at the ends of the text one of them is empty."""
    if not line:
        if (not a or not b or not merges(a, b)) and r.random() < 0.4: return ""
        return "".join(r.choice(SPACES) for _ in range(r.choice((1, 1, 1, 2, 3))))
    l = [r.choice(BREAKS)] + [r.choice(SPACES + BREAKS) for _ in range(r.choice((0, 0, 1, 2)))]
    r.shuffle(l)
    return "".join(l)


def respaced(r, text, words, lines):
    """Another text of the same tokens, with line breaks as lines says, and its token words; None where it is too long."""
    spelled = [s.decode("latin1") for _, s in tokens(text, words)]
    parts, plain, new, at, before = [], [], [], 0, ""
    for w, s, line in zip(words, spelled, lines):
        g = gap(r, before, s, line)
        new.append(m.pack(w >> 56, line, at + len(g), len(s)))
        parts += g, s
        plain += COMMENT.sub(lambda c: re.sub(r"[^\n]", " ", c.group()), g), s
        at, before = at + len(g) + len(s), s
    if at > m.TEXT: return None
    if m.cut("".join(plain)) != new: sys.exit("no text of the same tokens: %r" % "".join(parts))
    return "".join(parts).encode("latin1"), new


# ---- a call
NODES, NAMES, NOTES, KEY = ((kind * n)() for kind, n in ((typekey.ctypes.c_uint64, 1 << 17), (typekey.ctypes.c_uint64, 1 << 15),
                                                         (typekey.ctypes.c_uint64, 512), (typekey.ctypes.c_uint8, 1 << 20)))


def called(text, words, start, parens, lent):
    """The answer's eight numbers; node words, names, diagnostics and key as far as they are used."""
    answer, listed = typekey._Answer(), (typekey.ctypes.c_uint64 * len(words))(*words)
    nodes, names, notes, key = lent
    typekey._library.typekey_read(text, len(text), listed, len(words), start, parens, NODES, nodes, NAMES, names, NOTES, notes, KEY, key, answer)
    a = list(answer)
    used = [0] * 4 if a[0] else a[1:5]
    return a, NODES[:4 * used[0]], NAMES[:used[1]], NOTES[:m.RECORD * used[2]], bytes(KEY[:used[3]])


def seen(text, x):
    """What like lists have in common, by name. A node's second word is its place."""
    answer, nodes, names, notes, key = x
    return {"answer": answer[:3] if answer[0] else answer, "key": key, "diagnostics": notes[::m.RECORD],
            "tree": [w for i, w in enumerate(nodes) if i % 4 != 1], "names": [text[w >> 32:][:w & 0xFFFFFFFF] for w in names]}


def out_of_order(text, nodes):
    """The first node that does not stand as it should, or None. A parent stands right behind its last child."""
    links = lambda n: (nodes[4 * n + 1] & 0xFFFFFFFF, nodes[4 * n + 1] >> 32, nodes[4 * n + 2] & 0xFFFFFFFF, nodes[4 * n + 3])
    over, size = 0, len(nodes) // 4
    while links(over)[3]: over = links(over)[3]             # 0 is no link, or node 0: which has one parent
    for n in range(size):
        first, end, child, _ = links(n)
        if first >= end or end > len(text): return n
        at, more = first, child > 0 or n == over + 1
        while more:
            b, e, _, other = links(child)
            if b < at or e > end or (other == 0) != (child == n - 1): return n
            at, child, more = e, other, other > 0
    return None


def has_members(text, x):
    return b"{" in text and any(n.tag in typekey.MEMBERS for _, n in typekey.Tree(text, x[1], x[2]).walk())


# ---- texts
def real(folders):
    """The different texts of types in .d.ts files, those too that hold what is not read here."""
    paths, texts = files(folders), {}
    env = dict(os.environ, NODE_PATH=os.environ.get("NODE_PATH", "/usr/share/nodejs"))
    for i in range(0, len(paths), 50):
        out = subprocess.run(["node", os.path.join(HERE, "types_of.js")] + paths[i:i + 50], env=env, capture_output=True, text=True)
        if out.returncode: sys.exit(out.stderr)
        for line in filter(None, out.stdout.split("\n")):
            text, _, _, *whole = json.loads(line)
            texts[re.sub(r"[^\x00-\x7f]", "X", whole[0] if text is None else text)] = None
    return [t for t in texts if len(t) <= m.TEXT // 2]


def of_real(seed, texts):
    """Real types without end: whole, from another start, damaged."""
    c = Cases(seed)
    while True:
        c.r.shuffle(texts)
        for t in texts:
            x = c.r.random()
            w = m.cut(t)
            lent = 4 * len(w) + 16, len(w), 160, len(t) + 12 * len(w) + 16
            if x < 0.8: yield c.case("real", t, w, 0, None, lent)
            elif x < 0.9: yield c.case("real", t, w, c.r.randrange(len(w)), None, lent)
            else:
                other = c.case("real", damaged(c.r, t), None, 0, None, lent)
                if other: yield other


def pairs(args):
    """N cases past refusals 1 and 2, each with its second text and words."""
    texts = real(args.folders)
    sources = [Cases(args.seed + i, maker).generated(1 << 40) for i, maker in enumerate((Maker, ObjectMaker, FormMaker, TrialMaker))]
    if texts: sources.append(of_real(args.seed + len(sources), texts))
    r, done = random.Random(args.seed), 0
    for case in itertools.chain.from_iterable(zip(*sources)):
        sort, text, words, start, *_ = case
        if sort == "check" or len(words) > m.TOKENS: continue
        lines = [w >> 55 & 1 for w in words]
        if args.moved:
            for i in r.sample(range(len(lines)), min(len(lines), r.choice((1, 1, 2, 3)))): lines[i] = 1 - lines[i]
        other = respaced(r, text, words, lines)
        if other is None: continue
        yield case, other
        done += 1
        if done == args.count: return


# ---- runs
def compare(args):
    counts, refused, changed, began = collections.Counter(), collections.Counter(), collections.Counter(), time.time()
    for (sort, text, words, start, parens, lent), (text2, words2) in pairs(args):
        one, two = called(text, words, start, parens, lent), called(text2, words2, start, parens, lent)
        a, b = seen(text, one), seen(text2, two)
        other = [k for k in a if a[k] != b[k]]
        if {one[0][0], two[0][0]} & {1, 2}: sys.exit("a list that the check refuses: %r, %r" % (text, text2))
        counts["real" if sort == "real" else "generated"] += 1
        counts["refused" if one[0][0] else "granted"] += 1
        refused[one[0][0]] += one[0][0] > 0
        counts["with members"] += one[0][0] == 0 and has_members(text, one)
        counts["nodes"] += (len(one[1]) + len(two[1])) // 4
        for t, x in ((text, one), (text2, two)):
            if x[1] and out_of_order(t, x[1]) is not None:
                counts["out of order"] += 1
                if counts["out of order"] <= 8: print("OUT OF ORDER: node %d of %r" % (out_of_order(t, x[1]), t[:300]))
        if other:
            counts["different"] += 1
            first, second = one[0][0], two[0][0]
            changed["another key" if not first and not second and "key" in other else "another end alone" if not first and not second else
                    "granted one and refused the other" if not first or not second else "another refusal or place"] += 1
            if counts["different"] <= (3 if args.moved else 8):
                print("%s in %s:\n  %r %s\n  %r %s" % ("changed" if args.moved else "DIFFERENT", ", ".join(other), text[:300], one[0], text2[:300], two[0]))
    n = counts["real"] + counts["generated"]
    print("seed %d: %d pairs, %d %s; %d nodes, %d trees out of order; %.0f s"
          % (args.seed, n, counts["different"], "changed by line breaks" if args.moved else "different", counts["nodes"], counts["out of order"], time.time() - began))
    print("pairs: " + ", ".join("%s %d" % (k, counts[k]) for k in ("real", "generated", "granted", "refused", "with members")))
    print("refusals: " + ", ".join("%d %d times" % x for x in sorted(refused.items()) if x[1]))
    if changed: print("changed: " + ", ".join("%s %d" % x for x in changed.most_common()))
    return counts["out of order"] > 0 or (counts["different"] == 0 if args.moved else counts["different"] > 0)


ROWS = (("A|B", "A  |  B"), ("[a?:A,B]", "[ a ? : A , B ]"), ("A<<T>() => T>", "A  <<  T > ( )  => T  >"), ("A<=B>", "A <=  B >"), ("A\n[B]", "A\n\n  [B]"),
        ("A\n[B]", "A [B]"), ("A<<T>() => T>", "A< <T>() => T>"), ("({a}:P)=>Q", "( { a } : P ) => Q"), ("new (this:A)=>B", "new ( this : A )  => B"),
        ("(" * 64 + "A" + ")" * 64, "( " * 64 + "A" + " )" * 64), ("[A?, (B)]", "[ A ? ,\t( B ) ]"))


def said(text, x):
    a, nodes, _, notes, key = x
    if a[0]: return "%d at %d, half %d, byte %d" % tuple(a[:4])
    told = ["%d on %d to %d" % tuple(notes[i:i + 3]) for i in range(0, len(notes), m.RECORD)]
    places = ["%s %d..%d" % (n.tag, *n.span) for _, n in typekey.Tree(text, nodes, x[2]).walk()]
    return "key %s, end %d%s; %s" % (key.hex(), a[5], "".join("; diagnostic " + t for t in told), ", ".join(places))


def rows(args):
    wrong = 0
    for texts in ROWS:
        (s, v), (t, w) = ((x.encode(), m.cut(x)) for x in texts)
        alike = tokens(s, v) == tokens(t, w)
        one, two = (called(x, y, 0, 0, (4 * 140, 140, 160, 4000)) for x, y in ((s, v), (t, w)))
        same = seen(s, one) == seen(t, two)
        wrong += alike and not same
        print("%s, %s" % ("alike" if alike else "not alike", "the same" if same else "the same key" if one[4] and one[4] == two[4] else "not the same"))
        print("  %r: %s\n  %r: %s" % (texts[0], said(s, one), texts[1], said(t, two)))
    return wrong


def main():
    p = argparse.ArgumentParser()
    p.add_argument("--count", type=int, default=100000)
    p.add_argument("--seed", type=int, default=1)
    p.add_argument("--break", dest="moved", action="store_true")
    p.add_argument("--rows", action="store_true")
    p.add_argument("folders", nargs="*")
    args = p.parse_args()
    sys.exit(1 if (rows if args.rows else compare)(args) else 0)


if __name__ == "__main__":
    main()
