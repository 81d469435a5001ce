#!/usr/bin/env python3
"""Writes crates/words_run/data/vectors, the records that the program words_run runs, and crates/words_run/stdout, the
lines that it must print, from the answers of model.py. The same bytes each time.

    words_vectors.py            write both files (in the folder that holds crates.txt, or above it)
    words_vectors.py --check    say whether both are as this would write them

As a module: record(op, a, b, text, words) is a record's bytes, line(op, a, b, text, words) the line that it must print.
The model answers for lists that passed the check; here a look past the list finds an end (the word 0), and a half of
what has no second half is an end too, as the contracts of `words` say.
"""
import os
import random
import struct
import sys

import model
from model import EOF, FIXED, K, SPELL, TEXT, TOKENS, pack

CHECK, CLASSES, STARTER, FUNCTION, MAPPED, CURSOR, FIELDS = range(7)
OTHERS = (1, 41, 83, 107)


class Words(list):
    """A list of words with an end at each index outside it."""
    def __getitem__(self, i):
        return list.__getitem__(self, i) if 0 <= i < len(self) else 0


class At(model.Reading):
    """A cursor over any words."""
    def __init__(r, words, i, half):
        model.Reading.__init__(r, b"", words if isinstance(words, Words) else Words(words), i, False, 0, 0)
        r.half = half

    def kind(r):
        return model.Reading.kind(r) if not r.half or r.raw(r.i) in (24, 25, 26) else EOF


def function_case(r):
    """The case of a function start, from 1 in the order of document 01, 0 for none, and the index of its last token."""
    k = r.kind()
    case = {K["<"]: (1, 0), K["new"]: (2, 0)}.get(k, (0, 0))
    if k == K["abstract"] and r.raw(r.i + 1) == K["new"]:
        case = 3, 0
    if k == K["("]:
        j = r.i + 1
        if r.raw(j) == K[")"]:
            case = 4, 0
        elif r.raw(j) == K["..."]:
            case = 5, 0
        else:
            while model.modifier(r.raw(j)) and r.parameter_name(j + 1) and not r.nlat(j + 1):
                j += 1
            if r.parameter_name(j):
                if r.raw(j + 1) in (K[":"], K[","], K["?"], K["="]):
                    case = 6, j
                elif r.raw(j + 1) == K[")"] and r.raw(j + 2) == K["=>"]:
                    case = 7, j
    if (case[0] != 0) != bool(r.function_start()):
        sys.exit("function_case and the model differ")
    return case


def checked(text, words, start):
    """Refusals 1 and 2 of the model's read, and nothing of the reading after them."""
    if len(text) > TEXT or len(words) > TOKENS or not words or start >= len(words):
        return "1 0"
    for i in range(len(words)):
        if model.bad(text, words, i):
            return "2 %d" % i
    return "sound"


def class_bits(k):
    fixed = k in SPELL
    other = k in OTHERS
    return [model.binding(k), model.name(k), model.starts(k), model.modifier(k), model.valid(k), fixed, other]


def line(op, a, b, text, words):
    half = 1 if b else 0
    if op == CHECK:
        return checked(text, words, a)
    if op == CLASSES:
        out = class_bits(a % 256)
    elif op == STARTER:
        out = [At(words, a, 0).starter(a)]
    elif op == FUNCTION:
        out = function_case(At(words, a, half))
    elif op == MAPPED:
        out = [At(words, a, 0).mapped_start()]
    elif op == CURSOR:
        r = At(words, a, half)
        out = [r.kind(), r.line(), r.first(), r.last()]
        r.step()
        out += [r.i, r.half]
    else:
        out = [len(words)]
        for w in words:
            k, nl, zero, n, start = model.unpack(w)
            out += [k, nl, zero, n, start, k << 56 | nl << 55 | zero << 49 | n << 32 | start]
    return " ".join(str(int(x)) for x in out)


def record(op, a, b, text, words):
    return struct.pack("<BIIII", op, a, b, len(text), len(words)) + text + struct.pack("<%dQ" % len(words), *words)


def word(k, nl, zero, n, start):
    return k << 56 | nl << 55 | zero << 49 | n << 32 | start


def laid(tokens, gap=0, first=0):
    """Text and words of tokens, each (kind, spelling) or (kind, spelling, newline), and an Eof."""
    text, words = bytearray(b" " * first), []
    for t in tokens:
        words.append(pack(t[0], t[2] if len(t) > 2 else 0, len(text), len(t[1])))
        text += t[1] + b" " * gap
    words.append(pack(EOF, 0, len(text), 0))
    return bytes(text), words


def marks(source, breaks=()):
    """Words of a source whose tokens stand apart by spaces; a newline stands before the tokens numbered in breaks."""
    tokens = []
    for i, s in enumerate(source.split()):
        nl = 1 if i in breaks else 0
        if s in FIXED:
            k = FIXED[s]
        elif s.isdigit():
            k = 2
        elif s[-1] == "n" and s[:-1].isdigit():
            k = 3
        elif s[0] in "'`":
            k = 4 if s[0] == "'" else 5
        elif s in model.MODWORDS:
            k = 83
        elif s in model.RESWORDS:
            k = 107
        elif s[0].isalpha():
            k = 1
        else:
            k = 41
        tokens.append((k, s.encode(), nl))
    return laid(tokens, 1)


class Cases(list):
    def add(self, op, a, b, text, words):
        self.append((op, a, b, text, words))

    def check(self, text, words, start=0):
        self.add(CHECK, start, 0, text, words)

    def everywhere(self, op, text, words, halves=(0,)):
        for i in range(len(words) + 2):
            for h in halves:
                self.add(op, i, h, text, words)


def kinds(c):
    for k in range(256):
        c.add(CLASSES, k, 0, b"", [])
        c.check(*laid([(k, b"x")]))
        c.check(*laid([(1, b"y"), (k, b"x"), (1, b"z")], 1))
    for k in range(256):                                    # alone, of length 0, and as the last word
        c.check(b"x", [pack(k, 0, 1, 0)])
        c.check(b"x", [pack(k, 1, 0, 1)])


def spellings(c):
    for k, s in sorted(SPELL.items()):
        c.check(*laid([(k, s)], 1))
        c.check(*laid([(1, b"a"), (k, s, 1), (1, b"b")], 1, 3))
        c.check(*laid([(k, s[:-1])] if len(s) > 1 else [(k, b" ")], 1))
        c.check(*laid([(k, s + b"x")], 1))
        c.check(*laid([(k, s + s[-1:])], 1))
        text, words = laid([(k, s)], 0)
        c.check(text + b"xy", [pack(k, 0, 0, len(s) + 1), words[-1]])
        c.check(text + b"xy", [pack(k, 0, 1, len(s)), pack(EOF, 0, len(s) + 2, 0)])
        c.check(text[:-1], words)                           # the text ends a byte early
        for near in (k - 1, k + 1):                         # the spelling of the neighbours, and theirs for this
            c.check(*laid([(near, s)], 1))
            if near in SPELL:
                c.check(*laid([(k, SPELL[near])], 1))
        for at in range(len(s)):                            # each byte another one
            c.check(*laid([(k, s[:at] + bytes([s[at] ^ 1]) + s[at + 1:])], 1))
    for k in OTHERS + tuple(range(2, 9)):
        for s in sorted(SPELL.values()):
            c.check(*laid([(k, s)], 1))
            if k in OTHERS:
                c.check(*laid([(k, s + b"_")], 1))
                c.check(*laid([(k, s[:-1] or b"_")], 1))
    for k in OTHERS + tuple(range(2, 9)):
        for s in (b"\\", b"a\\", b"\\a", b"a\\u0062c", b"\\u{61}ny", b"a/b", b"a[b", b"a]b", b"\xdc", b"\x5d", b"\x5b"):
            c.check(*laid([(k, s)], 1))


ROWS = [(1, "any"), (1, "anyy"), (1, "undefined"), (1, "undefinedx"), (1, "{"), (41, "=>"), (41, "=="), (41, "a"), (83, "out"), (83, "get"),
        (107, "in"), (107, "class"), (64, "all"), (2, "any")]


def guesses(c):
    """Words and marks that are a fixed spelling but for a little, most of them with its length, its first or its last byte."""
    for k, s in ROWS:
        c.check(*laid([(k, s.encode())], 1))
    for k in (1, 41):
        for s in sorted(SPELL.values()):
            near = [bytes([s[0] ^ 128]) + s[1:], s[:-1] + bytes([s[-1] ^ 64]), s[:-1] + bytes([s[-1] ^ 128]), s[:-1] + bytes([s[-1] ^ 1])]
            near += [s[:i] + b"~" + s[i + 1:] for i in range(1, len(s) - 1)]
            near += [s + s[-1:] * 16, s[:1] * 16 + s, s + b"~" * 15 + s[-1:]]      # sixteen bytes more
            for t in near:
                c.check(*laid([(k, t)], 1))


def places(c):
    text = b"abc def ghi"
    end = pack(EOF, 0, 11, 0)
    for b in range(0, 13):                                  # touching, overlapping, past the text
        for n in (1, 2, 3):
            c.check(text, [pack(1, 0, 2, 3), pack(1, 0, b, n), end])
            c.check(text, [pack(1, 0, b, n), end])
    for b in range(9, 14):
        c.check(text, [pack(1, 0, 0, 3), pack(EOF, 0, b, 0)])
        c.check(text, [pack(EOF, 0, b, 0)])
    c.check(text, [pack(1, 0, 4, 3), pack(1, 0, 0, 3), end])
    c.check(text, [pack(1, 0, 4, 3), pack(EOF, 0, 6, 0)])
    c.check(text, [pack(1, 0, 4, 3), pack(EOF, 0, 7, 0)])
    for bit in range(49, 55):                               # each zero bit
        c.check(text, [pack(1, 0, 0, 3) | 1 << bit, end])
        c.check(text, [pack(1, 0, 0, 3), end | 1 << bit])
    for n in (65534, 65535, 65536, 65537, 131071):          # lengths of 16 and 17 bits
        for k in (1, 2, EOF, 22):
            c.check(text, [pack(k, 0, 0, n), end])
    for b in (2 ** 32 - 1, 2 ** 32 - 2, 2 ** 32 - 11, 2 ** 31, 65535, 65536):   # sums near 2^32
        for n in (0, 1, 2, 11, 65535, 131071):
            c.check(text, [pack(1, 0, b, n), end])
            c.check(text, [pack(1, 0, 0, 3), pack(EOF, 0, b, n)])
            c.check(text, [pack(1, 0, 0, 3), pack(2, 0, b, n), pack(2, 0, 1, 1), end])
    c.check(text, [pack(1, 0, 0, 3), pack(EOF, 0, 3, 0), pack(1, 0, 4, 3), end])      # an Eof in the middle
    c.check(text, [pack(EOF, 0, 0, 0), end])
    c.check(text, [pack(1, 0, 0, 3), pack(1, 0, 4, 3)])                                # none at the end
    c.check(text, [pack(1, 0, 0, 3), pack(EOF, 0, 10, 1)])                             # one of length 1
    c.check(text, [pack(EOF, 0, 0, 3), pack(1, 0, 4, 3), end])
    c.check(text, [pack(EOF, 0, 10, 1)])
    for k in list(range(1, 9)) + [22, 41, 64, 83, 96, 107]:                            # a word of length 0
        c.check(text, [pack(k, 0, 3, 0), end])
        c.check(text, [pack(1, 0, 0, 3), pack(k, 0, 11, 0)])
    c.check(text, [end])
    c.check(text, [pack(EOF, 1, 11, 0)])
    c.check(b"", [pack(EOF, 0, 0, 0)])
    c.check(b"", [0])
    c.check(b"", [0, 0])
    c.check(b"", [2 ** 64 - 1])
    c.check(b"\0\xff", [pack(1, 0, 0, 1), pack(4, 0, 1, 1), pack(EOF, 0, 2, 0)])


def faults(text, w):
    """Single faults of a good word of kind 1 at 4, each for refusal 2."""
    yield word(200, 0, 0, 3, 4)
    yield word(1, 0, 1, 3, 4)
    yield word(1, 0, 32, 3, 4)
    yield word(1, 0, 0, 65536, 4)
    yield word(1, 0, 0, 3, 2)
    yield word(1, 0, 0, len(text), 4)
    yield word(0, 0, 0, 3, 4)
    yield word(1, 0, 0, 0, 4)
    yield word(22, 0, 0, 3, 4)
    yield word(1, 0, 0, 3, 8)                               # spelled `any`
    yield word(1, 0, 0, 2, 12)                              # with a backslash


def two_at_once(c):
    text = b"abc def any \\x pqr"
    end = pack(EOF, 0, len(text), 0)
    good = [word(1, 0, 0, 3, 0), word(1, 0, 0, 3, 4), word(1, 0, 0, 3, 15)]
    c.check(text, good + [end])
    bad = list(faults(text, good[1]))
    for f in bad:
        c.check(text, [good[0], f, good[2], end])           # one
        for g in bad:
            c.check(text, [good[0], f, g, end])             # two: the lower is told
        c.check(text, [good[0], f, good[2]])                # one, and no Eof
        c.check(text, [good[0], f, good[2], end], 3)        # one, and a start that is the Eof
        c.check(text, [good[0], f, good[2], end], 4)        # refusal 1 goes first
        c.check(text, [good[0], f, good[2], end], 2 ** 32 - 1)
        c.check(text, [good[0], good[1], f])                # a bad word that is the last, and no Eof
    for f in bad:                                           # two faults in one word
        for g in bad:
            c.check(text, [good[0], f | g, good[2], end])
    words = good + [end]
    for start in range(6):
        c.check(text, words, start)
    c.check(text, [])
    c.check(b"", [])
    c.check(text, [], 1)
    c.check(text, [end], 1)


def limits(c):
    """At and one past each limit. Their texts and words are most of the file."""
    for n in (TEXT, TEXT + 1):
        c.check(b"x" * n, [pack(1, 0, 0, min(n, TEXT)), pack(EOF, 0, min(n, TEXT), 0)])
    c.check(b" " * (TEXT + 1), [2 ** 64 - 1], 7)
    c.check(b"x" * TEXT, [pack(1, 0, 0, TEXT), pack(EOF, 0, TEXT, 0)], 2)
    many = [pack(20, 0, i, 1) for i in range(TOKENS)]
    text = b"(" * TOKENS
    c.check(text, many[:-1] + [pack(EOF, 0, TOKENS - 1, 0)], TOKENS - 1)
    c.check(text, many + [pack(EOF, 0, TOKENS, 0)])
    c.check(text[:-1], many)
    run = many[:-1] + [pack(EOF, 0, TOKENS - 1, 0)]          # 16,383 `(` and the end
    c.add(STARTER, 0, 0, b"", run)
    for k in (21, 1, 23):                                    # .. and `)`, a starter, a non-starter
        c.add(STARTER, 0, 0, b"", many[:-1] + [pack(k, 0, 0, 1), pack(EOF, 0, 0, 0)])
    c.add(FUNCTION, 0, 0, b"", [pack(20, 0, 0, 1)] + [pack(83, 0, 0, 1)] * (TOKENS - 4)
          + [pack(1, 0, 0, 1), pack(30, 0, 0, 1), pack(EOF, 0, 0, 0)])


def cursors(c):
    text, words = marks("a << b <= c <<= d < e = f")
    c.everywhere(CURSOR, text, words, (0, 1))
    text, words = marks("a << b <= c <<= d < e = f", (1, 3, 5, 6))
    c.everywhere(CURSOR, text, words, (0, 1))
    for k in range(256):
        for h in (0, 1, 2):
            c.add(CURSOR, 1, h, b"", [pack(1, 0, 3, 4), pack(k, 1, 9, 2)])
            c.add(FUNCTION, 1, h, b"", [pack(1, 0, 3, 4), pack(k, 1, 9, 2)])
    for w in (0, 2 ** 64 - 1, 2 ** 63, 2 ** 32 - 1, 2 ** 49 - 1, word(1, 1, 63, 131071, 2 ** 32 - 1)):
        for i in (0, 1, 2, 3, 2 ** 31, 2 ** 32 - 1):
            for h in (0, 1):
                c.add(CURSOR, i, h, b"", [w, w])
    c.add(CURSOR, 0, 0, b"", [])
    c.add(CURSOR, 0, 1, b"", [])


def fields(c):
    c.add(FIELDS, 0, 0, b"", [])
    c.add(FIELDS, 0, 0, b"", [1 << i for i in range(64)])
    c.add(FIELDS, 0, 0, b"", [2 ** 64 - 1 - (1 << i) for i in range(64)])
    c.add(FIELDS, 0, 0, b"", [word(k, k & 1, k & 63, k * 515 % 131072, k * 16843009) for k in range(256)])
    c.add(FIELDS, 0, 0, b"", [0, 2 ** 64 - 1, 2 ** 32 - 1, 2 ** 32, 2 ** 49 - 1, 2 ** 49, 2 ** 55 - 1, 2 ** 55, 2 ** 56 - 1, 2 ** 56])


def starters(c):
    ends = [")", "...", "this", "A", "any", "out", "public", "1", "2n", "'s'", "`t`", "{", "[", "<", "|", "&", "*", "?", "!",
            "new", "import", "typeof", "void", "null", "true", "false", "- 1", "- 2n", "- A", "-", "- -", "- ( 1", "}", "]",
            ">", "<<", "<=", "<<=", ":", ",", ";", ".", "=>", "=", "+", "extends", "in", "const", "class", "@", "( )", ") =>", ""]
    for n in (0, 1, 2, 5, 40):
        for e in ends:
            text, words = marks("( " * n + e)
            c.add(STARTER, 0, 0, text, words)
            c.add(STARTER, 1, 0, text, words)
    for k in range(256):
        for n in (0, 1):
            c.add(STARTER, 0, 0, b"", [pack(20, 0, 0, 1)] * n + [pack(k, 0, 0, 1), pack(2, 0, 0, 1), 0])
    for e in (["("], ["(", "("], ["-"], ["(", "-"], ["("] * 5):
        words = [pack(FIXED[s], 0, 0, 1) for s in e]        # no end stands there
        for i in range(len(words) + 2):
            c.add(STARTER, i, 0, b"", words)
    c.add(STARTER, 2 ** 32 - 1, 0, b"", [pack(1, 0, 0, 1)])
    c.add(STARTER, 0, 0, b"", [])


def function_starts(c):
    texts = ["< T > ( ) => A", "new ( ) => A", "abstract new ( ) => A", "abstract A", "abstract", "( ) => A", "( ... a : A ) => B",
             "( a : A ) => B", "( a , b ) => B", "( a ? : A ) => B", "( a = 1 ) => B", "( a ) => B", "( a )", "( a ) = B", "( a . b )",
             "( a", "(", "( ( a : A ) => B )", "( this : A ) => B", "( this ) => B", "( this . a )", "( this", "( 1 : A )", "( new ( ) => A )",
             "( [ a ] : A ) => B", "( { a } : A ) => B", "( const : A )", "( in : A )", "( class : A )", "( any : A ) => B", "( as ) => A",
             "( readonly a : A ) => B", "( readonly ) => A", "( readonly : A )", "( readonly readonly : A )", "( readonly this : A )",
             "( readonly string [ ] )", "( readonly ... a )", "( abstract out readonly public a , b )", "( public public public ) => A",
             "( public", "( public public", "( public a", "( public ) =>", "( unique symbol : A )", "( keyof T : A )", "( infer U ? A : B )",
             "( asserts a is B )", "( out , in )", "( public 1 : A )", "( a : ", "( a )", "( a ) =>", "( a ; b )", "( a | b ) => C", "( - 1 )",
             "( ) A", "( ...", "( . . )", "[ a : A ]", "A < T >", "> A", "<< T >", "<= T", "<<= T", "= A", "- 1"]
    for t in texts:
        text, words = marks(t)
        c.everywhere(FUNCTION, text, words, (0, 1))
        for i in range(1, min(len(words), 5)):              # a line break before each of the first tokens
            text, words = marks(t, (i,))
            c.add(FUNCTION, 0, 0, text, words)
            c.add(FUNCTION, 0, 0, text, words[:-1])         # no end stands there
    for first in range(256):
        for second in (K[":"], K[")"], 1):
            c.add(FUNCTION, 0, 0, b"", [pack(20, 0, 0, 1), pack(first, 0, 1, 1), pack(second, 0, 2, 1), pack(35, 0, 3, 2), 0])
    for k in range(256):
        c.add(FUNCTION, 0, 0, b"", [pack(20, 0, 0, 1), pack(1, 0, 1, 1), pack(k, 0, 2, 1), pack(35, 0, 3, 2), 0])
        c.add(FUNCTION, 0, 0, b"", [pack(20, 0, 0, 1), pack(1, 0, 1, 1), pack(21, 0, 2, 1), pack(k, 0, 3, 2), 0])
        c.add(FUNCTION, 0, 0, b"", [pack(20, 0, 0, 1), pack(81, 0, 1, 1), pack(k, 0, 2, 1), pack(30, 0, 3, 2), 0])
        c.add(FUNCTION, 0, 0, b"", [pack(74, 0, 0, 1), pack(k, 0, 1, 1), 0])
    for i in (0, 1, 2 ** 31, 2 ** 32 - 1):
        for h in (0, 1):
            c.add(FUNCTION, i, h, b"", [])


def mapped_starts(c):
    texts = ["{ [ K in T ] : A }", "{ readonly [ K in T ] : A }", "{ + readonly [ K in T ] : A }", "{ - readonly [ K in T ] : A }",
             "{ + readonly", "{ - readonly a", "{ + [ K in T ]", "{ - [ K in T ]", "{ +", "{ -", "{ + + readonly", "{ readonly readonly [ K in T ]",
             "{ readonly + [ K in T ]", "{ readonly", "{ readonly [", "{ readonly [ K", "{ readonly [ K in", "{ readonly K in T", "{ [",
             "{ [ K", "{ [ K in", "{ [ K : in ]", "{ [ 1 in T ]", "{ [ [ in T ]", "{ [ ] in T", "{ K in T }", "{ any in T }", "{ in in T }",
             "{ const in T }", "{ class in T }", "{ 1 in T }", "{ 's' in T }", "{ ( in T }", "{ { in T }", "{ in }", "{ ? in T }", "{ readonly 1 in T }",
             "{ readonly in T }", "{ readonly in in }", "{ a : A }", "{ }", "{", "", "A", "{ [ in", "{ [ in in", "{ } in", "{ } in in", "{ ; in"]
    for t in texts:
        text, words = marks(t)
        c.everywhere(MAPPED, text, words)
        for n in range(len(words)):                         # cut at each word, with no end there
            c.add(MAPPED, 0, 0, text, words[:n])
    for k in range(256):
        for rest in ([99], [18, 1, 99], [1, 99], [k, 99]):
            c.add(MAPPED, 0, 0, b"", [pack(16, 0, 0, 1), pack(k, 0, 1, 1)] + [pack(x, 0, 2, 1) for x in rest] + [0])
            c.add(MAPPED, 0, 0, b"", [pack(k, 0, 1, 1)] + [pack(x, 0, 2, 1) for x in rest] + [0])
        c.add(MAPPED, 0, 0, b"", [pack(16, 0, 0, 1), pack(18, 0, 1, 1), pack(k, 0, 2, 1), pack(99, 0, 3, 2), 0])
        c.add(MAPPED, 0, 0, b"", [pack(16, 0, 0, 1), pack(18, 0, 1, 1), pack(1, 0, 2, 1), pack(k, 0, 3, 2), 0])
    c.add(MAPPED, 2 ** 32 - 1, 0, b"", [pack(16, 0, 0, 1)])
    c.add(MAPPED, 0, 0, b"", [])


SAMPLES = list(model.ROWS) + [
    "{ readonly [K in keyof T as `get${K & string}`]-?: T[K] }", "abstract new (...args: any[]) => object",
    "<const T extends readonly unknown[] = []>(this: void, a?: T) => asserts a is string", "typeof import('x').y<A, B>",
    "unique symbol | -1 | 2n | 'a' | true | null", "A<B<C<D>>>", "A<<T>(x: T) => T, B<<=C", "(public readonly x: A, y?) => x is B",
    "[a: A, b?: B, ...c: C[]]", "asserts this is T", "keyof typeof x[number]['y']!", "`a${A}b${B}c`", "(\n  | A\n  | B\n)[]"]


def samples(c):
    """Real types, and a few of each with one word or byte changed."""
    chance = random.Random(1)
    for s in SAMPLES:
        text, words = s.encode(), model.cut(s)
        c.check(text, words)
        for op in (STARTER, FUNCTION, MAPPED, CURSOR):
            c.everywhere(op, text, words, (0, 1) if op in (FUNCTION, CURSOR) else (0,))
        for _ in range(20):
            w = list(words)
            i = chance.randrange(len(w))
            w[i] ^= 1 << chance.randrange(64)
            c.check(text, w, chance.randrange(len(w) + 1))
            t = bytearray(text)
            t[chance.randrange(len(t))] = chance.randrange(256)
            c.check(bytes(t), words)


def cases():
    c = Cases()
    for part in (kinds, spellings, guesses, places, two_at_once, cursors, fields, starters, function_starts, mapped_starts, samples, limits):
        part(c)
    return c


def root():
    d = os.getcwd()
    while not os.path.exists(os.path.join(d, "crates.txt")):
        up = os.path.dirname(d)
        if up == d:
            sys.exit("no crates.txt here or above")
        d = up
    return d


def written(crate, data, lines, said=None):
    """Writes a program's records and the lines that it must print, or with --check says whether they are so."""
    told = "".join(x + "\n" for x in lines).encode()
    folder = os.path.join(root(), "crates", crate)
    both = [(os.path.join(folder, "data", "vectors"), data), (os.path.join(folder, "stdout"), told)]
    if sys.argv[1:] == ["--check"]:
        for name, content in both:
            if not os.path.exists(name) or open(name, "rb").read() != content:
                sys.exit("not as it would be written: " + os.path.relpath(name, root()))
    elif sys.argv[1:]:
        sys.exit(sys.modules["__main__"].__doc__)
    else:
        os.makedirs(os.path.join(folder, "data"), exist_ok=True)
        for name, content in both:
            with open(name, "wb") as f:
                f.write(content)
    print(said or "%d records and a cut one, %d bytes, %d bytes of lines" % (len(lines) - 1, len(data), len(told)))


def main():
    c = cases()
    data = b"".join(record(*x) for x in c) + record(CHECK, 0, 0, b"x", [0])[:-1]      # the last record is cut
    written("words_run", data, [line(*x) for x in c] + ["cut"])


if __name__ == "__main__":
    main()
