"""What differs between two keys, as a model beside the product: the node table as forms, a key's values with their first
bits, and the pairs by definition. Refusals are those of the model's take-back with room enough.

A form is None (never), ONE, WORD, ("choose", width, number -> form), ("both", f, g) or ("child", class). A value is
(kind, first bit, ...): ("one",), ("word", bytes), ("choice", number, value), ("pair", value, value), ("node", tag, value).
"""
from keys_model import take_back
from model import KEY, bits, spell

ONE, WORD = ("one",), ("word",)
TYPE, ELEMENT, UNDER_REST, UNDER_NAME, TYPE_PARAMETER, PARAMETER = (("child", c) for c in range(6))
LEFT, RIGHT, MANY = 1, 2, 29


def choose(w, f):
    return "choose", w, f


def listed(*fs):
    return lambda k: fs[k] if k < len(fs) else None


def below(w, n):
    return choose(w, lambda k: ONE if k < n else None)


def row(*fs):
    return fs[0] if len(fs) == 1 else ("both", fs[0], row(*fs[1:])) if fs else ONE


def opt(f):
    return choose(1, listed(ONE, f))


def many(least, f):
    return choose(12, lambda n: row(*[f] * n) if n >= least else None)


FLAG, ARGS = choose(1, lambda k: ONE), many(0, TYPE)
SUBJECT = choose(1, listed(WORD, ONE))
SHARED = {
    1: row(many(1, WORD), opt(ARGS)), 2: below(4, 13), 3: choose(3, listed(WORD, WORD, WORD, ONE, ONE, WORD, WORD)),
    4: TYPE, 5: many(1, TYPE), 6: many(1, TYPE), 7: TYPE, 8: row(TYPE, TYPE), 9: row(TYPE, TYPE, TYPE, TYPE),
    10: row(WORD, opt(TYPE)), 11: row(below(2, 3), TYPE),
    12: row(opt(many(0, TYPE_PARAMETER)), opt(opt(TYPE)), many(0, PARAMETER), TYPE),
    13: row(FLAG, opt(many(0, TYPE_PARAMETER)), many(0, PARAMETER), TYPE),
    14: row(below(2, 4), WORD, TYPE, opt(TYPE), below(2, 4), opt(TYPE)),
    15: choose(12, lambda n: row(WORD, *[TYPE, WORD] * n)),
    16: choose(1, listed(row(SUBJECT, choose(1, listed(None, TYPE))), row(SUBJECT, opt(TYPE)))),
    17: row(many(1, WORD), opt(ARGS)), 18: row(FLAG, WORD, many(0, WORD), opt(ARGS)), 19: many(0, ELEMENT),
    23: TYPE, 24: TYPE}
NAMED = row(WORD, FLAG, UNDER_NAME)
ROWS = (SHARED, {**SHARED, 20: TYPE, 21: UNDER_REST, 22: NAMED}, {**SHARED, 22: NAMED}, {**SHARED, 20: TYPE, 21: UNDER_REST},
        {0: row(WORD, opt(TYPE), opt(TYPE))}, {0: row(FLAG, WORD, FLAG, opt(TYPE))})
TAG = 6, 6, 6, 6, 0, 0


def number(s, at, w):
    return int(s[at:at + w], 2) if w else 0


def value(s, f, at):
    """The value of a form from a bit of a sound key on, and the bit behind it."""
    if f == ONE:
        return ("one", at), at
    if f == WORD:
        n = number(s, at, 16)
        return ("word", at, s[at + 16:at + 16 + 8 * n]), at + 16 + 8 * n
    if f[0] == "choose":
        k = number(s, at, f[1])
        v, end = value(s, f[2](k), at + f[1])
        return ("choice", at, k, v), end
    if f[0] == "both":
        v, end = value(s, f[1], at)
        w, end = value(s, f[2], end)
        return ("pair", at, v, w), end
    t = number(s, at, TAG[f[1]])
    v, end = value(s, ROWS[f[1]][t], at + TAG[f[1]])
    return ("node", at, t, v), end


def own(v):
    """A node's own choices behind its tag."""
    if v[0] == "choice":
        return [v[2]] + own(v[3])
    return own(v[2]) + own(v[3]) if v[0] == "pair" else []


def differences(v, w):
    if v[0] == "one":
        return []
    if v[0] == "word":
        return [] if v[2] == w[2] else [(v[1], w[1])]
    if v[0] == "choice":
        return differences(v[3], w[3])
    if v[0] == "pair":
        return differences(v[2], w[2]) + differences(v[3], w[3])
    if (v[2], own(v[3])) != (w[2], own(w[3])):
        return [(v[1], w[1])]
    return differences(v[3], w[3])


def refusal(key):
    """None where it is a key, else number and bit."""
    x = take_back(key, 8 * len(key), 8 * len(key), len(key))
    return x[1:3] if x[0] == "refused" else None


def pairs(left, right):
    """The pairs; or a refusal's number, side and bit."""
    for side, key in ((LEFT, left), (RIGHT, right)):
        x = refusal(key)
        if x:
            return "refused", x[0], side, x[1]
    s, t = ("".join(bits(c, 8) for c in key) for key in (left, right))
    return "found", differences(value(s, TYPE, 4)[0], value(t, TYPE, 4)[0])


def differ(left, right, words, known=None):
    """The answer and the words of the list: the pairs, or a refusal, 29 where the list is too short."""
    x = known or pairs(left, right)
    if x[0] == "found" and len(x[1]) > words // 2:
        x = "refused", MANY, 0, 0
    list_ = [b for p in x[1] for b in p] if x[0] == "found" else []
    return x, list_ + [0] * (words - len(list_))


# ---- two keys at a time, mostly alike
class Twins:
    def __init__(self, chance):
        self.chance, self.part = chance, 0.1

    def numbers(self, w, f):
        return [k for k in range(min(1 << w, 16 if w < 12 else 4)) if f(k) is not None]

    def tag(self, c, deep):
        return self.chance.choice([1, 2, 3] if deep <= 0 and c < 4 else sorted(ROWS[c]))

    def alone(self, f, deep):
        part, self.part = self.part, 0
        a = self.two(f, deep)[0]
        self.part = part
        return a

    def two(self, f, deep):
        """The bits of two values of a form; here and there they part."""
        apart = self.chance.random() < self.part
        if f == ONE:
            return "", ""
        if f == WORD:
            a = bytes(self.chance.choice(b"abAB") for _ in range(self.chance.choice((1, 1, 2, 3))))
            return spell(a), spell(self.chance.choice((a + b"x", a[:-1] + b"y")) if apart else a)
        if f[0] == "both":
            a, b = self.two(f[1], deep), self.two(f[2], deep)
            return a[0] + b[0], a[1] + b[1]
        if f[0] == "choose":
            ks = self.numbers(f[1], f[2])
            k, h, w, to = self.chance.choice(ks), self.chance.choice(ks), f[1], f[2]
        else:
            c = f[1]
            k, h, w, to, deep = self.tag(c, deep), self.tag(c, deep), TAG[c], ROWS[c].get, deep - 1
        put = lambda n: bits(n, w) if w else ""
        if apart:
            return put(k) + self.alone(to(k), deep), put(h) + self.alone(to(h), deep)
        a, b = self.two(to(k), deep)
        return put(k) + a, put(k) + b


def packed(s):
    """A tree's bits behind the edition, as a key."""
    s = bits(1, 4) + s
    s += "0" * (-len(s) % 8)
    return bytes(int(s[i:i + 8], 2) for i in range(0, len(s), 8))


assert KEY == 262144
