"""What rules_vectors.py and compare_rules.py share: what the two open calls come to by model.py, as twelve numbers; a
record of the program rows; and generated texts.

A case is a sort, a text, its token words, a start, preserve_parens and what is lent: words for nodes, names and
diagnostics, and bytes for the key. Or it is a sort, a key and what is lent: words for nodes and names, bytes for letters.

The twelve numbers: 0, the counts of nodes, names, diagnostics and bytes of key, the end's token and half, and the type rules entered; or a refusal's
number, token, half and byte, and four zeros; then a sum over each of the four lent slices, whole. For a key: 0 and the
counts of nodes, names and letters, or a refusal's number and bit; zeros up to eight numbers; then a sum over each of the
three lent slices, and 0. A record: one byte, 4 for a key or 1 for preserve_parens, plus 2 to see all that is lent where
it differs; the start, the lengths of text and token words, the words lent for nodes, names and diagnostics, the bytes
lent for the key or its length, the bytes lent for letters, the twelve numbers; the text and the token words, or the key.
"""
import collections
import random
import struct
import sys

import keys_model
import model as m
from keys_vectors import sum_bytes, sum_words

sys.setrecursionlimit(100000)

WIDE = 65552, 16385, 212, 262146                            # nodes and names for all tokens, all diagnostics, any key; and more


# ---- the model, with the half and the byte of a refusal and the start of a spelling
class Spelled(bytes):
    start = 0


class Text(bytes):
    def __getitem__(self, x):
        r = bytes.__getitem__(self, x)
        if isinstance(x, slice):
            r = Spelled(r)
            r.start = x.start or 0
        return r


class Reading(m.Reading):
    def refuse(r, number):
        raise m.Refused(number, r.i, r.half, r.first())


# ---- what the store holds of a tree (keys' Store): runs in key order, records in postorder, names in key order
def choice(w, k): return [('c', w, k)]
def kid(t): return [('k', t)]
def opt(x, f): return choice(1, 0) if x is None else choice(1, 1) + f(x)
def many(l): return choice(12, len(l)) + [('k', t) for t in l]
def name(s): return [('n', s)]
def spells(l): return choice(12, len(l)) + [('n', s) for s in l]
def bit(x): return choice(1, 1 if x else 0)


ROWS = {
    2: lambda f: choice(4, f['which']),
    3: lambda f: choice(3, f['which']) + ([] if f['s'] is None else name(f['s'])),
    8: lambda f: kid(f['t']) + kid(f['x']),
    9: lambda f: [('k', x) for x in f['four']],
    10: lambda f: name(f['name']) + opt(f['x'], kid),
    11: lambda f: choice(2, f['which']) + kid(f['t']),
    12: lambda f: opt(f['params'], many) + opt(f['this'], lambda p: opt(p[0], kid)) + many(f['list']) + kid(f['ret']),
    13: lambda f: bit(f['abstract']) + opt(f['params'], many) + many(f['list']) + kid(f['ret']),
    14: lambda f: choice(2, f['ro']) + name(f['key']) + kid(f['c']) + opt(f['n'], kid) + choice(2, f['q']) + opt(f['t'], kid),
    15: lambda f: choice(12, len(f['ts'])) + name(f['ss'][0]) + [x for a, s in zip(f['ts'], f['ss'][1:]) for x in kid(a) + name(s)],
    16: lambda f: bit(f['asserts']) + (choice(1, 1) if f['name'] is None else choice(1, 0) + name(f['name'])) + opt(f['t'], kid),
    18: lambda f: bit(f['typeof']) + name(f['s']) + spells(f['names']) + opt(f['args'], many),
    22: lambda f: name(f['name']) + bit(f['q']) + kid(f['t']),
}
for t in (1, 17): ROWS[t] = lambda f: spells(f['names']) + opt(f['args'], many)
for t in (4, 7, 20, 21, 23, 24): ROWS[t] = lambda f: kid(f['t'])
for t in (5, 6, 19, 25): ROWS[t] = lambda f: many(f['list'])


def signed(f, this): return opt(f['params'], many) + (opt(f['this'], lambda p: opt(p[0], kid)) if this else []) + many(f['list']) + opt(f['ret'], kid)
def key(k): return choice(2, k[0]) + name(k[1])


MEMBERS = (
    lambda f: bit(f['readonly']) + key(f['key']) + bit(f['q']) + opt(f['t'], kid),
    lambda f: key(f['key']) + bit(f['q']) + signed(f, True),
    lambda f: signed(f, True),
    lambda f: signed(f, False),
    lambda f: bit(f['readonly']) + opt(f['par'], lambda p: name(p[0]) + kid(p[1])) + kid(f['t']),
)


def run_of(n):
    f = n.f
    if n.tag == 'member': return choice(3, f['sort']) + MEMBERS[f['sort']](f)
    if n.tag == 'type parameter': return name(f['name']) + opt(f['x'], kid) + opt(f['d'], kid)
    if n.tag == 'parameter': return bit(f['rest']) + name(f['name']) + bit(f['q']) + opt(f['t'], kid)
    return choice(6, n.tag) + ROWS[n.tag](f)


TAGS = collections.Counter()


def store(root):
    """The node words and the name words of a tree."""
    nodes, names = [], []

    def lay(n):                                             # gives the node's number
        TAGS[n.tag] += 1
        mine, shift, first, last, named = 0, 0, 0, None, len(names)
        for x in run_of(n):
            if x[0] == 'c':
                mine += x[2] << shift
                shift += x[1]
            elif x[0] == 'n':
                names.append(x[1].start << 32 | len(x[1]))
            else:
                k = lay(x[1])
                if last is None: first = k
                else: nodes[4 * last + 3] = k
                last = k
        nodes.extend((mine, n.b | n.e << 32, first | named << 32, 0))
        return len(nodes) // 4 - 1
    lay(root)
    return nodes, names


def read(text, words, start, parens, lent):
    """What the call comes to: the answer, and what of each slice is used."""
    def no(*refusal): return refusal, [], [], [], b''
    if len(text) > m.TEXT or len(words) > m.TOKENS or not words or start >= len(words): return no(1, 0, 0, 0)
    for i in range(len(words)):
        if m.bad(text, words, i): return no(2, i, 0, 0)
    r = Reading(Text(text), words, start, parens, lent[0] // 4, lent[2] // m.RECORD)
    try: t = r.type(True)
    except m.Refused as x: return no(*x.args)
    nodes, names = store(t)
    key = m.key_of(t)
    assert len(nodes) == 4 * r.live
    if len(names) > lent[1] or len(key) > lent[3] or len(key) > m.KEY: return no(11, 0, 0, 0)
    return (0, r.live, len(names), len(r.notes), len(key), r.i, r.half, r.entered), nodes, names, [w for n in r.notes for w in n], key


def take_back(key, lent):
    """The same of a key that is taken back."""
    x = keys_model.take_back(key, lent[0] // 4, *lent[1:])
    if x[0] == 'refused': return x[1:], [], [], b''
    nodes, names, letters = keys_model.store(x[1])
    return (0, x[3], x[4], len(x[2])), nodes, names, letters


def called(case):
    """What the case's call comes to."""
    return take_back(*case[1:]) if len(case) == 3 else read(*case[1:])


def expected(case):
    """The twelve numbers: the answer, filled with zeros, and a sum over each lent slice."""
    x, lent = called(case), case[-1]
    sums = [sum_words(u, n, 1) for u, n in zip(x[1:-1], lent)] + [sum_bytes(x[-1], lent[-1], 1)]
    return x[0] + (0,) * (8 - len(x[0])) + tuple(sums) + (0,) * (4 - len(sums))


def record(case, want, all_words=False):
    if len(case) == 3:
        sort, key, (nodes, names, letters) = case
        return struct.pack('<B20I', 4 + 2 * all_words, 0, 0, 0, nodes, names, 0, len(key), letters, *want) + key
    sort, text, words, start, parens, lent = case
    return (struct.pack('<B20I', parens + 2 * all_words, start, len(text), len(words), *lent, len(text), *want)
            + text + struct.pack('<%dQ' % len(words), *words))


# ---- texts
def keyofs(n):
    """As many keyof as a text has bytes for: no space between them."""
    return 'keyof' * n + 'A', [m.pack(m.K['keyof'], 0, 5 * i, 5) for i in range(n)] + [m.pack(1, 0, 5 * n, 1), m.pack(0, 0, 5 * n + 1, 0)]


class Maker:
    """Sound texts from a grammar."""
    def __init__(g, chance): g.r, g.pick = chance, lambda *l: chance.choice(l)
    def line(g): return g.pick('', '', '', '', ' ', '\n')
    def many(g, f, least=0, most=3):
        l = [f() for _ in range(g.r.randint(least, most))]
        return ', '.join(l) + (g.pick('', '', ',') if l else '')
    def one(g, *l):
        x = g.r.choice(l)
        return x() if callable(x) else x
    def params(g, d):
        l = [g.pick('a', 'b', 'as', 'out') + g.pick('', '', '?') + g.one('', lambda: ': ' + g.type(d)) for _ in range(g.r.choice((0, 0, 1, 1, 2, 3)))]
        if l and g.r.random() < 0.2: l[-1] = '...' + l[-1]
        if g.r.random() < 0.3: l = ['this' + g.one('', lambda: ': ' + g.type(d))] + l
        return '(' + ', '.join(l) + (',' if l and '...' not in l[-1] and g.r.random() < 0.1 else '') + ')'
    def type_param(g, d):
        return g.pick('T', 'U', 'string', 'out') + g.one('', '', lambda: ' extends ' + g.type(d)) + g.one('', '', lambda: ' = ' + g.type(d))
    def function(g, d):
        return (g.pick('', '', 'new ', 'abstract new ') + g.one('', '', lambda: '<' + g.many(lambda: g.type_param(d), 0, 2) + '>') + g.params(d)
                + ' => ' + g.pick('', '', '', 'x is ', 'this is ', 'class is ', 'asserts is ') + g.type(d))
    def element(g, d):
        return g.pick('', '', '', '', '...') + g.pick('', '', 'a: ', 'a?: ', 'class: ', 'a: ...', 'a?: ...') + g.type(d) + g.pick('', '', '?')
    def tuple(g, d): return '[' + g.many(lambda: g.element(g.pick(-1, 0, d - 1)), 0, g.pick(3, 6)) + ']'
    def mapped(g, d):
        t = lambda: g.type(d - 1)
        return ('{ ' + g.pick('', 'readonly ', '+readonly ', '-readonly ') + '[K in ' + t() + g.one('', lambda: ' as ' + t()) + ']' + g.pick('', '?', '+?', '-?')
                + g.one('', lambda: ': ' + t()) + g.pick('', ';') + ' }')
    def arguments(g, d): return '<' + g.many(lambda: g.type(d), 0, 2) + '>'
    def primary(g, d):
        leaf = lambda: g.pick('A', 'B', 'string', 'null', 'this', '1', "'s'", '-2n', 'true', 'x.y', 'void', '`t`', 'any.b', 'undefined', 'is', 'Abc.de.f', 'false', '-1')
        if d <= 0: return leaf()
        t = lambda: g.type(d - 1)
        return g.one(
            leaf, leaf, lambda: 'A' + g.arguments(d - 1), lambda: 'x.y' + g.arguments(d - 1), lambda: '(' + t() + ')', lambda: g.tuple(d), lambda: g.tuple(d), lambda: g.mapped(d),
            lambda: 'typeof a.b' + g.one('', lambda: g.arguments(d - 1)),
            lambda: g.pick('', 'typeof ') + 'import("m")' + g.pick('', '.a', '.a.class') + g.one('', lambda: g.arguments(d - 1)),
            lambda: '`a${' + t() + '}b' + g.one('', lambda: '${' + t() + '}') + '`',
            lambda: 'asserts ' + g.pick('x', 'this') + g.one('', lambda: ' is ' + t()), lambda: 'this is ' + t(), lambda: 'A<<T>() => ' + t() + '>')
    def postfix(g, d):
        x = g.primary(d)
        for _ in range(g.pick(0, 0, 0, 1, 1, 2)): x += g.line() + g.one('[]', '!', '?', lambda: '[' + g.type(d - 1) + ']')
        return x
    def operator(g, d):
        return g.pick('', '', '', '', '', 'keyof ', 'unique ', 'readonly ', 'keyof readonly ') + g.one(
            lambda: g.postfix(d), lambda: g.postfix(d), lambda: g.postfix(d), lambda: 'infer U' + g.one('', lambda: ' extends ' + g.type(d - 1)))
    def intersection(g, d): return g.pick('', '', '', '& ') + ' & '.join(g.operator(d) for _ in range(g.pick(1, 1, 1, 2)))
    def union(g, d): return g.pick('', '', '', '| ') + ' | '.join(g.intersection(d) for _ in range(g.pick(1, 1, 1, 2)))
    def type(g, d):
        if d < 0: return g.pick('A', 'B', 'any')
        x = g.r.random()
        if x < 0.2: return g.function(d - 1)
        if x < 0.32: return g.union(d - 1) + g.line() + ' extends ' + g.type(d - 1) + ' ? ' + g.type(d - 1) + ' : ' + g.type(d - 1)
        return g.union(d)
    def sound(g, most):
        while True:
            x, d = g.r.random(), g.pick(1, 1, 2, 2, 3)
            t = g.tuple(d) if x < 0.12 else g.mapped(d) if x < 0.18 else g.function(d) if x < 0.25 else g.type(d)
            if len(t) <= most: return t


class ObjectMaker(Maker):
    """The same with object types among them."""
    def key(g): return g.pick('a', 'b', 'get', 'set', 'new', 'in', 'class', 'readonly', 'static', 'string', "'k'", '1')
    def signature(g, d):
        return (g.one('', '', lambda: '<' + g.many(lambda: g.type_param(d), 0, 2) + '>') + g.params(d)
                + g.one('', lambda: ': ' + g.pick('', '', 'x is ', 'this is ', 'asserts ') + g.type(d)))
    def index(g, d):
        one = lambda: g.pick('k', 'i', 'as') + g.pick('', '', '', '?') + ': ' + g.one('string', 'number', 'null', "'x'", '`t`', lambda: g.type(d))
        l = [one() for _ in range(g.pick(1, 1, 1, 1, 0, 2, 3))]
        return '[' + ', '.join(l) + (g.pick('', '', ',') if l else '') + ']: ' + g.type(d)
    def member(g, d):
        return g.one(
            lambda: g.pick('', '', 'readonly ') + g.key() + g.pick('', '', '?') + g.one('', lambda: ': ' + g.type(d)),
            lambda: g.pick('', '', 'readonly ') + g.key() + g.pick('', '', '?') + g.one('', lambda: ': ' + g.type(d)),
            lambda: g.pick('', '', '', 'readonly ') + g.key() + g.pick('', '', '?') + g.line() + g.signature(d), lambda: g.signature(d), lambda: 'new' + g.pick(' ', '\n', '') + g.signature(d),
            lambda: g.pick('', '', 'readonly ') + g.index(d))
    def object(g, d):
        l = [g.member(d - 1) for _ in range(g.pick(0, 1, 1, 2, 2, 3))]
        return '{ ' + ''.join(x + g.pick('; ', ';', ', ', ',', '\n', '\n; ') for x in l[:-1]) + (l[-1] + g.pick('', '', ';', ',', '\n') if l else '') + ' }'
    def primary(g, d):
        if d > 0 and g.r.random() < 0.3: return g.object(d)
        return Maker.primary(g, d)
    def sound(g, most):
        while True:
            t = g.object(g.pick(1, 2, 2, 3)) if g.r.random() < 0.6 else g.type(g.pick(1, 2, 2, 3))
            if len(t) <= most: return t


class FormMaker(ObjectMaker):
    """The same with reserved names that are bound, and now and then a form that is not read."""
    def rare(g, *l): return g.r.choice(l) if g.r.random() < 0.04 else ''
    def param(g, d):
        return (g.rare('readonly ', 'public ', 'abstract ', '...') + g.pick('a', 'b', 'as', 'out', *(('this',) if g.r.random() < 0.08 else ())) + g.pick('', '', '?')
                + g.one('', lambda: ': ' + g.type(d)) + g.rare(' = b', '= 1'))
    def params(g, d):
        l = [g.param(d) for _ in range(g.pick(0, 1, 1, 2, 3))]
        if l and g.r.random() < 0.2: l[g.pick(-1, -1, 0)] = '...' + g.pick('a', 'b', 'this') + g.one('', lambda: ': ' + g.type(d))
        if g.r.random() < 0.3: l = ['this' + g.one('', lambda: ': ' + g.type(d)) + g.rare(' = A')] + l
        return '(' + ', '.join(l) + g.pick('', '', '', '', ',') + ')'
    def type_param(g, d): return g.rare('const ', 'in ', 'out ') + g.pick('T', 'U', 'string', 'never', 'out') + ObjectMaker.type_param(g, d).lstrip('TUstringout')
    def member(g, d): return g.rare('get ', 'set ', 'static ', 'out ', '[a]', "['k']: B; ") + ObjectMaker.member(g, d)
    def primary(g, d):
        x = g.r.random()
        if x < 0.02: return g.pick('? ', '! ', '* ') + ObjectMaker.primary(g, d)
        if x < 0.06 and d > 0: return 'import(' + g.one('A', '"m", {}', '"m",', '`m`', lambda: g.type(d - 1)) + ')'
        return ObjectMaker.primary(g, d)
    def operator(g, d):
        return g.pick('', '', '', 'keyof ') + 'infer ' + g.pick('U', 'any', 'string', 'unknown', 'is') + g.one('', lambda: g.line() + ' extends ' + g.type(d - 1)) if g.r.random() < 0.15 else ObjectMaker.operator(g, d)


class TupleMaker(ObjectMaker):
    """Tuples, with optional elements among required ones and rests."""
    def element(g, d):
        return g.pick('', '', '', '', '...') + g.pick('', '', '', 'a: ', 'a?: ', 'a?: ', 'a: ...') + g.type(g.pick(-1, -1, d)) + g.pick('', '', '?')
    def sound(g, most):
        while True:
            t = g.tuple(g.pick(1, 2, 2, 3))
            if len(t) <= most: return t


class TrialMaker(ObjectMaker):
    """Constraints of infer, one in the other and side by side: in brackets, tuples, arguments, templates and members, with line
    breaks where they tell; kept, or dropped at a `?`."""
    def gap(g): return g.pick(' ', ' ', ' ', ' ', '\n')
    def bound(g, d): return 'infer ' + g.pick('U', 'V', 'any') + (g.gap() if g.r.random() < 0.3 else ' ') + 'extends' + g.gap() + g.inner(d)
    def inner(g, d): return g.one(*(lambda: g.around(d),) * 8, lambda: g.bound(d - 1), lambda: g.type(1), 'B') if d > 0 else g.pick('A', 'B', 'number')
    def branches(g, d): return g.gap() + '?' + g.gap() + g.part(d) + g.gap() + ':' + g.gap() + g.part(d)
    def part(g, d): return g.pick('X', 'Y', 'Z') if d <= 0 or g.r.random() < 0.7 else g.tried(d - 2)
    def tried(g, d): return g.bound(d) + g.one('', '', *(lambda: g.branches(d),) * 3) if g.r.random() < 0.85 else g.one('infer U', lambda: g.inner(d))
    def some(g, d): return ', '.join(g.tried(d - (0 if i == 0 else 2)) for i in range(g.pick(1, 1, 1, 2, 3)))
    def keys(g): return ''.join(g.gap() + g.pick('extends', 'B', 'infer', 'V', 'keyof', "'k'", '1', '?', ':', '()', '[', ']', ';') for _ in range(g.r.randint(1, 7)))
    def around(g, d):
        return g.one(
            *(lambda: '(' + g.tried(d - 1) + ')',) * 3, lambda: '[' + g.some(d - 1) + ']', lambda: 'A<' + g.some(d - 1) + '>', lambda: '`a${' + g.tried(d - 1) + '}b`', lambda: 'A[' + g.tried(d - 1) + ']',
            lambda: '{ a: ' + g.tried(d - 1) + g.pick('', ';', '\nb: C') + ' }', lambda: '{ m(x: ' + g.tried(d - 1) + '): B }', lambda: '{ [K in A]: ' + g.tried(d - 1) + ' }',
            lambda: '((a: ' + g.tried(d - 1) + ') => B)', lambda: '{ a: infer U' + g.gap() + 'extends' + g.keys() + ' }')
    def sound(g, most):
        while True:
            t = g.one(*(lambda: g.around(g.pick(2, 4, 6, 8)),) * 2, lambda: g.tried(g.pick(2, 4, 6, 8)))
            if len(t) <= 3 * most: return t


TOKENS = "A B x string null this 1 2n 's' `t` `h${ }m${ }t` { } [ ] ( ) < > << <= <<= | & ? : , ; . ... => = ! - + * @ any abstract as asserts infer is keyof out readonly unique public extends false import in new true typeof void const class".split()


def damaged(r, t):
    w = m.cut(t)
    l = [t[m.unpack(x)[4]:m.unpack(x)[4] + m.unpack(x)[3]] for x in w[:-1]]
    for _ in range(r.choice((1, 1, 2))):
        i, x = r.randrange(len(l) + 1), r.random()
        if x < 0.35: l[i:i + 1] = []
        elif x < 0.6: l.insert(i, r.choice(TOKENS))
        elif x < 0.8: l[i:i + 1] = [r.choice(TOKENS)]
        elif l:
            j, i = r.randrange(len(l)), min(i, len(l) - 1)
            l[i], l[j] = l[j], l[i]
    return ''.join(x + r.choice((' ', ' ', ' ', '\n')) for x in l)


class Cases:
    def __init__(c, seed, maker=Maker): c.r, c.k = random.Random(seed), random.Random(seed); c.g = maker(c.r)

    def lent(c, need):
        """Words to be lent: about what is needed, mostly more, at times less."""
        x = c.r.random()
        if x < 0.7: return tuple(n + c.r.randrange(9) for n in need)
        if x < 0.75: return need
        l = list(need)
        j = c.r.randrange(3)
        l[j] = max(0, l[j] - c.r.choice((1, 3, 4, 8, l[j], c.r.randrange(1 + l[j]))))
        return tuple(l)

    def key_room(c, t, words, start, parens):
        """Bytes to be lent for a key: mostly more than it takes, at times just that, one more or less, or few."""
        x, ample = c.k.random(), len(t) + 4 * len(words) + c.k.randrange(9)
        if x < 0.8: return ample
        if x < 0.9: return max(0, len(read(t, words, start, parens, WIDE)[4]) + c.k.choice((-1, -1, 0, 0, 1, 3)))
        return c.k.choice((0, 1, 2, 3, 5, c.k.randrange(ample)))

    def case(c, sort, text, words=None, start=0, parens=None, lent=None):
        """What is lent may be left out whole, or for the key alone."""
        t = text.encode('latin1') if isinstance(text, str) else text
        if words is None:
            try: words = m.cut(text)
            except IndexError: return None                  # a template that does not end
        if parens is None: parens = c.r.random() < 0.5
        if lent is None:                                    # a node, a name and two notes for each two tokens are enough
            n = min(len(words), 60)
            lent = c.lent((4 * n, n, m.RECORD * min(n // 3 + 1, 34)))
        if len(lent) == 3: lent += (c.key_room(t, words, start, parens),)
        return sort, t, words, start, parens, lent

    def badly(c, t):
        """Token lists that the check refuses, or just takes."""
        r, b, w = c.r, t.encode('latin1'), m.cut(t)
        i, x = r.randrange(len(w)), r.randrange(11)
        k, n, z, l, s = m.unpack(w[i])
        if x == 9: return c.case('check', b, w[:-1])
        if x == 10: return c.case('check', b, w, r.choice((len(w), len(w) + 1, len(w) - 1)))
        w[i] = {0: m.pack(r.choice((9, 15, 42, 84, 95, 108, 255)), n, s, l), 1: w[i] | 1 << 49 + r.randrange(6), 2: m.pack(k, n, s + 1, l), 3: m.pack(k, n, s, l + 1), 4: m.pack(k, n, max(0, s - 1), l),
                5: m.pack(0, n, s, 0), 6: m.pack(k, n, s, 0), 7: m.pack(r.choice((1, 2, 4, 41, 83, 107)), n, s, l), 8: m.pack(r.choice((16, 29, 64, 77, 96, 102)), n, s, l)}[x]
        return c.case('check', b, w)

    def generated(c, count):
        """Sound texts, and beside each one that is damaged, read from another start, with other rooms, or no sound list."""
        for _ in range(0, count, 2):
            t = c.g.sound(c.r.choice((20, 40, 60, 100, 200)))
            x = c.r.random()
            yield c.case('sound', t)
            if x < 0.6: other = c.case('damaged', damaged(c.r, t))
            elif x < 0.75: other = c.case('starts', t, None, c.r.randrange(len(m.cut(t))))
            elif x < 0.9: other = c.case('rooms', t, None, 0, None, (4 * c.r.randrange(12) + c.r.randrange(4), c.r.randrange(12), c.r.randrange(12)))
            else: other = c.badly(t)
            if other: yield other
