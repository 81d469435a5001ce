#!/usr/bin/env python3
"""Compares the definition `read` of crate rules with the model, input by input.

    refl_rules.py [--count N] [--seed S] [--batch B] [--keep DIR] [--model DIR]

Writes a throw-away crate of lemmas `read INPUT ≡ ANSWER AND CONTENTS`, each proved by refl, the right side being the
model's, and has it checked. Prints how many were checked, by sort. A difference is printed with its text.
"""
import argparse, collections, os, random, re, shutil, subprocess, sys, tempfile, time

here = os.path.dirname(os.path.abspath(__file__))
ap = argparse.ArgumentParser()
ap.add_argument('--count', type=int, default=3000)
ap.add_argument('--seed', type=int, default=1)
ap.add_argument('--batch', type=int, default=100)
ap.add_argument('--keep')
ap.add_argument('--sorts', help='only these sorts of inputs, by name, commas between')
ap.add_argument('--only', help='a file of texts, one to a line, instead of the sorts below')
ap.add_argument('--crates', default=os.path.join(here, '..', 'crates'))
ap.add_argument('--model', default=here)
ap.add_argument('--objects', type=int, metavar='N', help='only object types: the rows of W1, and N generated and damaged texts')
args = ap.parse_args()
sys.setrecursionlimit(20000)
sys.path.insert(0, args.model)
import model as m
import rules_model
import rules_vectors
from rules_model import TAGS

def fill(n, l): return l + [0] * (n - len(l))
def read(text, words, start, parens, lent):
    """The answer in the definitions' order, and all that is lent."""
    x = rules_model.read(text, words, start, parens, lent)
    n, *rest = x[0]
    if n == 0: *rest, key, at, half, entered = rest
    return (('refuses', n, *rest) if n else ('reads', *rest, at, half, key, entered),) + tuple(fill(k, list(u)) for u, k in zip(x[1:], lent))

# ---- inputs
rng = random.Random(args.seed)
cases, seen = [], set()
def add(sort, text, words=None, start=0, parens=False, lent=None):
    t = text.encode('latin1') if isinstance(text, str) else text
    if words is None:
        try: words = m.cut(text)
        except IndexError: return
    wide = (120, 20, 24, 120)
    if lent is None:
        x = read(t, words, start, parens, (4 * 400, 400, 120, 2000))
        lent = wide
        if x[0][0] == 'reads':                             # near what is needed, so that contents stay short
            n, k, c, _, _, d, _ = x[0][1:]
            lent = (4 * n + rng.randrange(9), k + rng.randrange(3), 5 * c + rng.randrange(7), d + rng.randrange(4))
            if rng.random() < 0.5 and n < 12: lent = (4 * 12 + rng.randrange(4), lent[1], 15 + 5 * c, lent[3])
    key = (t, tuple(words), start, parens, lent)
    if key in seen: return
    seen.add(key)
    cases.append((sort, t, words, start, parens, lent))

HAND = r"""A;string[];| A;A | B & C;() => A extends B ? C : D;T extends infer U extends number ? X : Y;(infer U extends number ? X : Y);[A?, ...B[]];[a?: A, B];A<<T>() => T>;A#[B];T extends U ? : V;new (this: A) => B
A# extends B ? C : D;A#extends B ? C : D;A extends B extends C ? D : E ? F : G;A extends B ? C extends D ? E : F : G extends H ? I : J;A extends B#? C : D;A extends B ?;A extends B ? C D
<T>() => A;new () => A;abstract new () => A;abstract;abstract#new () => A;abstract new;()=>A;(...a)=>A;(A);(A?);(A?) => B;(A:;(A,;(A=;(a) => b;(a);(a)#=> b;(readonly A[]);(readonly a: B) => C;(readonly#a: B) => C;(public a) => B;(abstract out a: B) => C;(abstract out#a: B) => C;(this) => A;(this: A) => B;(out) => A;(out: A) => B;(public#: A) => B
abstract new <T>(a: A) => B;new <T>(a) => B;() A;() =>;<T> A;new A;T extends () => A extends B ? C : D ? X : Y;T extends () => infer R extends S ? R : N;T extends (a: A extends B ? C : D) => E ? X : Y
T extends <U extends A extends B ? C : D>() => V ? X : Y;T extends <U extends A>() => V ? X : Y;(this?: A) => B;(...a?: B) => C;(...a: B[]) => C;(a?: B, c) => d;(a,) => b;(a, b,) => c;(,) => a;(a b) => c;(a,,b) => c
() => x is T;() => this is T;() => asserts is T;() => x#is T;() => asserts x is T;() => asserts x;() => typeof is;() => class is T;() => x is y is z;new () => x is T;(this: A) => B;(this, a) => B;(this: A, b: C) => D;(a, this) => B;(a, this: B) => C;(...this) => A;(this = A) => B;(a = b) => c;(a: B = c) => d;(this: A = b) => c;(...a, b) => c;(...a,) => c;(...a) => c;(a, readonly ...b) => c;(a, readonly b) => c;(a, public b: C) => d;({b}: C) => D;([b]: C) => D;(a, {b}) => c;(a, [b]) => c
new (this: A<B, C>) => D;new (this) => A;new (this, a: B) => C;new (this: A<>) => B<>;new (this: A, b) => C;abstract new (this: X) => Y
<T extends A = B>() => C;<string>() => C;<>() => C;<T,>() => A;<,>() => A;<T U>() => A;<T, U extends T>() => A;<T = A>() => B;<const>() => A;<const T>() => A;<in T>() => A;<in>() => A;<out T>() => A;<out>() => A;<out#T>() => A;<out = A>() => B;<out, T>() => A;<class>() => A;<T;<T>;<;A<<>() => B>
& A;A | () => B;A & () => B;A & B & C;| A | B;& A & B;A |;A &;| ;&;A | | B;A & | B;| & A;A | B &;A & B | C & D;(A | B) & C
keyof A[];keyof;keyof keyof A;unique symbol;readonly A[];readonly string[];keyof infer U;unique readonly keyof A;readonly;unique;keyof | A;keyof () => A;(keyof A)[]
infer U;infer;infer class;infer U extends A;infer U extends A ? B : C;(infer U extends number);(infer U#extends number ? X : Y);T extends infer U extends A ? B : C;T extends infer U ? X : Y;T extends (infer U extends A ? B : C) ? X : Y;T extends [infer U extends A] ? X : Y;T extends [infer U extends A ? B : C] ? X : Y;(infer U extends A<> ? X : Y);(infer U extends A<>);[infer U extends A?];[infer U extends A ? ];infer U extends infer V extends A ? B : C;(infer U extends infer V extends A ? B : C);infer any;(infer U extends () => A ? B : C);keyof infer U extends A ? B : C
A!;A?;A ? B;A[B];A[];A[-1];A[- B];A#!;A#?;A#[];A[#];A!!;A?!;A[][];A[B][C];A[B;A[;A[];A?]);A ? ();A ? (;A ? (();A ? ((A;A ? - 5;A ? -5n;A ? - A;A?function;A?const;A?in;A?extends;A?{;A?[;A?<;A?|;A?&;A?*;A??;A?!;A?...;A?new;A?import;A?this;A?typeof;A?void;A?null;A?true;A?false;A?1;A?1n;A?'a';A?`a`;A?`a${B}`;A?=>;A?.;A?,;A[(];A[()];A[((B))];A[function];A?@
any;bigint;boolean;never;null;number;object;string;symbol;this;undefined;unknown;void;string.a;any.b.c;null.a;void.a;this.a;string#.a;string.#a
this is A;this#is A;this is;this;this is this is A;this[];-1;-1n;- 1;- A;-;1;1n;'a';"a";true;false;true.a;'';-'a'
asserts x;asserts x is T;asserts this;asserts#x;asserts;asserts.a;asserts x#is T;asserts is T;asserts is is T;asserts class is T;asserts x[];asserts<A>;asserts x is;asserts[];asserts "a";asserts this is A | B
typeof a;typeof a.b<C>;typeof this.a;typeof this;typeof import("m").a;typeof import("m");typeof;typeof string;typeof class;typeof a#<B>;typeof a.;typeof 1;typeof a[];typeof a.b.c[D]
import("m");import("m").a;import("m").a.b<C>;import("m")<A>;import;import(A);import("m",);import("m", {});import("m";import("m").;import();import "m";import#("m");import("m").class;import('m')#<A>
{};{a: B};{ [K in T]: V };{ [K in T] };{ readonly [K in T]: V };{ +readonly [K in T]: V };{ -readonly [K in T]: V };{ [K in T]?: V };{ [K in T]+?: V };{ [K in T]-?: V };{ [K in T as U]: V };{ [K in T as U]?: V; };{ readonly [K in T]?: V; };{ +readonly [K in T]-?: V };{ -readonly [K in T]+? };{ [K in T]: V;; };{ [K in T]: V, };{ [K in T] V };{ [class in T]: V };{ [string in T]: V };{ "a" in;{ } in;{ [ 5 in;{ a in;{ [K of T]: V };{ [K: T]: V };{ [K in;{;{ +readonly;{ + [K in T]: V };{ readonly K in T };{ readonly readonly in;{ [K in T]+: V };{ [K in T]-: V };{ +;{ [;{ [K;{ [K in T as]: V };{ [K in T]: };{ readonly "a" in
[];[A];[A,];[,];[A,,];[A, B];[A B];[A;[;[a: B];[a?: B];[...A];[...a: B];[...a?: B];[a: ...B];[a: B?];[a?: B?];[...a?: ...B?];[...a: B?];[...A?];[A?];[A?, B];[A?, B, C?];[A?, B?];[A?, ...B, C];[a?: A, b: B];[a?: A, b: B?];[a?: A, ...b: B];[a?: A, ...b?: B];[(A?)];[(A[]?)];[A[]?];[(A[]?), B];[A?, (B)];[A?[]];[class: A];[this: A];[a?];[a ? : B];[a ? b];[a#: B];[... ...A];[...];[a:];[a?:];[a: b: c];[string?: A];["a": B];[a: A, B?, c: C];[A!];[A?!];[readonly A[]?]
(A);((A));(A | B)[];();( );(A;(;(A B);(A) extends B ? C : D;((A)?);[((A))];(A)!;(`a`)
`a`;`a${A}b`;`a${A}b${B}c`;`${A}`;`${A B}`;`${}`;`${A | B}c${D[]}`;`a${A;`a${`b${C}`}`;`${A}`[];`a`.b
A.b;A.b.c;A.class;A.;A.1;A#.b;A.#b;A<B>;A<B, C>;A<B,>;A<>;A<,>;A<B C>;A<B;A<;A#<B>;A.b<C>[];A<B<C> >;A<<T>(a: T) => T, B>;A<=B>;A<<=B>;A<<;A<=;A<<=;A<<T>;A<< T>() => T>;A<B>.c;A.b<<T>() => T>;typeof a<<T>() => T>;import("m")<<T>() => T>;A<<>() => B>;A[B<<T>() => C>];A<(<T>() => B)>
class;const;in;extends;function;@;=;=>;+;>;?;!;*;?A;!A;*A;;;...;...A;:;);];};,;.;A};as;is;out;infer;public;A as B;A is B;keyof as;as.is;out<A>;is[]
T extends U ? X : Y extends Z ? V : W;A extends B ? C : D[];A[] extends B[] ? C[] : D[];A extends keyof B ? C : D;(A extends B ? C : D)[];A extends (B extends C ? D : E) ? F : G;A extends { [K in B]: C } ? D : E;A extends B ? -1 : -2n;A extends `a${infer B}c` ? D : E;A extends [infer B, ...infer C] ? D : E;A extends (...a: infer B) => infer C ? D : E;A<B<>, C<>>;[A<>?, B<>];<>(a: A<>) => B<>"""
for line in HAND.split('\n'):
    for t in line.split(';'):
        if t == '': t = ';'
        for p in (False, True):
            add('hand', t.replace('#', '\n'), parens=p)

# sound texts from a grammar
def pick(*l): return rng.choice(l)
def word(): return pick('A', 'B', 'T', 'x', 'any', 'is', 'out', 'as', 'infer1', 'public', 'keyof1')
def nl(): return pick('', '', '', '', ' ', '\n')
def many_of(f, least=0, most=3):
    l = [f() for _ in range(rng.randint(least, most))]
    return ', '.join(l) + (pick('', '', ',') if l else '')
def param(d):
    return pick('', '', '...') + pick('a', 'b', 'as', 'out') + pick('', '', '?') + pick('', ': ' + typ(d))
def params(d):
    l = [param(d) for _ in range(rng.randint(0, 2))]
    l = [x.replace('...', '') for x in l[:-1]] + l[-1:]
    if rng.random() < 0.3: l = ['this' + pick('', ': ' + typ(d))] + l
    return '(' + ', '.join(l) + ')'
def tparam(d): return pick('T', 'U', 'string', 'out') + pick('', '', ' extends ' + typ(d)) + pick('', '', ' = ' + typ(d))
def func(d):
    r = pick('', pick('x', 'this', 'class') + ' is ') + typ(d)
    return pick('', '', 'new ', 'abstract new ') + pick('', '', '<' + many_of(lambda: tparam(d), 0, 2) + '>') + params(d) + ' => ' + r
def elem(d):
    t = typ(d)
    return pick(t, t, t + '?', '...' + t, 'a: ' + t, 'a?: ' + t, '...a: ' + t, '...a?: ' + t, 'a: ...' + t, 'a: ' + t + '?', 'a?: ...' + t + '?')
def targs(d): return '<' + many_of(lambda: typ(d), 0, 2) + '>'
def prim(d):
    if d <= 0: return pick('A', 'B', 'string', 'null', 'this', '1', "'s'", '-2n', 'true', 'x.y', 'void', '`t`', 'any.b')
    return pick(prim(0), prim(0), lambda: 'A' + targs(d - 1), lambda: 'x.y' + targs(d - 1), lambda: '(' + typ(d - 1) + ')',
                lambda: '[' + many_of(lambda: elem(d - 1)) + ']', lambda: 'typeof a.b' + pick('', targs(d - 1)),
                lambda: pick('', 'typeof ') + 'import("m")' + pick('', '.a', '.a.b') + pick('', targs(d - 1)),
                lambda: '{ ' + pick('', 'readonly ', '+readonly ', '-readonly ') + '[K in ' + typ(d - 1) + pick('', ' as ' + typ(d - 1)) + ']'
                + pick('', '?', '+?', '-?') + pick('', ': ' + typ(d - 1)) + pick('', ';') + ' }',
                lambda: '`a${' + typ(d - 1) + '}b' + pick('', '${' + typ(d - 1) + '}') + '`', lambda: 'asserts ' + pick('x', 'this') + pick('', ' is ' + typ(d - 1)),
                lambda: 'this is ' + typ(d - 1), lambda: 'A<<T>() => ' + typ(d - 1) + '>')
def post(d):
    x = prim(d)
    if callable(x): x = x()
    for _ in range(pick(0, 0, 0, 1, 1, 2)): x += nl() + pick('[]', '!', '?', '[' + typ(d - 1) + ']')
    return x
def oper(d):
    return pick('', '', '', '', 'keyof ', 'unique ', 'readonly ', 'keyof readonly ') + pick(post(d), post(d), post(d), 'infer U' + pick('', ' extends ' + typ(d - 1)))
def inter(d): return pick('', '', '', '& ') + ' & '.join(oper(d) for _ in range(pick(1, 1, 1, 2)))
def uni(d): return pick('', '', '', '| ') + ' | '.join(inter(d) for _ in range(pick(1, 1, 1, 2)))
def typ(d):
    if d < 0: return pick('A', 'B', 'any')
    x = rng.random()
    if x < 0.18: return func(d - 1)
    if x < 0.3: return uni(d - 1) + nl() + ' extends ' + typ(d - 1) + ' ? ' + typ(d - 1) + ' : ' + typ(d - 1)
    return uni(d)
def sound():
    while True:
        t = typ(pick(1, 1, 2))
        if len(t) <= 60: return t

TOKENS = "A B x string null this 1 2n 's' `t` `h${ }m${ }t` { } [ ] ( ) < > << <= <<= | & ? : , ; . ... => = ! - + * @ any abstract as asserts infer is keyof out readonly unique public extends false import in new true typeof void const class".split()
def spaced(t):                                            # the pieces of a text, to be damaged
    w = m.cut(t)
    return [t[m.unpack(x)[4]:m.unpack(x)[4] + m.unpack(x)[3]] for x in w[:-1]]
def damage(t):
    l = spaced(t)
    for _ in range(pick(1, 1, 2)):
        i = rng.randrange(len(l) + 1)
        x = rng.random()
        if x < 0.35: l[i:i + 1] = []
        elif x < 0.6: l.insert(i, pick(*TOKENS))
        elif x < 0.8: l[i:i + 1] = [pick(*TOKENS)]
        elif l: j = rng.randrange(len(l)); i = min(i, len(l) - 1); l[i], l[j] = l[j], l[i]
    return ''.join(x + pick(' ', ' ', ' ', '\n') for x in l)

# every text up to three tokens over a small alphabet
ALPHA = ['A', '(', ')', '[', ']', '?', '|', '<', 'keyof', 'infer', 'extends', 'this']
def short():
    for a in ALPHA:
        add('short', a)
        for b in ALPHA:
            add('short', a + ' ' + b)
            for c in ALPHA: add('short', a + ' ' + b + ' ' + c)
short()

def rooms(t, p):
    w = m.cut(t)
    x = read(t.encode(), w, 0, p, (4 * 400, 400, 120, 2000))
    if x[0][0] != 'reads': return
    n, k, c, _, _, d, _ = x[0][1:]
    full = [4 * n, k, 3 * c, d]
    add('rooms', t, w, 0, p, tuple(full))
    for j, step in ((0, 1), (0, 4), (1, 1), (2, 1), (3, 1)):
        if full[j] >= step:
            l = list(full); l[j] -= step
            add('rooms', t, w, 0, p, tuple(l))
    add('rooms', t, w, 0, p, (4 * rng.randrange(n + 1), rng.randrange(k + 1), 3 * rng.randrange(c + 1), rng.randrange(d + 1)))

# both rooms short at once: which refusal is met first
def orders():
    for line in HAND.split('\n'):
        for t in line.split(';'):
            t = t.replace('#', '\n') or ';'
            try: w = m.cut(t)
            except IndexError: continue
            x = read(t.encode(), w, 0, False, (4 * 400, 400, 120, 2000))
            if x[0][0] != 'reads' or x[0][3] == 0: continue
            n, k, c, _, _, d, _ = x[0][1:]
            for a in range(max(0, n - 3), n + 2):
                for b in range(max(0, c - 2), c + 1): add('orders', t, w, 0, False, (4 * a, k, 3 * b, d))

# at the limits and one past them
def limits():
    wide = (4 * 400, 700, 120, 3000)
    def at(t, lent=wide, both=False):
        for p in (False, True) if both else (False,): add('limits', t, None, 0, p, lent)
    for n in (63, 64):
        at('(' * n + 'A' + ')' * n, both=True); at('A<' * n + 'A' + '>' * n); at('[' * n + 'A' + ']' * n); at('() => ' * n + 'A'); at('A[' * n + 'A' + ']' * n)
    for n in (255, 256): at('keyof ' * n + 'A'); at('A' + '[]' * n); at('A' + '!' * n)
    at('keyof ' * 300 + ')')
    for n in (31, 32, 33):
        for c in (93, 96, 98, 99, 102): at('[' + 'A<>,' * n + ']', (4 * 40, 40, c, 400))
    at('(infer U extends [' + 'A<>,' * 33 + '] ? X : Y)', (4 * 80, 80, 120, 800))
    at('(infer U extends [' + 'A<>,' * 32 + '] ? X : Y)', (4 * 80, 80, 120, 800))
    at('(infer U extends ' + '(' * 62 + 'A' + ')' * 62 + ' ? X : Y)'); at('(infer U extends ' + '(' * 61 + 'A' + ')' * 61 + ' ? X : Y)')
    at('(infer U extends ' + 'keyof ' * 256 + 'A ? X : Y)')
    for n in range(5): add('limits', '(infer U extends A<B, C> ? X : Y)', None, 0, False, (4 * (n + 3), 9, 9, 99))
    for n in range(3): add('limits', 'new (this: A<B, C>) => D', None, 0, False, (4 * (n + 1), 9, 9, 99))

def badly(t):                                             # token lists that the check refuses, or just takes
    b, w = t.encode(), m.cut(t)
    i = rng.randrange(len(w))
    k, n, z, l, s = m.unpack(w[i])
    x = rng.randrange(11)
    v = {0: m.pack(pick(9, 15, 42, 84, 95, 108, 255), n, s, l), 1: w[i] | 1 << 49 + rng.randrange(6), 2: m.pack(k, n, s + 1, l), 3: m.pack(k, n, s, l + 1),
         4: m.pack(k, n, max(0, s - 1), l), 5: m.pack(0, n, s, 0), 6: m.pack(k, n, s, 0), 7: m.pack(pick(1, 2, 4, 41, 83, 107), n, s, l), 8: m.pack(pick(16, 29, 64, 77, 96, 102), n, s, l)}.get(x)
    if x == 9: add('check', t, w[:-1])
    elif x == 10: add('check', t, w, pick(len(w), len(w) + 1, len(w) - 1))
    else: w[i] = v; add('check', t, w)

# object types: the rows of W1, the same with room and records just enough and one too few, and generated texts
def objects(count):
    for t, lent, parens, says in rules_vectors.objects():
        add('rows', t, None, 0, parens, None if lent == rules_vectors.AMPLE else (lent[0], 9, lent[2], 60))
        rooms(t, parens)
    for n in (63, 64): add('limits', '{a:' * n + 'A' + '}' * n, None, 0, False, (4 * 200, 99, 0, 900))
    for n in (253, 254): add('limits', '{a:' + 'keyof ' * n + 'A}', None, 0, False, (4 * 300, 9, 0, 900))
    for n in (31, 32, 33): add('limits', '{' + '[]: A;' * n + '}', None, 0, False, (4 * 80, 80, 98, 900))
    g = rules_model.ObjectMaker(rng)
    while len(cases) < count:
        t = g.sound(pick(20, 40, 60))
        p = rng.random() < 0.3
        add('sound', t, parens=p)
        for _ in range(2): add('damaged', rules_model.damaged(rng, t), parens=p)
        if rng.random() < 0.3: rooms(t, p)

if args.objects is not None:
    cases.clear(); seen.clear()
    objects(args.objects)
elif args.only:
    cases.clear(); seen.clear()
    for l in open(args.only):
        for p in (False, True): add('only', l.rstrip('\n').replace('#', '\n'), parens=p)
else:
    for sort, extra in (('words', b'A\\b'),):
        add(sort, extra, [m.pack(1, 0, 0, 3), m.pack(0, 0, 3, 0)])
        add(sort, extra, [m.pack(107, 0, 0, 3), m.pack(0, 0, 3, 0)])
    add('check', '', [])
    add('check', '', [m.pack(0, 0, 0, 0)])
    add('words', b'any', [m.pack(2, 0, 0, 3), m.pack(0, 0, 3, 0)])
    add('words', b'\xff\xfe', [m.pack(1, 0, 0, 2), m.pack(0, 0, 2, 0)])
    orders()
    limits()
    while len(cases) < args.count:
        t = sound()
        try: m.cut(t)
        except IndexError: continue
        p = rng.random() < 0.5
        add('sound', t, parens=p)
        x = rng.random()
        if x < 0.7: add('damaged', damage(t), parens=p)
        if x < 0.2: rooms(t, p)
        if x > 0.85: add('starts', t, None, rng.randrange(len(m.cut(t))), p)
        if x > 0.9: badly(pick(t, 'A | B', 'keyof any', 'A.b', '[a?: A]'))

if args.sorts: cases = [c for c in cases if c[0] in args.sorts.split(',')]

# ---- the crate
def nums(l): return '(' + ' ∷ '.join(map(str, l)) + ' ∷ [])' if l else '[]'
def said(t):
    s = t.decode('latin1')
    if s and all(32 <= ord(c) < 127 and c not in '"\\' for c in s): return '(bytes "%s")' % s
    return nums(list(t))
def lemma(n, c):
    sort, t, w, start, p, lent = c
    x = read(t, w, start, p, lent)
    a = ' '.join(map(str, x[0]))
    return '''
l%d : read %s %s %d %s (lend %d %d %d %d)
    ≡ record { answer = %s; node_words = %s; name_words = %s; note_words = %s; key = %s }
unfolding rules read
l%d = refl
''' % ((n, said(t), '(' + ' ∷ '.join('0x%x' % v for v in w) + ' ∷ [])' if w else '[]', start, 'true' if p else 'false') + lent
       + (a,) + tuple(nums(v) for v in x[1:]) + (n,))

root = args.keep or tempfile.mkdtemp(prefix='refl_rules_')
shutil.rmtree(root, ignore_errors=True)
os.makedirs(root + '/crates')
for c in ('words', 'keys', 'rules'): shutil.copytree(os.path.join(args.crates, c), root + '/crates/' + c, ignore=shutil.ignore_patterns('out', 'must-fail'))
os.makedirs(root + '/crates/probe/src'); os.makedirs(root + '/crates/probe/specs')
open(root + '/crates.txt', 'w').write('words:\nkeys: words\nrules: words keys\nprobe: words keys rules\n')
open(root + '/crates/probe/src/lib.rt', 'w').write('// Lemmas for comparing.\n#![tactic(auto)]\n')
head = '''-- Readings, each by computation.
use Rattle.std.specs.Prelude.{true, false, List, [], ◌∷◌, ◌≡◌, refl}
use Rattle.words.specs.Spelling.{bytes}
use Rattle.rules.specs.Read.{lend, reads, refuses, read}
use Rattle.rules.specs.Rules.{rules}
'''
files = []
for i in range(0, len(cases), args.batch):
    f = 'Batch%d' % (i // args.batch)
    files.append(f)
    open(root + '/crates/probe/specs/%s.antt' % f, 'w').write(head + ''.join(lemma(i + j, c) for j, c in enumerate(cases[i:i + args.batch])))
open(root + '/crates/probe/specs/Lib.antt', 'w').write(''.join('pub mod %s\n' % f for f in files))
open(root + '/crates/probe/specs/Lib.antt', 'a').write('pub mod Edges\n')
open(root + '/crates/probe/specs/Edges.antt', 'w').write('''-- Limits that are met by lengths alone, and the order of the checks of a node.
use Rattle.std.specs.Prelude.{ℕ, zero, suc, false, List, [], ◌∷◌, ◌≡◌, refl, replicate}
use Rattle.keys.specs.Placed.{Placed, void, tree}
use Rattle.rules.specs.State.{Given, State, read, refuse, make}
use Rattle.rules.specs.Read.{lend, denied, outcome}
use Rattle.rules.specs.Rules.{rules}

text_over : outcome (replicate 65536 65) (0 ∷ []) 0 false (lend 4 4 4 4) ≡ denied 1 0 0 0
unfolding rules
text_over = refl

text_at : outcome (replicate 65535 65) (0 ∷ []) 0 false (lend 4 4 4 4) ≡ denied 3 0 0 0
unfolding rules
text_at = refl

tokens_over : outcome (65 ∷ []) (replicate 16385 0) 0 false (lend 4 4 4 4) ≡ denied 1 0 0 0
unfolding rules
tokens_over = refl

tokens_at : outcome (65 ∷ []) (replicate 16384 0) 0 false (lend 4 4 4 4) ≡ denied 2 0 0 0
unfolding rules
tokens_at = refl

tower : ℕ → Placed
tower zero = void
tower (suc n) = tree 7 0 0 (tower n)

g : ℕ → Given
g n = record { text = []; words = []; parens = false; room = n; records = 0 }

s : State
s = record { at = 5; half = 0; nodes = 3; notes = []; tally = record { entered = 0; trials = 0 } }

long_first : make (g 3) (1 ∷ 4096 ∷ []) (tower 257) s ≡ refuse 7 5 0
unfolding rules tower g s
long_first = refl

tall_second : make (g 3) (4095 ∷ 4095 ∷ []) (tower 257) s ≡ refuse 6 5 0
unfolding rules tower g s
tall_second = refl

room_last : make (g 3) (4095 ∷ []) (tower 256) s ≡ refuse 8 5 0
unfolding rules tower g s
room_last = refl

made : make (g 4) (4095 ∷ []) (tower 256) s ≡ read (tower 256) (record { at = 5; half = 0; nodes = 4; notes = []; tally = record { entered = 0; trials = 0 } })
unfolding rules tower g s
made = refl
''')
begun = time.time()
done = subprocess.run(['rt', 'check', '--jobs', '1'], cwd=root + '/crates/probe', capture_output=True, text=True)
log = done.stdout + done.stderr
wrong = sorted({int(x) for x in re.findall(r'(?:error|in):? `l(\d+)`', log)})
count = collections.Counter(c[0] for c in cases)
numbers = collections.Counter(read(*c[1:])[0][1] if read(*c[1:])[0][0] == 'refuses' else 0 for c in cases)
print('sorts', dict(count))
print('answers by number (0: read)', dict(sorted(numbers.items())))
notes = collections.Counter(v for c in cases for r in (read(*c[1:]),) if r[0][0] == 'reads' for v in r[3][0:m.RECORD * r[0][3]:m.RECORD])
print('diagnostics', dict(sorted(notes.items())), 'tags of the node table, parameters and type parameters:', len(TAGS))
for n in wrong[:20]: print('DIFFERS', n, cases[n][0], repr(cases[n][1]), 'start', cases[n][3], 'parens', cases[n][4], 'lent', cases[n][5], 'model', read(*cases[n][1:])[0])
print('%d lemmas and 8 of edges, %d differ, exit %d, %d s' % (len(cases), len(wrong), done.returncode, time.time() - begun))
if done.returncode and not wrong: print(log[-3000:])
if not args.keep: shutil.rmtree(root, ignore_errors=True)
sys.exit(1 if done.returncode else 0)
