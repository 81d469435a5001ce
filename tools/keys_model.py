"""What the tools for keys share beside model.py: taking back with a room for names, the words that a taken tree leaves in the
store, and trees and texts by chance. seed(n) starts the chance afresh."""
import random, sys
import model
from model import Node, Refused

sys.setrecursionlimit(20000)
R = random.Random(1)
def seed(n): R.seed(n)

# ---- the model's take-back, with room for names beside the room for text
class Back(model.Back):
    def __init__(r, key, room, names, textroom):
        super().__init__(key, room, textroom); r.names, r.named = names, 0
    def spelling(r):
        s = super().spelling()
        r.named += 1
        if r.named > r.names: raise Refused(11, 0)
        return s

def take_back(key, room, names, textroom):
    if len(key) > model.KEY: return ('refused', 10, 0)
    r = Back(key, room, names, textroom)
    try:
        r.field(4, lambda v: v == 1)
        t = r.node(model.TYPE, 0)
        while r.at % 8: r.field(1, lambda v: v == 0)
        if r.at < len(r.bits): raise Refused(10, r.at)
    except Refused as x: return ('refused',) + x.args
    return ('taken', t, r.text, r.live, r.named)

# ---- the store's content, by a table of its own: what a node holds in the key's order
def items(n):
    f, t = n.f, n.tag
    c = lambda w, k: [('c', w, int(k))]
    s = lambda x: [('s', x)]
    k = lambda x: [('n', x)]
    o = lambda x, g: c(1, 0) if x is None else c(1, 1) + g(x)
    l = lambda xs, g: c(12, len(xs)) + [i for x in xs for i in g(x)]
    args = lambda xs: l(xs, k)
    if t == 'type parameter': return s(f['name']) + o(f['x'], k) + o(f['d'], k)
    if t == 'member':
        key = lambda: c(2, f['key'][0]) + s(f['key'][1])
        sign = lambda: o(f['params'], args) + ([] if f['sort'] == 3 else o(f['this'], lambda p: o(p[0], k))) + args(f['list']) + o(f['ret'], k)
        return c(3, f['sort']) + [
            lambda: c(1, f['readonly']) + key() + c(1, f['q']) + o(f['t'], k), lambda: key() + c(1, f['q']) + sign(), sign, sign,
            lambda: c(1, f['readonly']) + o(f['par'], lambda p: s(p[0]) + k(p[1])) + k(f['t'])][f['sort']]()
    if t == 'parameter': return c(1, f['rest']) + s(f['name']) + c(1, f['q']) + o(f['t'], k)
    body = {
        1: lambda: l(f['names'], s) + o(f['args'], args), 17: lambda: l(f['names'], s) + o(f['args'], args),
        2: lambda: c(4, f['which']), 3: lambda: c(3, f['which']) + ([] if f['s'] is None else s(f['s'])),
        8: lambda: k(f['t']) + k(f['x']), 9: lambda: [i for x in f['four'] for i in k(x)],
        10: lambda: s(f['name']) + o(f['x'], k), 11: lambda: c(2, f['which']) + k(f['t']),
        12: lambda: o(f['params'], args) + o(f['this'], lambda p: o(p[0], k)) + args(f['list']) + k(f['ret']),
        13: lambda: c(1, f['abstract']) + o(f['params'], args) + args(f['list']) + k(f['ret']),
        14: lambda: c(2, f['ro']) + s(f['key']) + k(f['c']) + o(f['n'], k) + c(2, f['q']) + o(f['t'], k),
        15: lambda: c(12, len(f['ts'])) + s(f['ss'][0]) + [i for a, b in zip(f['ts'], f['ss'][1:]) for i in k(a) + s(b)],
        16: lambda: c(1, f['asserts']) + (c(1, 1) if f['name'] is None else c(1, 0) + s(f['name'])) + o(f['t'], k),
        18: lambda: c(1, f['typeof']) + s(f['s']) + l(f['names'], s) + o(f['args'], args),
        22: lambda: s(f['name']) + c(1, f['q']) + k(f['t']),
        5: lambda: args(f['list']), 6: lambda: args(f['list']), 19: lambda: args(f['list']), 25: lambda: args(f['list']),
    }.get(t, lambda: k(f['t']))()
    return c(6, t) + body

def store(root):
    nodes, names, text = [], [], bytearray()
    def visit(n):
        first, word, shift, kids = len(names), 0, 0, []
        for i in items(n):
            if i[0] == 'c': word += i[2] << shift; shift += i[1]
            elif i[0] == 's': names.append(len(text) << 32 | len(i[1])); text.extend(i[1])
            else: kids.append(visit(i[1]))
        for a, b in zip(kids, kids[1:]): nodes[a][3] = b
        nodes.append([word, 0, (kids[0] if kids else 0) | first << 32, 0])
        return len(nodes) - 1
    visit(root)
    return [w for n in nodes for w in n], names, list(text)

# ---- a tree's visits: kind (1 a node, 2 a choice, 3 a name), number, how many nodes it stands under
def visits(root):
    all_, nodes, names = [], 0, 0
    def visit(n, depth):
        nonlocal nodes, names
        at = len(all_)
        all_.append(None)                                           # a node is numbered after those under it
        for i in ([('c', 0, 0)] if n.tag in ('parameter', 'type parameter') else []) + items(n):
            if i[0] == 'c': all_.append((2, i[2], depth + 1))
            elif i[0] == 's': all_.append((3, names, depth + 1)); names += 1
            else: visit(i[1], depth + 1)
        all_[at] = 1, nodes, depth
        nodes += 1
    visit(root, 0)
    return [w for v in all_ for w in v]

# ---- trees and texts
def word(): return bytes(R.choice(b'abTUxy_$09\x00\xff"') for _ in range(R.choice([1, 1, 2, 3, 9])))
def maybe(f): return f() if R.random() < 0.5 else None
def some(f, least=0): return [f() for _ in range(least + R.choice([0, 0, 1, 2]))]
ONLY = {'type': [], 'element': [20, 21, 22], 'rest': [22], 'name': [20, 21]}
def gen(cls='type', d=3, tag=None):
    ty = lambda: gen('type', d - 1)
    N = lambda tag_, **f: Node(tag_, 0, 0, 0, **f)
    if cls == 'tp': return N('type parameter', name=word(), x=maybe(ty), d=maybe(ty))
    if cls == 'p': return N('parameter', rest=R.random() < .5, name=word(), q=R.random() < .5, t=maybe(ty))
    if cls == 'm': return member(d, R.randrange(5) if tag is None else tag)
    t = tag or (R.choice([1, 2, 3]) if d <= 0 else R.choice(ONLY[cls] * 3 + list(range(1, 20)) + [23, 24]))
    tps, ps = (lambda: some(lambda: gen('tp', d - 1))), (lambda: some(lambda: gen('p', d - 1)))
    if t in (1, 17): return N(t, names=some(word, 1), args=maybe(lambda: some(ty)) if d > 0 else None)
    if t == 2: return N(t, which=R.randrange(13))
    if t == 3: w = R.randrange(7); return N(t, which=w, s=None if w in (3, 4) else word())
    if t in (4, 7, 20, 23, 24): return N(t, t=ty())
    if t in (5, 6): return N(t, list=some(ty, 1))
    if t == 8: return N(t, t=ty(), x=ty())
    if t == 9: return N(t, four=[ty() for _ in range(4)])
    if t == 10: return N(t, name=word(), x=maybe(ty))
    if t == 11: return N(t, which=R.randrange(3), t=ty())
    if t == 12: return N(t, params=maybe(tps), this=maybe(lambda: (maybe(ty),)), list=ps(), ret=ty())
    if t == 13: return N(t, abstract=R.random() < .5, params=maybe(tps), list=ps(), ret=ty())
    if t == 14: return N(t, ro=R.randrange(4), key=word(), c=ty(), n=maybe(ty), q=R.randrange(4), t=maybe(ty))
    if t == 15: ts = some(ty); return N(t, ts=ts, ss=[word() for _ in range(len(ts) + 1)])
    if t == 16: a = R.random() < .5; return N(t, asserts=a, name=maybe(word), t=maybe(ty) if a else ty())
    if t == 18: return N(t, typeof=R.random() < .5, s=word(), names=some(word), args=maybe(lambda: some(ty)))
    if t == 19: return N(t, list=some(lambda: gen('element', d - 1)))
    if t == 25: return N(t, list=some(lambda: gen('m', d - 1)))
    if t == 21: return N(t, t=gen('rest', d - 1))
    if t == 22: return N(t, name=word(), q=R.random() < .5, t=gen('name', d - 1))

def member(d, sort):
    ty, flip = (lambda: gen('type', d - 1)), (lambda: R.random() < .5)
    f = {'sort': sort}
    if sort in (0, 4): f['readonly'] = flip()
    if sort in (0, 1): f['key'] = R.randrange(3), word(); f['q'] = flip()
    if sort == 0: f['t'] = maybe(ty)
    elif sort == 4: f['par'] = maybe(lambda: (word(), ty())); f['t'] = ty()
    else:
        f['params'] = maybe(lambda: some(lambda: gen('tp', d - 1)))
        f['this'] = maybe(lambda: (maybe(ty),)) if sort != 3 else None
        f['list'] = some(lambda: gen('p', d - 1)); f['ret'] = maybe(ty)
    return Node('member', 0, 0, 0, **f)

def text(d=3):
    ty = lambda: text(d - 1)
    if d <= 0: return R.choice(['A', 'B', 'string', 'never', '"s"', '-1', '2n', 'true', 'this', 'a.b', 'null', 'void', '`x`'])
    return R.choice([
        lambda: '%s | %s' % (ty(), ty()), lambda: '| ' + ty(), lambda: '%s & %s' % (ty(), ty()), lambda: '(%s)' % ty(), lambda: '(%s)[]' % ty(),
        lambda: '(%s)[%s]' % (ty(), ty()), lambda: 'keyof (%s)' % ty(), lambda: 'A<%s, %s>' % (ty(), ty()), lambda: 'A<>',
        lambda: '(%s) extends infer U extends number ? (%s) : (%s)' % (ty(), ty(), ty()), lambda: '<T extends %s = %s>(a: %s, ...b?: %s) => %s' % (ty(), ty(), ty(), ty(), ty()),
        lambda: '(this: %s, a?) => %s' % (ty(), ty()), lambda: 'abstract new (a: %s) => %s' % (ty(), ty()), lambda: '{ readonly [K in %s as %s]-?: %s }' % (ty(), ty(), ty()),
        lambda: '`a${%s}b${%s}c`' % (ty(), ty()), lambda: '(a) => a is %s' % ty(), lambda: 'asserts x is %s' % ty(), lambda: 'asserts this', lambda: 'typeof a.b<%s>' % ty(),
        lambda: 'import("m").a<%s>' % ty(), lambda: 'typeof import("m")', lambda: '[%s, (%s)?, ...%s, a?: %s, ...b: %s]' % tuple(ty() for _ in range(5)), lambda: '(%s)!' % ty(),
    ])()

def wrap(n, tag=7, leaf=None):
    t = leaf or Node(2, 0, 0, 0, which=0)
    for _ in range(n): t = Node(tag, 0, 0, 0, t=t)
    return t
