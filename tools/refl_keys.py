#!/usr/bin/env python3
"""Compares the definitions of crate keys with the executable model, by refl: keys of generated texts and trees, damaged
copies, prefixes, small rooms, heights, editions, padding, left-over bytes, every tag in every class. Prints what was checked.
usage: refl_keys.py [seed]"""
import os, shutil, subprocess, sys, tempfile, time
HERE = os.path.dirname(os.path.abspath(__file__))
MODEL = os.environ.get('MODEL', os.path.dirname(os.path.abspath(__file__)))
sys.path.insert(0, MODEL)
import model
import keys_model
from model import Node, key_of
from keys_model import R, gen, items, store, take_back, text, visits, wrap

SEED = int(sys.argv[1]) if len(sys.argv) > 1 else 1
keys_model.seed(SEED)

# ---- a tree as a term of the makers
def lst(l): return '(' + ' ∷ '.join(l + ['[]']) + ')'
def bts(s): return lst([str(c) for c in s])
def spl(s): return '(0, %s)' % bts(s)
def opt(x, f): return 'absent' if x is None else '(present %s)' % f(x)
def boo(x): return 'true' if x else 'false'
def many(l, f): return lst([f(x) for x in l])
def trees(l): return many(l, term)
def keyed(k): return '(record { which = %d; spelling = %s })' % (k[0], spl(k[1]))
def member(f):
    sign = lambda this: ' '.join([opt(f['params'], trees)] + [opt(f['this'], lambda p: opt(p[0], term))] * this + [trees(f['list']), opt(f['ret'], term)])
    return (lambda: 'property 0 0 %s %s %s %s' % (boo(f['readonly']), keyed(f['key']), boo(f['q']), opt(f['t'], term)),
            lambda: 'method 0 0 %s %s %s' % (keyed(f['key']), boo(f['q']), sign(1)), lambda: 'call_signature 0 0 ' + sign(1), lambda: 'construct_signature 0 0 ' + sign(0),
            lambda: 'index_signature 0 0 %s %s %s' % (boo(f['readonly']), opt(f['par'], lambda p: '(%s, %s)' % (spl(p[0]), term(p[1]))), term(f['t'])))[f['sort']]()
def term(n):
    f, t = n.f, n.tag
    body = {
        'member': lambda: member(f),
        25: lambda: 'object 0 0 ' + trees(f['list']),
        'type parameter': lambda: 'type_parameter 0 0 %s %s %s' % (spl(f['name']), opt(f['x'], term), opt(f['d'], term)),
        'parameter': lambda: 'parameter 0 0 %s %s %s %s' % (boo(f['rest']), spl(f['name']), boo(f['q']), opt(f['t'], term)),
        1: lambda: 'reference 0 0 %s %s' % (many(f['names'], spl), opt(f['args'], trees)),
        2: lambda: 'keyword 0 0 %d' % f['which'],
        3: lambda: 'literal 0 0 %d %s' % (f['which'], opt(f['s'], spl)),
        4: lambda: 'parens 0 0 ' + term(f['t']),
        5: lambda: 'union 0 0 ' + trees(f['list']),
        6: lambda: 'intersection 0 0 ' + trees(f['list']),
        7: lambda: 'array 0 0 ' + term(f['t']),
        8: lambda: 'indexed 0 0 %s %s' % (term(f['t']), term(f['x'])),
        9: lambda: 'conditional 0 0 ' + ' '.join(term(x) for x in f['four']),
        10: lambda: 'infer 0 0 %s %s' % (spl(f['name']), opt(f['x'], term)),
        11: lambda: 'operator 0 0 %d %s' % (f['which'], term(f['t'])),
        12: lambda: 'function 0 0 %s %s %s %s' % (opt(f['params'], trees), opt(f['this'], lambda p: opt(p[0], term)), trees(f['list']), term(f['ret'])),
        13: lambda: 'constructor 0 0 %s %s %s %s' % (boo(f['abstract']), opt(f['params'], trees), trees(f['list']), term(f['ret'])),
        14: lambda: 'mapped 0 0 %d %s %s %s %d %s' % (f['ro'], spl(f['key']), term(f['c']), opt(f['n'], term), f['q'], opt(f['t'], term)),
        15: lambda: 'template 0 0 %s %s' % (spl(f['ss'][0]), lst(['(%s, %s)' % (term(a), spl(s)) for a, s in zip(f['ts'], f['ss'][1:])])),
        16: lambda: 'predicate 0 0 %s %s %s' % (boo(f['asserts']), opt(f['name'], spl), opt(f['t'], term)),
        17: lambda: 'typeof 0 0 %s %s' % (many(f['names'], spl), opt(f['args'], trees)),
        18: lambda: 'import_type 0 0 %s %s %s %s' % (boo(f['typeof']), spl(f['s']), many(f['names'], spl), opt(f['args'], trees)),
        19: lambda: 'tuple 0 0 ' + trees(f['list']),
        20: lambda: 'optional 0 0 ' + term(f['t']),
        21: lambda: 'rest 0 0 ' + term(f['t']),
        22: lambda: 'named 0 0 %s %s %s' % (spl(f['name']), boo(f['q']), term(f['t'])),
        23: lambda: 'non_null 0 0 ' + term(f['t']),
        24: lambda: 'asked 0 0 ' + term(f['t']),
    }[t]()
    return '(' + body + ')'

# ---- the inputs: (kind, key, node room, name room, text room)
good, texts = [], 0
BIG = (400, 400, 4000)
for row in model.ROWS + [text(R.choice([1, 2, 2, 3])) for _ in range(160)]:
    for parens in (False, True):
        x = model.read(row.encode(), model.cut(row), 0, parens)
        if x[0] == 'read': good.append((x[1], x[4])); texts += 1
for t in list(range(1, 20)) + [23, 24]:
    for _ in range(4): n = gen('type', 2, t); good.append((n, key_of(n)))
for t in (20, 21, 22):
    for _ in range(4): n = Node(19, 0, 0, 0, list=[gen('element', 2, t)]); good.append((n, key_of(n)))
for _ in range(60): n = gen(); good.append((n, key_of(n)))
for sort in range(5):
    for _ in range(12): n = Node(25, 0, 0, 0, list=[gen('m', R.choice([1, 1, 2]), sort)] + [gen('m', 1) for _ in range(R.choice([0, 0, 1]))]); good.append((n, key_of(n)))
good = [g for g in good if len(g[1]) < 400]
seen, uniq = set(), []
for g in good:
    if g[1] not in seen: seen.add(g[1]); uniq.append(g)
good = uniq

cases, kinds = [], {}
def case(kind, key, n=BIG[0], k=BIG[1], m=BIG[2]):
    cases.append((kind, bytes(key), n, k, m)); kinds[kind] = kinds.get(kind, 0) + 1
for n, k in good: case('good', k)
small = [k for _, k in good if len(k) < 60]
for _ in range(200):
    k = bytearray(R.choice(small)); i = R.randrange(len(k) * 8); k[i // 8] ^= 128 >> i % 8; case('bit turned', k)
for _ in range(80):
    k = bytearray(R.choice(small)); k[R.randrange(len(k))] = R.randrange(256); case('byte changed', k)
for _ in range(100):
    k = R.choice(small); case('prefix', k[:R.randrange(len(k))])
for _ in range(120):
    n, k = R.choice(good); x = take_back(k, *BIG)
    rooms, what = [x[3], x[4], len(x[2])], R.randrange(3)
    rooms[what] = max(0, rooms[what] - R.choice([0, 1, 1, 2, 9])) if R.random() < .8 else 0
    case('small room', k, *rooms)
for _ in range(40):
    n, k = R.choice(good); x = take_back(k, *BIG); case('room exact', k, x[3], x[4], len(x[2]))
for h in (255, 256, 257, 300): case('height', key_of(wrap(h - 1)))
case('height', key_of(wrap(256, 24))); case('height', key_of(wrap(256)), 256); case('height', key_of(wrap(256)), 255); case('height', key_of(wrap(255)), 255)
tp = lambda: Node('type parameter', 0, 0, 0, name=b'T', x=None, d=None)
case('height', key_of(wrap(254, 7, Node(12, 0, 0, 0, params=[tp()], this=None, list=[], ret=Node(2, 0, 0, 0, which=0)))))
case('height', key_of(wrap(255, 7, Node(12, 0, 0, 0, params=[tp()], this=None, list=[], ret=Node(2, 0, 0, 0, which=0)))))
for e in range(16):
    k = bytearray(R.choice(small)); k[0] = k[0] & 15 | e << 4; case('edition', k)
for _ in range(60):
    k = bytearray(R.choice(small)); k[-1] |= 1 << R.randrange(4); case('last bits', k)
for _ in range(40):
    k = R.choice(small); case('left over', k + bytes([R.choice([0, 0, 1, 255])] * R.choice([1, 1, 2])))
case('empty', b'')
def bitsof(s): s += '0' * (-len(s) % 8); return bytes(int(s[i:i + 8], 2) for i in range(0, len(s), 8))
b = model.bits
leaf = b(2, 6) + b(3, 4)
ROOM_FOR = b(1, 12) + model.spell(b'a') + '0' + '0'
for t in range(64):
    rest = {2: b(3, 4), 3: b(3, 3)}.get(t, leaf * 4)
    for name, pre in (('type', b(1, 4)), ('element', b(1, 4) + b(19, 6) + b(1, 12)), ('under rest', b(1, 4) + b(19, 6) + b(1, 12) + b(21, 6)),
                      ('under name', b(1, 4) + b(19, 6) + b(1, 12) + b(22, 6) + model.spell(b'n') + '1')):
        case('tag in class', bitsof(pre + b(t, 6) + rest))
for n in (0, 1, 4095): case('count', bitsof(b(1, 4) + b(5, 6) + b(n, 12) + leaf)); case('count', bitsof(b(1, 4) + b(1, 6) + b(n, 12) + model.spell(b'a') + '0')); case('count', bitsof(b(1, 4) + b(19, 6) + b(n, 12) + leaf)); case('count', bitsof(b(1, 4) + b(15, 6) + b(n, 12) + model.spell(b'a')))
for a in '01':
    for th in '01':
        for o in '01': case('predicate', bitsof(b(1, 4) + b(16, 6) + a + th + (model.spell(b'p') if th == '0' else '') + o + (leaf if o == '1' else '')))

object_ = b(1, 4) + b(25, 6) + b(1, 12)
for t in range(8):
    for rest in ('', model.spell(b'a'), '0' + b(1, 2) + model.spell(b'a') + '00', b(2, 2) + model.spell(b'a') + '0000' + b(0, 12) + '0', '000' + b(0, 12), '00' + b(0, 12) + '0', '00' + leaf):
        for room in (1, 2, BIG[0]): case('sort of a member', bitsof(object_ + b(t, 3) + rest), room)
for t in range(4): case('sort of a key', bitsof(object_ + b(0, 3) + '0' + b(t, 2) + model.spell(b'a') + '00')); case('sort of a key', bitsof(object_ + b(1, 3) + b(t, 2) + model.spell(b'a') + '0000' + b(0, 12) + '0'))
for n in (0, 1, 2, 4095): case('count', bitsof(b(1, 4) + b(25, 6) + b(n, 12) + b(2, 3) + '00' + b(0, 12) + '0')); case('count', bitsof(object_ + b(2, 3) + '00' + b(n, 12) + '0' + model.spell(b'x') + '00' + '0'))
for k, room in (('164000', 9), ('164006A0', 9), ('164006A0', 1), ('16400400001610', 1), ('16400400001610', 2), ('16400430001610', 9), ('164004', 9), ('16400400000610', 9), ('16400600800800' + '0A08', 9)):
    case('rows of W1', bytes.fromhex(k), room)
prop = lambda: Node('member', 0, 0, 0, sort=0, readonly=False, key=(0, b'a'), q=False, t=None)
for h in (254, 255): case('height', key_of(wrap(h, 7, Node(25, 0, 0, 0, list=[prop()]))))

# ---- lemmas
lemmas, answers, store_n, left_n, key_n = [], {}, 0, 0, 0
for kind, key, n, k, m in cases:
    x = take_back(key, n, k, m)
    right = 'refused %d %d' % x[1:] if x[0] == 'refused' else 'taken (bare %s)' % term(x[1])
    answers[x[0] if x[0] == 'taken' else x[1]] = answers.get(x[0] if x[0] == 'taken' else x[1], 0) + 1
    lemmas.append('take_key %d %d %d %s ≡ %s' % (n, k, m, bts(key), right))
for n, k in good:
    assert ''.join(model.bits(i[2], i[1]) if i[0] == 'c' else model.spell(i[1]) if i[0] == 's' else model.out(i[1]) for i in items(n)) == model.out(n)
    lemmas.append('key_of (bare %s) ≡ %s' % (term(n), bts(k))); key_n += 1
lemmas.append('take_key 1 1 1 (16 ∷ replicate 262144 0) ≡ refused 10 0')   # a byte too long
nums = lambda l: lst([str(w) for w in l])
for kind, key, n, k, m in [c for c in cases if len(c[1]) < 60][::6]:
    a, bn, c = n % 64 * 4 + R.randrange(4), k % 48, m % 96
    x = take_back(key, a // 4, bn, c)
    if x[0] == 'refused': ans, ns, nm, tx = 'no %d %d' % x[1:], [], [], []
    else: ns, nm, tx = store(x[1]); ans = 'back %d %d %d' % (x[3], x[4], len(x[2])); assert bytes(tx) == x[2]; left_n += 1
    fill = lambda l, size: nums(l + [0] * (size - len(l)))
    lemmas.append('take_back %s %d %d %d ≡ record { answer = %s; node_words = %s; name_words = %s; text = %s }' % (bts(key), a, bn, c, ans, fill(ns, a), fill(nm, bn), fill(tx, c))); store_n += 1
visit_n = 0
for n, k in [g for g in good if len(g[1]) < 60]:
    lemmas.append('visits_of %s ≡ %s' % (term(n), nums(visits(n)))); visit_n += 1

HEAD = '''use Rattle.std.specs.Prelude.{true, false, List, [], ◌∷◌, ◌≡◌, refl, replicate}
use Rattle.keys.specs.Placed.{Placed, bare, absent, present, object, property, method, call_signature, construct_signature, index_signature, reference, keyword, literal, parens, union, intersection, array, indexed, conditional, infer, operator, function, constructor, mapped, template, predicate, typeof, import_type, tuple, optional, rest, named, non_null, asked, type_parameter, parameter}
use Rattle.keys.specs.Key.{key_of, take_key, taken, refused}
use Rattle.keys.specs.Store.{take_back, back, no, visits_of}
'''
tmp = tempfile.mkdtemp(prefix='refl_keys')
os.makedirs(tmp + '/crates/keys/specs')
FILES = 'Bits Limits Form Table Placed Key Store'.split()
for name in FILES: shutil.copy(os.path.join(HERE, '..', 'crates', 'keys', 'specs', name + '.antt'), tmp + '/crates/keys/specs/')
open(tmp + '/crates/keys/specs/Lib.antt', 'w').write(''.join('pub mod %s\n' % name for name in FILES))
os.makedirs(tmp + '/crates/keys/src')
open(tmp + '/crates/keys/src/lib.rt', 'w').write('// Lemmas by computation.\n#![tactic(auto)]\n')
os.makedirs(tmp + '/crates/words/src'); os.makedirs(tmp + '/crates/words/specs')
open(tmp + '/crates/words/src/lib.rt', 'w').write('// The limits alone.\n#![tactic(auto)]\n')
open(tmp + '/crates/words/specs/Lib.antt', 'w').write('pub mod Limits\n')
shutil.copy(os.path.join(HERE, '..', 'crates', 'words', 'specs', 'Limits.antt'), tmp + '/crates/words/specs/')
open(tmp + '/crates.txt', 'w').write('words:\nkeys: words\n')
size = 150
with open(tmp + '/crates/keys/specs/Lib.antt', 'a') as lib:
    for i in range(0, len(lemmas), size):
        name = 'Trial%d' % (i // size)
        lib.write('pub mod %s\n' % name)
        with open('%s/crates/keys/specs/%s.antt' % (tmp, name), 'w') as f:
            f.write(HEAD)
            for j, l in enumerate(lemmas[i:i + size]): f.write('\nt%d : %s\nt%d = refl\n' % (i + j, l, i + j))
start = time.time()
p = subprocess.run(['rt', 'check', '--jobs', '1'], cwd=tmp + '/crates/keys', capture_output=True, text=True)
out = p.stdout + p.stderr
bad = [l for l in out.split('\n') if 'error' in l]
for l in bad[:10]: print(l[:600])
print('%d keys taken back (%s)' % (len(cases), ', '.join('%s %d' % x for x in sorted(kinds.items()))))
print('answers: ' + ', '.join('%s %d' % (a, c) for a, c in sorted(answers.items(), key=str)))
print('%d keys written, %d whole calls with their outputs (%d left a tree), %d trees visited, %d readings of texts; %d lemmas by refl in %.0f s: %s' % (key_n, store_n, left_n, visit_n, texts, len(lemmas), time.time() - start, 'all hold' if p.returncode == 0 else 'NOT ALL HOLD'))
if p.returncode == 0: shutil.rmtree(tmp)
else: print(tmp)
sys.exit(p.returncode)
