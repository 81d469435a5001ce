#!/usr/bin/env python3
"""Compares the model's trees with those of TypeScript's own parser, on the types of .d.ts files; then runs the program
rows on the same texts beside the model.

    compare_typescript.py [FOLDER ..]     without a folder: those of the Debian packages below, as far as they are installed

Packages: node-typescript (needed: it has the parser); more types are in node-type-fest, node-csstype, node-rxjs,
node-immutable, node-yargs, node-chalk, node-undici, node-acorn, node-postcss and what these bring along. The body of an
interface counts as an object type. A type that holds what is not read here is left out, and the types in it stand for
themselves; what the model answers to it is counted. Brackets are kept. What is compared: the whole tree, with tags, choices
and spellings, and that the type ends where its text does. Each difference is counted under what the model answered, with its
first texts. Figures are of different texts. The program is compiled unproved, and compared as compare_rules.py does.
"""
import collections
import glob
import json
import os
import re
import subprocess
import sys

import model as m
from compare_rules import build, record, expected, run

OTHER = re.compile(r'[^\x00-\x7f]')                                       # the model cuts ASCII alone: any other letter is an X
HERE = os.path.dirname(os.path.abspath(__file__))


def tree(n):
    """A tree of the model in the form of types_of.js."""
    if n is None: return None
    f, many = n.f, lambda l: None if l is None else [tree(t) for t in l]
    word = lambda s: None if s is None else s.decode()
    words = lambda l: [word(s) for s in l]
    def member(f):
        key = [f['key'][0], word(f['key'][1])] if 'key' in f else None
        if f['sort'] == m.PROPERTY: return [bool(f['readonly']), key, bool(f['q']), tree(f['t'])]
        if f['sort'] == m.INDEX: return [bool(f['readonly']), None if f['par'] is None else [word(f['par'][0]), tree(f['par'][1])], tree(f['t'])]
        this = [] if f['sort'] == m.CONSTRUCT else [None if f['this'] is None else [tree(f['this'][0])]]
        return ([key, bool(f['q'])] if f['sort'] == m.METHOD else []) + [many(f['params'])] + this + [many(f['list']), tree(f['ret'])]
    forms = {
        1: lambda: [words(f['names']), many(f['args'])],
        2: lambda: [f['which']],
        3: lambda: [f['which'], word(f['s'])],
        8: lambda: [tree(f['t']), tree(f['x'])],
        9: lambda: [tree(t) for t in f['four']],
        10: lambda: [word(f['name']), tree(f['x'])],
        11: lambda: [f['which'], tree(f['t'])],
        12: lambda: [many(f['params']), None if f['this'] is None else [tree(f['this'][0])], many(f['list']), tree(f['ret'])],
        13: lambda: [bool(f['abstract']), many(f['params']), many(f['list']), tree(f['ret'])],
        14: lambda: [f['ro'], word(f['key']), tree(f['c']), tree(f['n']), f['q'], tree(f['t'])],
        15: lambda: [words(f['ss']), many(f['ts'])],
        16: lambda: [bool(f['asserts']), word(f['name']), tree(f['t'])],
        17: lambda: [words(f['names']), many(f['args'])],
        18: lambda: [bool(f['typeof']), word(f['s']), words(f['names']), many(f['args'])],
        22: lambda: [word(f['name']), bool(f['q']), tree(f['t'])],
        'type parameter': lambda: [word(f['name']), tree(f['x']), tree(f['d'])],
        'member': lambda: [f['sort']] + member(f),
        'parameter': lambda: [bool(f['rest']), word(f['name']), bool(f['q']), tree(f['t'])],
    }
    for t in (4, 7, 20, 21, 23, 24): forms[t] = lambda: [tree(f['t'])]
    for t in (5, 6, 19, 25): forms[t] = lambda: [many(f['list'])]
    return [n.tag] + forms[n.tag]()


def holds(t):
    """Whether a tree holds an object type."""
    return isinstance(t, list) and (t[:1] == [25] or any(map(holds, t)))


def answered(text):
    """What the model answers to a text that is left out."""
    try: x = m.read(text.encode(), m.cut(text), 0, True)
    except IndexError: return 'not cut'
    return 'refusal %d' % x[1] if x[0] == 'refused' else 'read' if x[3][0] == len(m.cut(text)) - 1 else 'a part read'


def listed(counts):
    return ', '.join('%s %d' % c for c in counts.most_common()) or 'none'


def files(folders):
    if not folders:
        folders = [d for d in ('/usr/share/nodejs', '/usr/lib/nodejs') if os.path.isdir(d)]
    return sorted({os.path.realpath(p) for d in folders for p in glob.glob(os.path.join(d, '**', '*.d.ts'), recursive=True)})


def by_program(texts):
    """How many of the texts the program reads otherwise than the model."""
    build()
    def by_need(t, words): return 4 * len(words) + 16, len(words), m.RECORD * m.NOTES, len(t) + 12 * len(words) + 16
    cases = [('types', t.encode(), w, 0, True, by_need(t, w)) for t in texts for w in [m.cut(t)]]
    different = run('O3', [record(c, expected(c)) for c in cases])
    if different is None: sys.exit('the program failed')
    for i in list(different)[:5]: print('read otherwise by the program: %r' % texts[i][:200])
    return len(different)


def main():
    paths = files(sys.argv[1:])
    if not paths: sys.exit('no .d.ts files')
    counts, texts, left, seen, longest = collections.Counter(), collections.defaultdict(list), collections.Counter(), set(), 0
    objects, bodies, out_of = collections.Counter(), collections.Counter(), set()
    env = dict(os.environ, NODE_PATH=os.environ.get('NODE_PATH', '/usr/share/nodejs'))
    for i in range(0, len(paths), 50):
        out = subprocess.run(['node', os.path.join(HERE, 'types_of.js')] + paths[i:i + 50], env=env, capture_output=True, text=True)
        if out.returncode: sys.exit(out.stderr)
        for line in out.stdout.split('\n'):
            if not line: continue
            text, theirs, body, *whole = json.loads(OTHER.sub('X', json.dumps(json.loads(line), ensure_ascii=False)))
            if text is None:
                if whole[0] not in out_of: left['body' if body else 'type', theirs, answered(whole[0])] += 1
                out_of.add(whole[0])
                continue
            counts['bodies' if body else 'types'] += 1
            if text in seen:
                counts['seen before'] += 1
                continue
            seen.add(text)
            longest = max(longest, len(text))
            words = m.cut(text)
            x = m.read(text.encode(), words, 0, True)
            if x[0] == 'refused': what = 'refusal %d' % x[1]
            elif tree(x[1]) != theirs: what = 'another tree'
            elif x[3] != (len(words) - 1, 0): what = 'another end'
            else: what = 'alike'
            counts[what] += 1
            if body: bodies[what] += 1
            elif holds(theirs): objects[what] += 1
            if what != 'alike' and len(texts[what]) < 5: texts[what].append(text)
    print('%d files, %s' % (len(paths), listed(counts)), '; longest text %d bytes' % longest)
    print('of these bodies of interfaces:', listed(bodies), '; other types with an object type:', listed(objects))
    print('left out, with what they hold and what the model answers:', ', '.join('%s, %s, %s %d' % (*c, n) for c, n in left.most_common()))
    apart = sum(n for c, n in left.items() if c[0] == 'type')
    types = counts['alike'] - bodies['alike'], len(seen) - sum(bodies.values()) + apart
    print('alike, of all different texts that are no bodies, with those left out: %d of %d, %.3f %%' % (*types, 100 * types[0] / types[1]))
    for what, some in texts.items():
        for t in some: print('%s: %r' % (what, t[:200]))
    within = sorted(t for t in seen if len(t) <= m.TEXT and len(m.cut(t)) <= m.TOKENS)
    different = by_program(within)
    print('the program: %d texts within the limits, %d different from the model' % (len(within), different))
    sys.exit(counts['alike'] == 0 or different > 0)


if __name__ == '__main__':
    main()
