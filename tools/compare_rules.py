#!/usr/bin/env python3
"""Runs the two open calls beside model.py, on texts and keys, stored and generated, and compares each answer and all
that is lent.

    compare_rules.py [--count N] [--seed S] [--build O3|O0|checked] [--sorts SORTS] [--no-build]
        SORTS: stored, limits, orders, short, generated (N texts), objects (the rows of W1 and N texts with object types),
        forms (N texts with forms that are not read and reserved names), tuples (N tuples),
        trials (N texts rich in constraints of infer), infers (every text up to six tokens of `infer U extends A ( ) ? :`),
        keys (N keys, as compare_keys.py makes them)
    compare_rules.py --stack [--build B]       the least stack that the program needs for each of the largest readings

It runs in the folder that holds crates.txt. The program crate `rows` is compiled unproved by tools/unproved.sh. What is
compared: the refusal with its place, or the counts and the end cursor; and every word and byte of the lent slices, which
are filled with something else before the call. A record holds its twelve numbers by the model, the last four of them sums
over the slices; where the program comes to others, the record runs once more and all is shown. The program also takes the
key of each granted reading back and writes it again, and tells a key that does not come out the same. A granted reading that
enters over 16 type rules a token ends the run; the most that one of the texts enters is told.

--stack finds by halving, in KiB, the least `ulimit -s` under which the program gives the right answer, and prints it less
that of a text of one token: the whole call with its key, and that key taken back. The program's own arrays are in both;
it fails if all else takes over 256 KiB. As the system places the stack at random, figures are right to some 8 KiB.
"""
import argparse
import collections
import os
import subprocess
import sys
import time

import model as m
import rules_vectors as v
from compare import answers
from compare_keys import keys
from rules_model import TAGS, WIDE, Cases, FormMaker, ObjectMaker, TrialMaker, TupleMaker, called, expected, keyofs, read, record
from words_vectors import root

# ---- texts
ALPHABETS = ("A ( ) [ ] ? | < > , => keyof infer extends this ...".split(), "{ [ K ] in readonly + - ? : as ; }".split(),
             "A . << <= > typeof import ( 's' ) is asserts -".split(), "( a this , : = ) => new public < T in out >".split(),
             "{ a [ ] ( : ? , } get readonly new public".split())


def up_to(most, alphabet):
    """Every text up to so many tokens over an alphabet."""
    row = ['']
    for _ in range(most):
        row = [t + x + ' ' for t in row for x in alphabet]
        yield from row


def short():
    """Every text up to four tokens over some small alphabets."""
    for alphabet in ALPHABETS: yield from up_to(4, alphabet)


def limits(c):
    """At the limits and one past them, beside the stored ones: shapes that are too large to store."""
    for t in ('(' * 16383, '(' * 16382 + 'A', '|' * 16383, 'A|' * 8191 + 'A', 'A' + '!' * 16382, 'A' + '[]' * 8191, 'A?' + '(' * 16380 + ')', 'keyof ' * 10922 + 'A',
              'new (' + 'a,' * 4095 + ') => A', 'new (' + 'a,' * 4096 + ') => A', 'new <' + 'T,' * 4095 + '>(this) => A', 'new <' + 'T,' * 4096 + '>(this) => A',
              'typeof A' + '.b' * 4094, 'typeof A' + '.b' * 4095, '(infer U extends ' * 11 + 'A' + ' ? X : Y)' * 11, '(infer U extends ' * 8 + 'A' + ')' * 8):
        for p in (False, True): yield c.case('limits', t, None, 0, p, WIDE)
    for t, lent in (('A' + '.b' * 3000, (4, 3001, 0)), ('A' + '.b' * 3000, (4, 3000, 0)), ('A' + '.b' * 5000, (4, 4000, 0)), ('A' + '.b' * 3000 + '<>', (4, 2000, 0))):
        yield c.case('limits', t, None, 0, False, lent + WIDE[3:])


def orders(c):
    """Rooms short at once: which refusal comes first."""
    for t in v.texts():
        w = m.cut(t)
        x = read(t.encode('latin1'), w, 0, False, WIDE)
        if x[0][0] != 0: continue
        n, k, d, s = x[0][1:5]
        for a in range(max(0, n - 3), n + 2):
            for b in range(max(0, d - 2), d + 1):
                for e in (k, max(0, k - 1)): yield c.case('orders', t, w, 0, False, (4 * a + c.r.randrange(4), e, m.RECORD * b + c.r.randrange(m.RECORD), s - c.r.randrange(2)))


def objects(seed, count):
    """Object types: the rows of W1 and generated texts."""
    rows = v.Vectors()
    v.object_rows(rows)
    for x in rows: yield ('objects',) + x[1:]
    yield from Cases(seed, ObjectMaker).generated(count)


def cases(seed, count, sorts):
    c = Cases(seed)
    has = lambda s: not sorts or s in sorts
    if has('stored'):
        for x in v.stored(): yield ('stored',) + x[1:]
    if has('limits'): yield from limits(c)
    if has('orders'): yield from orders(c)
    if has('short'):
        for t in short(): yield c.case('short', t)
    if has('generated'): yield from c.generated(count)
    if has('objects'): yield from objects(seed, count)
    if has('forms'): yield from Cases(seed, FormMaker).generated(count)
    if has('tuples'): yield from Cases(seed, TupleMaker).generated(count)
    if has('trials'): yield from Cases(seed, TrialMaker).generated(count)
    if has('infers'):
        for t in up_to(6, 'infer U extends A ( ) ? :'.split()): yield c.case('infers', t, None, 0, False, (64, 16, 160, 200))
    if has('keys'):
        for op, key, rooms in keys(count, seed): yield 'keys', key, tuple(rooms[:3])


# ---- the program
BUILDS = {'O3': None, 'O0': 64 << 20, 'checked': 64 << 20}    # bytes of stack: a build that is not optimized holds the arrays twice


def build():
    """Compiles the program rows without proof."""
    done = subprocess.run(['sh', os.path.join(root(), 'tools', 'unproved.sh'), 'rows'], cwd=root(), capture_output=True, text=True)
    if done.returncode != 0: sys.exit(done.stdout + done.stderr)


def run(which, records, stack=None):
    """The records that differ, each with what the program prints; None if it failed or did not run all."""
    lines, status = answers('rows.' + which, records, stack or BUILDS[which])
    if not lines: return None
    other = [l.split(' ', 2)[1:] for l in lines[:-1] if l.startswith('different ')]
    return {int(i): what for i, what in other} if lines[-1] == '%d vectors, %d different' % (len(records), len(other)) else None


def differs(which, c, want, got):
    lent = c[-1]
    what = 'key %s' % c[1][:300].hex() if len(c) == 3 else 'text %r start %d parens %d' % (c[1][:300], c[3], c[4])
    print('DIFFERENT, sort %s: %s lent %s\n  program %s\n  model   %s' % (c[0], what, lent, got, ' '.join(map(str, want))))
    if len(c[1]) < 400:
        x = called(c)
        print('  program', run(which, [record(c, want, True)])[0])
        print('  model  ', x[0], *('| ' + ' '.join(map(str, list(u) + [0] * (n - len(u)))) for u, n in zip(x[1:], lent)))


def compare(args):
    figures, answered, different, began, batch, most = collections.Counter(), collections.Counter(), 0, time.time(), [], (0, 0, 1, b'')

    def flush():
        nonlocal different, most
        want = [expected(c) for c in batch]
        for c, w in zip(batch, want):
            if len(c) > 3 and w[0] == 0:
                entered, tokens = w[7], len(c[2])
                assert 0 < entered <= 16 * tokens, (c, w)
                most = max(most, (entered / tokens, entered, tokens, c[1]))
        got = run(args.build, [record(c, w) for c, w in zip(batch, want)])
        if got is None: sys.exit('the program failed')
        figures.update(c[0] for c in batch)
        answered.update(w[0] for w in want)
        for i, line in got.items():
            different += 1
            if different <= 8: differs(args.build, batch[i], want[i], line)
        batch.clear()
    for c in cases(args.seed, args.count, args.sorts and args.sorts.split(',')):
        if c is None: continue
        batch.append(c)
        if len(batch) >= 20000: flush()
    flush()
    print('%s, seed %d: %d texts and keys, %d different, %.0f s' % (args.build, args.seed, sum(figures.values()), different, time.time() - began))
    print('sorts: ' + ', '.join('%s %d' % x for x in figures.items()))
    print('answers: ' + ', '.join('%s %d' % ('refusal %d' % k if k else 'granted', n) for k, n in sorted(answered.items())))
    print('type rules entered: at most %.2f a token, %d of %d: %r' % (most[:3] + (most[3][:200],)))
    if TAGS: print('nodes by tag: ' + ', '.join('%s %d' % x for x in sorted(TAGS.items(), key=str)))
    return different


def largest():
    """The readings that open the most, by name: text, and token words where the text alone does not say them."""
    for n in (63, 64):
        for t in v.nested(n): yield '%d type rules inside the first, %s' % (n, t[:18]), t, None
    yield '31 function types in parameters and returns', '(a: ' * 31 + '() => ' * 31 + 'A' + ') => B' * 31, None
    yield '31 function types in arguments', 'A<<T>() => ' * 31 + 'A' + '>' * 31, None
    yield '4 trials', '(infer U extends ' * 4 + '(' * 55 + 'A' + ')' * 59, None
    yield '4,095 union parts', '|'.join('A' * 4095), None
    yield '4,096 union parts', '|'.join('A' * 4096), None
    yield '5,000 dotted names', '.'.join('A' * 5000), None
    yield '16,382 open brackets', '(' * 16382 + 'A', None
    yield '255 keyof', 'keyof ' * 255 + 'A', None
    yield ('13,106 keyof',) + keyofs(13106)


ARRAYS = 65536   # bytes: the lines that are gathered; what is lent lies on the heap


def least_stack(which, case):
    """By halving, in KiB. The system puts the stack at a random place: a size is enough if it is so five times."""
    r, low, high = [record(case, expected(case))], 0, 32768
    while high - low > 1:
        mid = (low + high) // 2
        if all(run(which, r, 1024 * mid) == {} for _ in range(5)): high = mid
        else: low = mid
    return high


def stacks(args):
    """The least stack for each of the largest readings, less that of a text of one token."""
    c, most = Cases(1), 0
    base = least_stack(args.build, c.case('stack', 'A', None, 0, True, WIDE))
    print('one token: ulimit -s %d' % base)
    for name, text, words in largest():
        n = least_stack(args.build, c.case('stack', text, words, 0, True, WIDE))
        most = max(most, n - base)
        print('%s: ulimit -s %d, %d KiB more' % (name, n, n - base), flush=True)
    rest = base + most - ARRAYS // 1024
    print('most: %d KiB more than a text of one token; the whole program beside its arrays: %d KiB, of 256' % (most, rest))
    return rest > 256


def main():
    p = argparse.ArgumentParser()
    p.add_argument('--count', type=int, default=200000)
    p.add_argument('--seed', type=int, default=1)
    p.add_argument('--build', default='O3')
    p.add_argument('--sorts')
    p.add_argument('--no-build', action='store_true')
    p.add_argument('--stack', action='store_true')
    args = p.parse_args()
    if not args.no_build: build()
    sys.exit(1 if (stacks if args.stack else compare)(args) else 0)


if __name__ == '__main__':
    main()
