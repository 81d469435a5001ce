#!/usr/bin/env python3
"""Writes the measures of the ring of readers: thirteen for each unread half of a token, and a rank for each reader.

    ring_modules.py            write them into crates/readers/proofs/ring/+ring/Invariants.antt, each in its place
    ring_modules.py --check    say whether they are as this would write them

Each function of crates/readers/src/ring.rt under `#[cycle(ring)]` has a rank below; where a reader calls another before a token is read,
that one's rank is lower. The rest of a reader's proof begins with `rt check --start ring::READER` in crates/readers.
"""
import os, re, sys

ROOT = os.path.dirname(os.path.dirname(os.path.abspath(__file__)))
SOURCE = os.path.join(ROOT, 'crates', 'readers', 'src', 'ring.rt')
FILE = os.path.join(ROOT, 'crates', 'readers', 'proofs', 'ring', '+ring', 'Invariants.antt')
RANKS = {12: 'child ret elem', 11: 'ty', 10: 'function memb', 9: 'union sign index',
         8: 'params tparams inter', 7: 'plist tparam operator', 6: 'param infer postfix',
         5: 'primary suffix', 4: 'pred named mapped object tuple parens template', 3: 'targs extends opt'}
RANK = {name: r for r, names in RANKS.items() for name in names.split()}


def measure(reader):
    return 'abbrev pub decreases-%s : goal.decreases-%s\ndecreases-%s l = (length l.words.now * 2 - (l.m.at * 2 + l.m.half)) * 13 + %d\n' % (reader, reader, reader, RANK[reader])


def main(words):
    if words not in ([], ['--check']): sys.exit(__doc__)
    readers = sorted(re.findall(r'#\[cycle\(ring\)\]\s+(?:pub )?fn (\w+)\(', open(SOURCE, encoding='utf-8').read()))
    if set(readers) != set(RANK): sys.exit('without a rank, or without a function: %s' % ' '.join(sorted(set(readers) ^ set(RANK))))
    old = text = open(FILE, encoding='utf-8').read()
    for reader in readers:
        place = re.compile(r'(?m)^abbrev pub decreases-%s : .*\ndecreases-%s\b(?:.*\n)(?:[ \t]+.*\n)*' % (reader, reader))
        if not place.search(text): text = text.rstrip('\n') + '\n\n' + measure(reader)
        elif re.sub(r'\s+', ' ', place.search(text)[0]) != re.sub(r'\s+', ' ', measure(reader)): text = place.sub(lambda _: measure(reader), text)
    if not words and text != old: open(FILE, 'w', encoding='utf-8').write(text)
    print('%d readers: %s' % (len(readers), 'as it would be written' if text == old else 'DIFFERENT' if words else 'written'))
    sys.exit(bool(words) and text != old)


main(sys.argv[1:])
