"""What differs between two keys by model.py (02, W9): the call `differ` as the first words of its answer and the list that it
leaves. With two keys in hex it prints them: python3 differ_model.py LEFT RIGHT [WORDS]"""
import sys

import model as m
from rules_model import run_of

LEFT, RIGHT, MANY = 1, 2, 29


def own(run): return [x[2] for x in run if x[0] == 'c']


def width(x): return x[1] if x[0] == 'c' else 16 + 8 * len(x[1]) if x[0] == 'n' else len(m.out(x[1]))


def differences(t, u, a=4, b=4):
    """The pairs of two nodes whose first bits are a and b. A node's tag is the first of its choices."""
    left, right = run_of(t), run_of(u)
    if own(left) != own(right): return [(a, b)]
    pairs = []
    for x, y in zip(left, right):
        if x[0] == 'n' and x[1] != y[1]: pairs.append((a, b))
        if x[0] == 'k': pairs += differences(x[1], y[1], a, b)
        a, b = a + width(x), b + width(y)
    return pairs


def differ(left, right, words):
    trees = []
    for side, key in ((LEFT, left), (RIGHT, right)):
        x = m.take_back(key)
        if x[0] == 'refused': return (x[1], side, x[2]), [0] * words
        trees.append(x[1])
    pairs = differences(*trees)
    if len(pairs) > words // 2: return (MANY, 0, 0), [0] * words
    said = [bit for pair in pairs for bit in pair]
    return (0, len(pairs), 0), said + [0] * (words - len(said))


if __name__ == '__main__':
    left, right = map(bytes.fromhex, sys.argv[1:3])
    print(*differ(left, right, int(sys.argv[3]) if len(sys.argv) > 3 else 2 * len(left)))
