#!/usr/bin/env python3
"""Takes real types from .d.ts files and lays them out for the benchmark.

    types.py OUT [FOLDER ..]    the types in the folders' .d.ts files; without a folder a generator's, the same each time

Each different text counts once. A type that holds an object type is left out at first, and the types in it stand for
themselves, as tools/types_of.js --base finds them; those with object types, bodies of interfaces among them, are by themselves.
Files in OUT, each of token lists one after the other: the text's length and the number of words (4 bytes each, lowest first),
the text, the words (8 bytes each).

    about                 a line that says how many types there are
    one, typical, 1000    types of one token; all types with no object type; tuples of them with about 1,000 tokens
    members               types with object types
    grow-N                types or tuples with just N tokens, the Eof not counted
    stack, stack.names    the texts that open the most, and what they are
    stack.keys            keys of the highest trees: the length (4 bytes), the key; their names are in stack.names too
"""
import glob
import json
import os
import random
import re
import struct
import subprocess
import sys

TOOLS = os.path.join(os.path.dirname(os.path.abspath(__file__)), "..", "tools")
sys.path.insert(0, TOOLS)
import model as m
from compare_rules import largest
from model import Node
from rules_model import Maker

SIZES = [1 << i for i in range(14)] + [m.TOKENS - 1]
BYTES_A_TOKEN = 3.9                                                 # so that 16,383 tokens fit a text


def files(folders):
    return sorted({os.path.realpath(p) for d in folders for p in glob.glob(os.path.join(d, "**", "*.d.ts"), recursive=True)})


def real(paths, *options):
    """The texts of the types in the files."""
    for i in range(0, len(paths), 50):
        out = subprocess.run(["node", os.path.join(TOOLS, "types_of.js"), *options] + paths[i:i + 50], capture_output=True, text=True)
        if out.returncode:
            sys.exit(out.stderr)
        for line in out.stdout.splitlines():
            text = json.loads(line)[0]
            if text is not None:
                yield re.sub(r"[^\x00-\x7f]", "X", text)            # the model cuts ASCII alone


def made(count):
    chance = random.Random(1)
    g = Maker(chance)
    for _ in range(count):
        yield g.sound(chance.choice((20, 40, 60)))


def whole(text):
    """The words of a text that is one type to its end, and may stand among others in a tuple with no diagnostic; else none."""
    if len(text) > m.TEXT:
        return None
    words = m.cut(text)
    x = m.read(text.encode(), words, 0, False) if len(words) <= m.TOKENS else ("refused",)
    return words if x[0] == "read" and x[3] == (len(words) - 1, 0) and not x[2] and x[1].tag != 24 else None


def tuple_of(chance, some, ones, tokens):
    """A tuple of just so many tokens, within the bytes of a text."""
    parts, has, size = [], 1, 2                                     # each part with its comma or the last bracket; bytes
    while tokens - has >= 2:
        text, n = chance.choice(some if tokens - has > 12 else ones)
        if has + n + 1 <= tokens and size + len(text) + 1 <= BYTES_A_TOKEN * (has + n + 1) + 16:
            parts.append(text)
            has += n + 1
            size += len(text) + 1
    return "[" + ",".join(parts) + ("," if has < tokens else "") + "]"


def thousand(some):
    part, tokens = [], 1
    for text, n in some:
        if tokens + n + 1 > 1000:
            yield "[" + ", ".join(part) + "]"
            part, tokens = [], 1
        part.append(text)
        tokens += n + 1


def highest():
    """Trees of height 256 by way of each node that has a child."""
    leaf = Node(2, 0, 0, 0, which=0)
    node = lambda tag, **f: Node(tag, 0, 0, 0, **f)
    parameter = lambda t: node("parameter", rest=False, name=b"a", q=False, t=t)
    type_parameter = lambda t: node("type parameter", name=b"T", x=None, d=t)
    function = dict(params=None, this=None, list=[], ret=leaf)
    ways = {
        "references": lambda t: node(1, names=[b"A"], args=[t]), "brackets": lambda t: node(4, t=t), "unions": lambda t: node(5, list=[t]),
        "arrays": lambda t: node(7, t=t), "indexed types": lambda t: node(8, t=leaf, x=t), "conditionals": lambda t: node(9, four=[leaf, leaf, leaf, t]),
        "infers": lambda t: node(10, name=b"U", x=t), "operators": lambda t: node(11, which=0, t=t),
        "functions by their returns": lambda t: node(12, **dict(function, ret=t)),
        "functions by this": lambda t: node(12, **dict(function, this=(t,))),
        "functions by parameters": lambda t: node(12, **dict(function, list=[parameter(t)])),
        "functions by type parameters": lambda t: node(12, **dict(function, params=[type_parameter(t)])),
        "constructors": lambda t: node(13, abstract=True, params=None, list=[], ret=t),
        "mapped types": lambda t: node(14, ro=0, key=b"K", c=leaf, n=None, q=0, t=t), "templates": lambda t: node(15, ss=[b"a", b"b"], ts=[t]),
        "predicates": lambda t: node(16, asserts=False, name=None, t=t), "imports": lambda t: node(18, typeof=False, s=b"m", names=[], args=[t]),
        "tuples": lambda t: node(19, list=[t]), "named rests": lambda t: node(19, list=[node(21, t=node(22, name=b"a", q=False, t=t))]),
    }
    for name, over in ways.items():
        step = {"named rests": 3, "functions by parameters": 2, "functions by type parameters": 2}.get(name, 1)
        tree = leaf
        for _ in range(255 // step):
            tree = over(tree)
        yield "%s to height %d" % (name, 1 + 255 // step * step), m.key_of(tree)


def written(out, name, texts):
    lists = [t if isinstance(t, tuple) else (t, m.cut(t)) for t in texts]
    with open(os.path.join(out, name), "wb") as f:
        for text, words in lists:
            data = text.encode()
            f.write(struct.pack("<II", len(data), len(words)) + data + struct.pack("<%dQ" % len(words), *words))
    print("%s: %d lists, %d tokens, %d bytes of text" % (name, len(lists), sum(len(w) - 1 for _, w in lists), sum(len(t) for t, _ in lists)))


def main():
    if len(sys.argv) < 2:
        sys.exit(__doc__)
    out, folders = sys.argv[1], sys.argv[2:]
    os.makedirs(out, exist_ok=True)
    paths = files(folders)
    texts = list(real(paths, "--base") if folders else made(20000))
    some = [(t, len(w) - 1) for t in dict.fromkeys(texts) for w in [whole(t)] if w]
    known = set(texts)
    members = [(t, w) for t in dict.fromkeys(real(paths) if folders else texts) if not folders or t not in known for w in [whole(t)] if w]
    about = "{:,} types of {:,} files, {:,} of them different and read to their end; and {:,} with object types".format(len(texts), len(paths), len(some), len(members))
    if not folders:
        about = "{:,} generated types, {:,} of them different and with no diagnostic".format(len(texts), len(some))
    print(about)
    open(os.path.join(out, "about"), "w").write(about + "\n")
    chance = random.Random(1)
    chance.shuffle(some)
    ones = [(t, n) for t, n in some if n == 1]
    written(out, "one", [t for t, n in ones])
    written(out, "typical", [t for t, n in some])
    written(out, "1000", thousand(some))
    written(out, "members", members)
    short = [(t, n) for t, n in ones if len(t) < 8]
    for size in SIZES:
        just = [t for t, n in some if n == size]
        count = min(2000, max(4, 60000 // size))
        if size >= 16 or not just:
            just = [tuple_of(chance, some, short, size) for _ in range(count)]
        written(out, "grow-%d" % size, just[:count])
    stack = list(largest())
    written(out, "stack", [(t, w or m.cut(t)) for _, t, w in stack])
    keys = list(highest())
    with open(os.path.join(out, "stack.keys"), "wb") as f:
        for _, key in keys:
            f.write(struct.pack("<I", len(key)) + key)
    with open(os.path.join(out, "stack.names"), "w") as f:
        f.write("".join(name + "\n" for name, *_ in stack + keys))


if __name__ == "__main__":
    main()
