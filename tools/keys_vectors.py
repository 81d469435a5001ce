#!/usr/bin/env python3
"""Writes crates/keys_run/data/vectors, the records that the program keys_run runs, and crates/keys_run/stdout, the lines
that it must print, from the answers of model.py. The same bytes each time.

    keys_vectors.py            write both files (in the folder that holds crates.txt, or above it)
    keys_vectors.py --check    say whether both are as this would write them

As a module: record(op, key, rooms) is a record's bytes, line(op, key, rooms) the line that it must print; rooms are the
words lent for nodes and for names, the bytes lent for text and for the key written again. A line is `refused`, number and
place, or `taken` and the numbers of nodes, names and bytes of text; then the lent nodes, names and text as a sum; and
where the key is taken the length of the key written again, whether it is the key, and its buffer as a sum; the number of
words that the tree's visits have, and their buffer as a sum, which has as many words as bytes are lent for the key, but
no more than VISITS.
"""
import struct
import sys

import keys_model
import model
from keys_model import gen, store, take_back, visits, wrap
from model import KEY, LIST, Node, bits, key_of, spell
from words_vectors import written

NODES, NAMES, TEXT, AGAIN = 838860, 16384, 131072, 262146          # what the program can lend
VISITS = 4096
AMPLE = 4000, 400, 4000, 4000
PRIME, FACTOR = 4294967291, 1000003


def sum_words(words, room, h):
    for w in words:
        h = (h * FACTOR + (w & 0xFFFFFFFF)) % PRIME
        h = (h * FACTOR + (w >> 32)) % PRIME
    return h * pow(FACTOR, 2 * (room - len(words)), PRIME) % PRIME


def sum_bytes(data, room, h):
    for c in data:
        h = (h * FACTOR + c) % PRIME
    return h * pow(FACTOR, room - len(data), PRIME) % PRIME


def line(op, key, rooms):
    a, b, c, d = rooms
    x = take_back(key, a // 4, b, c)
    if x[0] == "refused":
        return "refused %d %d %d" % (x[1], x[2], sum_bytes(b"", c, sum_words([], b, sum_words([], a, 1))))
    nodes, names, text = store(x[1])
    whole = sum_bytes(text, c, sum_words(names, b, sum_words(nodes, a, 1)))
    again = key_of(x[1])
    same = again == key and len(again) <= d
    walk, room = visits(x[1]), min(d, VISITS)
    return "taken %d %d %d %d %d %d %d %d %d" % (
        x[3], x[4], len(x[2]), whole, len(again), same, sum_bytes(again[:d], d, 1), len(walk), sum_words(walk[:room], room, 1))


def record(op, key, rooms):
    return struct.pack("<BIIIII", op, *rooms, len(key)) + key


class Cases(list):
    def add(self, key, rooms=AMPLE, op=0):
        self.append((op, bytes(key), tuple(rooms)))


def used(key):
    """The rooms that a key just fits."""
    x = take_back(key, NODES // 4, NAMES, TEXT)
    return [4 * x[3], x[4], len(x[2]), len(key)]


def packed(s):
    s += "0" * (-len(s) % 8)
    return bytes(int(s[i:i + 8], 2) for i in range(0, len(s), 8))


def leaf(which=3):
    return Node(2, 0, 0, 0, which=which)


ROWS = bytes.fromhex("104004000504"), bytes.fromhex("11C270")       # the two keys that document 01 shows
EDITION, LEAF = bits(1, 4), bits(2, 6) + bits(3, 4)
ELEMENT = EDITION + bits(19, 6) + bits(1, 12)
CLASSES = (EDITION, EDITION + bits(7, 6), ELEMENT, ELEMENT + bits(21, 6), ELEMENT + bits(22, 6) + spell(b"n") + "1",
           EDITION + bits(12, 6) + "1" + bits(1, 12) + spell(b"T") + "1")


def sample():
    """Keys of each tag, of the readings of document 01, and of some trees, all short."""
    keys_model.seed(1)
    all_ = list(ROWS)
    for s in model.ROWS:
        x = model.read(s.encode(), model.cut(s), 0, True)
        if x[0] == "read":
            all_.append(x[4])
    for tag in list(range(1, 20)) + [23, 24]:
        all_ += [key_of(gen("type", 2, tag)) for _ in range(3)]
    for tag in (20, 21, 22):
        all_ += [key_of(Node(19, 0, 0, 0, list=[gen("element", 2, tag)])) for _ in range(3)]
    all_ += [key_of(gen()) for _ in range(30)]
    return sorted(set(k for k in all_ if len(k) < 120), key=lambda k: (len(k), k))


def rows(c):
    for k in ROWS:
        c.add(k)
        c.add(k, used(k))
        c.add(k, used(k), 1)
    for k in sample():
        c.add(k)
        c.add(k, AMPLE, 1)


def tags(c):
    """Each tag in each class, with fields behind it that fit many."""
    for t in range(64):
        rest = {2: bits(3, 4), 3: bits(3, 3), 11: "00" + LEAF}.get(t, LEAF * 4)
        for before in CLASSES:
            c.add(packed(before + bits(t, 6) + rest))
            c.add(packed(before + bits(t, 6)))


def choices(c):
    """Each number of each choice, and counts at their least and most."""
    t = lambda n, s: c.add(packed(EDITION + bits(n, 6) + s))
    for e in range(16):
        c.add(packed(bits(e, 4) + LEAF))
    for n in range(16):
        t(2, bits(n, 4))
    for n in range(8):
        t(3, bits(n, 3))
        t(3, bits(n, 3) + spell(b"s"))
    for n in range(4):
        t(11, bits(n, 2) + LEAF)
        for q in range(4):
            t(14, bits(n, 2) + spell(b"K") + LEAF + "0" + bits(q, 2) + "0")
            t(14, bits(n, 2) + spell(b"K") + LEAF + "1" + LEAF + bits(q, 2) + "1" + LEAF)
    for a in "01":
        for this in "01":
            for o in "01":
                t(16, a + this + (spell(b"p") if this == "0" else "") + o + (LEAF if o == "1" else ""))
    for n in (0, 1, 2, LIST):
        for tag in (5, 6, 19):
            t(tag, bits(n, 12) + LEAF)
        for tag in (1, 17):
            t(tag, bits(n, 12) + spell(b"a") + "0")
            t(tag, bits(1, 12) + spell(b"a") + "1" + bits(n, 12) + LEAF)
        t(12, "1" + bits(n, 12) + spell(b"T") + "00" + "0" + bits(0, 12) + LEAF)
        t(12, "00" + bits(n, 12) + "0" + spell(b"x") + "00" + LEAF)
        t(13, "00" + bits(n, 12) + "0" + spell(b"x") + "00" + LEAF)
        t(15, bits(n, 12) + spell(b"a") + LEAF + spell(b"b"))
        t(18, "0" + spell(b"'m'") + bits(n, 12) + spell(b"a") + "0")
        t(10, bits(n, 16) + bits(97, 8) + "0")                      # the length of a spelling
    for th in ("0", "10", "11" + LEAF):
        t(12, "0" + th + bits(0, 12) + LEAF)


def prefixes(c):
    for k in sample()[::4] + [b""]:
        for n in range(len(k)):
            c.add(k[:n])


def damage(c):
    for k in sample()[::5]:
        for i in range(8 * len(k)):
            d = bytearray(k)
            d[i // 8] ^= 128 >> i % 8
            c.add(d)


def ends(c):
    """Bits set after the tree, and bytes left over."""
    for k in sample()[::3]:
        for i in range(7):
            c.add(k[:-1] + bytes([k[-1] | 1 << i]))
        for more in (b"\0", b"\1", b"\x80", b"\xff", b"\0\0"):
            c.add(k + more)


def heights(c):
    for tag in (4, 7, 23, 24):
        for h in (255, 256, 257):
            c.add(key_of(wrap(h - 1, tag)))
    for h in (256, 257):
        tp = Node("type parameter", 0, 0, 0, name=b"T", x=None, d=None)
        p = Node("parameter", 0, 0, 0, rest=True, name=b"x", q=False, t=None)
        c.add(key_of(wrap(h - 2, 7, Node(12, 0, 0, 0, params=[tp], this=None, list=[], ret=leaf()))))
        c.add(key_of(wrap(h - 2, 7, Node(13, 0, 0, 0, abstract=True, params=None, list=[p], ret=leaf()))))
        c.add(key_of(wrap(h - 2, 7, Node(5, 0, 0, 0, list=[leaf(n) for n in range(13)]))), AMPLE, 1)
        c.add(key_of(wrap(h - 3, 7, Node(19, 0, 0, 0, list=[Node(21, 0, 0, 0, t=leaf())]))))
        k = key_of(wrap(h - 1))
        for room in (255, 256):                                     # 6 before 8, 10 before 6
            c.add(k, (4 * room,) + AMPLE[1:])
        c.add(k[:-1])


def short_rooms(c):
    for k in sample()[::3]:
        exact = used(k)
        c.add(k, exact)
        c.add(k, exact, 1)
        c.add(k, [n + 3 for n in exact])
        c.add(k, (0, 0, 0, 0))
        for which in range(4):
            for less in (1, 2, 4, 5):
                rooms = list(exact)
                rooms[which] = max(0, rooms[which] - less)
                c.add(k, rooms)


def filled(n):
    """A key of n bytes with as many nodes as can be, a spelling at its end."""
    size, lists = 8 * n - 4 - 18 - 6 - 3 - 16, []
    while size >= 18 + 10:
        count = min(LIST, (size - 18) // 10)
        lists.append(Node(5, 0, 0, 0, list=[leaf(i % 13) for i in range(count)]))
        size -= 18 + 10 * count
    over = (8 * n - 4 - 18 - sum(18 + 10 * len(l.f["list"]) for l in lists) - 25) // 8
    while over < 1:
        lists[-1].f["list"].pop()
        over += 1
    k = key_of(Node(5, 0, 0, 0, list=lists + [Node(3, 0, 0, 0, which=0, s=b"s" * over)]))
    assert len(k) == n, len(k)
    return k


def large(c):
    """A key of the greatest length with as many nodes as there can be, one longer, many names, long spellings."""
    k = filled(KEY)
    exact = used(k)
    c.add(k, exact)
    c.add(k, [exact[0] - 1] + exact[1:])
    c.add(k + b"\0", exact)
    names = Node(5, 0, 0, 0, list=[Node(1, 0, 0, 0, names=[bytes([97 + i % 26]) for i in range(LIST)], args=None) for _ in range(4)]
                 + [Node(1, 0, 0, 0, names=[b"abc"] * 4, args=[])])
    k = key_of(names)
    exact = used(k)
    c.add(k, exact, 1)
    c.add(k, [exact[0], exact[1] - 1] + exact[2:])
    long_ = Node(19, 0, 0, 0, list=[Node(22, 0, 0, 0, name=bytes(i % 251 for i in range(65535)), q=True, t=leaf()),
                                    Node(20, 0, 0, 0, t=Node(3, 0, 0, 0, which=0, s=bytes(i % 241 for i in range(34465))))])
    k = key_of(long_)
    exact = used(k)
    c.add(k, exact)
    c.add(k, [exact[0], exact[1], exact[2] - 1, exact[3]])
    c.add(k, exact[:3] + [exact[3] - 1])
    c.add(k[:-2], exact)


W1 = [bytes.fromhex(k) for k in ("164000", "164006A0", "16400400001610", "16400430001610", "164004", "16400400000610", "1640060080080" + "00A08")]
OBJECT = EDITION + bits(25, 6) + bits(1, 12)


def members(c):
    """Object types: 02's rows, each sort of member and of key, trees of each sort with turned bits, prefixes and short rooms."""
    keys_model.seed(25)
    for k in W1:
        for nodes in (0, 4, 8, AMPLE[0]):
            c.add(k, (nodes,) + AMPLE[1:])
    for sort in range(8):
        for rest in ("", "0" + bits(1, 2) + spell(b"a") + "00", bits(2, 2) + spell(b"a") + "0000" + bits(0, 12) + "0", "00" + bits(0, 12) + "0", "0" + bits(0, 12) + "0", "00" + LEAF):
            c.add(packed(OBJECT + bits(sort, 3) + rest))
    for which in range(4):
        c.add(packed(OBJECT + bits(0, 3) + "0" + bits(which, 2) + spell(b"a") + "00"))
        c.add(packed(OBJECT + bits(1, 3) + bits(which, 2) + spell(b"a") + "0000" + bits(0, 12) + "0"))
    for n in (0, 1, 2, LIST):
        c.add(packed(EDITION + bits(25, 6) + bits(n, 12) + bits(2, 3) + "00" + bits(0, 12) + "0"))
    for sort in range(5):
        for _ in range(6):
            k = key_of(Node(25, 0, 0, 0, list=[gen("m", 2, sort)] + [gen("m", 1) for _ in range(keys_model.R.choice([0, 0, 1]))]))
            exact = used(k)
            c.add(k)
            c.add(k, exact, 1)
            for which in range(3):
                c.add(k, [n - (i == which and n > 0) for i, n in enumerate(exact)])
            for i in range(8 * min(len(k), 24)):
                d = bytearray(k)
                d[i // 8] ^= 128 >> i % 8
                c.add(d)
            for n in range(0, len(k), 3):
                c.add(k[:n])
    a = Node("member", 0, 0, 0, sort=0, readonly=True, key=(1, b"'a'"), q=True, t=None)
    for h in (254, 255):
        c.add(key_of(wrap(h, 7, Node(25, 0, 0, 0, list=[a]))))


def cases():
    c = Cases()
    for part in (rows, tags, choices, prefixes, damage, ends, heights, short_rooms, large, members):
        part(c)
    return c


def main():
    c = cases()
    data = b"".join(record(*x) for x in c) + record(0, ROWS[0], AMPLE)[:-1]             # the last record is cut
    lines = [line(*x) for x in c] + ["cut"]
    written("keys_run", data, lines)


if __name__ == "__main__":
    main()
