#!/usr/bin/env python3
"""Runs the tool (target/bin/typekey) on each stored text that model.py cuts as it is stored, and on texts with object types
that rules_model.py makes and damages, and compares what it prints as JSON with model.py: key, tree, bytes, members' fields,
diagnostics, end and type rules entered, or the refusal with its token, half and byte; brackets dropped and kept.

    compare_tool.py [TOOL]           the last lines say how many texts there were and how many differ
    compare_tool.py --diff [COUNT [TOOL]]   only pairs, so many: the bits that --diff-types and --diff give, against differ_model.py

A line break of a text goes in as a carriage return, so that a text is a line.
"""
import json
import os
import random
import re
import struct
import subprocess
import sys

ROOT = os.path.dirname(os.path.dirname(os.path.abspath(__file__)))
sys.path.insert(0, os.path.join(ROOT, "tools"))
import model
from differ_model import differences as differ
from keys_model import items
from rules_model import WIDE, Cases, ObjectMaker
from rules_model import read as placed

TOOL = os.path.join(ROOT, "target", "bin", "typekey")
PAIRS = 300
OBJECTS = 20000                                                    # texts made with object types
REFUSALS = {first + n: name for first, names in (
    (1, "BadList BadToken Unexpected"), (5, "TooDeep TooTall TooLong NoRoom ManyNotes BadKey NoSpace"),
    (20, "PrefixMark ParameterModifier DefaultValue MisplacedThis RestNotLast TypeParameterModifier ImportSource ImportOptions ManyTrials"),
    (31, "MemberForm")) for n, name in enumerate(names.split())}
TAGS = ("- reference keyword literal parens union intersection array indexed conditional infer operator function constructor mapped "
        "template predicate typeof import tuple optional rest named non-null nullable object").split()
MEMBERS = "property", "method", "call signature", "construct signature", "index signature"
KEYS = "name", "string", "number"


def stored():
    """The texts of the records that read (crates/rows/src/main.rt says how a record stands), with their words."""
    data, i = open(os.path.join(ROOT, "crates/rows/data/vectors"), "rb").read(), 0
    while i < len(data):
        start, size, words, _, _, _, key = struct.unpack("<7I", data[i + 1:i + 29])
        op, i = data[i], i + 81
        if op >= 4:
            i += key
            continue
        text = data[i:i + size]
        yield text, list(struct.unpack("<%dQ" % words, data[i + size:i + size + 8 * words]))
        i += size + 8 * words


def made(count):
    """Texts with object types, sound and damaged."""
    for sort, text, words, *_ in Cases(7, ObjectMaker).generated(count):
        if sort in ("sound", "damaged"):
            yield text, words


def cut(text):
    try:
        return model.cut(text.decode("latin1"))
    except IndexError:                                              # a template that nothing ends
        return None


def fields(n):
    """What a member says of itself by name."""
    f, latin = n.f, lambda s: s.decode("latin1")
    said = {"readonly": bool(f["readonly"])} if f["sort"] in (0, 4) else {}
    if f["sort"] < 2:
        said.update(key=KEYS[f["key"][0]], name=latin(f["key"][1]), optional=bool(f["q"]))
    if f["sort"] == 4 and f["par"]:
        said["name"] = latin(f["par"][0])
    return said


def tree(n):
    plain, member = isinstance(n.tag, int), n.tag == "member"
    value = {"c": lambda x: x[2], "s": lambda x: x[1].decode("latin1"), "n": lambda x: tree(x[1])}
    return {"tag": TAGS[n.tag] if plain else MEMBERS[n.f["sort"]] if member else n.tag, "first": n.b, "end": n.e, **(fields(n) if member else {}),
            "items": [value[x[0]](x) for x in items(n)[plain or member:]]}


def has_members(t):
    """Whether a tree as JSON has members."""
    return t["tag"] in MEMBERS or any(has_members(x) for x in t["items"] if isinstance(x, dict))


def wanted(text, words, parens):
    r = model.read(text, words, 0, parens)
    if r[0] == "refused":
        number, token, half, byte = placed(text, words, 0, parens, WIDE)[0]
        assert (number, token) == r[1:3]
        return False, number, REFUSALS[number], token, half, model.unpack(words[token])[4] if number == 2 else byte   # the tool points at a bad token
    return True, r[4].hex(), r[2], r[3], tree(r[1]), placed(text, words, 0, parens, WIDE)[0][7]


def got(line):
    o = json.loads(line.decode("latin1"))
    if not o["ok"]:
        r = o["refused"]
        return False, r["number"], r["name"], r["token"], r["half"], r["byte"]
    pair = lambda p: (p["first"], p["end"]) if p else (0, 0)        # the second place, or none
    notes = [(d["number"], d["first"], d["end"]) + pair(d["other"]) for d in o["diagnostics"]]
    return True, o["key"], notes, (o["end"]["token"], o["end"]["half"]), o["tree"], o["entered"]


# ---- pairs: a type and a change of it
def changed(r, text):
    """A type with a token replaced by one that stands elsewhere."""
    tokens = re.findall(r"[A-Za-z_]+|[0-9]+|'[^']*'|=>|\.\.\.|\s+|.", text)
    at = [i for i, t in enumerate(tokens) if t.strip()]
    for _ in range(r.choice((1, 1, 2, 3))):
        if at:
            tokens[r.choice(at)] = r.choice(OTHERS)
    return "".join(tokens)


OTHERS = ["A", "B", "string", "number", "'a'", "'b'", "1", "-1", "true", "x", "|", "&", "[]", "?", "K", "T", "readonly ", "", ";", "a", ": A", "()", "new "]


def two(r, texts):
    left = r.choice(texts)
    return left, r.choice(texts) if r.random() < 0.2 else changed(r, left)


def tree_of(text):
    """What the model reads of a text, and whether that is all of it; None where it is refused."""
    words = cut(text.encode("latin1"))
    a = None if words is None else model.read(text.encode("latin1"), words, 0, False)
    return None if a is None or a[0] == "refused" else (a, a[3][0] == len(words) - 1)


def run(tool, args):
    r = subprocess.run([tool, "--json"] + args, stdout=subprocess.PIPE, stderr=subprocess.DEVNULL, check=True)
    return json.loads(r.stdout.decode("latin1"))


def rest(side, a):
    return {"ok": False, "side": side, "rest": a[3]}


def told(have):
    """The answer of --diff without what the model does not say."""
    if isinstance(have, dict):
        return {**have, "rest": (have["rest"]["token"], have["rest"]["half"])} if "rest" in have else have
    if any(d["left"]["text"] == d["right"]["text"] and "..." not in d["left"]["text"] for d in have) or len({d["path"] for d in have}) != len(have):
        return "a text that is shown whole, or a path, twice"
    return [(d["left"]["bit"], d["right"]["bit"]) for d in have]


def exchanged(have):
    return [{"path": d["path"], "left": d["right"], "right": d["left"]} for d in have]


def pairs(tool, count):
    r = random.Random(1)
    fit = lambda texts: [t.decode() for t, words in texts if len(t) < 200 and all(31 < c < 127 for c in t) and cut(t) == words and tree_of(t.decode())]
    texts, objects = fit(stored()), [t for t in fit(made(PAIRS * 10)) if has_members(tree(tree_of(t)[0][1]))]
    done = different = same = rests = places = members = 0
    while done < count:
        left, right = two(r, r.choice((texts, objects)))
        if not tree_of(left) or not tree_of(right):
            continue
        (a, whole), (b, other_whole) = tree_of(left), tree_of(right)
        if not (whole and other_whole) and r.random() < 0.9:
            continue
        done += 1
        want = differ(a[1], b[1])
        members += has_members(tree(a[1]))
        by_type = rest("left", a) if not whole else rest("right", b) if not other_whole else want
        same, rests, places = same + (not want), rests + (by_type is not want), places + len(want)
        keys = [a[4].hex(), b[4].hex()]
        for args, wanted_here in (["--diff-types", left, right], by_type), (["--diff"] + keys, want):
            have = run(tool, args)
            if told(have) != wanted_here:
                different += 1
                print("different", args, wanted_here, have)
        if done % 4 == 0 and exchanged(run(tool, ["--diff"] + keys[::-1])) != have:
            different += 1
            print("different when exchanged", args)
    print(done, "pairs,", members, "with members on the left, compared by type and by key, every fourth exchanged too:", same, "the same,", rests, "with a rest,", places, "differences,",
          different, "different")
    return different


def main():
    if sys.argv[1:2] == ["--diff"]:
        sys.exit(pairs(sys.argv[3] if sys.argv[3:] else TOOL, int(sys.argv[2]) if sys.argv[2:] else PAIRS) != 0)
    tool = sys.argv[1] if sys.argv[1:] else TOOL
    texts = {}
    for text, words in list(stored()) + list(made(OBJECTS)):
        if cut(text) == words:
            text = text[:-1] if text.endswith(b"\n") else text     # the tool takes no line break that ends a text
            texts[text.replace(b"\n", b"\r")] = cut(text)
    count = different = members = 0
    for parens in False, True:
        r = subprocess.run([tool, "--batch", "--json"] + ["--parens"] * parens, input=b"".join(t + b"\n" for t in texts),
                           stdout=subprocess.PIPE, stderr=subprocess.DEVNULL, check=True)
        lines = r.stdout.split(b"\n")
        assert len(lines) == len(texts) + 1, "a line for each text"
        for (text, words), line in zip(texts.items(), lines):
            count += 1
            want = wanted(text, words, parens)
            members += not parens and want[0] and has_members(want[4])
            if got(line) != want:
                different += 1
                print("different", text, line)
    print(count, "readings of", len(texts), "texts,", members, "of them with members in their trees,", different, "different")
    sys.exit(different + pairs(tool, PAIRS) != 0)


main()
