#!/usr/bin/env python3
"""Writes the constant tables: class words in crates/words/src/tables.rt; letters, places and guesses of spellings in crates/checks/src/tables.rt.

    tools/tables.py          write them (then rt fmt in the two folders)
    tools/tables.py --check  say whether they are as they would be written

The tables are proved to be what the definitions say; this script only spares typing them.
"""
import os
import re
import sys

sys.path.insert(0, os.path.dirname(os.path.abspath(__file__)))
import model

ROOT = os.path.dirname(os.path.dirname(os.path.abspath(__file__)))


def classes(kind):
    word = model.binding(kind), model.name(kind), model.starts(kind), model.modifier(kind)
    word += model.valid(kind), kind in model.SPELL, kind in (1, 41, 83, 107)
    return sum(1 << j for j, on in enumerate(word) if on)


def letters():
    text, places = b"", []
    for kind in range(128):
        spelling = model.SPELL.get(kind, b"")
        places.append(len(text) * 16 + len(spelling))
        text += spelling
    return text, places


def guesses():
    """The one kind whose spelling can have a length, a first and a last byte; a place for each sum of the three."""
    table = [0] * 128
    for kind, s in model.SPELL.items():
        at = (8 * (len(s) % 16) + 13 * s[0] + 46 * s[-1]) % 128
        if table[at]:
            sys.exit("the spellings of %d and %d have one place" % (table[at], kind))
        table[at] = kind
    return table


def array(name, kind, values):
    rows = ["    " + ", ".join(str(v) for v in values[i:i + 16]) + ",\n" for i in range(0, len(values), 16)]
    return "pub const %s: [%s; %d] = [\n%s];\n" % (name, kind, len(values), "".join(rows))


def tables():
    """The tables of each crate."""
    text, places = letters()
    return {
        "words": [array("CLASSES", "u16", [classes(k) for k in range(256)])],
        "checks": ["pub const LETTERS: [u8; %d] = *b\"%s\";\n" % (len(text), text.decode()), array("PLACES", "u16", places), array("GUESSES", "u8", guesses())],
    }


def put(old, texts):
    """A file's text with these tables in the place of those that it has under their names."""
    for text in texts:
        const = re.match(r"pub const \w+", text).group()
        old, found = re.subn(const + r": .*?;\n(?=\n|\Z)", lambda _: text, old, flags=re.S)
        if found != 1:
            sys.exit("`%s` is there %d times" % (const, found))
    return old


def main():
    alike = True
    for crate, texts in tables().items():
        path = os.path.join(ROOT, "crates", crate, "src", "tables.rt")
        with open(path) as f:
            old = f.read()
        new = put(old, texts)
        same = re.sub(r"\s", "", new) == re.sub(r"\s", "", old)
        alike = alike and same
        if not same and "--check" not in sys.argv:
            with open(path, "w") as f:
                f.write(new)
    print("the tables are as they would be written" if alike else "the tables differ" if "--check" in sys.argv else "written")
    if "--check" in sys.argv:
        sys.exit(not alike)


main()
