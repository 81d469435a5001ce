"""Prints the key of a type, walks its tree and compares it with another: python3 key_of_a_type.py 'A | B & C'"""
import pathlib
import sys

sys.path.append(str(pathlib.Path(__file__).resolve().parents[2] / "bindings" / "python"))
import typekey


def cut(text):
    """Cuts at spaces, for words and marks. It stands in for the lexer that you have."""
    tokens, at = [], 0
    for part in text.split(b" "):
        if part: tokens.append(typekey.token(typekey.kind_of(part), at, len(part)))
        at += len(part) + 1
    return tokens + [typekey.token(typekey.EOF, len(text), 0)]


text = (sys.argv[1] if len(sys.argv) > 1 else "A | B & C").encode()
try:
    reading = typekey.read(text, cut(text))
except typekey.Refused as refusal:
    sys.exit(str(refusal))

print(text.decode())
print("key", reading.key.hex(" "))
for depth, node in reading.tree.walk():
    print("  " * depth + str(node), *(name.decode() for name in node.names))
for note in reading.notes:
    print(note)

# From the key alone the same tree comes back, without places in the text.
tree = typekey.take_back(reading.key)
print("taken back: a %s of %d nodes" % (tree.root.tag, tree.size))

# Two keys are the same bytes, or there are places where their trees differ: bits of the one and of the other.
other = b"A | B & D"
for left, right in typekey.differ(reading.key, typekey.read(other, cut(other)).key):
    print("beside %s: bit %d, bit %d" % (other.decode(), left, right))
