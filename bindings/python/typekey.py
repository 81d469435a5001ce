"""The type key from Python: ctypes over the shared object libtypekey.so. This file is all there is; it needs Python 3.8.

read(text, tokens) gives a type's tree, its diagnostics and its key. take_back(key) gives the tree again. differ(left, right)
says where the trees of two keys differ. Two texts have the same key exactly when they are the same type; that is proved of
the library, and not of this file, which only passes memory on and reads the words that come back.

    import typekey
    from typekey import kind_of, token

    text = b"A | B"
    tokens = [token(kind_of("A"), 0, 1), token(kind_of("|"), 2, 1), token(kind_of("B"), 4, 1), token(typekey.EOF, 5, 0)]
    reading = typekey.read(text, tokens)
    print(reading.key.hex())
    for depth, node in reading.tree.walk():
        print("  " * depth, node)           # union 0..5, then reference 0..1 and reference 4..5 below it

Tokens come from your lexer. There is no lexer here: token packs a token's kind, place and line break into a word, and
kind_of has the kind of a word or a mark. The library checks each word before it reads.

Any input is fine. Bad input raises Refused, which says what is wrong and where.

Room is lent by need: a call clears all that it is lent. Buffers has just what is enough; lend your own to have less. What
a call gives is copied out of them. No state is kept and the GIL is dropped, so threads may call at the same time, each
with buffers of its own.

libtypekey.so is looked for in the repository's target/lib, or in the folder that TYPEKEY_LIB names.
"""
from __future__ import annotations

import ctypes
import enum
import os
import pathlib
from array import array
from typing import Iterable, Iterator, List, NamedTuple, Optional, Tuple, Union

# ---- the library

_folder = pathlib.Path(os.environ.get("TYPEKEY_LIB") or pathlib.Path(__file__).resolve().parents[2] / "target" / "lib")
if not (_folder / "libtypekey.so").exists():
    raise ImportError("no libtypekey.so in %s: tools/build_library.sh makes it, TYPEKEY_LIB names another folder" % _folder)
_library = ctypes.CDLL(str(_folder / "libtypekey.so"))
_Answer = ctypes.c_uint64 * 8
_given, _words, _bytes = [ctypes.c_char_p, ctypes.c_uint64], [ctypes.POINTER(ctypes.c_uint64), ctypes.c_uint64], [ctypes.POINTER(ctypes.c_uint8), ctypes.c_uint64]
_library.typekey_read.argtypes = _given + _words + [ctypes.c_uint64] * 2 + _words * 3 + _bytes + [_Answer]
_library.typekey_read.restype = None
_library.typekey_take_back.argtypes = _given + _words * 2 + _bytes + [_Answer]
_library.typekey_take_back.restype = None
_library.typekey_differ.argtypes = _given * 2 + _words + [_Answer]
_library.typekey_differ.restype = None

# ---- token words

EOF, WORD, NUMBER, BIGINT, STRING, TEMPLATE, TEMPLATE_HEAD, TEMPLATE_MIDDLE, TEMPLATE_TAIL = range(9)
OTHER_MARK, OTHER_MODIFIER, OTHER_RESERVED = 41, 83, 107                    # with no kind of their own
_KINDS = {word: first + n for first, run in (
    (16, "{ } [ ] ( ) < > << <= <<= | & ? : , ; . ... => = ! - + *"),
    (64, "any bigint boolean never number object string symbol undefined unknown abstract as asserts infer is keyof out readonly unique"),
    (96, "extends false import in new null this true typeof void const")) for n, word in enumerate(run.split())}
_KINDS.update(dict.fromkeys("accessor async declare override private protected public static".split(), OTHER_MODIFIER))
_KINDS.update(dict.fromkeys(("break case catch class continue debugger default delete do else enum export finally for function if "
                             "instanceof return super switch throw try var while with").split(), OTHER_RESERVED))


def token(kind: int, start: int, length: int, newline: bool = False) -> int:
    """A token word: kind, first byte, length in bytes, and whether a line break stands before the token."""
    if not (0 <= kind < 1 << 8 and 0 <= start < 1 << 32 and 0 <= length < 1 << 17):
        raise ValueError("no token word has kind %d, start %d and length %d" % (kind, start, length))
    return kind << 56 | bool(newline) << 55 | length << 32 | start


def kind_of(spelling: Union[str, bytes]) -> int:
    """The kind of a token that is a word or a mark. Other tokens have the kinds that are named here."""
    if isinstance(spelling, bytes): spelling = spelling.decode("utf-8", "replace")
    return _KINDS.get(spelling) or (WORD if spelling[:1].isalpha() or spelling[:1] in set("_$#") else OTHER_MARK)


# ---- what a call says beside the tree

class Why(enum.IntEnum):
    """Why a call was refused, with the refusal's number."""
    BadList, BadToken, Unexpected = range(1, 4)
    TooDeep, TooTall, TooLong, NoRoom, ManyNotes, BadKey, NoSpace = range(5, 12)
    PrefixMark, ParameterModifier, DefaultValue, MisplacedThis, RestNotLast, TypeParameterModifier, ImportSource, ImportOptions = range(20, 28)
    ManyTrials, ManyDifferences, MemberForm = 28, 29, 31


_WHY = dict(zip(Why, ("no tokens or too many, too long a text, or a start that is no token", "a word that is no good token", "a token that no rule takes",
        "a 65th type rule open", "a node higher than 256", "a list of more than 4,095 entries",
        "no room for another node", "no record for another diagnostic, or a 33rd one", "a field that is no part of a key",
        "no space for the names, the key or the letters", "a `?`, `!` or `*` before a type is not supported",
        "a modifier before a parameter is not supported", "a default value is not supported", "`this` has to be the first parameter, and not a rest",
        "nothing may follow a rest parameter", "`const`, `in` or `out` before a type parameter is not supported",
        "the source of an import has to be a string", "options of an import are not supported",
        "more than four constraints of `infer` would be tried at once",
        "more differences than the list has room for", "a computed name, an accessor or a modifier other than `readonly` is not supported")))


class Side(enum.IntEnum):
    """Which of two keys a refusal is about."""
    Neither, Left, Right = range(3)


class Refused(Exception):
    """A refusal. As text it is a sentence.

    why is its name and number its number. token, half and byte are its place in reading: the token's index, 1 if the first
    half of that token was used (else 0), and the first byte not yet used. bit is its place in a key, and side which of two keys
    that is. What does not apply is None, or 0 where the library has no place: all for BadList, NoSpace and ManyDifferences, half
    and byte for BadToken.
    """
    def __init__(self, number: int, token: Optional[int] = None, half: Optional[int] = None, byte: Optional[int] = None, bit: Optional[int] = None,
                 side: Optional[Side] = None):
        self.why, self.number, self.token, self.half, self.byte, self.bit, self.side = Why(number), number, token, half, byte, bit, side
        super().__init__("refusal %d (%s): %s%s" % (number, self.why.name, _WHY[self.why], self._where()))

    def __reduce__(self): return Refused, (self.number, self.token, self.half, self.byte, self.bit, self.side)

    def _where(self) -> str:
        if self.why in (Why.BadList, Why.NoSpace, Why.ManyDifferences): return ""
        if self.bit is not None: return ", at bit %d%s" % (self.bit, " of the %s key" % self.side.name.lower() if self.side else "")
        if self.why == Why.BadToken: return ", at token %d" % self.token
        return ", %s token %d, byte %d" % ("behind the first half of" if self.half else "at", self.token, self.byte)


class Diagnostic(enum.IntEnum):
    """What is reported of a type that is read all the same, with the diagnostic's number."""
    NoTypeParameters, NoArguments, ConstructorThis, RequiredAfter, RestAfterLabel, OptionalAfterLabel, OptionalRest = range(1, 8)
    OptionalIndex, CommaAfterIndex, LiteralIndex, KeywordIndex, NotOneIndex, ReservedName = range(8, 14)


_DIAGNOSTICS = ("type parameters with none between the brackets", "arguments with none between the brackets", "`this` on a constructor",
                "a required element after an optional one", "dots behind a label", "a `?` after the type behind a label",
                "an element that is optional and a rest", "a `?` on the parameter of an index signature",
                "a comma behind the parameter of an index signature", "a literal as the type of an index signature's parameter",
                "a keyword as the type of an index signature's parameter that is no index",
                "an index signature with no parameter or more than one",
                "a type parameter with the name of a built-in type; choose another name")


class Note(NamedTuple):
    """A diagnostic and the bytes of the text that it is about. As text it is a sentence.

    other is a second place, its first byte and its end byte: of RequiredAfter the latest optional element before the required
    one. Other diagnostics have none.
    """
    what: Diagnostic
    first: int
    end: int
    other: Optional[Tuple[int, int]] = None

    def __str__(self) -> str:
        also = "; the optional one is at bytes %d to %d" % self.other if self.other else ""
        return "diagnostic %d (%s): %s, at bytes %d to %d%s" % (self.what, self.what.name, _DIAGNOSTICS[self.what - 1], self.first, self.end, also)


# From the five words of a record. An end of 0 is no second place.
def _note(number: int, first: int, end: int, other_first: int, other_end: int) -> Note:
    return Note(Diagnostic(number), first, end, (other_first, other_end) if other_end else None)


class End(NamedTuple):
    """Where a reading ended: the first token that was not used, and 1 if its first half was used, else 0."""
    token: int
    half: int


# ---- the tree

# The node table: a node's fields in the key's order. A number is that many bits, a word what stands there; * is as often as
# the number before it says, ? only if that is 0, ! unless it is 3 or 4 (a literal true or false).
_TABLE = """
reference, typeof: 12 names; *spelling name; 1 has arguments; *12 arguments; *type argument
keyword: 4 which
literal: 3 which; !spelling spelling
parens, array, optional, rest, non-null, nullable: type type
union, intersection: 12 types; *type type
indexed: type type; type index
conditional: type type; type extends; type first; type second
infer: spelling name; 1 has constraint; *type constraint
operator: 2 which; type type
function: 1 has type parameters; *12 type parameters; *type-parameter type parameter; 1 has this; *1 has this type; *type this type; 12 parameters; *parameter parameter; type returns
constructor: 1 abstract; 1 has type parameters; *12 type parameters; *type-parameter type parameter; 12 parameters; *parameter parameter; type returns
mapped: 2 readonly; spelling key; type constraint; 1 has name type; *type name type; 2 optional; 1 has type; *type type
template: 12 types; spelling piece; *type-and-spelling piece
predicate: 1 asserts; 1 this; ?spelling name; 1 has type; *type type
import: 1 typeof; spelling source; 12 names; *spelling name; 1 has arguments; *12 arguments; *type argument
tuple: 12 elements; *type element
object: 12 members; *member member
named: spelling label; 1 optional; type type
type parameter: spelling name; 1 has constraint; *type constraint; 1 has default; *type default
parameter: 1 rest; spelling name; 1 optional; 1 has type; *type type
property: 1 readonly; 2 key sort; spelling key; 1 optional; 1 has type; *type type
method: 2 key sort; spelling key; 1 optional; 1 has type parameters; *12 type parameters; *type-parameter type parameter; 1 has this; *1 has this type; *type this type; 12 parameters; *parameter parameter; 1 has return type; *type returns
call signature: 1 has type parameters; *12 type parameters; *type-parameter type parameter; 1 has this; *1 has this type; *type this type; 12 parameters; *parameter parameter; 1 has return type; *type returns
construct signature: 1 has type parameters; *12 type parameters; *type-parameter type parameter; 12 parameters; *parameter parameter; 1 has return type; *type returns
index signature: 1 readonly; 1 has parameter; *spelling name; *type index; type type
"""
TAGS = tuple(("no tag, reference, keyword, literal, parens, union, intersection, array, indexed, conditional, infer, operator, function, constructor, "
              "mapped, template, predicate, typeof, import, tuple, optional, rest, named, non-null, nullable, object").split(", "))     # by number
MEMBERS = "property", "method", "call signature", "construct signature", "index signature"     # by sort, which they have instead of a tag


def _rows() -> dict:
    rows = {}
    for line in _TABLE.strip().split("\n"):
        tags, fields = line.split(": ")
        parts = [f.split(" ", 1) for f in fields.split("; ")]
        row = [(name, what[0] if what[0] in "*?!" else "", what.lstrip("*?!")) for what, name in parts]
        rows.update((tag, [(name, times, int(what) if what.isdigit() else what) for name, times, what in row]) for tag in tags.split(", "))
    return rows


_ROWS = _rows()
_TIMES = {"": lambda said: 1, "*": lambda said: said, "?": lambda said: 1 - said, "!": lambda said: said not in (3, 4)}


class Field(NamedTuple):
    """One thing that a node holds: its name, what it is (a number, the bytes of a name, or a child), and a number's bits in the key."""
    name: str
    value: Union[int, bytes, "Node"]
    bits: int = 0


class Node:
    """A node of a tree. As text it is its tag and span."""
    __slots__ = ("tree", "at", "tag")

    def __init__(self, tree: Tree, at: int, tag: Optional[str] = None):
        self.tree, self.at, self.tag = tree, at, tag or TAGS[tree.nodes[4 * at] & 63]

    @property
    def number(self) -> Optional[int]:
        """The tag's number in the key; a parameter, a type parameter and a member have none."""
        return TAGS.index(self.tag) if self.tag in TAGS else None

    @property
    def sort(self) -> Optional[int]:
        """A member's sort, which it has in the key instead of a tag."""
        return MEMBERS.index(self.tag) if self.tag in MEMBERS else None

    @property
    def span(self) -> Tuple[int, int]:
        """Its first byte and its end byte in the text; 0 and 0 where the tree was taken back."""
        word = self.tree.nodes[4 * self.at + 1]
        return word & 0xFFFFFFFF, word >> 32

    def fields(self) -> Iterator[Field]:
        """All that it holds, in the key's order."""
        tree = self.tree
        word, _, links, _ = tree.nodes[4 * self.at:4 * self.at + 4]
        child, name, said = links & 0xFFFFFFFF, links >> 32, 0
        word >>= 6 if self.tag in TAGS else 3 if self.tag in MEMBERS else 0
        for label, times, what in _ROWS[self.tag]:
            for _ in range(_TIMES[times](said)):
                if isinstance(what, int):
                    said, word = word & (1 << what) - 1, word >> what
                    yield Field(label, said, what)
                elif what == "spelling":
                    yield Field(label, tree.name(name))
                    name += 1
                elif what == "type-and-spelling":
                    yield Field("type", Node(tree, child))
                    name = tree._names_end(child)
                    yield Field(label, tree.name(name))
                    child, name = tree.nodes[4 * child + 3], name + 1
                else:
                    yield Field(label, tree._member(child) if what == "member" else Node(tree, child, None if what == "type" else label))
                    child = tree.nodes[4 * child + 3]

    def get(self, name: str) -> Union[int, bytes, Node, None]:
        """The first field of a name, or None."""
        return next((f.value for f in self.fields() if f.name == name), None)

    @property
    def names(self) -> List[bytes]:
        """Its names: the parts of a dotted name, a literal's spelling, a template's pieces, a member's key."""
        return [f.value for f in self.fields() if isinstance(f.value, bytes)]

    @property
    def children(self) -> List[Node]:
        """Its children."""
        return [f.value for f in self.fields() if isinstance(f.value, Node)]

    def __str__(self) -> str: return "%s %d..%d" % (self.tag, *self.span)

    __repr__ = __str__


class Tree:
    """A tree that was read or taken back: its words, and the text that its names are in. Of a key that was taken back the text
    is its spellings, one after the other."""
    def __init__(self, text: bytes, nodes: List[int], names: List[int]):
        self.text, self.nodes, self.name_words = text, nodes, names

    @property
    def size(self) -> int:
        """How many nodes there are."""
        return len(self.nodes) // 4

    @property
    def root(self) -> Node:
        """The type itself."""
        return Node(self, self.size - 1)

    def walk(self) -> Iterator[Tuple[int, Node]]:
        """All nodes in the key's order, each before its children, with the number of nodes that it stands under."""
        yield 0, self.root
        open_ = [self.root.fields()]
        while open_:
            node = next((f.value for f in open_[-1] if isinstance(f.value, Node)), None)
            if node is None:
                open_.pop()
            else:
                yield len(open_), node
                open_.append(node.fields())

    def name(self, at: int) -> bytes:
        """The name of a number."""
        start, length = self.name_words[at] >> 32, self.name_words[at] & 0xFFFFFFFF
        return self.text[start:start + length]

    # The number of the first name behind a type and all that it holds. The node before a parent is its last child and has no
    # sibling after it. Only a template has a name behind its last child.
    def _names_end(self, at: int) -> int:
        node, behind = Node(self, at), 0
        while node.at > 0 and self.nodes[4 * node.at - 1] == 0:
            behind += node.tag == "template"
            node = self._last_child(node)
        return (self.nodes[4 * node.at + 2] >> 32) + len(node.names) + behind

    # The last child of a node that has one. Where it can be one without a tag, the fields say what it is.
    def _last_child(self, node: Node) -> Node:
        if node.tag == "object": return self._member(node.at - 1)
        return node.children[-1] if node.tag in MEMBERS[1:4] else Node(self, node.at - 1)

    def _member(self, at: int) -> Node:
        return Node(self, at, MEMBERS[self.nodes[4 * at] & 7])


# ---- the calls

class Buffers:
    """Memory that a call writes into: words for nodes (4 each), names (1 each) and diagnostics (5 each), and bytes for the key,
    or for the letters of a key that is taken back. Buffers can be lent again."""
    def __init__(self, nodes: int, names: int, notes: int, letters: int):
        self.nodes, self.names, self.notes = ((ctypes.c_uint64 * n)() for n in (nodes, names, notes))
        self.letters = (ctypes.c_uint8 * letters)()

    @classmethod
    def to_read(cls, text: int, tokens: int) -> Buffers:
        """Enough to read a text of so many bytes and tokens. More than the limits is never needed: that is refused."""
        text, tokens = min(text, 65535), min(tokens, 16384)
        return cls(4 * (tokens + 4), tokens, 160, min(text + 12 * tokens + 16, 262144))

    @classmethod
    def to_take_back(cls, key: int) -> Buffers:
        """Enough to take back a key of so many bytes: a node has 6 bits at least, or 5 and a type of 9 or more, a name 24."""
        key = min(key, 262144)
        return cls(4 * (4 * key // 3), key // 3, 0, key)


class Reading(NamedTuple):
    """A type that was read. Tokens may be left behind its end; it is for the caller to say whether that is good.

    entered is how many type rules were entered: the types that were begun, those in a constraint of infer each time that it is
    read. It is what reading cost, and at most 16 times the number of tokens.
    """
    tree: Tree
    key: bytes
    notes: List[Note]
    end: End
    entered: int


def read(text: bytes, tokens: Iterable[int], *, start: int = 0, preserve_parens: bool = False, buffers: Optional[Buffers] = None) -> Reading:
    """Reads the type that begins at the token with the index start. tokens: words as token makes them; an array("Q") is used as
    it is. Brackets round a type are a node only with preserve_parens, so `(A)` and `A` have the same key without it."""
    text = memoryview(text).tobytes()
    words = tokens if isinstance(tokens, array) and tokens.typecode == "Q" else array("Q", tokens)
    listed = (ctypes.c_uint64 * len(words)).from_buffer_copy(words)
    b = Buffers.to_read(len(text), len(words)) if buffers is None else buffers
    answer = _Answer()
    _library.typekey_read(text, len(text), listed, len(listed), start if 0 <= start < 1 << 64 else (1 << 64) - 1, bool(preserve_parens),
                          b.nodes, len(b.nodes), b.names, len(b.names), b.notes, len(b.notes), b.letters, len(b.letters), answer)
    refused, nodes, names, notes, key, token_, half, entered = answer
    if refused: raise Refused(*answer[:4])
    said = b.notes[:5 * notes]
    return Reading(Tree(text, b.nodes[:4 * nodes], b.names[:names]), bytes(b.letters[:key]),
                   [_note(*said[i:i + 5]) for i in range(0, 5 * notes, 5)], End(token_, half), entered)


def take_back(key: bytes, *, buffers: Optional[Buffers] = None) -> Tree:
    """Takes a key back. Spans of the tree are all 0 to 0."""
    key = memoryview(key).tobytes()
    b = Buffers.to_take_back(len(key)) if buffers is None else buffers
    answer = _Answer()
    _library.typekey_take_back(key, len(key), b.nodes, len(b.nodes), b.names, len(b.names), b.letters, len(b.letters), answer)
    refused, nodes, names, letters = answer[:4]
    if refused: raise Refused(refused, bit=nodes)
    return Tree(bytes(b.letters[:letters]), b.nodes[:4 * nodes], b.names[:names])


class Pair(NamedTuple):
    """A place where two keys differ: the bit of the left key and the bit of the right key."""
    left: int
    right: int


def differ(left: bytes, right: bytes, *, most: Optional[int] = None) -> List[Pair]:
    """Where the trees of two keys differ, in the key's order; an empty list exactly when the keys are the same bytes.

    A pair is the first bits of two nodes at one place that differ in themselves (tag, a flag, a count, a small number), of which
    nothing inside is told; or of two names that differ. A key's first node has bit 4. There are fewer pairs than bytes in
    either key, and room for as many is lent; with most there is room for so many, and more are a refusal (ManyDifferences)."""
    left, right = memoryview(left).tobytes(), memoryview(right).tobytes()
    room = min(len(left), len(right), 262144)
    list_ = (ctypes.c_uint64 * (2 * (room if most is None else min(most, room))))()
    answer = _Answer()
    _library.typekey_differ(left, len(left), right, len(right), list_, len(list_), answer)
    refused, pairs, bit = answer[:3]
    if refused: raise Refused(refused, bit=bit, side=Side(pairs))
    said = list_[:2 * pairs]
    return [Pair(*p) for p in zip(said[::2], said[1::2])]
