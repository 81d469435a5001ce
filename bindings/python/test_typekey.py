"""Tests of typekey.py: document 01's twelve rows, refusals, what is lent, walks, every stored vector, and a sample beside the
model. The model and its cutter are in the repository's tools/."""
import contextlib
import ctypes
import io
import pathlib
import pickle
import struct
import sys
import textwrap
import unittest

ROOT = pathlib.Path(__file__).resolve().parents[2]
sys.path[:0] = [str(ROOT / "bindings" / "python"), str(ROOT / "tools")]
import differ_model
import keys_model
import model
import rules_model
import typekey
from keys_vectors import sum_bytes, sum_words
from typekey import Buffers, Diagnostic, Node, Note, Pair, Refused, Side, Why, differ, kind_of, token


def read(text, **options):
    return typekey.read(text.encode("latin1"), model.cut(text), **options)


def shown(node):
    """A node, its names and children: `union(reference A, reference B)`."""
    head = " ".join([node.tag] + [n.decode() for n in node.names])
    children = ", ".join(map(shown, node.children))
    return "%s(%s)" % (head, children) if children else head


def written(tree):
    """The key of a tree, from what its fields hold."""
    bits = ["0001"]
    def put(node):
        if node.number is not None: bits.append(format(node.number, "06b"))
        if node.sort is not None: bits.append(format(node.sort, "03b"))
        for f in node.fields():
            if isinstance(f.value, Node): put(f.value)
            elif isinstance(f.value, bytes): bits.append(format(len(f.value), "016b") + format(int.from_bytes(f.value, "big"), "0%db" % (8 * len(f.value))))
            else: bits.append(format(f.value, "0%db" % f.bits))
    put(tree.root)
    s = "".join(bits)
    return int(s.ljust(-(-len(s) // 8) * 8, "0"), 2).to_bytes(-(-len(s) // 8), "big")


class Rows(unittest.TestCase):
    READINGS = {
        "A": "reference A", "string[]": "array(keyword)", "| A": "union(reference A)",
        "A | B & C": "union(reference A, intersection(reference B, reference C))",
        "() => A extends B ? C : D": "function(conditional(reference A, reference B, reference C, reference D))",
        "T extends infer U extends number ? X : Y": "conditional(reference T, infer U(keyword), reference X, reference Y)",
        "(infer U extends number ? X : Y)": "conditional(infer U, keyword, reference X, reference Y)",
        "[A?, ...B[]]": "tuple(optional(reference A), rest(array(reference B)))",
        "[a?: A, B]": "tuple(named a(reference A), reference B)",
        "A<<T>() => T>": "reference A(function(type parameter T, reference T))",
        "A\n[B]": "reference A", "new (this: A) => B": "constructor(reference B)"}

    def test_rows(self):
        for text, tree in self.READINGS.items():
            r = read(text)
            _, _, notes, end, key, _ = model.read(text.encode(), model.cut(text), 0, False)
            self.assertEqual((shown(r.tree.root), [n[:3] + (n.other or (0, 0)) for n in r.notes], tuple(r.end), r.key), (tree, notes, end, key), text)
            self.assertEqual(shown(typekey.take_back(r.key).root), tree, text)
        self.assertEqual(read("A").key.hex(), "104004000504")
        self.assertEqual(read("string[]").key.hex(), "11c270")
        self.assertEqual(read("[a?: A, B]").notes, [Note(Diagnostic.RequiredAfter, 8, 9, (1, 6))])
        self.assertEqual(str(read("[a?: A, B]").notes[0]),
                         "diagnostic 4 (RequiredAfter): a required element after an optional one, at bytes 8 to 9; the optional one is at bytes 1 to 6")
        self.assertEqual([tuple(n) for n in read("[A?, b: ...B, C?, ...D, E]").notes], [(5, 8, 12, None), (4, 5, 12, (1, 3)), (4, 24, 25, (14, 16))])
        self.assertEqual(str(read("new (this: A) => B").notes[0]), "diagnostic 3 (ConstructorThis): `this` on a constructor, at bytes 5 to 12")
        with self.assertRaises(Refused) as x: read("T extends U ? : V")
        self.assertEqual((x.exception.why, x.exception.number, x.exception.token, x.exception.half, x.exception.byte), (Why.Unexpected, 3, 4, 0, 14))

    def test_brackets_and_starts(self):
        self.assertEqual(read("(A)").key, read("A").key)
        self.assertNotEqual(read("(A)", preserve_parens=True).key, read("A", preserve_parens=True).key)
        self.assertEqual(read("A | B", start=2).key, read("B").key)


class Members(unittest.TestCase):
    # Each sort of member, each diagnostic of index signatures: the tree, and numbers, first and end bytes of its diagnostics.
    READINGS = {
        "{}": ("object",), "{ a: A }": ("object(property a(reference A))",), "{ readonly \"a\"?: A, 1 }": ("object(property \"a\"(reference A), property 1)",),
        "{ a: A\nb }": ("object(property a(reference A), property b)",),
        "{ m<T extends A>(this: B, x?: C): x is D }":
            ("object(method m(type parameter T(reference A), reference B, parameter x(reference C), predicate x(reference D)))",),
        "{ get(): A; new?(): B; set }": ("object(method get(reference A), method new(reference B), property set)",),
        "{ <T>(x: T): T, (this) }": ("object(call signature(type parameter T, parameter x(reference T), reference T), call signature)",),
        "{ new <T>(x: T), }": ("object(construct signature(type parameter T, parameter x(reference T)))",),
        "{ new (this: A<>): B<> }": ("object(construct signature(reference B))", (2, 14, 16), (3, 7, 16), (2, 20, 22)),
        "{ readonly [k: string]: A }": ("object(index signature k(keyword, reference A))",),
        "{ [a: A, b: B]: C }": ("object(index signature a(reference A, reference C))", (12, 2, 14)),
        "{ []: A }": ("object(index signature(reference A))", (12, 2, 4)),
        "{ readonly [a?: boolean,]: C }": ("object(index signature a(keyword, reference C))", (8, 13, 14), (9, 23, 24), (11, 12, 23)),
        "{ [a: 'x']: A }": ("object(index signature a(literal 'x', reference A))", (10, 6, 9)),
        "{ a: { b: () => C } }[]": ("array(object(property a(object(property b(function(reference C))))))",),
        "`a${{ m(b) }}c${{ x: `d${{ e?; [k: A]: B }}f` }}g${{}}h`":
            ("template `a${ }c${ }g${ }h`(object(method m(parameter b)), object(property x(template `d${ }f`(object(property e, index signature k(reference A, reference B))))), object)",)}

    def test_rows(self):
        for text, (tree, *notes) in self.READINGS.items():
            r = read(text)
            self.assertEqual((shown(r.tree.root), [tuple(n) for n in r.notes]), (tree, [(*n, None) for n in notes]), text)
            self.assertEqual(r.key, model.read(text.encode(), model.cut(text), 0, False)[4], text)
            self.assertEqual(shown(typekey.take_back(r.key).root), tree, text)
        self.assertEqual(read("{ a: A }").key.hex(" "), "16 40 04 00 00 16 14 10 01 00 01 41 00")
        self.assertEqual(read("{ readonly a(): B }").key, read("{ a(): B }").key)
        self.assertEqual([str(n) for n in read("{ readonly [a?: boolean,]: C }").notes], [
            "diagnostic 8 (OptionalIndex): a `?` on the parameter of an index signature, at bytes 13 to 14",
            "diagnostic 9 (CommaAfterIndex): a comma behind the parameter of an index signature, at bytes 23 to 24",
            "diagnostic 11 (KeywordIndex): a keyword as the type of an index signature's parameter that is no index, at bytes 12 to 23"])
        self.assertEqual([read(t).notes[0].what for t in ("{ [a: 'x']: A }", "{ []: A }")], [Diagnostic.LiteralIndex, Diagnostic.NotOneIndex])

    def test_names_of_built_in_types(self):
        for name in "any bigint boolean never number object string symbol undefined unknown".split():
            self.assertEqual(read("<%s>() => A" % name).notes, [Note(Diagnostic.ReservedName, 1, 1 + len(name))])
            self.assertEqual(read("infer %s" % name).notes, [Note(Diagnostic.ReservedName, 6, 6 + len(name))])
            self.assertEqual(read("(%s: A) => B" % name).notes + read("{ [%s in A]: B }" % name).notes, [])
        self.assertEqual(read("<T, abstract, infer>() => A").notes, [])
        self.assertEqual([tuple(n[:3]) for n in read("(infer string extends A<> ? X : Y)").notes], [(13, 7, 13), (2, 23, 25)])
        self.assertEqual([tuple(n[:3]) for n in read("{ m<bigint>(string): A }").notes], [(13, 4, 10)])
        self.assertEqual(str(read("infer any").notes[0]),
                         "diagnostic 13 (ReservedName): a type parameter with the name of a built-in type; choose another name, at bytes 6 to 9")

    def test_fields(self):
        r = read("{ readonly 1?: A; m?<T>(this, x): B; [k: C]: D }")
        self.assertEqual((r.tree.root.number, r.tree.root.sort), (25, None))
        p, m, i = r.tree.root.children
        self.assertEqual([(n.number, n.sort, n.span) for n in (p, m, i)], [(None, 0, (2, 17)), (None, 1, (18, 36)), (None, 4, (37, 46))])
        self.assertEqual([p.get(f) for f in ("readonly", "key sort", "key", "optional", "has type")], [1, 2, b"1", 1, 1])
        self.assertEqual([m.get(f) for f in ("key", "optional", "type parameters", "has this", "has this type", "parameters", "has return type")], [b"m", 1, 1, 1, 0, 1, 1])
        self.assertEqual([str(i.get(f)) for f in ("readonly", "has parameter", "name", "index", "type")], ["0", "1", "b'k'", "reference 41..42", "reference 45..46"])

    def test_refusals(self):
        places = {"{ [a]: A }": (31, 1, 2), "{ get a(): A }": (31, 1, 2), "{ readonly static a: A }": (31, 2, 11), "{ a b: A }": (3, 2, 4), "{ [a: string] }": (3, 6, 14),
                  "{ 1n: A }": (3, 1, 2), "{ a: A": (3, 4, 6), "{ a in T }": (3, 2, 4)}
        for text, place in places.items():
            with self.assertRaises(Refused) as x: read(text)
            self.assertEqual((x.exception.number, x.exception.token, x.exception.byte), place, text)
        for key, place in {"164006A0": (10, 22), "16400430001610": (10, 26), "164004": (10, 22)}.items():
            with self.assertRaises(Refused) as x: typekey.take_back(bytes.fromhex(key))
            self.assertEqual((x.exception.number, x.exception.bit), place, key)


class Refusals(unittest.TestCase):
    def sentence(self, sentence, call, *given, **options):
        with self.assertRaises(Refused) as x: call(*given, **options)
        self.assertEqual(str(x.exception), sentence)

    def test_sentences(self):
        no_rule, no_list = "refusal 3 (Unexpected): a token that no rule takes, ", "refusal 1 (BadList): no tokens or too many, too long a text, or a start that is no token"
        self.sentence(no_rule + "at token 4, byte 14", read, "T extends U ? : V")
        self.sentence(no_rule + "behind the first half of token 1, byte 2", read, "A<=B>")
        self.sentence("refusal 31 (MemberForm): a computed name, an accessor or a modifier other than `readonly` is not supported, at token 1, byte 2", read, "{ get a(): B }")
        self.sentence("refusal 22 (DefaultValue): a default value is not supported, at token 2, byte 3", read, "(a = 1) => A")
        self.sentence("refusal 5 (TooDeep): a 65th type rule open, behind the first half of token 64, byte 65", read, "(" * 63 + "A<<T>() => T>")
        self.sentence("refusal 5 (TooDeep): a 65th type rule open, at token 64, byte 64", read, "(" * 64 + "A")
        self.sentence("refusal 6 (TooTall): a node higher than 256, at token 257, byte 1537", read, "keyof " * 256 + "A")
        self.sentence("refusal 7 (TooLong): a list of more than 4,095 entries, at token 8191, byte 8191", read, "|".join("A" * 4096))
        self.sentence("refusal 9 (ManyNotes): no record for another diagnostic, or a 33rd one, at token 132, byte 132", read, "[" + "A<>," * 33 + "]")
        self.sentence("refusal 2 (BadToken): a word that is no good token, at token 0", typekey.read, b"A", [token(64, 0, 1), token(0, 1, 0)])
        self.sentence("refusal 10 (BadKey): a field that is no part of a key, at bit 4", typekey.take_back, b"\x10\x00")
        self.sentence("refusal 10 (BadKey): a field that is no part of a key, at bit 0", typekey.take_back, b"")
        for start in (2, -1, 1 << 64, (1 << 64) + 1): self.sentence(no_list, read, "A", start=start)
        self.sentence(no_list, typekey.read, b"", [])
        self.sentence(no_list, typekey.read, b"a" * 65536, [token(0, 65536, 0)])
        self.sentence(no_list, typekey.read, b"", [0] * 16385)

    def test_forms(self):
        forms = {"? A": (20, "PrefixMark", 0, 0), "A | ! B": (20, "PrefixMark", 2, 4), "(readonly a: B) => C": (21, "ParameterModifier", 1, 1),
                 "(this = A) => B": (22, "DefaultValue", 2, 6), "(a, this: B) => C": (23, "MisplacedThis", 3, 4), "(...this) => A": (23, "MisplacedThis", 2, 4),
                 "(...a, b) => C": (24, "RestNotLast", 3, 5), "<const T>() => A": (25, "TypeParameterModifier", 1, 1), "import(A)": (26, "ImportSource", 2, 7),
                 'import("a", {})': (27, "ImportOptions", 3, 10), "{ [a]: B }": (31, "MemberForm", 1, 2)}
        for text, (number, name, at, byte) in forms.items():
            with self.assertRaises(Refused) as x: read(text)
            self.assertEqual((x.exception.number, x.exception.why.name, x.exception.token, x.exception.half, x.exception.byte), (number, name, at, 0, byte), text)
        self.assertEqual(sorted(typekey._WHY), [*range(1, 4), *range(5, 12), *range(20, 30), 31])

    def test_trials(self):
        def tried(n): return "(infer A extends " * n + "A" + " ? X : Y)" * n
        def kept(n): return "(infer A extends " * n + "A" + ")" * n
        self.assertEqual([read(tried(n)).entered for n in range(5)], [1, 6, 16, 36, 76])
        self.assertEqual([read(kept(n)).entered for n in range(5)], [1, 3, 5, 7, 9])
        self.assertEqual(read("[" + ", ".join(["infer A extends B"] * 5) + "]").entered, 11)
        for text in (tried(5), kept(5), tried(31)):
            self.sentence("refusal 28 (ManyTrials): more than four constraints of `infer` would be tried at once, at token 19, byte 77", read, text)

    def test_rooms(self):
        text, no_space = "A<B, C>", "refusal 11 (NoSpace): no space for the names, the key or the letters"
        key = read(text, buffers=Buffers(12, 3, 0, 19)).key
        self.assertEqual(len(key), 19)
        self.sentence("refusal 8 (NoRoom): no room for another node, at token 6, byte 7", read, text, buffers=Buffers(11, 3, 0, 19))
        self.sentence(no_space, read, text, buffers=Buffers(12, 2, 0, 19))
        self.sentence(no_space, read, text, buffers=Buffers(12, 3, 0, 18))
        self.sentence("refusal 8 (NoRoom): no room for another node, at bit 4", typekey.take_back, key, buffers=Buffers(0, 0, 0, 0))
        self.sentence(no_space, typekey.take_back, key, buffers=Buffers(12, 3, 0, 2))

    def test_null_slices(self):
        answer = typekey._Answer(*[9] * 8)
        typekey._library.typekey_read(None, 0, None, 0, 0, 0, None, 0, None, 0, None, 0, None, 0, answer)
        self.assertEqual(list(answer), [1, 0, 0, 0, 0, 0, 0, 0])
        answer = typekey._Answer(*[9] * 8)
        typekey._library.typekey_take_back(None, 0, None, 0, None, 0, None, 0, answer)
        self.assertEqual(list(answer), [10, 0, 0, 0, 0, 0, 0, 0])

    def test_pickled(self):
        with self.assertRaises(Refused) as x: read("A<=B>")
        again = pickle.loads(pickle.dumps(x.exception))
        self.assertEqual((str(again), again.byte, again.bit), (str(x.exception), 2, None))

    def test_wrong_types(self):
        for text in ("A", 5, None):
            with self.assertRaises(TypeError): typekey.read(text, [0])
        for tokens in ([-1], [1 << 64]):
            with self.assertRaises(OverflowError): typekey.read(b"", tokens)
        for fields in ((256, 0, 0), (1, 1 << 32, 0), (1, 0, 1 << 17), (-1, 0, 0)):
            with self.assertRaises(ValueError): token(*fields)


class Trees(unittest.TestCase):
    def test_walk(self):
        r = read("<T extends A>(this: B, ...c?: T[]) => asserts this")
        self.assertEqual(["%d %s" % x for x in r.tree.walk()], [
            "0 function 0..50", "1 type parameter 1..12", "2 reference 11..12", "1 reference 20..21", "1 parameter 23..33", "2 array 30..33",
            "3 reference 30..31", "1 predicate 38..50"])
        p = r.tree.root.get("parameter")
        self.assertEqual([tuple(f) for f in p.fields()][:4], [("rest", 1, 1), ("name", b"c", 0), ("optional", 1, 1), ("has type", 1, 1)])
        self.assertEqual((p.number, r.tree.root.number, r.tree.root.get("none")), (None, 12, None))

    def test_nested_templates(self):
        self.assertEqual(shown(read("`a${`b${X}c`}d${Y}e`").tree.root), "template `a${ }d${ }e`(template `b${ }c`(reference X), reference Y)")

    def test_example(self):
        """The example over typekey.py says what it prints."""
        example = textwrap.dedent("\n".join(line for line in typekey.__doc__.split("\n") if line[:4] in ("    ", "")))
        with contextlib.redirect_stdout(io.StringIO()) as said: exec(example, {})
        self.assertEqual(said.getvalue().split("\n"), [read("A | B").key.hex(), " union 0..5", "   reference 0..1", "   reference 4..5", ""])

    def test_kinds(self):
        for kind, spelling in model.SPELL.items(): self.assertEqual((kind_of(spelling), kind_of(spelling.decode())), (kind, kind))
        self.assertEqual([kind_of(s) for s in ("A", "$a", "#a", "public", "class", "@", "")], [1, 1, 1, 83, 107, 41, 41])
        self.assertEqual(token(1, 2, 3, True), model.pack(1, 1, 2, 3))


def dirty(*lengths):
    b = Buffers(*lengths)
    for part in (b.nodes, b.names, b.notes, b.letters): ctypes.memset(part, 255, ctypes.sizeof(part))
    return b


def sums(b):
    """A sum over all of each buffer."""
    def words(part):
        used = bytes(part).rstrip(b"\0")
        used += bytes(-len(used) % 8)
        return sum_words(struct.unpack("<%dQ" % (len(used) // 8), used), len(part), 1)
    return words(b.nodes), words(b.names), words(b.notes), sum_bytes(bytes(b.letters).rstrip(b"\0"), len(b.letters), 1)


class Vectors(unittest.TestCase):
    def reads(self, text, tokens, start, parens, lent):
        """The twelve numbers of a reading, and its key where there is one."""
        b = dirty(*lent)
        try: r = typekey.read(text, tokens, start=start, preserve_parens=parens, buffers=b)
        except Refused as x: return (x.number, x.token, x.half, x.byte, 0, 0, 0, 0) + sums(b), None
        self.assertEqual(written(r.tree), r.key)
        self.assertLessEqual(r.entered, 16 * len(tokens))
        return (0, r.tree.size, len(r.tree.name_words), len(r.notes), len(r.key), *r.end, r.entered) + sums(b), r.key

    def takes(self, key, lent):
        """The twelve numbers of a key that is taken back."""
        b = dirty(lent[0], lent[1], 0, lent[2])
        try: t = typekey.take_back(key, buffers=b)
        except Refused as x: answer = x.number, x.bit, 0, 0, 0, 0, 0, 0
        else:
            self.assertEqual(written(t), key)
            answer = 0, t.size, len(t.name_words), len(t.text), 0, 0, 0, 0
        a, c, _, d = sums(b)
        return answer + (a, c, d, 0)

    def test_stored(self):
        """Every record of crates/rows/data/vectors (tools/rules_model.py says how one is laid out)."""
        data = (ROOT / "crates" / "rows" / "data" / "vectors").read_bytes()
        at = run = different = 0
        while at < len(data):
            op, start, text, words, nodes, names, notes, key, letters, *want = struct.unpack_from("<B20I", data, at)
            at += 81
            if op < 4:
                t, w = data[at:at + text], struct.unpack_from("<%dQ" % words, data, at + text)
                at += text + 8 * words
                got, k = self.reads(t, w, start, op & 1, (nodes, names, notes, key))
                if k is not None: self.assertEqual(written(typekey.take_back(k)), k)
            else:
                got = self.takes(data[at:at + key], (nodes, names, letters))
                at += key
            if list(got) != want:
                print("record", run, "is", *got, "and should be", *want)
                different += 1
            run += 1
        print("%d vectors, %d different" % (run, different))
        self.assertTrue(run > 0 and different == 0)

    def test_beside_the_model(self):
        """Texts of a grammar, sound and damaged, and keys, sound and damaged: answers and all that is lent."""
        cases = [c for maker in (rules_model.Maker, rules_model.ObjectMaker, rules_model.TrialMaker) for c in rules_model.Cases(20260, maker).generated(1500) if c]
        for sort, text, words, start, parens, lent in cases:
            got, key = self.reads(text, words, start, parens, lent)
            self.assertEqual(got, rules_model.expected((sort, text, words, start, parens, lent)), text)
            if key is None: continue
            for k in (key, key[:-1], key + b"\0", bytes([key[0] ^ 1]) + key[1:], key[:len(key) // 2] + bytes([key[len(key) // 2] ^ 64]) + key[len(key) // 2 + 1:]):
                lent = 400, 100, 200
                self.assertEqual(self.takes(k, lent), rules_model.expected(("key", k, lent)), k.hex())
        keys_model.seed(20260)
        for _ in range(500):
            k = model.key_of(keys_model.gen())
            self.assertEqual(written(typekey.take_back(k)), k)
        print("%d texts beside the model, 0 different" % len(cases))


class Differences(unittest.TestCase):
    # 02's rows: left bit, right bit.
    ROWS = {
        ("A", "A"): [], ("A", "B"): [(22, 22)], ("A", "AB"): [(22, 22)], ("A", "A.B"): [(4, 4)], ("A.B.C", "X.B.D"): [(22, 22), (70, 70)],
        ("string", "number"): [(4, 4)], ("A", "A[]"): [(4, 4)], ("A | B", "A | C"): [(83, 83)], ("A | B", "A | B | C"): [(4, 4)],
        ("A | B", "A & B"): [(4, 4)], ("[A, B, C]", "[A?, X, ...C]"): [(22, 22), (83, 89), (108, 114)],
        ("{ [K in A]: B }", "{ [L in X]?: B }"): [(4, 4)], ("{ [K in A]: B }", "{ [L in X]: Y }"): [(12, 12), (54, 54), (101, 101)],
        ("(a: A, b?: B) => C", "(x: A, b: Y) => Z"): [(25, 25), (94, 94), (182, 182)],
        ("<T, U extends A>() => B", "<V, U>() => C"): [(23, 23), (49, 49), (149, 106)], ("'a'", '"a"'): [(13, 13)], ("1", "-1"): [(4, 4)],
        ("A | B | C", "X | Y | Z"): [(40, 40), (83, 83), (126, 126)], ("{ a: A; b: B }", "{ a: X; readonly b: B }"): [(72, 72), (97, 97)],
        ("{ a: A }", '{ "a": A }'): [(22, 22)], ("{ a: A }", "{ a(): A }"): [(22, 22)], ("{ a: A }", "{ a: A; b: B }"): [(4, 4)],
        ("{ [k: string]: A }", "{ [i: number]: B }"): [(27, 27), (51, 51), (79, 79)], ("{ [k: A]: B }", "{ []: B }"): [(22, 22)]}

    def refusal(self, left, right, **options):
        with self.assertRaises(Refused) as c: differ(bytes.fromhex(left), bytes.fromhex(right), **options)
        return c.exception.number, c.exception.side, c.exception.bit

    def test_rows(self):
        for (left, right), pairs in self.ROWS.items():
            l, r = read(left).key, read(right).key
            self.assertEqual(differ(l, r), pairs, (left, right))
            self.assertEqual(differ(r, l), [p[::-1] for p in pairs], (right, left))
            self.assertEqual(differ(l, r, most=len(pairs)), pairs)
            for most in range(len(pairs)): self.assertEqual(self.refusal(l.hex(), r.hex(), most=most), (29, Side.Neither, 0))
        self.assertEqual(differ(read("A").key, read("B").key)[0], Pair(left=22, right=22))

    def test_refusals(self):
        a, strings = "104004000504", "11C270"
        self.assertEqual(self.refusal("", a), (10, Side.Left, 0))
        self.assertEqual(self.refusal(a, "20" + a[2:]), (10, Side.Right, 0))
        self.assertEqual(self.refusal("104004000505", ""), (10, Side.Left, 47))
        self.assertEqual(self.refusal(a + "00", strings), (10, Side.Left, 48))
        self.assertEqual(self.refusal(strings, "11C271"), (10, Side.Right, 23))
        with self.assertRaises(Refused) as c: differ(b"\x11\xc2\x70", b"\x11\xc2\x71")
        self.assertEqual(str(c.exception), "refusal 10 (BadKey): a field that is no part of a key, at bit 23 of the right key")
        self.assertEqual(str(pickle.loads(pickle.dumps(c.exception))), str(c.exception))
        with self.assertRaises(Refused) as c: differ(read("A").key, read("B").key, most=0)
        self.assertEqual(str(c.exception), "refusal 29 (ManyDifferences): more differences than the list has room for")

    def test_beside_the_model(self):
        """Keys of trees by chance, the same, alike and not, sound and damaged: answer and list."""
        keys_model.seed(20261)
        keys = [model.key_of(keys_model.gen()) for _ in range(300)]
        keys += [k[:-1] for k in keys[:40]] + [k[:-1] + bytes([k[-1] ^ 255]) for k in keys[:40]]
        keys += [k[:i] + bytes([k[i] ^ 1]) + k[i + 1:] for k in keys[40:200] for i in (len(k) // 2, len(k) - 2) if i > 0]
        run = found = 0
        for i, l in enumerate(keys):
            for r in (l, keys[i * 7 % len(keys)], keys[(i + 1) % len(keys)], l[:-1] + bytes([l[-1] ^ 64])):
                answer, said = differ_model.differ(l, r, 2 * min(len(l), len(r)))
                try: got = (0, len(differ(l, r)), 0), [bit for p in differ(l, r) for bit in p]
                except Refused as x: got = (x.number, int(x.side), x.bit), []
                self.assertEqual(got, (answer, said[:2 * answer[1] if answer[0] == 0 else 0]), (l.hex(), r.hex()))
                run, found = run + 1, found + len(got[1]) // 2
        print("%d pairs of keys beside the model, %d differences, 0 different" % (run, found))


if __name__ == "__main__":
    unittest.main()
