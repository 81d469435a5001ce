//! The calls by example: document 01's twelve rows, refusals, empty and null slices, and walks.
use typekey::*;

/// Cuts a text of words, marks, digits and simple strings into tokens. It is for these tests alone: no templates, comments or
/// other numbers.
fn cut(text: &str) -> Vec<u64> {
    const MARKS: [&str; 5] = ["<<=", "...", "<<", "<=", "=>"];
    let (mut tokens, mut at, mut newline) = (Vec::new(), 0, false);
    while at < text.len() {
        let rest = &text[at..];
        let word = rest.find(|c: char| !c.is_alphanumeric()).unwrap_or(rest.len());
        let quote = rest.starts_with(['"', '\'']).then(|| rest[1..].find(&rest[..1]).unwrap() + 2);
        let length = match MARKS.iter().find(|m| rest.starts_with(**m)) {
            _ if word > 0 => word,
            _ if quote.is_some() => quote.unwrap(),
            Some(mark) => mark.len(),
            None => 1,
        };
        let spelling = &rest[..length];
        if spelling.trim().is_empty() {
            newline |= spelling == "\n";
        } else {
            let digits = spelling.bytes().all(|b| b.is_ascii_digit());
            let kind = match quote {
                Some(_) => STRING,
                None if digits => NUMBER,
                None => kind_of(spelling.as_bytes()),
            };
            tokens.push(token(kind, newline, at as u32, length as u32));
            newline = false;
        }
        at += length;
    }
    tokens.push(token(EOF, newline, at as u32, 0));
    tokens
}

/// A node, its names and children: `union(reference A, reference B)`.
fn shown(node: Node) -> String {
    let names: String = node.names().map(|n| format!(" {}", str::from_utf8(n).unwrap())).collect();
    let children: Vec<String> = node.children().map(shown).collect();
    if children.is_empty() {
        format!("{}{names}", node.tag)
    } else {
        format!("{}{names}({})", node.tag, children.join(", "))
    }
}

fn key_of(text: &str, options: Options) -> Result<Vec<u8>, Refusal> {
    read(text.as_bytes(), &cut(text), options, &mut Buffers::default()).map(|r| r.key.to_vec())
}

fn refused(text: &str) -> Refusal {
    key_of(text, Options::default()).unwrap_err()
}

#[test]
fn rows() {
    let function = "function(type parameter T, reference T)";
    let rows: [(&str, &str, &[u8], usize); 12] = [
        ("A", "reference A", &[], 1),
        ("string[]", "array(keyword)", &[], 3),
        ("| A", "union(reference A)", &[], 2),
        ("A | B & C", "union(reference A, intersection(reference B, reference C))", &[], 5),
        (
            "() => A extends B ? C : D",
            "function(conditional(reference A, reference B, reference C, reference D))",
            &[],
            10,
        ),
        (
            "T extends infer U extends number ? X : Y",
            "conditional(reference T, infer U(keyword), reference X, reference Y)",
            &[],
            10,
        ),
        ("(infer U extends number ? X : Y)", "conditional(infer U, keyword, reference X, reference Y)", &[], 10),
        ("[A?, ...B[]]", "tuple(optional(reference A), rest(array(reference B)))", &[], 9),
        ("[a?: A, B]", "tuple(named a(reference A), reference B)", &[4], 8),
        ("A<<T>() => T>", &format!("reference A({function})"), &[], 9),
        ("A\n[B]", "reference A", &[], 1),
        ("new (this: A) => B", "constructor(reference B)", &[3], 8),
    ];
    let (mut buffers, mut others) = (Buffers::default(), Buffers::default());
    for (text, tree, notes, end) in rows {
        let r = read(text.as_bytes(), &cut(text), Options::default(), &mut buffers).unwrap();
        assert_eq!(shown(r.tree.root()), tree, "{text}");
        assert_eq!(r.notes().map(|n| n.what.number()).collect::<Vec<_>>(), notes, "{text}");
        assert_eq!(r.end, End { token: end, half: false }, "{text}");
        assert_eq!(shown(take_back(r.key, &mut others).unwrap().root()), tree, "{text}");
    }
    assert_eq!(key_of("A", Options::default()).unwrap(), [0x10, 0x40, 0x04, 0x00, 0x05, 0x04]);
    assert_eq!(key_of("string[]", Options::default()).unwrap(), [0x11, 0xC2, 0x70]);
    let place = Place::Token { token: 4, half: false, byte: 14 };
    assert_eq!(refused("T extends U ? : V"), Refusal { why: Why::Unexpected, place });
}

#[test]
fn members() {
    type Notes<'a> = &'a [(u8, usize, usize)];
    let rows: [(&str, &str, Notes); 16] = [
        ("{}", "object", &[]),
        ("{ a: A }", "object(property a(reference A))", &[]),
        ("{ readonly \"a\"?: A, 1 }", "object(property \"a\"(reference A), property 1)", &[]),
        ("{ a: A\nb }", "object(property a(reference A), property b)", &[]),
        (
            "{ m<T extends A>(this: B, x?: C): x is D }",
            "object(method m(type parameter T(reference A), reference B, parameter x(reference C), predicate x(reference D)))",
            &[],
        ),
        ("{ get(): A; new?(): B; set }", "object(method get(reference A), method new(reference B), property set)", &[]),
        (
            "{ <T>(x: T): T, (this) }",
            "object(call signature(type parameter T, parameter x(reference T), reference T), call signature)",
            &[],
        ),
        ("{ new <T>(x: T), }", "object(construct signature(type parameter T, parameter x(reference T)))", &[]),
        (
            "{ new (this: A<>): B<> }",
            "object(construct signature(reference B))",
            &[(2, 14, 16), (3, 7, 16), (2, 20, 22)],
        ),
        ("{ readonly [k: string]: A }", "object(index signature k(keyword, reference A))", &[]),
        ("{ [a: A, b: B]: C }", "object(index signature a(reference A, reference C))", &[(12, 2, 14)]),
        ("{ []: A }", "object(index signature(reference A))", &[(12, 2, 4)]),
        (
            "{ readonly [a?: boolean,]: C }",
            "object(index signature a(keyword, reference C))",
            &[(8, 13, 14), (9, 23, 24), (11, 12, 23)],
        ),
        ("{ [a: 'x']: A }", "object(index signature a(literal 'x', reference A))", &[(10, 6, 9)]),
        (
            "{ m<bigint>(string): A }",
            "object(method m(type parameter bigint, parameter string, reference A))",
            &[(13, 4, 10)],
        ),
        ("{ a: { b: () => C } }[]", "array(object(property a(object(property b(function(reference C))))))", &[]),
    ];
    let (mut buffers, mut others) = (Buffers::default(), Buffers::default());
    for (text, tree, notes) in rows {
        let tokens = cut(text);
        let r = read(text.as_bytes(), &tokens, Options::default(), &mut buffers).unwrap();
        assert_eq!(shown(r.tree.root()), tree, "{text}");
        let said: Vec<_> = r.notes().map(|n| (n.what.number(), n.span.start, n.span.end)).collect();
        assert_eq!(said, notes, "{text}");
        assert_eq!(r.end, End { token: tokens.len() - 1, half: false }, "{text}");
        assert_eq!(shown(take_back(r.key, &mut others).unwrap().root()), tree, "{text}");
    }
    let key = [0x16, 0x40, 0x04, 0x00, 0x00, 0x16, 0x14, 0x10, 0x01, 0x00, 0x01, 0x41, 0x00];
    assert_eq!(key_of("{ a: A }", Options::default()).unwrap(), key);
    assert_eq!(key_of("{ readonly a(): B }", Options::default()), key_of("{ a(): B }", Options::default()));
}

#[test]
fn what_members_hold() {
    let (text, mut buffers) = ("{ readonly 1?: A; m?<T>(this, x): B; [k: C]: D }", Buffers::default());
    let r = read(text.as_bytes(), &cut(text), Options::default(), &mut buffers).unwrap();
    assert_eq!((r.tree.root().tag.number(), r.tree.root().tag.sort()), (Some(25), None));
    let members: Vec<Node> = r.tree.root().children().collect();
    let sorts: Vec<_> = members.iter().map(|m| (m.tag, m.tag.number(), m.tag.sort(), m.span())).collect();
    assert_eq!(
        sorts,
        [
            (Tag::Property, None, Some(0), 2..17),
            (Tag::Method, None, Some(1), 18..36),
            (Tag::IndexSignature, None, Some(4), 37..46)
        ]
    );
    let number = |m: &Node, name: &str| match m.get(name) {
        Some(Value::Number { is, .. }) => is,
        other => panic!("{name}: {other:?}"),
    };
    let said = |m: &Node, names: &[&str]| names.iter().map(|n| number(m, n)).collect::<Vec<_>>();
    assert_eq!(said(&members[0], &["readonly", "key sort", "optional", "has type"]), [1, 2, 1, 1]);
    assert!(matches!(members[0].get("key"), Some(Value::Name(b"1"))));
    let of_method = ["key sort", "optional", "type parameters", "has this", "has this type", "parameters"];
    assert_eq!(said(&members[1], &of_method), [0, 1, 1, 1, 0, 1]);
    let fields: Vec<String> = members[2].fields().map(|f| f.name.to_string()).collect();
    assert_eq!(fields, ["readonly", "has parameter", "name", "index", "type"]);
}

#[test]
fn members_that_are_refused() {
    let cases = [
        ("{ [a]: A }", Why::MemberForm, 1, 2),
        ("{ get a(): A }", Why::MemberForm, 1, 2),
        ("{ readonly static a: A }", Why::MemberForm, 2, 11),
        ("{ a b: A }", Why::Unexpected, 2, 4),
        ("{ [a: string] }", Why::Unexpected, 6, 14),
        ("{ a: A", Why::Unexpected, 4, 6),
    ];
    for (text, why, token, byte) in cases {
        assert_eq!(refused(text), Refusal { why, place: Place::Token { token, half: false, byte } }, "{text}");
    }
    for (key, bit) in [(&[0x16, 0x40, 0x06, 0xA0][..], 22), (&[0x16, 0x40, 0x04, 0x30, 0x00, 0x16, 0x10], 26)] {
        let bad = take_back(key, &mut Buffers::default()).unwrap_err();
        assert_eq!(bad, Refusal { why: Why::BadKey, place: Place::Bit(bit) });
    }
}

#[test]
fn notes_say_what_and_where() {
    let (text, mut buffers) = ("[a?: A, B]", Buffers::default());
    let r = read(text.as_bytes(), &cut(text), Options::default(), &mut buffers).unwrap();
    let notes: Vec<Note> = r.notes().collect();
    assert_eq!(notes, [Note { what: Diagnostic::RequiredAfter, span: 8..9, other: Some(1..6) }]);
    let sentence = "diagnostic 4 (RequiredAfter): a required element after an optional one, at bytes 8 to 9; the optional one is at bytes 1 to 6";
    assert_eq!(notes[0].to_string(), sentence);
    let text = "[A?, b: ...B, C?, ...D, E]";
    let r = read(text.as_bytes(), &cut(text), Options::default(), &mut buffers).unwrap();
    let both: Vec<_> = r.notes().map(|n| (n.what.number(), n.span, n.other)).collect();
    assert_eq!(both, [(5, 8..12, None), (4, 5..12, Some(1..3)), (4, 24..25, Some(14..16))]);
    let text = "{ []: A }";
    let r = read(text.as_bytes(), &cut(text), Options::default(), &mut buffers).unwrap();
    let sentence =
        "diagnostic 12 (NotOneIndex): an index signature with no parameter or more than one, at bytes 2 to 4";
    assert_eq!(r.notes().map(|n| n.to_string()).collect::<Vec<_>>(), [sentence]);
}

#[test]
fn names_of_built_in_types() {
    let mut buffers = Buffers::default();
    let mut noted = |text: &str| -> Vec<(Diagnostic, usize, usize)> {
        let r = read(text.as_bytes(), &cut(text), Options::default(), &mut buffers).unwrap();
        r.notes().map(|n| (n.what, n.span.start, n.span.end)).collect()
    };
    for name in "any bigint boolean never number object string symbol undefined unknown".split(' ') {
        assert_eq!(noted(&format!("<{name}>() => A")), [(Diagnostic::ReservedName, 1, 1 + name.len())]);
        assert_eq!(noted(&format!("infer {name}")), [(Diagnostic::ReservedName, 6, 6 + name.len())]);
        assert_eq!(noted(&format!("({name}: A) => B")), []);
        assert_eq!(noted(&format!("{{ [{name} in A]: B }}")), []);
    }
    assert_eq!(noted("<T, abstract, infer>() => A"), []);
    let (kept, again) = ((Diagnostic::ReservedName, 7, 13), (Diagnostic::NoArguments, 23, 25));
    assert_eq!(noted("(infer string extends A<> ? X : Y)"), [kept, again]);
    let r = read(b"infer any", &cut("infer any"), Options::default(), &mut buffers).unwrap();
    let sentence = "diagnostic 13 (ReservedName): a type parameter with the name of a built-in type; choose another name, at bytes 6 to 9";
    assert_eq!(r.notes().next().unwrap().to_string(), sentence);
}

#[test]
fn brackets_and_starts() {
    let kept = Options { preserve_parens: true, ..Options::default() };
    assert_eq!(key_of("(A)", Options::default()), key_of("A", Options::default()));
    assert_ne!(key_of("(A)", kept), key_of("A", kept));
    let second = Options { start: 2, ..Options::default() };
    assert_eq!(key_of("A | B", second), key_of("B", Options::default()));
    assert_eq!(key_of("A", Options { start: 2, ..second }).unwrap_err().why, Why::BadList);
}

#[test]
fn refusals_are_sentences() {
    let cases = [
        ("T extends U ? : V", "refusal 3 (Unexpected): a token that no rule takes, at token 4, byte 14"),
        ("A<=B>", "refusal 3 (Unexpected): a token that no rule takes, behind the first half of token 1, byte 2"),
        ("A | ?", "refusal 20 (PrefixMark): a `?`, `!` or `*` before a type is not supported, at token 2, byte 4"),
        ("(a = 1) => A", "refusal 22 (DefaultValue): a default value is not supported, at token 2, byte 3"),
        (
            "(a, this) => A",
            "refusal 23 (MisplacedThis): `this` has to be the first parameter, and not a rest, at token 3, byte 4",
        ),
    ];
    for (text, sentence) in cases {
        assert_eq!(refused(text).to_string(), sentence);
    }
    let deep = "(".repeat(64) + "A";
    assert_eq!(refused(&deep).to_string(), "refusal 5 (TooDeep): a 65th type rule open, at token 64, byte 64");
    assert_eq!(refused(&("keyof ".repeat(256) + "A")).why, Why::TooTall);
    assert_eq!(refused(&vec!["A"; 4096].join("|")).why, Why::TooLong);
    assert_eq!(refused(&format!("[{}]", "A<>,".repeat(33))).why, Why::ManyNotes);
    let mut tokens = cut("A B");
    tokens[1] = token(kind_of(b"any"), false, 2, 1);
    let bad = read(b"A B", &tokens, Options::default(), &mut Buffers::default()).unwrap_err();
    assert_eq!(bad.to_string(), "refusal 2 (BadToken): a word that is no good token, at token 1");
    let bad = take_back(&[0x10, 0x00], &mut Buffers::default()).unwrap_err();
    assert_eq!(bad.to_string(), "refusal 10 (BadKey): a field that is no part of a key, at bit 4");
    let long = vec![b'a'; 65_536];
    let bad = read(&long, &[token(EOF, false, 65_536, 0)], Options::default(), &mut Buffers::default()).unwrap_err();
    assert_eq!((bad.why, bad.why.number()), (Why::BadList, 1));
    let too_long = [token(WORD, false, 0, u32::MAX), token(EOF, false, 1, 0)];
    let bad = read(b"a", &too_long, Options::default(), &mut Buffers::default()).unwrap_err();
    assert_eq!(bad.why, Why::BadToken);
}

#[test]
fn forms_that_are_not_read() {
    let cases = [
        ("? A", Why::PrefixMark, 20, 0, 0),
        ("A[*]", Why::PrefixMark, 20, 2, 2),
        ("(readonly a: B) => C", Why::ParameterModifier, 21, 1, 1),
        ("(this = A) => B", Why::DefaultValue, 22, 2, 6),
        ("(...this) => A", Why::MisplacedThis, 23, 2, 4),
        ("(...a, b) => C", Why::RestNotLast, 24, 3, 5),
        ("<const T>() => A", Why::TypeParameterModifier, 25, 1, 1),
        ("import(A)", Why::ImportSource, 26, 2, 7),
        ("import(\"a\", {})", Why::ImportOptions, 27, 3, 10),
        ("{ set a(b) }", Why::MemberForm, 31, 1, 2),
    ];
    for (text, why, number, token, byte) in cases {
        assert_eq!(refused(text), Refusal { why, place: Place::Token { token, half: false, byte } }, "{text}");
        assert_eq!(why.number(), number);
    }
    let deep = "(".repeat(63) + "A<<T>() => T>";
    let place = Place::Token { token: 64, half: true, byte: 65 };
    assert_eq!(refused(&deep), Refusal { why: Why::TooDeep, place });
}

#[test]
fn trials() {
    let mut buffers = Buffers::default();
    let mut entered =
        |text: &str| read(text.as_bytes(), &cut(text), Options::default(), &mut buffers).map(|r| r.entered);
    let tried = |n| "(infer A extends ".repeat(n) + "A" + &" ? X : Y)".repeat(n);
    let kept = |n| "(infer A extends ".repeat(n) + "A" + &")".repeat(n);
    assert_eq!([0, 1, 2, 3, 4].map(|n| entered(&tried(n)).unwrap()), [1, 6, 16, 36, 76]);
    assert_eq!(entered(&kept(4)), Ok(9));
    assert_eq!(
        entered("[infer A extends B, infer A extends B, infer A extends B, infer A extends B, infer A extends B]"),
        Ok(11)
    );
    for text in [tried(5), kept(5), tried(31)] {
        let refusal = entered(&text).unwrap_err();
        assert_eq!(refusal, Refusal { why: Why::ManyTrials, place: Place::Token { token: 19, half: false, byte: 77 } });
        let sentence = "refusal 28 (ManyTrials): more than four constraints of `infer` would be tried at once, at token 19, byte 77";
        assert_eq!(refusal.to_string(), sentence);
    }
}

#[test]
fn less_than_is_needed() {
    let (text, tokens) = (b"A<B, C>", cut("A<B, C>"));
    let none = |why, place| Some(Refusal { why, place });
    let no_place = Place::Token { token: 0, half: false, byte: 0 };
    for (words, names, bytes, want) in [
        (12, 3, 64, None),
        (11, 3, 64, none(Why::NoRoom, Place::Token { token: 6, half: false, byte: 7 })),
        (12, 2, 64, none(Why::NoSpace, no_place)),
        (12, 3, 5, none(Why::NoSpace, no_place)),
    ] {
        let (mut a, mut b, mut d) = ([9; 12], [9; 3], [9; 64]);
        let lent = Lent { nodes: &mut a[..words], names: &mut b[..names], notes: &mut [], bytes: &mut d[..bytes] };
        assert_eq!(read_into(text, &tokens, Options::default(), lent).err(), want);
        if want.is_some() {
            assert!(a[..words].iter().chain(&b[..names]).all(|w| *w == 0) && d[..bytes].iter().all(|x| *x == 0));
        }
    }
    let key = key_of("A<B, C>", Options::default()).unwrap();
    let bit = take_back_into(&key, Lent::default()).unwrap_err();
    assert_eq!(bit, Refusal { why: Why::NoRoom, place: Place::Bit(4) });
}

/// The differences of two texts' keys.
fn differing(left: &str, right: &str) -> Vec<(usize, usize)> {
    let (l, r) = (key_of(left, Options::default()).unwrap(), key_of(right, Options::default()).unwrap());
    differ(&l, &r, &mut Buffers::default()).unwrap().map(|d| (d.left, d.right)).collect()
}

#[test]
fn differences() {
    let rows: [(&str, &str, &[(usize, usize)]); 12] = [
        ("A", "A", &[]),
        ("A", "AB", &[(22, 22)]),
        ("A", "A.B", &[(4, 4)]),
        ("A.B.C", "X.B.D", &[(22, 22), (70, 70)]),
        ("string", "number", &[(4, 4)]),
        ("A | B", "A | C", &[(83, 83)]),
        ("A | B", "A | B | C", &[(4, 4)]),
        ("[A, B, C]", "[A?, X, ...C]", &[(22, 22), (83, 89), (108, 114)]),
        ("{ [K in A]: B }", "{ [L in X]?: B }", &[(4, 4)]),
        ("{ [K in A]: B }", "{ [L in X]: Y }", &[(12, 12), (54, 54), (101, 101)]),
        ("(a: A, b?: B) => C", "(x: A, b: Y) => Z", &[(25, 25), (94, 94), (182, 182)]),
        ("<T, U extends A>() => B", "<V, U>() => C", &[(23, 23), (49, 49), (149, 106)]),
    ];
    for (left, right, pairs) in rows {
        assert_eq!(differing(left, right), pairs, "{left} {right}");
        let turned: Vec<_> = pairs.iter().map(|p| (p.1, p.0)).collect();
        assert_eq!(differing(right, left), turned, "{right} {left}");
    }
}

#[test]
fn lists_and_sides() {
    let [a, x] = ["A | B | C", "X | Y | Z"].map(|t| key_of(t, Options::default()).unwrap());
    for words in 0..9 {
        let mut list = [u64::MAX; 9];
        let list = &mut list[..words];
        match differ_into(&a, &x, list).map(|d| d.len()) {
            Ok(found) => assert!(found == 3 && words >= 6 && list[..6] == [40, 40, 83, 83, 126, 126]),
            Err(refusal) => {
                assert_eq!(
                    refusal,
                    Refusal { why: Why::ManyDifferences, place: Place::Key { side: Side::Neither, bit: 0 } }
                );
                assert_eq!(
                    refusal.to_string(),
                    "refusal 29 (ManyDifferences): more differences than the list has room for"
                );
                assert!(words < 6 && list.iter().all(|w| *w == 0));
            }
        }
        assert!(list[words.min(6)..].iter().all(|w| *w == 0));
    }
    let (strings, bad) = ([0x11, 0xc2, 0x70], [0x11, 0xc2, 0x71]);
    for (left, right, side) in [(&bad, &strings, Side::Left), (&strings, &bad, Side::Right), (&bad, &bad, Side::Left)] {
        let mut list = [u64::MAX; 5];
        let refusal = differ_into(left, right, &mut list).map(|d| d.len()).unwrap_err();
        assert_eq!(refusal, Refusal { why: Why::BadKey, place: Place::Key { side, bit: 23 } });
        assert_eq!(list, [0; 5]);
    }
    let refusal = differ(&[], &strings, &mut Buffers::default()).map(|d| d.len()).unwrap_err();
    assert_eq!(refusal.to_string(), "refusal 10 (BadKey): a field that is no part of a key, at bit 0 of the left key");
}

#[test]
fn nothing_is_a_refusal() {
    let empty = read_into(&[], &[], Options::default(), Lent::default()).unwrap_err();
    assert_eq!(
        empty.to_string(),
        "refusal 1 (BadList): no tokens or too many, too long a text, or a start that is no token"
    );
    assert_eq!(read(&[], &[], Options::default(), &mut Buffers::default()).unwrap_err(), empty);
    let no_key = Refusal { why: Why::BadKey, place: Place::Bit(0) };
    assert_eq!(take_back(&[], &mut Buffers::default()).unwrap_err(), no_key);
    assert_eq!(take_back_into(&[], Lent::default()).unwrap_err(), no_key);
}

#[test]
fn null_slices() {
    use core::ptr::{null, null_mut};
    type Words = *mut u64;
    unsafe extern "C" {
        #[rustfmt::skip]
        fn typekey_read(
            t: *const u8,
            _: u64,
            w: *const u64,
            _: u64,
            start: u64,
            options: u64,
            n: Words,
            _: u64,
            m: Words,
            _: u64,
            d: Words,
            _: u64,
            k: *mut u8,
            _: u64,
            answer: *mut [u64; 8],
        );
        #[rustfmt::skip]
        fn typekey_take_back(
            k: *const u8,
            _: u64,
            n: Words,
            _: u64,
            m: Words,
            _: u64,
            t: *mut u8,
            _: u64,
            answer: *mut [u64; 8],
        );
        fn typekey_differ(l: *const u8, _: u64, r: *const u8, _: u64, p: Words, _: u64, answer: *mut [u64; 8]);
    }
    let (n, mut answer) = (null_mut(), [9; 8]);
    // SAFETY: slices of length 0 may be null.
    unsafe { typekey_read(null(), 0, null(), 0, 0, 0, n, 0, n, 0, n, 0, null_mut(), 0, &mut answer) };
    assert_eq!(answer, [1, 0, 0, 0, 0, 0, 0, 0]);
    answer = [9; 8];
    // SAFETY: as above.
    unsafe { typekey_take_back(null(), 0, n, 0, n, 0, null_mut(), 0, &mut answer) };
    assert_eq!(answer, [10, 0, 0, 0, 0, 0, 0, 0]);
    answer = [9; 8];
    // SAFETY: as above.
    unsafe { typekey_differ(null(), 0, null(), 0, n, 0, &mut answer) };
    assert_eq!(answer, [10, 1, 0, 0, 0, 0, 0, 0]);
}

#[test]
fn a_walk() {
    let text = "<T extends A>(this: B, ...c?: T[]) => asserts this";
    let mut buffers = Buffers::default();
    let r = read(text.as_bytes(), &cut(text), Options::default(), &mut buffers).unwrap();
    let lines: Vec<String> = r.tree.walk().map(|(depth, n)| format!("{depth} {n}")).collect();
    assert_eq!(
        lines,
        [
            "0 function 0..50",
            "1 type parameter 1..12",
            "2 reference 11..12",
            "1 reference 20..21",
            "1 parameter 23..33",
            "2 array 30..33",
            "3 reference 30..31",
            "1 predicate 38..50",
        ]
    );
    let fields: Vec<String> = r.tree.root().fields().map(|f| f.name.to_string()).collect();
    assert_eq!(
        fields,
        [
            "has type parameters",
            "type parameters",
            "type parameter",
            "has this",
            "has this type",
            "this type",
            "parameters",
            "parameter",
            "returns",
        ]
    );
    let Some(Value::Node(parameter)) = r.tree.root().get("parameter") else { panic!() };
    assert!(matches!(parameter.get("rest"), Some(Value::Number { bits: 1, is: 1 })));
    assert!(matches!(parameter.get("optional"), Some(Value::Number { bits: 1, is: 1 })));
    assert!(matches!(parameter.get("name"), Some(Value::Name(b"c"))));
    assert_eq!((parameter.tag, parameter.tag.number()), (Tag::Parameter, None));
    assert_eq!(r.tree.root().tag.number(), Some(12));
}

#[test]
fn pieces_of_nested_templates() {
    let text = b"`a${`b${X}c`}d${Y}e`";
    let tokens = [
        token(TEMPLATE_HEAD, false, 0, 4),
        token(TEMPLATE_HEAD, false, 4, 4),
        token(WORD, false, 8, 1),
        token(TEMPLATE_TAIL, false, 9, 3),
        token(TEMPLATE_MIDDLE, false, 12, 4),
        token(WORD, false, 16, 1),
        token(TEMPLATE_TAIL, false, 17, 3),
        token(EOF, false, 20, 0),
    ];
    let mut buffers = Buffers::default();
    let r = read(text, &tokens, Options::default(), &mut buffers).unwrap();
    assert_eq!(shown(r.tree.root()), "template `a${ }d${ }e`(template `b${ }c`(reference X), reference Y)");
}

#[test]
fn pieces_behind_members() {
    let text = b"`a${{ m(b) }}c`";
    let tokens = [
        token(TEMPLATE_HEAD, false, 0, 4),
        token(kind_of(b"{"), false, 4, 1),
        token(WORD, false, 6, 1),
        token(kind_of(b"("), false, 7, 1),
        token(WORD, false, 8, 1),
        token(kind_of(b")"), false, 9, 1),
        token(kind_of(b"}"), false, 11, 1),
        token(TEMPLATE_TAIL, false, 12, 3),
        token(EOF, false, 15, 0),
    ];
    let mut buffers = Buffers::default();
    let r = read(text, &tokens, Options::default(), &mut buffers).unwrap();
    assert_eq!(shown(r.tree.root()), "template `a${ }c`(object(method m(parameter b)))");
}

#[test]
fn kinds() {
    for (spelling, kind) in [("{", 16), ("*", 40), ("@", 41), ("any", 64), ("unique", 82), ("public", 83)] {
        assert_eq!(kind_of(spelling.as_bytes()), kind, "{spelling}");
    }
    for (spelling, kind) in [("extends", 96), ("const", 106), ("class", 107), ("A", 1), ("$a", 1), ("ä", 1), ("", 41)]
    {
        assert_eq!(kind_of(spelling.as_bytes()), kind, "{spelling}");
    }
    assert_eq!(token(1, true, 2, 3), 0x0180_0003_0000_0002);
}
