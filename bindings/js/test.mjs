// Run by run_tests.sh: WASM is typekey.wasm, CUTS what model_cuts.py prints.
import assert from 'node:assert/strict';
import { readFileSync } from 'node:fs';
import test from 'node:test';
import { cut } from './cut.mjs';
import { fromHex, indexAt, load, toHex, token } from './typekey.mjs';
import { run, runTrees } from './vectors.mjs';

const keys = await load(process.env.WASM);
const read = (text, options) => keys.read(text, cut(text), options);
// A tree in one line: tag, then its words and spellings, then its children in brackets.
const said = (n) => [n.tag, ...Object.values(n.choices).filter((x) => typeof x === 'string'), ...n.spellings].join(' ') + (n.children.length ? `(${n.children.map(said).join(', ')})` : '');
const tree = (text, options) => said(read(text, options).tree.root);

test('twelve rows', () => {
  assert.equal(toHex(read('A').key), '10 40 04 00 05 04');
  assert.equal(toHex(read('string[]').key), '11 c2 70');
  assert.equal(tree('| A'), 'union(reference A)');
  assert.equal(tree('A | B & C'), 'union(reference A, intersection(reference B, reference C))');
  assert.equal(tree('() => A extends B ? C : D'), 'function(conditional(reference A, reference B, reference C, reference D))');
  assert.equal(tree('T extends infer U extends number ? X : Y'), 'conditional(reference T, infer U(keyword number), reference X, reference Y)');
  assert.equal(tree('(infer U extends number ? X : Y)'), 'conditional(infer U, keyword number, reference X, reference Y)');
  assert.deepEqual(read('[A?, ...B[]]').diagnostics, []);
  assert.deepEqual(read('[a?: A, B]').diagnostics.map((d) => [d.number, d.name, d.first, d.end, d.other]), [[4, 'RequiredAfterOptional', 8, 9, { first: 1, end: 6 }]]);
  assert.deepEqual(read('[A?, b: ...B, C?, ...D, E]').diagnostics.map((d) => [d.number, d.first, d.other]), [[5, 8, null], [4, 5, { first: 1, end: 3 }], [4, 24, { first: 14, end: 16 }]]);
  assert.equal(tree('A<<T>() => T>'), 'reference A(function(type parameter T, reference T))');
  assert.equal(tree('A\n[B]'), 'reference A');
  assert.deepEqual(read('A\n[B]').end, { token: 1, half: 0 });
  const { ok, number, token: at } = read('T extends U ? : V');
  assert.deepEqual([ok, number, at], [false, 3, 4]);
  assert.equal(tree('new (this: A) => B'), 'constructor(reference B)');
  assert.deepEqual(read('new (this: A) => B').diagnostics.map((d) => d.name), ['ThisOnConstructor']);
});

test('members', () => {
  const rows = [
    ['{}', 'object'], ['{ a: A }', 'object(property name a(reference A))'], ['{ readonly "a"?: A, 1 }', 'object(property string "a"(reference A), property number 1)'],
    ['{ a: A\nb }', 'object(property name a(reference A), property name b)'],
    ['{ m<T extends A>(this: B, x?: C): x is D }', 'object(method name m(type parameter T(reference A), reference B, parameter x(reference C), predicate x(reference D)))'],
    ['{ get(): A; new?(): B; set }', 'object(method name get(reference A), method name new(reference B), property name set)'],
    ['{ <T>(x: T): T, (this) }', 'object(call signature(type parameter T, parameter x(reference T), reference T), call signature)'],
    ['{ new <T>(x: T), }', 'object(construct signature(type parameter T, parameter x(reference T)))'],
    ['{ new (this: A<>): B<> }', 'object(construct signature(reference B))', [2, 14, 16], [3, 7, 16], [2, 20, 22]],
    ['{ readonly [k: string]: A }', 'object(index signature k(keyword string, reference A))'],
    ['{ [a: A, b: B]: C }', 'object(index signature a(reference A, reference C))', [12, 2, 14]],
    ['{ []: A }', 'object(index signature(reference A))', [12, 2, 4]],
    ['{ readonly [a?: boolean,]: C }', 'object(index signature a(keyword boolean, reference C))', [8, 13, 14], [9, 23, 24], [11, 12, 23]],
    ["{ [a: 'x']: A }", "object(index signature a(literal string 'x', reference A))", [10, 6, 9]],
    ['{ m<bigint>(string): A }', 'object(method name m(type parameter bigint, parameter string, reference A))', [13, 4, 10]],
    ['{ a: { b: () => C } }[]', 'array(object(property name a(object(property name b(function(reference C))))))'],
    ['`a${{ m(b) }}c${{ x: `d${{ e?; [k: A]: B }}f` }}g${{}}h`', 'template `a${ }c${ }g${ }h`(object(method name m(parameter b)), object(property name x(template `d${ }f`(object(property name e, index signature k(reference A, reference B))))), object)'],
  ];
  for (const [text, want, ...notes] of rows) {
    const r = read(text);
    assert.equal(said(r.tree.root), want);
    assert.deepEqual(r.diagnostics.map((d) => [d.number, d.first, d.end]), notes);
    assert.equal(r.end.token, cut(text).length - 1);
    assert.equal(said(keys.takeBack(r.key).tree.root), want);
  }
  assert.equal(toHex(read('{ a: A }').key), '16 40 04 00 00 16 14 10 01 00 01 41 00');
  assert.deepEqual(read('{ readonly a(): B }').key, read('{ a(): B }').key);
  assert.deepEqual(read('{ readonly [a?: null,]: C; [a: 1, b: 2]: D; [a: 1]: E }').diagnostics.map((d) => d.name), ['OptionalIndex', 'CommaAfterIndex', 'KeywordIndex', 'NotOneIndex', 'LiteralIndex']);
  const [p, m, i] = read('{ readonly 1?: A; m?<T>(this, x): B; [k: C]: D }').tree.root.children;
  assert.deepEqual([p.role, p.choices, p.first, p.end], ['member', { readonly: true, key: 'number', optional: true, type: true }, 2, 17]);
  assert.deepEqual(m.choices, { key: 'name', optional: true, typeParameters: true, this: true, thisType: false, returns: true });
  assert.deepEqual([i.choices, i.children.map((c) => c.role)], [{ readonly: false, parameter: true }, ['index', 'type']]);
  const refused = (text) => { const { name, token, byte, sentence } = read(text); return [name, token, byte, sentence]; };
  assert.deepEqual(refused('{ [a]: A }'), ['MemberForm', 1, 2, 'A computed name is not supported. A name, a string or a number is.']);
  assert.deepEqual(refused('{ get a(): A }'), ['MemberForm', 1, 2, 'An accessor is not supported: `get`.']);
  assert.deepEqual(refused('{ readonly static a: A }'), ['MemberForm', 2, 11, 'A modifier other than `readonly` is not supported: `static`.']);
  assert.deepEqual(refused('{ a b: A }'), ['Unexpected', 2, 4, '`b` cannot stand here.']);
  assert.deepEqual(refused('{ [a: string] }').slice(0, 3), ['Unexpected', 6, 14]);
  assert.deepEqual(refused('{ a: A'), ['Unexpected', 4, 6, 'The text ends before the type does.']);
  assert.deepEqual(keys.takeBack(fromHex('16 40 06 A0')).bit, 22);
});

test('names of built-in types', () => {
  const noted = (text) => read(text).diagnostics.map((d) => [d.number, d.name, d.first, d.end]);
  for (const name of 'any bigint boolean never number object string symbol undefined unknown'.split(' ')) {
    assert.deepEqual(noted(`<${name}>() => A`), [[13, 'ReservedName', 1, 1 + name.length]]);
    assert.deepEqual(noted(`infer ${name}`), [[13, 'ReservedName', 6, 6 + name.length]]);
    assert.deepEqual([...noted(`(${name}: A) => B`), ...noted(`{ [${name} in A]: B }`)], []);
  }
  assert.deepEqual(noted('<T, abstract, infer>() => A'), []);
  assert.deepEqual(noted('(infer string extends A<> ? X : Y)').map(([n]) => n), [13, 2]);
  assert.equal(read('<string>(x: string) => string').diagnostics[0].sentence, '`string` names a type of its own. Choose another name for the type parameter.');
});

test('refusals say what and where', () => {
  const refused = (text) => { const { name, token, half, byte, sentence } = read(text); return [name, token, half, byte, sentence]; };
  assert.deepEqual(refused('T extends U ? : V'), ['Unexpected', 4, 0, 14, '`:` cannot stand here.']);
  assert.deepEqual(refused('A<=B>'), ['Unexpected', 1, 1, 2, '`=` cannot stand here.']);
  assert.deepEqual(refused('A |'), ['Unexpected', 2, 0, 3, 'The text ends before the type does.']);
  assert.deepEqual(refused('\\u0041'), ['BadToken', 0, 0, 0, 'Words with escapes are not read here: `\\u0041`.']);
  assert.deepEqual(refused('('.repeat(64) + 'A'), ['TooDeep', 64, 0, 64, 'Types are nested more than 64 deep here.']);
  assert.equal(refused('keyof '.repeat(300) + 'A')[0], 'TooTall');
  assert.equal(refused('A|'.repeat(4095) + 'A')[0], 'TooLong');
  assert.equal(refused(`[${'A<>,'.repeat(33)}]`)[0], 'ManyNotes');
  assert.equal(refused(`'${'s'.repeat(70000)}'`)[4], 'The text has 70002 bytes; it may have 65535.');
  assert.equal(refused('!'.repeat(20000))[4], 'There are 20001 tokens; there may be 16384.');
  assert.equal(keys.read('A', []).sentence, 'There are no tokens, not even the end.');
  assert.equal(keys.read('A', cut('A'), { start: 2 }).sentence, 'There is no token 2 to start at.');
  assert.equal(keys.read('A', [token(9, 0, 1), token(0, 1, 0)]).sentence, 'Token 0 is not a sound token word: `A`.');
  assert.throws(() => read('"\ud800"'), /surrogate/);
});

test('forms that are not read', () => {
  const rows = [
    ['? A', 20, 'PrefixMark', 0, 0, 'A `?` before a type is not supported. It may stand behind one.'],
    ['A[*]', 20, 'PrefixMark', 2, 2, 'A `*` before a type is not supported.'],
    ['(readonly a: B) => C', 21, 'ParameterModifier', 1, 1, 'A modifier before a parameter is not supported: `readonly`.'],
    ['(a = 1) => A', 22, 'DefaultValue', 2, 3, 'A default value is not supported here. A `?` behind the name is.'],
    ['(this = A) => B', 22, 'DefaultValue', 2, 6, 'A default value is not supported here. A `?` behind the name is.'],
    ['(a, this: B) => C', 23, 'MisplacedThis', 3, 4, '`this` has to be the first parameter, and not a rest.'],
    ['(...this) => A', 23, 'MisplacedThis', 2, 4, '`this` has to be the first parameter, and not a rest.'],
    ['(...a, b) => C', 24, 'RestNotLast', 3, 5, 'Nothing may follow a rest parameter, not even a comma.'],
    ['<const T>() => A', 25, 'TypeParameterModifier', 1, 1, '`const` before a type parameter is not supported.'],
    ['import(A)', 26, 'ImportSource', 2, 7, 'The source of an import has to be a string.'],
    ['import("a", {})', 27, 'ImportOptions', 3, 10, 'Options of an import are not supported. Only its source is read.'],
    ['{ set a(b) }', 31, 'MemberForm', 1, 2, 'An accessor is not supported: `set`.'],
  ];
  for (const [text, ...want] of rows) {
    const { number, name, token, half, byte, sentence } = read(text);
    assert.deepEqual([number, name, token, byte, sentence, half], [...want, 0], text);
  }
  const { name, token, half, byte } = read(`${'('.repeat(63)}A<<T>() => T>`);
  assert.deepEqual([name, token, half, byte], ['TooDeep', 64, 1, 65]);
});

test('trials', () => {
  const tried = (n) => '(infer A extends '.repeat(n) + 'A' + ' ? X : Y)'.repeat(n), kept = (n) => '(infer A extends '.repeat(n) + 'A' + ')'.repeat(n);
  assert.deepEqual([0, 1, 2, 3, 4].map((n) => read(tried(n)).entered), [1, 6, 16, 36, 76]);
  assert.deepEqual([0, 1, 2, 3, 4].map((n) => read(kept(n)).entered), [1, 3, 5, 7, 9]);
  assert.equal(read(`[${Array(5).fill('infer A extends B').join(', ')}]`).entered, 11);
  for (const text of [tried(5), kept(5), tried(31)]) {
    const { number, name, token, half, byte, sentence } = read(text);
    assert.deepEqual([number, name, token, half, byte, sentence], [28, 'ManyTrials', 19, 0, 77, 'More than four constraints of `infer` would be tried at once.']);
  }
});

test('keys come back, and what is none is refused', () => {
  const back = (hex) => { const { name, bit, sentence } = keys.takeBack(fromHex(hex)); return [name, bit, sentence]; };
  assert.equal(said(keys.takeBack(fromHex('11C270')).tree.root), 'array(keyword string)');
  assert.deepEqual(back(''), ['BadKey', 0, 'A key has at least one byte.']);
  assert.deepEqual(back('20'), ['BadKey', 0, 'This is no key: it does not begin with edition 1.']);
  assert.deepEqual(back('1410').slice(0, 2), ['BadKey', 12]);
  assert.deepEqual(back('11c270 00').slice(0, 2), ['BadKey', 24]);
  assert.equal(keys.takeBack(new Uint8Array(300000)).sentence, 'The key has 300000 bytes; it may have 262144.');
  assert.throws(() => fromHex('11 c'), /odd/);
  assert.throws(() => fromHex('11 cg'), /`g` is no hex digit/);
});

test('what differs', () => {
  const pairs = (a, b) => keys.differ(read(a).key, read(b).key).pairs.map((p) => `${p.left}-${p.right}`).join(' ');
  const rows = [
    ['A', 'A', ''], ['A', 'B', '22-22'], ['A', 'A.B', '4-4'], ['A.B.C', 'X.B.D', '22-22 70-70'], ['string', 'number', '4-4'], ['A | B', 'A | C', '83-83'],
    ['A | B', 'A | B | C', '4-4'], ['[A, B, C]', '[A?, X, ...C]', '22-22 83-89 108-114'], ['{ [K in A]: B }', '{ [L in X]?: B }', '4-4'],
    ['{ [K in A]: B }', '{ [L in X]: Y }', '12-12 54-54 101-101'], ['(a: A, b?: B) => C', '(x: A, b: Y) => Z', '25-25 94-94 182-182'],
    ['<T, U extends A>() => B', '<V, U>() => C', '23-23 49-49 149-106'], ['`a${A}b${B}c`', '`x${Y}b${[Z]}d`', '22-22 88-88 161-161 204-222'], ["'a'", '"a"', '13-13'],
    ['{ a: A; b: B }', '{ a: X; readonly b: B }', '72-72 97-97'], ['{ a: A }', '{ "a": A }', '22-22'], ['{ a: A }', '{ a: A; b: B }', '4-4'],
    ['{ [k: string]: A }', '{ [i: number]: B }', '27-27 51-51 79-79'], ['{ [k: A]: B }', '{ []: B }', '22-22'],
  ];
  for (const [a, b, want] of rows) {
    assert.equal(pairs(a, b), want);
    assert.equal(pairs(b, a), want.replace(/(\d+)-(\d+)/g, '$2-$1'));
  }
  const a = read('A | B | C').key, x = read('X | Y | Z').key;
  for (let words = 0; words < 9; words++) {
    const { answer, list } = keys.differInto(a, x, words);
    assert.deepEqual(answer, words < 6 ? [29, 0, 0, 0, 0, 0, 0, 0] : [0, 3, 0, 0, 0, 0, 0, 0]);
    assert.deepEqual(Array.from(list).filter((_, i) => i % 2 === 0), words < 6 ? Array(words).fill(0) : [40, 40, 83, 83, 126, 126, ...Array(words - 6).fill(0)]);
  }
  const refused = (l, r, options) => { const { name, side, bit, sentence } = keys.differ(fromHex(l), fromHex(r), options); return [name, side, bit, sentence]; };
  assert.deepEqual(refused(toHex(a), toHex(x), { most: 2 }), ['ManyDifferences', 'neither', 0, 'There are more than 2 differences.']);
  assert.deepEqual(refused('', '11c270'), ['BadKey', 'left', 0, 'The left key: A key has at least one byte.']);
  assert.deepEqual(refused('11c270', '11c271').slice(0, 3), ['BadKey', 'right', 23]);
  assert.deepEqual(refused('11c271', '20').slice(0, 3), ['BadKey', 'left', 23]);
  assert.equal(keys.differ(a, new Uint8Array(300000)).sentence, 'The right key: The key has 300000 bytes; it may have 262144.');
  assert.equal(keys.differ(a, x, { most: -1 }).number, 29);
});

test('brackets, and results that outlive the next call', () => {
  assert.equal(tree('(A)'), 'reference A');
  assert.equal(tree('(A)', { preserveParens: true }), 'parens(reference A)');
  const first = read('A | B');
  read('[C, D, E]');
  assert.equal(said(first.tree.root), 'union(reference A, reference B)');
  assert.deepEqual([...first.tree].map((n) => [n.tag, n.depth, n.first, n.end]), [['union', 0, 0, 5], ['reference', 1, 0, 1], ['reference', 1, 4, 5]]);
});

test('an instance that trapped is thrown away', async () => {
  // A module whose typekey_take_back traps.
  const name = (s) => [s.length, ...new TextEncoder().encode(s)], i32 = 0x7f, i64 = 0x7e;
  const trap = await load(Uint8Array.of(0, 0x61, 0x73, 0x6d, 1, 0, 0, 0, 1, 13, 1, 0x60, 9, i32, i64, i32, i64, i32, i64, i32, i64, i32, 0, 3, 2, 1, 0, 5, 3, 1, 0, 1,
    6, 7, 1, i32, 0, 0x41, 0x80, 8, 0x0b, 7, 44, 3, ...name('memory'), 2, 0, ...name('__heap_base'), 3, 0, ...name('typekey_take_back'), 0, 0, 10, 5, 1, 3, 0, 0, 0x0b));
  const { Instance } = WebAssembly;
  let made = 0;
  WebAssembly.Instance = class extends Instance { constructor(...x) { super(...x); made += 1; } };
  for (let i = 0; i < 3; i++) assert.throws(() => trap.takeBack(Uint8Array.of(16)), WebAssembly.RuntimeError);
  WebAssembly.Instance = Instance;
  assert.equal(made, 2); // the first was there already
});

test('stored vectors', (t) => {
  const data = new Uint8Array(readFileSync(process.env.VECTORS));
  for (const line of [run(keys, data), runTrees(keys, data)]) {
    t.diagnostic(line);
    assert.match(line, /, 0 different$/);
  }
});

test('the cutter beside the model\'s', (t) => {
  // What the model's cutter does not know: marks that TypeScript keeps whole, numbers, private names, escapes in templates.
  const other = /\?\?|\?\.|--|-=|0x|\.\d|#|`.*\\/s;
  let same = 0, apart = 0;
  for (const line of readFileSync(process.env.CUTS, 'utf8').trim().split('\n')) {
    const [text, words] = JSON.parse(line), got = Array.from(cut(text), (w) => w.toString(16).padStart(16, '0'));
    if (got.join() === words.join()) same += 1;
    else { assert.match(text, other); apart += 1; }
  }
  t.diagnostic(`${same + apart} texts: ${same} cut alike, ${apart} with what the model's cutter does not know, 0 different`);
});

test('the cutter by itself', () => {
  const cuts = (text) => Array.from(cut(text), (w) => {
    const first = Number(w & 0xffffffffn), kind = Number(w >> 56n), bytes = new TextEncoder().encode(text).subarray(first, first + Number((w >> 32n) & 0x1ffffn));
    return `${kind}${(w >> 55n) & 1n ? '/' : ''} ${new TextDecoder().decode(bytes)}`.trim();
  }).slice(0, -1).join('  ');
  assert.equal(cuts('a // b\n c /* \n */ d /**/ e'), '1 a  1/ c  1/ d  1 e');
  assert.equal(cuts('`a${ {b: `c${d}e`} }f${g}h`'), '6 `a${  16 {  1 b  30 :  6 `c${  1 d  8 }e`  17 }  7 }f${  1 g  8 }h`');
  assert.equal(cuts('`\\`\\${`'), '5 `\\`\\${`');
  assert.equal(cuts('"a\\"b" \'\\\\\' "\\\n"'), '4 "a\\"b"  4 \'\\\\\'  4 "\\\n"');
  assert.equal(cuts('0x1F 1_000n 1.5e-3 .5 0b1n'), '2 0x1F  3 1_000n  2 1.5e-3  2 .5  3 0b1n');
  assert.equal(cuts('A<<T>>>= <<= <= => ... ?. ?.5 !='), '1 A  24 <<  1 T  23 >  23 >  23 >  36 =  26 <<=  25 <=  35 =>  34 ...  41 ?.  29 ?  2 .5  41 !=');
  assert.equal(cuts('é €😀 x'), '1 é  41 €  41 😀  1 x');
  assert.equal(cuts('public class string of'), '83 public  107 class  70 string  1 of');
  assert.equal(cuts('"a\nb'), '41 "  1 a  1/ b');
  assert.equal(cuts('`a${b} /* '), '6 `a${  1 b  17 }  41 /*');
  assert.equal(cuts('{ get a, "b"?: c\n;1(): d}'), '16 {  1 get  1 a  31 ,  4 "b"  29 ?  30 :  1 c  32/ ;  2 1  20 (  21 )  30 :  1 d  17 }');
  assert.equal(cuts('`${{ a: {} }}${{}}`'), '6 `${  16 {  1 a  30 :  16 {  17 }  17 }  7 }${  16 {  17 }  8 }`');
  assert.equal(indexAt('é😀x', 6), 3);
});
