// The key library for Node and browsers: typekey.wasm, lent what a call needs, and its answers as objects.
// Positions are bytes of the text in UTF-8; indexAt turns one into an index of a JavaScript string.

const LIMITS = { text: 65535, tokens: 16384, key: 262144 };

// ---- The node table: what each tag has, in the key's order (docs/SCOPE.md, The key).
// A field is a spelling, a child with its role, or a choice of so many bits after which other fields come.
const spelling = { spelled: true };
const child = (role, row) => ({ role, row });
const choose = (label, width, then, say) => ({ label, width, then, say });
const none = () => [];
const flag = (label) => choose(label, 1, none, Boolean);
const word = (label, width, words) => choose(label, width, none, (k) => words[k]);
const opt = (label, ...part) => choose(label, 1, (k) => (k ? part : []), Boolean);
const list = (...part) => choose('', 12, (n) => Array.from({ length: n }, () => part).flat());

const KEYWORDS = 'any bigint boolean never null number object string symbol this undefined unknown void'.split(' ');
const LITERALS = 'string number bigint true false -number -bigint'.split(' ');
const SIGNED = ['none', 'plain', 'plus', 'minus'];

const typeParameter = ['type parameter', spelling, opt('extends', child('extends')), opt('default', child('default'))];
const parameter = ['parameter', flag('rest'), spelling, flag('optional'), opt('type', child('type'))];
const typeParameters = opt('typeParameters', list(child('type parameter', typeParameter)));
const parameters = list(child('parameter', parameter));
const typeArguments = opt('arguments', list(child('argument')));
const one = child('type');
const keyed = [word('key', 2, ['name', 'string', 'number']), spelling, flag('optional')];
const thisParameter = opt('this', opt('thisType', child('this')));
const returns = opt('returns', child('returns'));

// Members of an object type, by the sort of three bits that each has instead of a tag.
const MEMBERS = [
  ['property', flag('readonly'), ...keyed, opt('type', one)],
  ['method', ...keyed, typeParameters, thisParameter, parameters, returns],
  ['call signature', typeParameters, thisParameter, parameters, returns],
  ['construct signature', typeParameters, parameters, returns],
  ['index signature', flag('readonly'), opt('parameter', spelling, child('index')), one],
];

// A row begins with its tag's name.
const ROWS = [
  [],
  ['reference', list(spelling), typeArguments],
  ['keyword', word('word', 4, KEYWORDS)],
  ['literal', choose('sort', 3, (k) => (k === 3 || k === 4 ? [] : [spelling]), (k) => LITERALS[k])],
  ['parens', one],
  ['union', list(child('part'))],
  ['intersection', list(child('part'))],
  ['array', child('element')],
  ['indexed', child('object'), child('index')],
  ['conditional', child('checked'), child('extends'), child('then'), child('else')],
  ['infer', spelling, opt('constraint', child('extends'))],
  ['operator', word('word', 2, ['keyof', 'unique', 'readonly']), one],
  ['function', typeParameters, thisParameter, parameters, child('returns')],
  ['constructor', flag('abstract'), typeParameters, parameters, child('returns')],
  ['mapped', word('readonly', 2, SIGNED), spelling, child('in'), opt('as', child('as')), word('optional', 2, SIGNED), opt('type', one)],
  ['template', choose('types', 12, (n) => [spelling, ...Array.from({ length: n }, () => [one, spelling]).flat()], Number)],
  ['predicate', flag('asserts'), choose('this', 1, (k) => (k ? [] : [spelling]), Boolean), opt('type', child('is'))],
  ['typeof', list(spelling), typeArguments],
  ['import', flag('typeof'), spelling, list(spelling), typeArguments],
  ['tuple', list(child('element'))],
  ['optional', one],
  ['rest', one],
  ['named', spelling, flag('optional'), one],
  ['non-null', one],
  ['nullable', one],
  ['object', list(child('member', MEMBERS))],
];

const utf8 = new TextDecoder('utf-8', { ignoreBOM: true });

// A tree, from the words that a call leaves. Iterating gives its nodes in the key's order: each before its children.
export class Tree {
  #nodes;
  #names;
  #all;

  // nodes and names: two 32-bit halves for each word, the lower first.
  constructor(text, nodes, names) {
    this.text = text;
    this.#nodes = nodes;
    this.#names = names;
  }

  // All nodes in the key's order.
  get nodes() { return (this.#all ??= this.fields()); }

  get root() { return this.nodes[0]; }

  [Symbol.iterator]() { return this.nodes[Symbol.iterator](); }

  // Goes through the key field by field, tells each field's width and value (of a spelling: 0 and its bytes), gives the nodes.
  fields(tell = () => {}) {
    const all = [], store = this.#nodes, names = this.#names;
    let name = 0, bit = 4;
    const visit = (index, depth, role, untagged) => {
      const at = 8 * index;
      let choices = store[at] + 2 ** 32 * store[at + 1], kid = store[at + 4];
      const node = { tag: '', role, depth, first: store[at + 2], end: store[at + 3], choices: {}, spellings: [], spans: [], children: [], bits: { first: bit, end: bit } };
      all.push(node);
      const take = (width) => {
        const k = choices % 2 ** width;
        choices = (choices - k) / 2 ** width;
        bit += width;
        tell(width, k);
        return k;
      };
      const spell = () => {
        const length = names[2 * name], first = names[2 * name + 1], bytes = this.text.subarray(first, first + length);
        name += 1;
        bit += 16 + 8 * length;
        tell(0, bytes);
        node.spellings.push(utf8.decode(bytes));
        node.spans.push({ first, end: first + length });
      };
      const field = (f) => {
        if (f.spelled) return spell();
        if (f.role) {
          node.children.push(visit(kid, depth + 1, f.role, f.row));
          kid = store[8 * kid + 6];
          return;
        }
        const k = take(f.width);
        if (f.label) node.choices[f.label] = f.say(k);
        f.then(k).forEach(field);
      };
      const [tag, ...row] = untagged === MEMBERS ? MEMBERS[take(3)] : untagged ?? ROWS[take(6)];
      node.tag = tag;
      row.forEach(field);
      node.bits.end = bit;
      return node;
    };
    tell(4, 1);
    visit(store.length / 8 - 1, 0, 'root');
    return all;
  }
}

// ---- Diagnostics and refusals, by name and in words; a function where the words depend on what is spelled there
const DIAGNOSTICS = [
  [],
  ['EmptyTypeParameters', 'The list of type parameters is empty.'],
  ['EmptyArguments', 'The list of type arguments is empty.'],
  ['ThisOnConstructor', 'A constructor takes no `this`. It is left out of the tree.'],
  ['RequiredAfterOptional', 'A required element cannot come after an optional one.'],
  ['RestAfterLabel', 'The `...` belongs before the label. It is left out of the tree.'],
  ['OptionalAfterLabel', 'The `?` belongs behind the label, not behind the type.'],
  ['OptionalRest', 'A rest element cannot be optional.'],
  ['OptionalIndex', 'The parameter of an index signature takes no `?`. It is left out of the tree.'],
  ['CommaAfterIndex', 'An index signature takes no comma behind its parameter.'],
  ['LiteralIndex', 'The parameter of an index signature cannot be a literal; a mapped type could.'],
  ['KeywordIndex', 'The parameter of an index signature has to be a string, a number or a symbol.'],
  ['NotOneIndex', 'An index signature has one parameter. Of several the first is kept.'],
  ['ReservedName', (spelled) => `\`${spelled}\` names a type of its own. Choose another name for the type parameter.`],
];

const REFUSALS = {
  1: 'BadList', 2: 'BadToken', 3: 'Unexpected', 5: 'TooDeep', 6: 'TooTall', 7: 'TooLong', 8: 'NoRoom', 9: 'ManyNotes', 10: 'BadKey', 11: 'NoSpace',
  20: 'PrefixMark', 21: 'ParameterModifier', 22: 'DefaultValue', 23: 'MisplacedThis', 24: 'RestNotLast', 25: 'TypeParameterModifier',
  26: 'ImportSource', 27: 'ImportOptions', 28: 'ManyTrials', 29: 'ManyDifferences', 31: 'MemberForm',
};
const SIDES = ['neither', 'left', 'right'];

// Forms that are not read, by the spelling of their token.
const FORMS = {
  20: (spelled) => `A \`${spelled}\` before a type is not supported.${spelled === '*' ? '' : ' It may stand behind one.'}`,
  21: (spelled) => `A modifier before a parameter is not supported: \`${spelled}\`.`,
  22: () => 'A default value is not supported here. A `?` behind the name is.',
  23: () => '`this` has to be the first parameter, and not a rest.',
  24: () => 'Nothing may follow a rest parameter, not even a comma.',
  25: (spelled) => `\`${spelled}\` before a type parameter is not supported.`,
  26: () => 'The source of an import has to be a string.',
  27: () => 'Options of an import are not supported. Only its source is read.',
  31: (spelled) => {
    if (spelled === '[') return 'A computed name is not supported. A name, a string or a number is.';
    return ['get', 'set'].includes(spelled) ? `An accessor is not supported: \`${spelled}\`.` : `A modifier other than \`readonly\` is not supported: \`${spelled}\`.`;
  },
};

const TOO_MUCH = {
  5: 'Types are nested more than 64 deep here.',
  6: 'The tree would be more than 256 nodes high.',
  7: 'A list has more than 4095 entries.',
  8: 'No room is left for another node.',
  9: 'There are more than 32 diagnostics, or no room for another.',
  11: 'The key or the names do not fit.',
  28: 'More than four constraints of `infer` would be tried at once.',
};

function readSentence(number, token, half, { bytes, words, start }) {
  const spelled = spelledAt(bytes, words[token], half);
  if (number === 1) {
    if (bytes.length > LIMITS.text) return `The text has ${bytes.length} bytes; it may have ${LIMITS.text}.`;
    if (words.length > LIMITS.tokens) return `There are ${words.length} tokens; there may be ${LIMITS.tokens}.`;
    return words.length === 0 ? 'There are no tokens, not even the end.' : `There is no token ${start} to start at.`;
  }
  if (number === 2) {
    if (words[token] >> 56n === 1n && spelled.includes('\\')) return `Words with escapes are not read here: \`${spelled}\`.`;
    return `Token ${token} is not a sound token word${spelled && `: \`${spelled}\``}.`;
  }
  if (number === 3) return spelled ? `\`${spelled}\` cannot stand here.` : 'The text ends before the type does.';
  return FORMS[number]?.(spelled) ?? TOO_MUCH[number];
}

function takeBackSentence(number, bit, length) {
  if (number === 6) return `The tree is more than 256 nodes high, from bit ${bit} on.`;
  if (number === 8) return `No room is left for the node at bit ${bit}.`;
  if (number === 11) return 'The names or spellings do not fit.';
  if (length > LIMITS.key) return `The key has ${length} bytes; it may have ${LIMITS.key}.`;
  if (length === 0) return 'A key has at least one byte.';
  if (bit === 0) return 'This is no key: it does not begin with edition 1.';
  if (bit >= 8 * length) return `This is no key: more should follow behind its last bit, ${bit - 1}.`;
  return `This is no key: the field at bit ${bit} is not one that can stand there, or it is cut short.`;
}

function differSentence(number, side, bit, length, room) {
  if (number === 29) return `There are more than ${room} differences.`;
  return `The ${SIDES[side]} key: ${takeBackSentence(number, bit, length)}`;
}

// ---- The calls
// source: the bytes of typekey.wasm, a compiled module, or where the file is: a URL, in Node also a path.
export async function load(source = new URL('typekey.wasm', import.meta.url)) {
  const found = typeof source === 'string' || source instanceof URL ? await bytesAt(source) : source;
  const module = found instanceof WebAssembly.Module ? found : await WebAssembly.compile(found);
  return new TypeKey(module, await WebAssembly.instantiate(module));
}

async function bytesAt(source) {
  if (globalThis.process?.versions?.node && !/^https?:/.test(source)) {
    const { readFile } = await import('node:fs/promises');
    return readFile(/^file:/.test(source) ? new URL(source) : source);
  }
  const answer = await fetch(source);
  if (!answer.ok) throw new Error(`${source}: the server answers ${answer.status}`);
  return answer.arrayBuffer();
}

// The library. It keeps nothing between calls; one instance serves one call at a time.
export class TypeKey {
  #module;
  #exports; // undefined after a trap
  #memory = {}; // the same memory as bytes, as words and as halves of words
  // A byte that lent memory is filled with before each call; undefined to leave it as it is. For tests.
  dirt;

  constructor(module, instance) {
    this.#module = module;
    this.#exports = instance.exports;
  }

  // Reads a type from a text (a string or its bytes) and its token words.
  read(text, tokens, { preserveParens = false, start = 0 } = {}) {
    const bytes = bytesOf(text), words = tokens instanceof BigUint64Array ? tokens : BigUint64Array.from(tokens);
    if (!Number.isSafeInteger(start) || start < 0) throw new TypeError(`start is an index of a token, not ${start}`);
    const sound = bytes.length <= LIMITS.text && words.length <= LIMITS.tokens, n = words.length;
    const room = sound ? { nodes: 4 * (n + 4), names: n, notes: 160, key: bytes.length + 12 * n + 16 } : { nodes: 0, names: 0, notes: 0, key: 0 };
    const left = this.#read(bytes, words, start, preserveParens ? 1 : 0, room), [number, ...rest] = left.answer;
    if (number) {
      const [token, half, byte] = rest;
      return { ok: false, number, name: REFUSALS[number], token, half, byte, sentence: readSentence(number, token, half, { bytes, words, start }) };
    }
    const [nodes, names, notes, key, token, half, entered] = rest;
    return {
      ok: true,
      key: left.key.slice(0, key),
      tree: new Tree(bytes.slice(), left.nodes.slice(0, 8 * nodes), left.names.slice(0, 2 * names)),
      diagnostics: Array.from({ length: notes }, (_, i) => diagnostic(left.notes, 10 * i, bytes)),
      end: { token, half },
      entered,
    };
  }

  // Takes a key (bytes) back.
  takeBack(key) {
    const n = key.length, sound = n <= LIMITS.key;
    // A node has six bits or more, or five and a type of nine or more; a name has three bytes, and the spellings are parts of the key.
    const room = sound ? { nodes: 4 * Math.ceil((8 * n) / 6), names: Math.ceil(n / 3), text: n } : { nodes: 0, names: 0, text: 0 };
    const left = this.#takeBack(key, room), [number, ...rest] = left.answer;
    if (number) return { ok: false, number, name: REFUSALS[number], bit: rest[0], sentence: takeBackSentence(number, rest[0], n) };
    const [nodes, names, text] = rest;
    return { ok: true, tree: new Tree(left.text.slice(0, text), left.nodes.slice(0, 8 * nodes), left.names.slice(0, 2 * names)) };
  }

  // Says what differs between two keys: pairs of bits, the left key's and the right key's, in the key's order. No pair: the keys are the same bytes.
  // most: how many pairs there is room for. There are fewer than bytes in either key, since what differs has nine bits or more.
  differ(left, right, { most = Infinity } = {}) {
    const n = Math.min(left.length, right.length, LIMITS.key, Math.max(0, Math.floor(most)));
    const { answer, list } = this.#differ(left, right, 2 * n), [number, found, bit] = answer;
    if (number) return { ok: false, number, name: REFUSALS[number], side: SIDES[found], bit, sentence: differSentence(number, found, bit, [0, left.length, right.length][found], n) };
    return { ok: true, pairs: Array.from({ length: found }, (_, i) => ({ left: list[4 * i], right: list[4 * i + 2] })) };
  }

  // The call as C sees it: the eight words of the answer, and all that was lent. room: words for nodes, names and notes, bytes for the key.
  readInto(text, tokens, start, options, room) { return copied(this.#read(text, tokens, start, options, room)); }

  // The same for a key. room: words for nodes and names, bytes for the text.
  takeBackInto(key, room) { return copied(this.#takeBack(key, room)); }

  // The same for two keys. words: of the list.
  differInto(left, right, words) { return copied(this.#differ(left, right, words)); }

  // Past a limit the answer hangs on nothing further on, so one more than the limit is enough of a text, tokens or a key.
  #read(text, tokens, start, options, { nodes, names, notes, key }) {
    const [t, w] = [text.subarray(0, LIMITS.text + 1), tokens.subarray(0, LIMITS.tokens + 1)];
    const at = this.#lay([t.length, 8 * w.length, 64, 8 * nodes, 8 * names, 8 * notes, key]), m = this.#memory;
    m.bytes.set(t, at[0]);
    m.words.set(w, at[1] / 8);
    this.#call('typekey_read', at[0], BigInt(t.length), at[1], BigInt(w.length), BigInt(start), BigInt(options),
      at[3], BigInt(nodes), at[4], BigInt(names), at[5], BigInt(notes), at[6], BigInt(key), at[2]);
    return { answer: this.#answer(at[2]), nodes: this.#words(at[3], nodes), names: this.#words(at[4], names), notes: this.#words(at[5], notes), key: m.bytes.subarray(at[6], at[6] + key) };
  }

  #takeBack(key, { nodes, names, text }) {
    const k = key.subarray(0, LIMITS.key + 1), at = this.#lay([k.length, 0, 64, 8 * nodes, 8 * names, text]), m = this.#memory;
    m.bytes.set(k, at[0]);
    this.#call('typekey_take_back', at[0], BigInt(k.length), at[3], BigInt(nodes), at[4], BigInt(names), at[5], BigInt(text), at[2]);
    return { answer: this.#answer(at[2]), nodes: this.#words(at[3], nodes), names: this.#words(at[4], names), text: m.bytes.subarray(at[5], at[5] + text) };
  }

  #differ(left, right, words) {
    const l = left.subarray(0, LIMITS.key + 1), r = right.subarray(0, LIMITS.key + 1), at = this.#lay([l.length, r.length, 64, 8 * words]), m = this.#memory;
    m.bytes.set(l, at[0]);
    m.bytes.set(r, at[1]);
    this.#call('typekey_differ', at[0], BigInt(l.length), at[1], BigInt(r.length), at[3], BigInt(words), at[2]);
    return { answer: this.#answer(at[2]), list: this.#words(at[3], words) };
  }

  // Parts of so many bytes one after the other behind the library's own memory, which grows if it has to; gives where they begin.
  #lay(sizes) {
    const { memory, __heap_base: base } = (this.#exports ??= new WebAssembly.Instance(this.#module).exports);
    let end = (base.value + 7) & -8;
    const from = end, at = sizes.map((size) => { const begin = end; end += (size + 7) & -8; return begin; });
    const missing = end - memory.buffer.byteLength;
    if (missing > 0) memory.grow(Math.ceil(missing / 65536));
    const { buffer } = memory;
    if (this.#memory.bytes?.buffer !== buffer) this.#memory = { bytes: new Uint8Array(buffer), words: new BigUint64Array(buffer), halves: new Uint32Array(buffer) };
    if (this.dirt !== undefined) this.#memory.bytes.fill(this.dirt, from, end);
    return at;
  }

  #call(name, ...given) {
    try {
      this.#exports[name](...given);
    } catch (trap) {
      this.#exports = undefined; // its stack is not put back: the next call makes a new instance
      throw trap;
    }
  }

  #answer(at) { return Array.from({ length: 8 }, (_, i) => this.#memory.halves[at / 4 + 2 * i] + 2 ** 32 * this.#memory.halves[at / 4 + 2 * i + 1]); }

  #words(at, count) { return this.#memory.halves.subarray(at / 4, at / 4 + 2 * count); }
}

const copied = (left) => Object.fromEntries(Object.entries(left).map(([part, x]) => [part, x.slice()]));

// From the five words of a record, two halves each. An end of 0 is no second place.
function diagnostic(notes, at, text) {
  const number = notes[at], first = notes[at + 2], end = notes[at + 4], [name, said] = DIAGNOSTICS[number];
  const other = notes[at + 8] ? { first: notes[at + 6], end: notes[at + 8] } : null;
  return { number, name, first, end, other, sentence: typeof said === 'string' ? said : said(utf8.decode(text.subarray(first, end))) };
}

// What is left of a token, from its word and the half that is used up, cut short where it is long; nothing at the end.
function spelledAt(text, token = 0n, half = 0) {
  const first = Number(token & 0xffffffffn), end = first + Number((token >> 32n) & 0x1ffffn);
  const spelled = utf8.decode(text.subarray(first + half, end));
  return spelled.length > 40 ? `${spelled.slice(0, 39)}…` : spelled;
}

// ---- Help with texts, tokens and keys
// The bytes of a text. A string with half a surrogate pair has none of its own, and would share its key with another.
export function bytesOf(text) {
  if (typeof text !== 'string') return text;
  if (/\p{Surrogate}/u.test(text)) throw new TypeError('the text has half a surrogate pair, which UTF-8 cannot say');
  return new TextEncoder().encode(text);
}

// The index in a string of a byte of its UTF-8.
export function indexAt(text, byte) { return utf8.decode(bytesOf(text).subarray(0, byte)).length; }

// A token word.
export function token(kind, start, length, newline = false) {
  return (BigInt(kind) << 56n) | (BigInt(newline) << 55n) | (BigInt(length) << 32n) | BigInt(start);
}

// A key in hex, and back. Spaces, commas, colons and line breaks between the digits do not matter.
export function toHex(key, between = ' ') { return Array.from(key, (b) => b.toString(16).padStart(2, '0')).join(between); }

export function fromHex(text) {
  const digits = text.replace(/0x|[\s,:]/gi, ''), bad = digits.match(/[^0-9a-f]/i);
  if (bad) throw new SyntaxError(`\`${String.fromCodePoint(digits.codePointAt(bad.index))}\` is no hex digit`);
  if (digits.length % 2) throw new SyntaxError('half a byte is missing: the number of hex digits is odd');
  return Uint8Array.from(digits.match(/../g) ?? [], (pair) => parseInt(pair, 16));
}
