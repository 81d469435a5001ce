// Cuts a TypeScript text into token words. It is no part of the proved library, which checks every word again:
// a wrong cut can be refused or read as another type, but never breaks anything.

const utf8 = new TextEncoder();
const numbered = (from, words) => words.split(' ').map((word, i) => [word, from + i]);
const FIXED = new Map([
  ...numbered(16, '{ } [ ] ( ) < > << <= <<= | & ? : , ; . ... => = ! - + *'),
  ...numbered(64, 'any bigint boolean never number object string symbol undefined unknown'),
  ...numbered(74, 'abstract as asserts infer is keyof out readonly unique'),
  ...numbered(96, 'extends false import in new null this true typeof void const'),
]);
const MODIFIERS = new Set('accessor async declare override private protected public static'.split(' '));
const RESERVED = new Set(('break case catch class continue debugger default delete do else enum export finally for function if instanceof ' +
  'return super switch throw try var while with').split(' '));
const [EOF, WORD, NUMBER, BIGINT, STRING, WHOLE, HEAD, MIDDLE, TAIL] = [0, 1, 2, 3, 4, 5, 6, 7, 8], OTHER_MARK = 41, MODIFIER = 83, OTHER_RESERVED = 107;

const SPACE = /(?:[\s\x85\u200b]|\/\/[^\n\r\u2028\u2029]*|\/\*[^]*?\*\/)+/y;
const LINE = /[\n\r\u2028\u2029]/;
const NAME = /(?:[\p{ID_Start}$_]|\\u[\da-fA-F]{4}|\\u\{[\da-fA-F]+\})(?:[\p{ID_Continue}$\u200c\u200d]|\\u[\da-fA-F]{4}|\\u\{[\da-fA-F]+\})*/uy;
const DIGITS = /(?:0[xX][\da-fA-F_]+|0[oO][0-7_]+|0[bB][01_]+|\d[\d_]*)n|0[xX][\da-fA-F_]+|0[oO][0-7_]+|0[bB][01_]+|(?:\d[\d_]*\.?[\d_]*|\.\d[\d_]*)(?:[eE][+-]?\d[\d_]*)?/y;
// Marks that are none of the library's stay whole, as in TypeScript, so that no rule takes a part of one. A `>` is always alone.
const MARK = /<<=|<<|<=|\.\.\.|=>|===|==|!==|!=|\?\?=|\?\?|\?\.(?!\d)|\|\|=|\|\||\|=|&&=|&&|&=|\+\+|\+=|--|-=|\*\*=|\*\*|\*=|\/=|%=|\^=|[^]/uy;

// The token words of a text, the end among them. Starts and lengths count bytes of UTF-8.
export function cut(text) {
  const words = [], open = []; // open: a '{' or a '`' for each brace or substitution that is not closed
  let at = 0, byte = 0, newline = 0;
  const match = (regexp) => { regexp.lastIndex = at; return regexp.exec(text)?.[0]; };
  const size = (s) => (/^[\0-\x7f]*$/.test(s) ? s.length : utf8.encode(s).length);
  const put = (kind, s) => {
    const length = size(s);
    words.push(byte, ((kind << 24) | (newline << 23) | (length & 0x1ffff)) >>> 0);
    newline = 0;
    at += s.length;
    byte += length;
  };
  while (at < text.length) {
    const space = match(SPACE), c = text[at];
    if (space) {
      if (LINE.test(space)) newline = 1;
      at += space.length;
      byte += size(space);
    } else if (c === '`' || (c === '}' && open.at(-1) === '`')) {
      const piece = pieceAt(text, at), more = piece?.endsWith('{');
      if (c === '`' && more) open.push('`');
      if (c === '}' && !more) open.pop();
      if (piece) put(c === '`' ? (more ? HEAD : WHOLE) : more ? MIDDLE : TAIL, piece);
      else put(FIXED.get(c) ?? OTHER_MARK, c); // the template does not end
    } else if (c === '"' || c === "'") {
      const string = stringAt(text, at);
      put(string ? STRING : OTHER_MARK, string ?? c);
    } else if (text.startsWith('/*', at)) {
      put(OTHER_MARK, text.slice(at)); // the comment does not end
    } else {
      const name = match(NAME), number = name ? undefined : match(DIGITS), mark = name ?? number ?? match(MARK);
      if (mark === '{') open.push('{');
      if (mark === '}') open.pop();
      if (name) put(FIXED.get(name) ?? (MODIFIERS.has(name) ? MODIFIER : RESERVED.has(name) ? OTHER_RESERVED : WORD), name);
      else if (number) put(number.endsWith('n') ? BIGINT : NUMBER, number);
      else put(FIXED.get(mark) ?? OTHER_MARK, mark);
    }
  }
  put(EOF, '');
  return new BigUint64Array(Uint32Array.from(words).buffer);
}

// A piece of a template from its '`' or '}' up to '`' or '${'; nothing if the text ends before it does.
function pieceAt(text, from) {
  for (let i = from + 1; i < text.length; i++) {
    if (text[i] === '\\') i += 1;
    else if (text[i] === '`') return text.slice(from, i + 1);
    else if (text[i] === '$' && text[i + 1] === '{') return text.slice(from, i + 2);
  }
}

// A string with its quotes; nothing if its line ends before it does.
function stringAt(text, from) {
  for (let i = from + 1; i < text.length && !/[\n\r]/.test(text[i]); i++) {
    if (text[i] === text[from]) return text.slice(from, i + 1);
    if (text[i] === '\\') i += text.startsWith('\r\n', i + 1) ? 2 : 1;
  }
}
