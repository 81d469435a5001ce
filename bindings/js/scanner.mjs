// Compares the cutter with TypeScript's own scanner on whole files: node scanner.mjs typescript.js FILE..
import { readFileSync } from 'node:fs';
import { createRequire } from 'node:module';
import { cut } from './cut.mjs';
import { bytesOf } from './typekey.mjs';

const [typescript, ...files] = process.argv.slice(2), ts = createRequire(import.meta.url)(typescript), { SyntaxKind: K } = ts;

// Every token as kind class, first byte, end byte and line break before it. A `}` that closes a substitution is scanned again, as the parser does.
function scanned(text) {
  const scanner = ts.createScanner(ts.ScriptTarget.Latest, true, ts.LanguageVariant.Standard, text), all = [], open = [];
  let index = 0, byte = 0; // of the place asked for last
  const at = (i) => {
    byte += bytesOf(text.slice(index, i)).length;
    index = i;
    return byte;
  };
  for (;;) {
    let kind = scanner.scan();
    if (kind === K.CloseBraceToken && open.at(-1) === '`') kind = scanner.reScanTemplateToken(false);
    if (kind === K.OpenBraceToken) open.push('{');
    if (kind === K.TemplateHead) open.push('`');
    if (kind === K.CloseBraceToken || kind === K.TemplateTail) open.pop();
    const sort = { [K.EndOfFileToken]: 0, [K.NumericLiteral]: 2, [K.BigIntLiteral]: 3, [K.StringLiteral]: 4, [K.NoSubstitutionTemplateLiteral]: 5,
      [K.TemplateHead]: 6, [K.TemplateMiddle]: 7, [K.TemplateTail]: 8 }[kind] ?? (kind >= K.Identifier ? 'word' : 'mark');
    all.push([sort, at(scanner.getTokenPos()), at(scanner.getTextPos()), scanner.hasPrecedingLineBreak()].join());
    if (kind === K.EndOfFileToken) return all;
  }
}

function words(text) {
  return Array.from(cut(text), (w) => {
    const kind = Number(w >> 56n), first = Number(w & 0xffffffffn), end = first + Number((w >> 32n) & 0x1ffffn);
    const sort = kind === 1 || kind >= 64 ? 'word' : kind >= 16 ? 'mark' : kind;
    return [sort, first, end, Boolean((w >> 55n) & 1n)].join();
  });
}

let tokens = 0, different = 0;
for (const file of files) {
  const text = readFileSync(file, 'utf8'), got = words(text), want = scanned(text);
  tokens += want.length;
  const i = want.findIndex((x, k) => x !== got[k]);
  if (i >= 0 || got.length !== want.length) {
    different += 1;
    console.log(`${file}: token ${i} is ${got[i]}, not ${want[i]}`);
  }
}
console.log(`${files.length} files, ${tokens} tokens, ${different} different`);
process.exit(different ? 1 : 0);
