// Is to pass the TypeScript compiler, and no more: the declarations as a caller meets them.
import { fromHex, load, toHex, type Diagnostic, type FormName, type Node } from 'typekey';
import { cut } from 'typekey/cut';

const keys = await load(new Uint8Array());
const text = 'A | B & C', a = keys.read(text, cut(text), { preserveParens: true });
if (a.ok) {
  const key: string = toHex(a.key), notes: Diagnostic[] = a.diagnostics, tags: string[] = [...a.tree].map((n: Node) => n.tag);
  console.log(key, notes, tags, a.end.token, a.entered <= 16 * cut(text).length, notes.map((n) => n.other?.first ?? n.first));
  // @ts-expect-error: not every diagnostic has a second place
  console.log(notes.map((n) => n.other.first));
} else {
  const form: FormName = 'DefaultValue', half: 0 | 1 = a.half;
  console.log(a.number === 22, a.name === form, a.token, half, a.byte, a.sentence);
  console.log(a.number === 28, a.name === 'ManyTrials');
  // @ts-expect-error: 4 is no refusal
  console.log(a.number === 4);
}
const b = keys.takeBack(fromHex('11 c2 70'));
console.log(b.ok ? b.tree.root.spellings : b.bit);
const c = keys.differ(fromHex('11 c2 70'), fromHex('11 c2 50'), { most: 3 });
console.log(c.ok ? c.pairs.map((p) => p.left + p.right) : [c.side, c.bit]);
// @ts-expect-error: a refusal has no tree
console.log(b.tree);
