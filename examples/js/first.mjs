// The key of a type, its tree, and what differs from another: node first.mjs typekey.wasm ['A | B & C']
import { cut } from '../../bindings/js/cut.mjs';
import { load, toHex } from '../../bindings/js/typekey.mjs';

const [wasm, text = 'A | B & C'] = process.argv.slice(2);
const keys = await load(wasm);
const answer = keys.read(text, cut(text));
if (!answer.ok) {
  console.error(`${answer.name} at byte ${answer.byte}: ${answer.sentence}`);
  process.exit(1);
}

console.log(`${text}\nkey: ${toHex(answer.key)}`);
for (const { depth, tag, choices, spellings, first, end } of answer.tree) {
  console.log(`${'  '.repeat(depth)}${[tag, choices.word, ...spellings].filter(Boolean).join(' ')}  (${first} to ${end})`);
}
for (const { number, first, end, other, sentence } of answer.diagnostics) {
  console.log(`diagnostic ${number} on bytes ${first} to ${end}${other ? ` and ${other.first} to ${other.end}` : ''}: ${sentence}`);
}

// Two types have one key exactly if they are one type. Where a type stands in its text and how it is spaced make no difference.
const same = (a, b) => toHex(keys.read(a, cut(a)).key) === toHex(keys.read(b, cut(b)).key);
console.log(`A|(B&C) is the same type: ${same('A | B & C', 'A|(B&C)')}`);
console.log(`(A | B) & C is the same type: ${same('A | B & C', '(A | B) & C')}`);

// Where two types differ: the nodes or spellings that begin at these bits of the one key and of the other.
for (const { left, right } of keys.differ(answer.key, keys.read('A | B & D', cut('A | B & D')).key).pairs) console.log(`beside A | B & D: bit ${left}, bit ${right}`);
