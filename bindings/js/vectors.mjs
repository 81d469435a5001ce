// Runs the stored records of crates/rows/data/vectors over the library (their format is in tools/rules_model.py), in Node or a browser.

const PRIME = 4294967291, FACTOR = 1000003;

// The sum that tools/rules_vectors.py takes over all that was lent. Zeros at the end are one power of the factor.
function sum(numbers) {
  let used = numbers.length, s = 1;
  while (used > 0 && numbers[used - 1] === 0) used -= 1;
  for (let i = 0; i < used; i++) s = (s * FACTOR + numbers[i]) % PRIME; // below 2^53
  for (let n = numbers.length - used, f = BigInt(FACTOR); n > 0; n = Math.floor(n / 2), f = (f * f) % BigInt(PRIME)) {
    if (n % 2) s = Number((BigInt(s) * f) % BigInt(PRIME));
  }
  return s;
}

// The records of a file: what each asks for, and the twelve numbers that the answer must have.
export function* records(data) {
  const view = new DataView(data.buffer, data.byteOffset, data.byteLength);
  for (let at = 0; at < data.length; ) {
    const head = Array.from({ length: 20 }, (_, i) => view.getUint32(at + 1 + 4 * i, true)), want = head.slice(8);
    const [start, text, tokens, nodes, names, notes, key, letters] = head, options = data[at] & 1, taken = data[at] & 4, body = at + 81;
    const middle = body + (taken ? key : text), end = middle + 8 * tokens;
    if (taken) yield { key: data.subarray(body, middle), room: { nodes, names, text: letters }, want };
    else {
      const words = new BigUint64Array(data.slice(middle, end).buffer);
      yield { text: data.subarray(body, middle), tokens: words, start, options, room: { nodes, names, notes, key }, want };
    }
    at = end;
  }
}

// The twelve numbers that a record's call comes to: eight of the answer, and a sum over each part lent.
function numbers(keys, r) {
  const left = r.key ? keys.takeBackInto(r.key, r.room) : keys.readInto(r.text, r.tokens, r.start, r.options, r.room);
  const parts = r.key ? [left.nodes, left.names, left.text] : [left.nodes, left.names, left.notes, left.key];
  const all = [...left.answer, ...parts.map(sum)];
  return r.key ? [...all, 0] : all;
}

// Each record's numbers beside those that it must have, all that is lent dirty before.
export function run(keys, data) {
  let count = 0, different = 0, first = '';
  keys.dirt = 255;
  for (const r of records(data)) {
    const got = numbers(keys, r);
    if (got.some((x, i) => x !== r.want[i]) && different++ === 0) first = `; first: record ${count} is ${got}, not ${r.want}`;
    count += 1;
  }
  keys.dirt = undefined;
  return `${count} vectors, ${different} different${first}`;
}

// The key that a tree's fields come to.
function keyOf(tree) {
  const bits = [];
  const put = (width, k) => { for (let i = width - 1; i >= 0; i--) bits.push(Math.floor(k / 2 ** i) % 2); };
  tree.fields((width, x) => {
    if (width) put(width, x);
    else { put(16, x.length); x.forEach((b) => put(8, b)); }
  });
  while (bits.length % 8) bits.push(0);
  return Uint8Array.from({ length: bits.length / 8 }, (_, i) => bits.slice(8 * i, 8 * i + 8).reduce((n, b) => 2 * n + b, 0));
}

const same = (a, b) => a.length === b.length && a.every((x, i) => x === b[i]);
const plain = (node) => JSON.stringify([node.tag, node.role, node.depth, node.choices, node.spellings, node.bits]);

// Each record by the calls that lend by need: the walked tree's key is the key, and a read key comes back as the same tree.
export function runTrees(keys, data) {
  let count = 0, granted = 0, nodes = 0, different = 0;
  for (const r of records(data)) {
    count += 1;
    const a = r.key ? keys.takeBack(r.key) : keys.read(r.text, r.tokens, { start: r.start, preserveParens: r.options === 1 });
    if (!a.ok) {
      // Lent by need, no call is short of room; any other refusal is the record's own.
      if ([8, 11].includes(a.number) || (a.number !== r.want[0] && ![8, 9, 11].includes(r.want[0]))) different += 1;
      continue;
    }
    granted += 1;
    nodes += a.tree.nodes.length;
    const key = r.key ?? a.key;
    if (!same(keyOf(a.tree), key)) different += 1;
    if (r.key) continue;
    const back = keys.takeBack(key);
    if (!back.ok || !same(a.tree.nodes.map(plain), back.tree.nodes.map(plain))) different += 1;
  }
  return `${count} vectors, ${granted} trees with ${nodes} nodes walked and written again, ${different} different`;
}
