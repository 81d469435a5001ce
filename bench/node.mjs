// node.mjs WASM FILE ..: the same token lists in Node, in processor time: the calls of typekey.wasm, ns a token and ns a byte of
// key; and, where the package typescript is found, its own scanner and parser on the same texts, ns a token. The lists stand
// in the memory of the WebAssembly instance, texts side by side and words side by side, before the time is taken.
// ROUNDS=n sets how many rounds. A line for each file and job.
import { readFileSync } from 'node:fs';
import { createRequire } from 'node:module';

let ts = null;
try { ts = createRequire(import.meta.url)('typescript'); } catch {}

const rounds = Number(process.env.ROUNDS ?? 15);
const [wasm, ...files] = process.argv.slice(2);
const { exports: x } = (await WebAssembly.instantiate(readFileSync(wasm))).instance;

function lists(file) {
  const data = readFileSync(file), all = [];
  for (let at = 0; at < data.length;) {
    const n = data.readUInt32LE(at), words = data.readUInt32LE(at + 4);
    all.push({ text: data.subarray(at + 8, at + 8 + n), words: data.subarray(at + 8 + n, at + 8 + n + 8 * words), tokens: words - 1 });
    at += 8 + n + 8 * words;
  }
  return all;
}

// Places all inputs and one set of buffers for all calls.
function placed(all) {
  let at = Number(x.__heap_base.value);
  const take = (bytes) => { at = (at + 15) & ~15; const place = at; at += bytes; return place; };
  const sum = (f) => all.reduce((n, l) => n + f(l), 0), most = (f) => Math.max(...all.map(f));
  const texts = take(sum(l => l.text.length)), words = take(sum(l => l.words.length));
  const bound = l => l.text.length + 12 * (l.tokens + 1) + 16;
  const longest = most(bound), tokens = most(l => l.tokens + 1);
  const lent = {
    nodes: take(32 * Math.max(tokens, longest + longest / 3 + 1 | 0)), names: take(8 * Math.max(tokens, longest)), notes: take(1280),
    bytes: take(longest), answer: take(64), keys: take(sum(bound)),
  };
  const missing = at - x.memory.buffer.byteLength;
  if (missing > 0) x.memory.grow(Math.ceil(missing / 65536));
  const memory = new Uint8Array(x.memory.buffer), answer = new Uint32Array(x.memory.buffer, lent.answer, 16);
  let t = texts, w = words, k = lent.keys;
  const calls = all.map(l => {
    memory.set(l.text, t);
    memory.set(l.words, w);
    const c = { text: t, textLen: BigInt(l.text.length), words: w, wordCount: BigInt(l.tokens + 1), bound: BigInt(bound(l)), nodeWords: BigInt(4 * (l.tokens + 1)) };
    t += l.text.length;
    w += l.words.length;
    return c;
  });
  const read = c => {
    x.typekey_read(c.text, c.textLen, c.words, c.wordCount, 0n, 0n, lent.nodes, c.nodeWords, lent.names, c.wordCount, lent.notes, 160n, lent.bytes, c.bound, lent.answer);
    return answer[0];
  };
  let bytes = 0;
  for (const c of calls) {
    if (read(c) !== 0) throw new Error('a list is not read');
    const n = answer[8];
    memory.copyWithin(k, lent.bytes, lent.bytes + n);
    Object.assign(c, { key: k, keyLen: BigInt(n), takeNodes: BigInt(4 * (n + Math.floor(n / 3) + 1)), takeNames: BigInt(Math.floor(n / 3) + 1) });
    k += n;
    bytes += n;
  }
  const back = c => {
    x.typekey_take_back(c.key, c.keyLen, lent.nodes, c.takeNodes, lent.names, c.takeNames, lent.bytes, c.keyLen, lent.answer);
    return answer[0];
  };
  return { read: () => calls.forEach(read), take: () => calls.forEach(back), bytes };
}

// The lower quartile, as in measure.rs.
function quartile(all) {
  return all.sort((a, b) => a - b)[all.length >> 2];
}

function time(f, turns) {
  const began = process.cpuUsage();
  for (let i = 0; i < turns; i++) f();
  const t = process.cpuUsage(began);
  return (t.user + t.system) * 1000 / turns;
}

for (const file of files) {
  const all = lists(file), name = file.split('/').pop(), tokens = all.reduce((n, l) => n + l.tokens, 0);
  const turns = Math.max(1, Math.round(60000 / tokens));
  const calls = placed(all);
  const jobs = [['read', calls.read, tokens], ['take', calls.take, calls.bytes]];
  if (ts) {
    const texts = all.map(l => 'type T = ' + l.text.toString('latin1'));
    const scanner = ts.createScanner(ts.ScriptTarget.Latest, true);
    const parse = text => ts.createSourceFile('t.ts', text, ts.ScriptTarget.Latest, false);
    const faults = texts.filter(text => parse(text).parseDiagnostics.length).length;
    jobs.push(['parse', () => texts.forEach(parse), tokens, faults]);
    jobs.push(['scan', () => texts.forEach(text => {
      scanner.setText(text);
      while (scanner.scan() !== ts.SyntaxKind.EndOfFileToken);
    }), tokens]);
  }
  const times = jobs.map(() => []);
  for (let round = -5; round < rounds; round++) {
    jobs.forEach(([, f], i) => {
      const t = time(f, turns);
      if (round >= 0) times[i].push(t);
    });
  }
  jobs.forEach(([job, , units, faults], i) => console.log(`node ${job} ${name} ${(quartile(times[i]) / units).toFixed(2)}${faults === undefined ? '' : ' faults ' + faults}`));
}
