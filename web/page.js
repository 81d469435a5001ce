// The page: a panel for each type or key, what the library says of it, and where two of them differ.
import { cut } from './cut.js';
import { bytesOf, fromHex, indexAt, load, toHex } from './typekey.js';

const MOST = 1500; // nodes and bytes shown
const $ = (selector, within = document) => within.querySelector(selector);
const make = (name, attributes = {}, ...inside) => {
  const element = document.createElement(name);
  for (const [attribute, value] of Object.entries(attributes)) element.setAttribute(attribute, value);
  element.append(...inside);
  return element;
};
// A sentence with `code` in it, which may have a ` itself; or its parts, each second one code.
const worded = (sentence) => (Array.isArray(sentence) ? sentence : sentence.split(/`(.+?)`(?!`)/s)).map((part, i) => (i % 2 ? make('code', {}, part) : part));
const count = (n, thing) => `${n.toLocaleString('en')} ${thing}${n === 1 ? '' : 's'}`;

// A text with marks: each has a first index, an end and a class. Marks may overlap.
function paint(element, text, marks) {
  const cuts = [...new Set([0, text.length, ...marks.flatMap((m) => [m.first, m.end])])].sort((a, b) => a - b);
  element.replaceChildren(...cuts.slice(0, -1).map((first, i) => {
    const part = text.slice(first, cuts[i + 1]), classes = marks.filter((m) => m.first <= first && m.end >= cuts[i + 1]).map((m) => m.class);
    return classes.length ? make('mark', { class: classes.join(' ') }, part) : part;
  }));
}

// ---- What the library says of an entry
// Gives the tree, key, diagnostics and messages of a type, or of a key in hex.
function answer(keys, { sort, text, parens }) {
  try {
    return sort === 'key' ? ofKey(keys, text) : ofType(keys, text, parens);
  } catch (error) { // half a surrogate pair, or no hex
    return { messages: [{ kind: 'bad', title: sort === 'key' ? 'Not hex' : 'Not read', sentence: `${error.message}.` }], marks: [] };
  }
}

function ofType(keys, text, parens) {
  const tokens = cut(text), r = keys.read(text, tokens, { preserveParens: parens });
  const startOf = (token) => Number(tokens[token] & 0xffffffffn), end = bytesOf(text).length;
  if (!r.ok) {
    const first = indexAt(text, r.name === 'BadToken' ? startOf(r.token) : r.byte);
    const pointed = !['BadList', 'NoSpace'].includes(r.name);
    return { messages: [{ kind: 'bad', title: `Refused: ${r.name} (${r.number})`, sentence: r.sentence, text, at: pointed ? first : undefined }],
      marks: pointed ? [{ first, end: first + (text.codePointAt(first) > 0xffff ? 2 : 1), class: 'refused' }] : [] };
  }
  const span = ({ first, end }) => ({ first: indexAt(text, first), end: indexAt(text, end) });
  const messages = r.diagnostics.map((d) => ({ kind: 'note-message', title: `Diagnostic ${d.number}, bytes ${d.first} to ${d.end}`,
    sentence: d.other ? `${d.sentence} The optional one is at bytes ${d.other.first} to ${d.other.end}.` : d.sentence, span: span(d), other: d.other && span(d.other) }));
  const marks = messages.flatMap((m) => [{ ...m.span, class: 'noted' }, ...(m.other ? [{ ...m.other, class: 'other' }] : [])]);
  if (r.end.token < tokens.length - 1) {
    const unread = { first: indexAt(text, startOf(r.end.token) + r.end.half), end: indexAt(text, end) };
    marks.push({ ...unread, class: 'unread' });
    messages.push({ kind: 'note-message', title: 'Not all was read', sentence: 'The type ends before the part that is marked. The key is of what stands before it.', span: unread });
  }
  return { tree: r.tree, key: r.key, messages, marks, place: span };
}

function ofKey(keys, text) {
  const key = fromHex(text), r = keys.takeBack(key);
  if (r.ok) return { tree: r.tree, key, messages: [], marks: [] };
  const hex = toHex(key), byte = Math.floor(r.bit / 8);
  return { messages: [{ kind: 'bad', title: `Refused: ${r.name} (${r.number}) at bit ${r.bit}`, sentence: r.sentence, text: hex, at: Math.min(3 * byte, hex.length) }], marks: [] };
}

// ---- A node in words
function named({ tag, choices, spellings }) {
  if (tag === 'template') return spellings;
  if (tag === 'literal') return [spellings.length ? (choices.sort.startsWith('-') ? '-' : '') + spellings[0] : choices.sort];
  if (tag === 'import') return [[`import(${spellings[0]})`, ...spellings.slice(1)].join('.')];
  if (tag === 'property' || tag === 'method') return [spellings[0] + (choices.optional ? '?' : '')];
  if (tag === 'index signature') return [`[${spellings.join()}]`];
  return [choices.word ?? spellings.join('.')].filter(Boolean);
}

function flags({ tag, choices, children }) {
  const said = Object.entries(choices).filter(([label, x]) => x !== 'none' && x !== false && !(label === 'optional' && ['property', 'method'].includes(tag)));
  const empty = (label, role) => choices[label] && !children.some((c) => c.role === role);
  return [
    ...said.filter(([label]) => ['rest', 'abstract', 'asserts', 'typeof', 'this'].includes(label)).map(([label]) => label),
    ...said.filter(([label]) => ['readonly', 'optional'].includes(label)).map(([label, x]) => ({ plus: '+', minus: '-' }[x] ?? '') + label),
    ...(empty('arguments', 'argument') || empty('typeParameters', 'type parameter') ? ['<>'] : []),
  ];
}

// ---- A panel
class Panel {
  constructor(keys, changed) {
    this.keys = keys;
    this.element = $('#panel').content.firstElementChild.cloneNode(true);
    this.in = (selector) => $(selector, this.element);
    const id = `p${(Panel.made = (Panel.made ?? 0) + 1)}`;
    for (const radio of this.element.querySelectorAll('[type=radio]')) {
      radio.name = `${id}-sort`;
      radio.addEventListener('input', () => this.turn(radio.value));
    }
    this.in('.messages').id = `${id}-messages`;
    this.in('textarea').setAttribute('aria-describedby', `${id}-messages`);
    this.element.addEventListener('input', () => { this.show(); changed(); });
    this.in('.copy').addEventListener('click', () => this.copy());
    const tree = this.in('.tree'), at = (event) => event.target.closest?.('.node');
    for (const name of ['pointerover', 'pointerleave', 'focusin']) this.element.addEventListener(name, (event) => this.point(at(event) ?? this.in('.node:focus')));
    this.element.addEventListener('focusout', () => this.point());
    tree.addEventListener('keydown', (event) => this.step(event));
    tree.addEventListener('click', (event) => at(event) && this.focus(at(event)));
  }

  // From a type to its key; and back to the type that was there.
  turn(sort) {
    const field = this.in('textarea'), { key } = this.answer;
    if (sort === 'key') this.type = field.value;
    field.value = sort === 'type' ? this.type ?? '' : key ? toHex(key) : '';
  }

  get entry() {
    return { sort: this.in('[type=radio]:checked').value, text: this.in('textarea').value, parens: this.in('[type=checkbox]').checked };
  }

  set entry({ sort, text, parens }) {
    this.in(`[value=${sort}]`).checked = true;
    this.in('textarea').value = text;
    this.in('[type=checkbox]').checked = parens;
    this.show();
  }

  show() {
    const { sort, text } = this.entry, a = (this.answer = answer(this.keys, this.entry));
    this.hex = a.key && toHex(a.key.subarray(0, MOST)) + (a.key.length > MOST ? ' …' : '');
    this.in('.parens').hidden = sort === 'key';
    const field = this.in('textarea');
    field.placeholder = sort === 'key' ? '11 c2 70' : 'string[]';
    field.setAttribute('aria-label', sort === 'key' ? 'A key in hex' : 'A TypeScript type');
    field.setAttribute('aria-invalid', !a.tree);
    this.in('.messages').replaceChildren(...(text.trim() ? a.messages : []).map((m) => this.message(m)));
    this.in('.found').hidden = !a.tree;
    if (a.tree) {
      const { nodes } = a.tree, more = nodes.length - MOST;
      this.in('.size').textContent = count(a.key.length, 'byte');
      this.in('.count').textContent = `${count(nodes.length, 'node')}, with ${a.place ? 'their bytes in the text' : 'their bits in the key'}`;
      this.in('.tree').setAttribute('aria-label', sort === 'key' ? 'The tree of this key' : 'The tree of this type');
      this.in('.tree').replaceChildren(...nodes.slice(0, MOST).map((n, i) => this.row(n, i)), more > 0 ? `and ${count(more, 'node')} more` : '');
    }
    this.differing = [];
    this.point();
  }

  message({ kind, title, sentence, text, at, span, other }) {
    const element = make('div', { class: `message ${kind}` }, make('b', {}, title), make('br'), ...worded(sentence));
    if (at !== undefined) {
      const from = Math.max(text.lastIndexOf('\n', at - 1) + 1, at - 30), line = text.slice(from).split('\n')[0].slice(0, at - from + 30);
      const before = line.slice(0, at - from).replace(/[^\t]/gu, ' ');
      element.append(make('pre', {}, `${line}\n${before}`, make('span', { class: 'caret' }, '^')));
    }
    if (span) {
      element.addEventListener('pointerover', () => this.paint([span, other].filter(Boolean).map((s) => ({ ...s, class: 'here' }))));
      element.addEventListener('pointerleave', () => this.paint());
    }
    return element;
  }

  row(node, i) {
    const { first, end } = this.answer.place ? node : node.bits;
    const row = make('div', { class: 'node', role: 'treeitem', tabindex: i ? -1 : 0, 'aria-level': node.depth + 1 },
      ...(i && ![node.tag, 'member'].includes(node.role) ? [make('span', { class: 'role' }, node.role)] : []), make('span', { class: 'tag' }, node.tag), ...named(node).map((s) => make('code', {}, s)),
      make('span', { class: 'flags' }, flags(node).join(' ')), make('span', { class: 'place' }, `${first}–${end}`));
    row.style.marginInlineStart = `${Math.min(node.depth, 20) * 1.1}rem`;
    row.node = node;
    return row;
  }

  // Marks the bytes of a row's node in the text and in the key.
  point(row) {
    this.in('.node.here')?.classList.remove('here');
    row?.classList.add('here');
    const here = row && this.answer.place ? [{ ...this.answer.place(row.node), class: 'here' }] : [];
    this.paint(here, row?.node.bits);
  }

  paint(here = [], bits) {
    const { tree, marks, place } = this.answer, text = this.in('textarea').value;
    paint(this.in('.editor pre'), `${text} `, [...marks, ...(place ? this.differing.map((n) => ({ ...place(n), class: 'differs' })) : []), ...here]);
    const at = (index) => Math.min(index, this.hex.length); // a byte is two digits and a space
    if (tree) paint(this.in('.key'), this.hex, bits ? [{ first: at(3 * Math.floor(bits.first / 8)), end: at(3 * Math.ceil(bits.end / 8) - 1), class: 'here' }] : []);
  }

  // Marks the nodes in which this tree differs from another.
  differ(nodes = []) {
    this.differing = nodes;
    for (const row of this.element.querySelectorAll('.node')) row.classList.toggle('differs', nodes.includes(row.node));
    this.paint();
  }

  step(event) {
    const rows = [...this.element.querySelectorAll('.node')], i = rows.indexOf(document.activeElement);
    const to = { ArrowDown: i + 1, ArrowUp: i - 1, Home: 0, End: rows.length - 1 }[event.key];
    if (to === undefined) return;
    event.preventDefault();
    if (rows[to]) this.focus(rows[to]);
  }

  focus(row) {
    this.in('.node[tabindex="0"]').tabIndex = -1;
    row.tabIndex = 0;
    row.focus();
  }

  async copy() {
    const button = this.in('.copy');
    try {
      await navigator.clipboard.writeText(toHex(this.answer.key));
      button.textContent = 'Copied';
    } catch {
      getSelection().selectAllChildren(this.in('.key'));
      button.textContent = 'Selected: press Ctrl+C';
    }
    say(button.textContent);
    setTimeout(() => { button.textContent = 'Copy'; }, 2000);
  }

  // What a screen reader hears.
  get summary() {
    const { tree, key, messages } = this.answer, said = messages.map((m) => `${m.title}. ${m.sentence}`).join(' ');
    return tree ? `${tree.root.tag}, ${count(tree.nodes.length, 'node')}, a key of ${count(key.length, 'byte')}. ${said}` : said;
  }
}

// ---- Two panels beside one another
// The innermost node that a bit of the key belongs to; nodes stand in the key's order.
const nodeAt = (tree, bit) => tree.nodes.findLast((n) => n.bits.first <= bit && bit < n.bits.end);

// Whether two answers are one type: a class, a sentence or its parts, and the nodes of each where they differ.
function verdict(keys, a, b) {
  if (!a.tree || !b.tree) return ['open', 'Nothing to compare yet: both have to be read.'];
  const part = a.messages.concat(b.messages).some((m) => m.title === 'Not all was read') ? ' Not all of the text was read: see below.' : '';
  const { pairs } = keys.differ(a.key, b.key);
  if (!pairs.length) return ['same', `✓ The same type: both have this key.${part}`];
  const nodes = [pairs.map((p) => nodeAt(a.tree, p.left)), pairs.map((p) => nodeAt(b.tree, p.right))], first = nodes.map((l) => l[0]);
  const [one, other] = first.map((n) => [n.tag, ...named(n), ...flags(n)].join(' ')), over = first.map((n) => (one === other ? ` over ${count(n.children.length, 'node')}` : ''));
  const where = pairs.length > 1 ? `They differ in ${pairs.length.toLocaleString('en')} places, first at ` : 'They differ at ';
  return ['two', [`≠ Two types. ${where}`, one, `${over[0]} against `, other, `${over[1]}.${part}`], ...nodes];
}

// What a screen reader hears and what the address says waits until the typing pauses.
let waiting, address;
function say(text, hash = address) {
  clearTimeout(waiting);
  address = hash;
  waiting = setTimeout(() => {
    $('#live').textContent = text;
    history.replaceState(null, '', hash);
  }, 300);
}

// ---- The page as a whole
async function start() {
  const keys = await load(new URL('typekey.wasm', import.meta.url)), panels = [];

  const add = (entry) => {
    const panel = new Panel(keys, changed);
    panel.in('.drop').addEventListener('click', () => {
      panels.splice(panels.indexOf(panel), 1);
      panel.element.remove();
      changed();
      $('#more').focus();
    });
    panels.push(panel);
    $('#panels').append(panel.element);
    panel.entry = entry;
    return panel;
  };

  // What two panels have to do with one another, and the link to all that is shown.
  const changed = () => {
    const [a, b] = panels, box = $('#verdict'), summaries = panels.map((p) => p.summary);
    $('#more').hidden = panels.length > 1;
    box.hidden = !b;
    panels.forEach((panel, i) => {
      panel.in('.drop').hidden = !b;
      panel.element.setAttribute('aria-label', ['First', 'Second'][i]);
    });
    $('#panels').classList.toggle('two', Boolean(b));
    if (b) {
      const [kind, words, ...nodes] = verdict(keys, a.answer, b.answer);
      box.className = `verdict ${kind}`;
      box.replaceChildren(...worded(words));
      summaries.unshift(box.textContent);
      panels.forEach((panel, i) => panel.differ(nodes[i]));
    } else a.differ();
    say(summaries.join(' '), `#${link(panels.map((p) => p.entry))}`);
  };

  const fill = () => {
    panels.splice(0).forEach((p) => p.element.remove());
    unlink(location.hash.slice(1)).forEach(add);
    changed();
  };

  $('#more').addEventListener('click', () => {
    const panel = add({ sort: 'type', text: '', parens: panels[0].entry.parens });
    changed();
    panel.in('textarea').focus();
  });
  window.addEventListener('hashchange', fill);
  fill();
}

// The hash: type or key, and parens; type2, key2 and parens2 for the second.
const NUMBERED = ['', '2'];
function link(entries) {
  const query = new URLSearchParams();
  entries.forEach(({ sort, text, parens }, i) => {
    query.set(sort + NUMBERED[i], text);
    if (parens && sort === 'type') query.set(`parens${NUMBERED[i]}`, '1');
  });
  return query;
}
function unlink(hash) {
  const query = new URLSearchParams(hash);
  const entries = NUMBERED.flatMap((n) => ['type', 'key'].filter((sort) => query.has(sort + n)).slice(0, 1)
    .map((sort) => ({ sort, text: query.get(sort + n), parens: query.get(`parens${n}`) === '1' })));
  return entries.length ? entries : [{ sort: 'type', text: '{ readonly [K in keyof T]?: T[K] | null }', parens: false }];
}

start().catch((error) => $('main').prepend(make('p', { class: 'message bad' }, make('b', {}, 'The library could not be loaded'), make('br'), String(error.message))));
