// Run by test.sh in a browser. Without a query: all stored vectors and then the page itself, as someone at the keyboard uses it.
// With ?hash=HASH&row=N: shows the page with that hash and row N of its tree in focus, for a picture.
import { load } from './typekey.js';
import { run, runTrees } from './vectors.js';

const frame = document.querySelector('#page'), state = document.querySelector('#state'), query = new URLSearchParams(location.search);
const $ = (selector) => frame.contentDocument.querySelector(selector);
const all = (selector) => [...frame.contentDocument.querySelectorAll(selector)];
const texts = (selector) => all(selector).map((e) => e.textContent);

async function open(hash) {
  frame.src = 'about:blank';
  await new Promise((done) => { frame.onload = done; });
  frame.src = `index.html#${hash}`;
  await new Promise((done) => { frame.onload = done; });
  for (let i = 0; i < 200 && !$('.panel'); i++) await new Promise((done) => setTimeout(done, 20));
}

const lines = [];
let failed = 0;
function same(what, got, want) {
  const [a, b] = [got, want].map((x) => JSON.stringify(x));
  if (a !== b && ++failed) lines.push(`${what}: ${a}, not ${b}`);
}
function type(text, panel = 0) {
  const field = all('textarea')[panel];
  field.value = text;
  field.dispatchEvent(new frame.contentWindow.Event('input', { bubbles: true }));
}
const pause = () => new Promise((done) => setTimeout(done, 1000));
function press(key) { frame.contentDocument.activeElement.dispatchEvent(new frame.contentWindow.KeyboardEvent('keydown', { key, bubbles: true, cancelable: true })); }
const wide = () => frame.contentDocument.documentElement.scrollWidth <= frame.clientWidth;

const checks = {
  async 'a type'() {
    await open('');
    type('A | B & C');
    same('key', texts('.key'), ['11 40 08 10 01 00 01 41 0c 00 40 80 08 00 0a 10 10 01 00 01 43 00']);
    same('rows', all('.node').map((e) => `${e.getAttribute('aria-level')} ${e.querySelector('.tag').textContent} ${e.querySelector('.place').textContent}`),
      ['1 union 0–9', '2 reference 0–1', '2 intersection 4–9', '3 reference 4–5', '3 reference 8–9']);
    same('no message', texts('.message'), []);
    await pause();
    same('link', frame.contentWindow.location.hash, '#type=A+%7C+B+%26+C');
    same('heard', $('#live').textContent, 'union, 5 nodes, a key of 22 bytes. ');
  },
  async 'the keyboard'() {
    await open('type=%C3%A9+%7C+B');
    $('.node').focus();
    press('ArrowDown');
    same('row', texts('.node.here .tag'), ['reference']);
    same('marked', texts('.editor .here'), ['é']);
    press('End');
    same('marked', texts('.editor .here'), ['B']);
    same('one stop', all('.node[tabindex="0"]').length, 1);
  },
  async 'the pointer'() {
    await open('type=A+%7C+B');
    all('.node')[2].dispatchEvent(new frame.contentWindow.PointerEvent('pointerover', { bubbles: true }));
    same('marked', [texts('.editor .here'), texts('.key .here')], [['B'], ['02 00 20 00 28 40']]);
    $('.panel').dispatchEvent(new frame.contentWindow.PointerEvent('pointerleave'));
    same('not marked', texts('.here'), []);
  },
  async 'a refusal'() {
    await open('type=T+extends+U+%3F+%3A+V');
    same('words', texts('.message'), ['Refused: Unexpected (3): cannot stand here.T extends U ? : V\n              ^']);
    same('marked', texts('.editor .refused'), [':']);
    same('no tree', $('.found').hidden, true);
    type('A<=B>');
    same('half a token', [texts('.message'), texts('.editor .refused')], [['Refused: Unexpected (3)= cannot stand here.A<=B>\n  ^'], ['=']]);
    type('(a = 1) => A');
    same('a form', texts('.message'), ['Refused: DefaultValue (22)A default value is not supported here. A ? behind the name is.(a = 1) => A\n   ^']);
    same('marked', texts('.editor .refused'), ['=']);
    type('(infer A extends '.repeat(5) + 'B' + ')'.repeat(5));
    same('a fifth trial', texts('.message'), [`Refused: ManyTrials (28)More than four constraints of infer would be tried at once.nds (infer A extends (infer A extends B)))))\n${' '.repeat(30)}^`]);
    same('marked', texts('.editor .refused'), ['e']);
    type('(😀');
    same('marked', texts('.editor .refused'), ['😀']);
    type('`a');
    same('words', texts('.message code'), ['`']);
    type('"\ud800"');
    same('no text', texts('.message b'), ['Not read']);
    type('');
    same('nothing yet', texts('.message'), []);
  },
  async 'diagnostics'() {
    await open('type=%5Ba%3F%3A+A%2C+B%5D%0A%5BC%5D');
    same('titles', texts('.message b'), ['Diagnostic 4, bytes 8 to 9', 'Not all was read']);
    same('marked', [texts('.editor .noted'), texts('.editor .other'), texts('.editor .unread')], [['B'], ['a?: A'], ['[C]']]);
    $('.message').dispatchEvent(new frame.contentWindow.PointerEvent('pointerover'));
    same('both places', texts('.editor .here'), ['a?: A', 'B']);
    $('.message').dispatchEvent(new frame.contentWindow.PointerEvent('pointerleave'));
    type('[A?, B?, C, D]');
    same('words', texts('.message'), ['9 to 10', '12 to 13'].map((at) => `Diagnostic 4, bytes ${at}A required element cannot come after an optional one. The optional one is at bytes 5 to 7.`));
    same('the latest one', [texts('.editor .noted'), texts('.editor .other')], [['C', 'D'], ['B?']]);
    type('<string>(x: string) => string');
    same('a hint', texts('.message'), ['Diagnostic 13, bytes 1 to 7string names a type of its own. Choose another name for the type parameter.']);
    same('marked', texts('.editor .noted'), ['string']);
  },
  async 'members'() {
    await open('');
    type('{ readonly a?: A; "b"; m<>(this, x): B; (): C; new (): D; readonly [k: string]: E; []: F }');
    same('rows', all('.node').slice(1).filter((e) => e.getAttribute('aria-level') === '2').map((e) => [...e.children].slice(0, -1).map((c) => c.textContent).filter(Boolean).join(' ')),
      ['property a? readonly', 'property "b"', 'method m this <>', 'call signature', 'construct signature', 'index signature [k] readonly', 'index signature []']);
    same('titles', texts('.message b'), ['Diagnostic 1, bytes 24 to 26', 'Diagnostic 12, bytes 83 to 85']);
    type('{ a: A; get b(): B }');
    same('words', texts('.message'), ['Refused: MemberForm (31)An accessor is not supported: get.{ a: A; get b(): B }\n        ^']);
    same('marked', texts('.editor .refused'), ['g']);
    type('{ a: A; b: B }');
    $('#more').click();
    type('{ a: X; b?: B }', 1);
    same('two', $('#verdict').textContent, '≠ Two types. They differ in 2 places, first at reference A against reference X.');
    same('marked', texts('.editor .differs'), ['A', 'b: B', 'X', 'b?: B']);
  },
  async 'brackets'() {
    await open('type=(A)');
    same('off', texts('.tag'), ['reference']);
    $('[type=checkbox]').click();
    same('on', texts('.tag'), ['parens', 'reference']);
    await pause();
    same('link', frame.contentWindow.location.hash, '#type=%28A%29&parens=1');
  },
  async 'a key'() {
    await open('key=11C270');
    same('tree', texts('.node'), ['array4–20', 'elementkeywordstring10–20']);
    type('14 10');
    same('words', texts('.message b'), ['Refused: BadKey (10) at bit 12']);
    type('1x');
    same('no hex', texts('.message'), ['Not hexx is no hex digit.']);
    $('[value=type]').click();
    type('string[]');
    $('[value=key]').click();
    same('its key', [$('textarea').value, texts('.tag')], ['11 c2 70', ['array', 'keyword']]);
    $('[value=type]').click();
    same('the type again', $('textarea').value, 'string[]');
  },
  async 'two types'() {
    await open('type=A+%7C+B');
    $('#more').click();
    same('open', $('#verdict').className, 'verdict open');
    type('A|(B)', 1);
    same('same', $('#verdict').className, 'verdict same');
    type('A | C', 1);
    same('two', $('#verdict').textContent, '≠ Two types. They differ at reference B against reference C.');
    same('marked', texts('.editor .differs'), ['B', 'C']);
    type('`a`', 1);
    same('two', texts('#verdict code'), ['union', 'template `a`']);
    type('A', 1);
    same('two', $('#verdict').textContent, '≠ Two types. They differ at union against reference A.');
    type('[A, B, C]');
    type('[A?, X, ...C]', 1);
    same('three places', $('#verdict').textContent, '≠ Two types. They differ in 3 places, first at reference A against optional.');
    same('all marked', texts('.node.differs .tag'), ['reference', 'reference', 'reference', 'optional', 'reference', 'rest']);
    type('A | B');
    type('A | B | C', 1);
    same('two', $('#verdict').textContent, '≠ Two types. They differ at union over 2 nodes against union over 3 nodes.');
    same('fits', wide(), true);
    all('.drop')[0].click();
    same('one left', [texts('.editor pre'), $('#verdict').hidden], [['A | B | C '], true]);
  },
  async 'much'() {
    await open('');
    type('A|'.repeat(4000) + 'A');
    same('cut short', [all('.node').length, $('.tree').lastChild.textContent], [1500, 'and 2,502 nodes more']);
    type('keyof '.repeat(200) + 'A');
    same('fits', wide(), true);
    type(`"${'s'.repeat(70000)}"`);
    same('words', texts('.message b'), ['Refused: BadList (1)']);
  },
};

if (query.has('hash')) {
  await open(query.get('hash'));
  state.remove();
  all('.node')[Number(query.get('row'))]?.focus({ preventScroll: true });
} else {
  document.body.className = 'running';
  try {
    const keys = await load(new URL('typekey.wasm', import.meta.url)), data = new Uint8Array(await (await fetch('vectors')).arrayBuffer());
    lines.push(run(keys, data), runTrees(keys, data));
    for (const [name, check] of Object.entries(checks)) {
      const before = failed;
      await check();
      lines.push(`${name}: ${failed === before ? 'as it should be' : 'different'}`);
    }
    lines.push(failed ? 'failed' : 'passed');
  } catch (error) { lines.push(`failed: ${error.stack}`); }
  state.textContent = lines.join('\n');
}
