'use strict';
/** Units as the bytes of their JSON, or as the codes of these, and functions that are left out. */
const test = require('node:test');
const assert = require('node:assert');
const {unitsOf} = require('../src/index.js');
const {Codes, ascii} = require('../src/codes.js');

const SOURCES = [
  'function f(a, {b, [a.k]: c = 1, ...d}, [e, , ...g]) { switch (a) { case 1: return b; default: return [c, , ...d]; } }',
  'function f(a) { try { a.x = a["y z"] ?? a[0]; } catch (e) { a[e] = () => { a = e; }; } finally { delete a.q; } return a; }',
  'async function f(é, 𝒳, \\u{61}b) { outer = é; "quoted\\" 𝒳".length; for await (const x of 𝒳) 𝒳[x]++; return {...é, [ab]: `${𝒳}`}; }',
  'function Card({items = []}) { const [n, setN] = useState(0); return <a.b ref={n} {...items}>text {items.map(i => <c key={i}>{i?.x?.(n)}</c>)}<></></a.b>; }',
  `function f(x) { ${'x = g(x, y => { y.z = x; return [y, {y}]; });\n'.repeat(400)} return x; }`,
];

/** @type {Array<import('../src/index.js').Options>} */
const OPTIONS = [{}, {offsets: 'utf16'}, {others: 'root', compiler: true}];

/** The JSON for which codes stand, by the lines that the addon is handed (hosts/node/codes.c). */
function written(unit) {
  const [texts, strings] = [unit.texts(), unit.lines()].map(lines => lines.toString().split('\n'));
  const codes = [...unit.codes];
  let out = '';
  for (let code = codes.shift(); code !== undefined; code = codes.shift()) {
    if (code >= 0) out += code;
    else if (code <= -3) out += texts[-3 - code].replace(/%/g, () => String(codes.shift()));
    else out += code === -1 ? `"${strings[codes.shift()]}"` : strings[codes.shift()];
  }
  return Buffer.from(out);
}

for (const source of SOURCES) {
  for (const options of OPTIONS) {
    test(`bytes are the JSON of the unit: ${source.slice(0, 50)} ${JSON.stringify(options)}`, () => {
      const [made] = unitsOf(source, options);
      const [asBytes] = unitsOf(source, {...options, as: 'bytes'});
      assert.ok(made.unit, JSON.stringify(made.refused));
      assert.ok(Buffer.isBuffer(asBytes.unit));
      assert.strictEqual(asBytes.unit.toString(), JSON.stringify(made.unit));
      const [{unit: codes}] = unitsOf(source, {...options, as: 'codes'});
      assert.ok(codes.bytes().equals(asBytes.unit));
      assert.ok(written(codes).equals(asBytes.unit));
    });
  }
}

test('what is refused once all is lowered is refused as bytes, and the next function is whole', () => {
  const deep = `function f() { ${'return () => {'.repeat(66)}${'}'.repeat(66)} }`;
  const args = `function f(g) { return () => g(() => 1, ${Array(1025).fill('1').join()}); }`;
  for (const bad of [deep, args]) {
    const [refused, next] = unitsOf(`${bad}\n${SOURCES[0].replace('f(', 'h(')}`, {as: 'bytes'});
    assert.ok(refused.refused, 'refused');
    assert.strictEqual(next.unit.toString(), JSON.stringify(unitsOf(`${bad}\n${SOURCES[0].replace('f(', 'h(')}`)[1].unit));
  }
});

test('numbers, texts and room', () => {
  const numbers = [0, 7, 9, 10, 99, 100, 999, 1000, 12345, 99999, 100000, 1234567, 99999999, 123456789, 1000000000, 0x7fffffff];
  const out = new Codes([]);
  for (let i = 0; i < 200; i++) {
    for (const n of numbers) {
      out.number(n);
      out.comma();
    }
  }
  out.one(ascii('<%>'), 0x7fffffff);
  out.two(ascii('[%,%]'), 1, 23);
  out.three(ascii('%%b%'), 4, 567, 8);
  out.text(ascii('{"a":'));
  out.json(JSON.stringify({b: 'ü"𝒳\ud800'}));
  out.quoted('name');
  const text = out.taken().toString();
  assert.strictEqual(text, `${numbers.map(n => `${n},`).join('').repeat(200)}<2147483647>[1,23]4567b8{"a":${JSON.stringify({b: 'ü"𝒳\ud800'})}"name"`);
});

test('with `others: none` components and hooks are left, wherever they stand', () => {
  const source = 'function help(a) { a.x = 1; }\nfunction* g() {}\nfunction useX() { return useState(0); }\nconst make = () => { function Inner() { return <b/>; } return Inner; };\n';
  const names = others => unitsOf(source, {others}).map(one => one.name);
  assert.deepStrictEqual(names('nested'), ['help', 'g', 'useX', 'make', 'Inner']);
  assert.deepStrictEqual(names('none'), ['useX', 'Inner']);
  assert.deepStrictEqual(unitsOf(source, {others: 'none'}), unitsOf(source).filter(one => one.kind !== 'other'));
});

test('each is told of as soon as it is made, before the next is looked at', () => {
  const told = [];
  const made = unitsOf('function f() {}\nfunction* g() {}\nfunction useX() { return useState(0); }\n', {each: one => told.push(one)});
  assert.deepStrictEqual(told, made);
  const stopped = () => unitsOf('function f() {}\nfunction g() {}\n', {each({name}) {
    throw new Error(name);
  }});
  assert.throws(stopped, /^Error: f$/);
});
