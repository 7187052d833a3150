'use strict';
/** Where the lowering is better than the React Compiler's own: with `compiler`, that is kept. */
const test = require('node:test');
const assert = require('node:assert');
const {unitsOf} = require('../src/index.js');
const {answers, run, skip} = require('../tools/program.js');

const unitOf = (source, options = {}) => {
  const {unit, refused} = unitsOf(source, {filename: 'a.jsx', others: 'root', ...options}).at(-1);
  assert.ok(unit, JSON.stringify(refused));
  return unit;
};
const kindsOf = unit => [unit.root, ...unit.functions].flatMap(f => f.instructions.map(i => i.value.kind));
const typeOf = (unit, name) => unit.types[unit.identifiers.findLast(i => i.name === name).type];

test('functions in functions that are no component and no hook get kinds of their own', () => {
  const found = unitsOf(`function make() {
    function Card() { return <b/>; }
    const useX = a => useState(a);
    return [memo(() => <i/>), Card, useX, () => <p/>];
  }
  describe('x', () => { it('y', () => { const C = () => { const Inner = () => <b/>; return <Inner/>; }; }); });`);
  assert.deepStrictEqual(found.map(f => [f.name, f.kind]), [['make', 'other'], ['Card', 'component'], ['useX', 'hook'],
    [null, 'component'], [null, 'other'], ['C', 'component']]);
});

test('each round of a loop has its variable: a function of the body captures no shared one', () => {
  const source = 'function f(l) { for (let i = 0; i < 3; i++) { l(() => i); } }';
  assert.ok(!kindsOf(unitOf(source)).includes('StoreContext'));
  assert.ok(kindsOf(unitOf(source, {compiler: true})).includes('StoreContext'));
});

test('what a pattern takes from a ref by name is a ref\'s value', () => {
  assert.deepStrictEqual(typeOf(unitOf('function f(bRef) { const {current} = bRef; return current; }'), 'current'), {kind: 'Object', shape_id: 'BuiltInRefValue'});
  assert.deepStrictEqual(typeOf(unitOf('function f(b) { const {current} = b; return current; }'), 'current'), {kind: 'Var'});
});

test('a shared variable is a dependency of a memo', () => {
  const unit = unitOf('function C({f}) { let o = {}; const g = () => { o = 1; }; return useMemo(() => f(o), [o, g]); }');
  const [start] = unit.root.instructions.filter(i => i.value.kind === 'StartMemoize');
  assert.deepStrictEqual(start.value.deps.map(p => unit.identifiers[p[0]].name), ['o', 'g']);
});

test('what is called at once is inlined, and shares no variable by it', () => {
  const kinds = kindsOf(unitOf('function f() { let n = 0; const t = (() => { n = n + 1; return n; })(); return t; }'));
  for (const kind of ['FunctionExpression', 'CallExpression', 'StoreContext']) assert.ok(!kinds.includes(kind), kind);
  const memo = kindsOf(unitOf('function f(a) { return useMemo(() => { if (a) return 1; return 2; }, [a]); }'));
  for (const kind of ['FunctionExpression', 'CallExpression']) assert.ok(!memo.includes(kind), kind);
  for (const source of ['(async () => { n = 1; })()', '(x => { n = x; })(1)', '(function g() { n = g; })()', '(function () { n = this; })()']) {
    assert.ok(kindsOf(unitOf(`function f() { let n = 0; ${source}; return n; }`)).includes('FunctionExpression'), source);
  }
});

test('the value of a store is what is stored', () => {
  const stored = options => {
    const {root} = unitOf('function f() { const h = {}; const y = (h.x = {}); return y; }', options);
    const store = root.instructions.find(i => i.value.kind === 'PropertyStore');
    const local = root.instructions.filter(i => i.value.kind === 'StoreLocal')[1];
    return local.value.value[0] === store.value.value[0] ? 'the value' : local.value.value[0] === store.lvalue[0] ? 'the result' : 'else';
  };
  assert.strictEqual(stored({}), 'the value');
  assert.strictEqual(stored({compiler: true}), 'the result');
});

test('an operand of arithmetic has no type by it', () => {
  const source = 'function f(o) { const t = o.q; const s = t + ""; t.push(1); return s; }';
  assert.deepStrictEqual(typeOf(unitOf(source), 't'), {kind: 'Var'});
  assert.deepStrictEqual(typeOf(unitOf(source, {compiler: true}), 't'), {kind: 'Primitive'});
});

test('a tag is called', () => {
  assert.ok(kindsOf(unitOf('function f() { return t`x`; }')).includes('CallExpression'));
  assert.ok(kindsOf(unitOf('function f() { return t`x`; }', {compiler: true})).includes('TaggedTemplateExpression'));
});

/** Each writes `o` through what the call gives: so the range of `o` has to reach behind that. */
const TABLES = {
  'Array.of': 'function f() { const o = {}; const l = Array.of(o); const p = l[0]; p.k = 1; return o; }',
  'Object.fromEntries': 'function f() { const o = {}; const h = Object.fromEntries([["o", o]]); const p = h.o; p.k = 1; return o; }',
  'Array.from with a function': 'function f() { const o = {}; const l = Array.from([1], x => o); const p = l[0]; p.k = 1; return o; }',
  flatMap: 'function f() { const o = {}; const l = [1].flatMap(x => [o]); const p = l[0]; p.k = 1; return o; }',
};
for (const [name, source] of Object.entries(TABLES)) {
  test(`what ${name} holds`, {skip}, async () => {
    const lastOf = async options => {
      const unit = unitOf(source, options);
      const {text} = await run('infer', JSON.stringify(unit));
      const number = unit.identifiers.findIndex(i => i.name === 'o');
      const store = unit.root.instructions.find(i => i.value.kind === 'PropertyStore');
      return Number(new RegExp(`^range ${number} \\d+ (\\d+)`, 'm').exec(text)[1]) > store.id;
    };
    assert.strictEqual(await lastOf({}), true);
    assert.strictEqual(await lastOf({compiler: true}), false);
  });
}

test('a parameter that functions assign is a variable of its own', {skip}, async () => {
  const source = 'function C({n}) { if (!n) { n = 1; } const f = () => log(n); return <b onClick={f}>{n}</b>; }';
  const [own, compiler] = await answers([{source}, {source, compiler: true}]);
  assert.strictEqual(own.lints.length, 0);
  assert.strictEqual(compiler.lints.length, 1);
});
