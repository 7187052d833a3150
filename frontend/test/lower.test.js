'use strict';
const test = require('node:test');
const assert = require('node:assert');
const {unitsOf} = require('../src/index.js');
const {READS} = require('../src/HIR.js');
const {program} = require('../tools/programs.js');
const {answers, skip} = require('../tools/program.js');

const ALL = `
import React, {useMemo, useState} from 'react';
import * as X from './x';
async function All({a = 1, ...rest}, list) {
  let n = 0, shared;
  let late;
  const f = () => { shared = n; return shared; };
  const o = {a, ['k' + a]: n, ...rest, m() { return a; }};
  const arr = [1, , ...list];
  o.x = 1; o['k' + a] = 2; delete o.x; delete o['k' + a];
  late = o.x; n = o['y' + a];
  let v = 0; v++; --v;
  const [p, q] = arr;
  for (const i of list) { f(i); }
  for (const k in o) { f(k); }
  const memo = useMemo(() => X.make(a), [a]);
  const t = X.tag\`text\`;
  const u = \`\${a} \${typeof n}\`;
  outside = u;
  debugger;
  const re = /x/, meta = import.meta, m = new Map();
  const c = a + n, w = await f(c), y = m.get(c);
  const z = (w as any);
  return <><X.Box a={t} {...rest}>text {memo}</X.Box><b/></>;
}`;

const lowered = (source, options) => unitsOf(source, {filename: 'a.jsx', others: 'root', ...options}).at(-1);
const refusedFor = source => {
  const {refused} = lowered(source);
  return refused ? refused.reason : null;
};

test('each of the 42 kinds is made', () => {
  const {unit, refused} = lowered(ALL, {filename: 'a.tsx', compiler: true});
  assert.ok(unit, JSON.stringify(refused));
  const kinds = new Set([unit.root, ...unit.functions].flatMap(f => f.instructions.map(i => i.value.kind)));
  const missing = Object.keys(READS).filter(k => !kinds.has(k));
  assert.strictEqual(Object.keys(READS).length, 42);
  assert.deepStrictEqual(missing, []);
});

const STATEMENTS = `function f(x, l) {
    if (x) return 1;
    while (x) { if (l) continue; break; }
    do { x = g(); } while (x);
    for (let i = 0; i < 3; i++) { h(i); }
    for (;;) { if (x) break; }
    out: { if (x) break out; h(); }
    for (const a of l) h(a);
    for (const b in l) h(b);
    switch (x) { case 1: h(); break; case 2: h(); default: h(2); }
    try { h(); } catch (e) { h(e); }
    const y = x ? 1 : 2, z = x && y || l, w = x?.y?.(z)?.v, s = (h(), y);
    if (w) throw new Error(s);
    return y;
  }`;

test('terminals of all statements are made', () => {
  const {unit, refused} = lowered(STATEMENTS);
  assert.ok(unit, JSON.stringify(refused));
  const kinds = new Set(unit.root.blocks.map(b => b.terminal.kind));
  for (const k of ['Goto', 'If', 'Branch', 'Switch', 'For', 'ForOf', 'ForIn', 'DoWhile', 'While', 'Logical', 'Ternary',
    'Optional', 'Return', 'Throw', 'Try', 'MaybeThrow', 'Label', 'Sequence']) assert.ok(kinds.has(k), k);
});

test('units of all kinds and terminals are accepted', {skip}, async () => {
  const all = await answers([{source: ALL, filename: 'a.tsx'}, {source: STATEMENTS}]);
  assert.deepStrictEqual(all.map(a => a.status), [0, 0]);
});

test('what is not lowered is refused, with its place', () => {
  const cases = {
    '`arguments`': 'function f(a) { a = 1; return arguments[0]; }',
    'a generator': 'function* f() { yield 1; }',
    'a class in a function': 'function f() { let x; class A { m() { x = 1; } } return A; }',
    'a getter or setter': 'function f() { return {get x() { return 1; }}; }',
    '`new.target`': 'function f() { return new.target; }',
    'a name that is declared twice': 'function f() { try { g(); } catch (e) { var e = 1; } return e; }',
    'a use before the declaration': 'function f() { g(x); let x = 1; }',
    'a `const` that is assigned again': 'function f() { const x = 1; return () => { x = 2; }; }',
  };
  for (const [reason, source] of Object.entries(cases)) {
    assert.strictEqual(refusedFor(source), reason, source);
    const {refused} = lowered(source);
    assert.ok(refused.line >= 1 && refused.column >= 1 && refused.offset >= 0);
  }
});

test('a parameter may be written beside `arguments` where these have their items for themselves', () => {
  const body = '{ a = a || {}; return [a, arguments.length]; }';
  assert.strictEqual(refusedFor(`function f(a) ${body}`), '`arguments`');
  assert.strictEqual(refusedFor(`const f = (() => function (a) ${body})();`), '`arguments`');
  for (const source of [`"use strict"; function f(a) ${body}`, `export function f(a) ${body}`, `import x from "x"; function f(a) ${body}`,
    `function f(a, b = 1) ${body}`, `function f(a, {b}) ${body}`, `class C { m(a) ${body} }`, 'function f(a) { "use strict"; a = 1; return arguments; }',
    `function g() { "use strict"; return function (a) ${body}; }`]) assert.strictEqual(refusedFor(source), null, source);
});

test('a class in a function may read what is around it, and not write it', () => {
  const of = body => refusedFor(`function f(o) { let x; class A { m() { ${body} } } return A; }`);
  for (const body of ['x = 1;', 'o.p = 1;', 'o.p.q++;', 'delete o.p;', '[x] = [1];', '({a: o.b = 2, ...x} = {});', 'for (x of [1]) ;', '(() => { x ??= 1; })();']) {
    assert.strictEqual(of(body), 'a class in a function', body);
  }
  for (const body of ['return x;', 'this.p = o;', 'let y; y = o;', 'for (const z of o) { z.w = 1; }']) assert.strictEqual(of(body), null, body);
});

test('what no unit may have is refused', () => {
  const list = n => Array.from({length: n}, (_, i) => i).join(', ');
  assert.strictEqual(refusedFor(`function f() { g(${list(1025)}); }`), 'a call of more than 1,024 arguments');
  assert.strictEqual(refusedFor(`function f() { g(${list(1024)}); }`), null);
  const nested = n => `const f = ${'() => '.repeat(n)}1;`;
  assert.strictEqual(refusedFor(nested(65)), 'functions on more than 64 levels');
  assert.strictEqual(refusedFor(nested(64)), null);
});

test('a private name is a property', () => {
  const {unit} = lowered('class A { #x; m(o) { o.#x = #x in o; return o.#x; } }');
  assert.deepStrictEqual(unit.root.instructions.map(i => i.value.kind).filter(k => /Property/.test(k)), ['PropertyStore', 'PropertyLoad']);
});

test('a function that is no component stands below a root, and has `this` as its last parameter', () => {
  const {unit} = lowered('class A { m(x) { this.x = x; return () => this; } }', {others: 'nested'});
  assert.strictEqual(unit.root.params.length, 0);
  assert.strictEqual(unit.functions[0].params.length, 2);
});

test('kinds of functions', () => {
  const kind = source => lowered(source).kind;
  assert.strictEqual(kind('function A() { return <b/>; }'), 'component');
  assert.strictEqual(kind('const A = props => <b/>;'), 'component');
  assert.strictEqual(kind('function A(a, b) { return <b/>; }'), 'other');
  assert.strictEqual(kind('function A(a, ref) { return <b/>; }'), 'component');
  assert.strictEqual(kind('function A() { return {a: <b/>}; }'), 'other');
  assert.strictEqual(kind('function A() { return 1; }'), 'other');
  assert.strictEqual(kind('export const B = React.memo(() => <b/>);'), 'component');
  assert.strictEqual(kind('function useX(a, b) { return useState(a); }'), 'hook');
  assert.strictEqual(kind('function useX(a) { return a; }'), 'other');
});

test('spans count bytes, or units of UTF-16', () => {
  const source = 'const s = "é"; function f(xyz) { return xyz; }';
  const param = u => u.root.params[0].slice(1);
  assert.deepStrictEqual(param(lowered(source).unit), [27, 30]);
  assert.deepStrictEqual(param(lowered(source, {offsets: 'utf16'}).unit), [26, 29]);
});

test('versions and phis', () => {
  const {unit} = lowered('function f(a) { let x = 1; if (a) { x = {}; } return x; }');
  const phis = unit.root.blocks.flatMap(b => b.phis);
  assert.strictEqual(phis.length, 1);
  const [phi] = phis;
  const declaration = p => unit.identifiers[p[0]].declaration;
  assert.strictEqual(new Set([phi.place, ...phi.operands.map(o => o[1])].map(declaration)).size, 1);
  assert.strictEqual(unit.identifiers[phi.place[0]].name, 'x');
});

test('a shared variable has one number in all functions', () => {
  const {unit} = lowered('function f() { let x = 1; const g = () => { x = 2; }; g(); return x; }');
  const xs = unit.identifiers.filter(i => i.name === 'x');
  assert.strictEqual(xs.length, 1);
  assert.strictEqual(unit.functions[0].context.length, 1);
});

test('var: as let where it may be, else declared where its function begins', () => {
  const kinds = source => lowered(source).unit.root.instructions.map(i => `${i.value.kind} ${i.value.lvalue ? i.value.lvalue.kind : ''}`);
  assert.deepStrictEqual(kinds('function f() { var x = 1; return x; }').slice(0, 2), ['Primitive ', 'StoreLocal Let']);
  assert.deepStrictEqual(kinds('function f(a) { if (a) { var x = 1; } return x; }').slice(0, 1), ['DeclareLocal Let']);
});

test('types of builtins and hooks reach the unit', () => {
  const {unit} = lowered('import {useRef} from "react"; function C({l}) { const r = useRef(); const a = [...l]; a.push(1); return <b ref={r}>{a.map(x => x)}</b>; }');
  const ids = unit.shapes.map(s => s.id);
  for (const id of ['useRef', 'BuiltInArray.push', 'BuiltInArray.map']) assert.ok(ids.includes(id), id);
  assert.ok(unit.shapes.find(s => s.id === 'useRef').hook);
});

test('units of random functions are accepted and inferred', {skip}, async () => {
  /** @type {Array<*>} */
  const cases = [];
  for (let seed = 0; cases.length < 24; seed++) {
    const source = program(seed);
    try {
      if (source.length < 1500 && lowered(source, {others: undefined}).unit) cases.push({source, others: seed % 2 ? 'root' : 'nested'});
    } catch (error) {
      assert.ok(error instanceof SyntaxError, error.stack);
    }
  }
  (await answers(cases)).forEach((a, i) => assert.ok(a.refused || a.status === 0, `${a.text}\n${cases[i].source}`));
});

test('what leads the inference to refuse a unit', {skip}, async () => {
  const lines = (await answers([
    {source: 'import {useForm} from "react-hook-form"; function C() { const {watch} = useForm(); return <b>{watch("x")}</b>; }'},
    {source: 'import {useReactTable as u} from "@tanstack/react-table"; function C() { return <b>{u({})}</b>; }'},
    {source: 'function C({a}) { useThing(...a); return <b/>; }'},
  ])).map(a => a.text.split('\n')[0]);
  assert.deepStrictEqual(lines.map(l => l.split(' ')[1]), ['IncompatibleLibrary', 'IncompatibleLibrary', 'SpreadArgument']);
});

test('a file that is no program throws a SyntaxError', () => {
  assert.throws(() => unitsOf('function ('), SyntaxError);
});
