'use strict';
/** A tree of ESTree gives the units that Babel's own tree gives. */
const test = require('node:test');
const assert = require('node:assert');

process.env.NODE_PATH = [process.env.NODE_PATH, '/usr/share/nodejs'].filter(Boolean).join(':'); // where Debian's modules look
require('node:module').Module._initPaths();
const {unitsOf, unitsOfProgram} = require('../src/index.js');
const {moduleOf, parse: parseFile} = require('../src/parse.js');
const {program} = require('../tools/programs.js');
const {BY_HAND} = require('./data/byhand.js');
const {WRONG, RIGHT} = require('./data/react.js');

const MORE = [
  `"use strict"; import a, {b as c, "d e" as d} from 'x'; export * from 'y'; export * as z from 'z'; export {a};
   export default class extends a { #p = 1; static s = 2; [c] = 3; get q() { return this.#p; } set q(v) { this.#p = v; }
     async *g() { "use x"; yield* 1; } constructor() { super(); super.m(); this.#h(); } #h() { return #p in this; } static { c(); } }`,
  `function f(a) { "use strict"; return [a?.b.c?.(1)?.[2], (a?.b).c, a?.(1).x, delete a.b, a.b?.c(), 10n, /x/g, null, true, 1.5, 's', import('x'), new.target, import.meta]; }`,
  'const o = {a, b: 1, ["c"]: 2, d() {}, async e() {}, ...f, "g-h": 3, 4: 5}; function g({a, b: {c = 1, ...d}, ["e"]: f, ...h}, [i, , ...j]) { return [a, c, d, f, h, i, j]; }',
  'function C(p) { return <><X.Y a="b" c={1} {...p} d><b>text {p.x} {/* no */}</b></X.Y><a-b x:y="1"/></>; }',
];
function isProgram(text) {
  try {
    return Boolean(parseFile(text));
  } catch {
    return false;
  }
}

/** That both are the same, with one text of JSON: units are large. */
const assertSame = (found, expected, text) => assert.ok(JSON.stringify(found) === JSON.stringify(expected), text);
const SOURCES = [...Object.values(BY_HAND), ...[...WRONG, ...RIGHT].map(c => c.source), ...MORE,
  ...Array.from({length: 30}, (_, seed) => program(seed + 100)).filter(isProgram)];
const TYPED = [
  `import type {A} from 'a'; interface I { x: number } type T = I | A; declare const d: number; enum E { A }
   abstract class K<T> extends L<T> implements I { private readonly x: number = 1; constructor(private y: string, public z = 2) { super(); } abstract m(): void; n(this: K<T>, a?: number): a is 1; n(a) { return a!; } declare q: number; }
   export function C({a}: {a: number}) { const b = a as any; const c = <T,>(x: T) => x satisfies T; return <D<string> b={b!.c?.d!.e} c={c}/>; }`,
  'function useX(this: void, a: string[]): asserts a is string[] { const [x] = useState<number>(1); return f<string>(x)!; }',
];

const {parse} = moduleOf('@babel/parser');
const OPTIONS = {sourceType: 'module', allowReturnOutsideFunction: true, allowSuperOutsideMethod: true, allowUndeclaredExports: true, allowNewTargetOutsideFunction: true};
const given = text => unitsOf(text, {filename: 'a.tsx'});

function inESTree(text, plugins) {
  for (const sourceType of ['module', 'script']) {
    try {
      return parse(text, {...OPTIONS, sourceType, plugins: ['jsx', 'estree', ...plugins]}).program;
    } catch (error) {
      if (sourceType === 'script') throw error;
    }
  }
  return null;
}

/** As @typescript-eslint/parser has places: by `range` alone. */
function ranged(node) {
  if (Array.isArray(node)) return node.map(ranged);
  if (node === null || typeof node !== 'object' || node instanceof RegExp) return node;
  const {start, end, loc, ...rest} = node;
  const out = Object.fromEntries(Object.entries(rest).map(([k, v]) => [k, ranged(v)]));
  return typeof node.type === 'string' ? {...out, range: [start, end]} : out;
}

test('of Babel with its plugin', () => {
  for (const text of SOURCES) {
    const ast = inESTree(text, []);
    assertSame(unitsOfProgram(ast, text), unitsOf(text, {filename: 'a.jsx'}), text);
    assertSame(unitsOfProgram(ranged(ast), text), unitsOf(text, {filename: 'a.jsx'}), text);
  }
});

test('of Babel with its plugin, in TypeScript', () => {
  for (const text of TYPED) assertSame(unitsOfProgram(inESTree(text, ['typescript']), text), given(text), text);
});

for (const name of ['espree', 'acorn']) {
  let parser = null;
  try {
    parser = moduleOf(name);
  } catch {
    // not installed
  }
  test(`of ${name}`, {skip: parser ? false : 'it is not installed'}, () => {
    let seen = 0;
    for (const text of SOURCES) {
      let ast;
      try {
        ast = name === 'espree' ? parser.parse(text, {ecmaVersion: 2022, sourceType: 'module', range: true, ecmaFeatures: {jsx: true}})
          : parser.parse(text, {ecmaVersion: 2022, sourceType: 'module', allowReturnOutsideFunction: true});
      } catch {
        continue; // JSX, or what only scripts may have
      }
      seen++;
      assertSame(unitsOfProgram(ast, text), unitsOf(text, {filename: 'a.jsx'}), text);
    }
    assert.ok(seen > 80, String(seen));
  });
}
