'use strict';
/** Where components and hooks alone are wanted, statements without any are passed over, and no other. */
const test = require('node:test');
const assert = require('node:assert');

process.env.NODE_PATH = [process.env.NODE_PATH, '/usr/share/nodejs'].filter(Boolean).join(':'); // where Debian's modules look
require('node:module').Module._initPaths();
const {unitsOfProgram} = require('../src/index.js');
const {moduleOf} = require('../src/parse.js');
const {passedOver} = require('../src/passedOver.js');
const {program} = require('../tools/programs.js');
const {BY_HAND} = require('./data/byhand.js');
const {WRONG, RIGHT} = require('./data/react.js');

const {parse} = moduleOf('@babel/parser');

/** The tree in one of both forms; null where the parser doesn't read the text. */
function treeOf(text, more) {
  try {
    const {program: ast} = parse(text, {sourceType: 'unambiguous', allowReturnOutsideFunction: true, plugins: ['jsx', ...more]});
    return ast;
  } catch (error) {
    if (!(error instanceof SyntaxError)) throw error;
    return null;
  }
}

const FORMS = [[], ['estree'], ['typescript'], ['typescript', 'estree']];
const made = (ast, text, others) => (
  JSON.stringify(unitsOfProgram(ast, text, {as: 'bytes', others}).filter(one => one.kind !== 'other')));

/** @returns {number} how many components and hooks there are */
function assertSame(text, forms = FORMS) {
  let count = 0;
  for (const form of forms) {
    const ast = treeOf(text, form);
    if (!ast) continue;
    const found = made(ast, text, 'none');
    assert.ok(found === made(ast, text, 'nested'), text);
    count = Math.max(count, JSON.parse(found).length);
  }
  return count;
}

/** Each has a component or a hook. */
const PLACES = [
  'function f() { function /* a */ A() { return <b / >; } return A; }',
  'function f() { const A /* a */ = () => <b>x< /* c */ /b>; }',
  'function f() { let A // a\n = p => <b / // c\n >; }',
  'function f() { const g = 1, A = async () => { await useB(); }; }',
  'async function f() { A = function () { return <></>; }; }',
  'class K { m() { const {A = () => <b/>} = this; } }',
  'class K { m({useA = () => useB()}) {} }',
  'const o = {[1]: {useA: () => useB()}};',
  'const o = {A: function () { return <b/>; }, b};',
  'function f() { (A) = () => <b/>; }',
  'function f() { N.useA = x => useB(x); }',
  'export default memo(() => <b/>);',
  'function f() { return React\n.forwardRef(function (p, ref) { return <b/>; }); }',
  'const f = g => React.memo(function g() { return useA(); });',
  'function f() { function us\\u0065A() { return useB(); } }',
  'function f() { function Ä() {} const Aä = () => <b/>; }',
  'function f() { const A: FC<{a: 1; b: 2}> = () => <b/>; }',
  'function f(A: FC = () => <b/>) {}',
  'if (a) { function A() { return <b/>; } } else { class B {} }',
  '\ufefffunction f() { function A() { return <b/>; } }',
];

/** None has any. */
const WITHOUT = [
  'class A extends B { render() { return <b Title={1} onClick={() => this.f({A: 1, useA: 2})}/>; } A = () => <b/>; }',
  'function f(x) { const A = 1; return {A() { return <b/>; }, get B() { return <b/>; }, C: g(() => <b/>)}; }',
  'const f = () => { const A = () => 1; return <A/>; };',
  'import {useA, A} from "a"; export * from "b";',
];

test('a component or hook is found wherever it stands', () => {
  for (const text of PLACES) assert.ok(assertSame(text) > 0, text);
});

test('what has none is passed over', () => {
  for (const text of WITHOUT) {
    const {body} = treeOf(text, []);
    assert.strictEqual(passedOver(body, text).size, body.length, text);
    assert.strictEqual(assertSame(text), 0, text);
  }
});

test('units are those that a whole file has', () => {
  const few = [['estree']];
  for (const text of [...WRONG, ...RIGHT].map(one => one.source).concat(Object.values(BY_HAND))) assertSame(text, few);
  for (let seed = 400; seed < 406; seed++) assertSame(program(seed), few);
  const isDeclaration = text => /^(async )?(function|class|const)/.test(text);
  const own = (text, i) => text.replace(/\b(const|class|function) (f|o|K|A)\b/, `$1 $2${i}`);
  assert.ok(assertSame([...PLACES, ...WITHOUT].filter(isDeclaration).map(own).join('\n')) > 10);
});
