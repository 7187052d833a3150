'use strict';
const test = require('node:test');
const assert = require('node:assert');
const {unitsOf, Positions, sourceMap, reports} = require('../src/index.js');
const {answers, skip} = require('../tools/program.js');

const SOURCE = `// é
function C(props) {
  const { a } = props;
  a.x = 1;
  return <b/>;
}`;

test('identifiers and instructions have lines and columns', () => {
  for (const offsets of /** @type {Array<'bytes'|'utf16'>} */ (['bytes', 'utf16'])) {
    const {unit} = unitsOf(SOURCE, {filename: 'a.jsx', offsets})[0];
    const map = sourceMap(unit, new Positions(SOURCE, offsets));
    const a = map.identifiers.find(i => i.name === 'a');
    assert.deepStrictEqual(a.range, {line: 3, column: 11, endLine: 3, endColumn: 12});
    const store = map.functions.at(-1).instructions.find(i => i.kind === 'PropertyStore');
    assert.deepStrictEqual(store.range, {line: 4, column: 3, endLine: 4, endColumn: 10});
  }
});

test('reports have lines and columns', {skip}, async () => {
  const {unit} = unitsOf(SOURCE, {filename: 'a.jsx'})[0];
  const [{lints}] = await answers([{source: SOURCE}]);
  const found = reports([...lints, ...lints], () => unit, new Positions(SOURCE));
  assert.strictEqual(found.length, 1);
  assert.deepStrictEqual(found[0].range, {line: 4, column: 3, endLine: 4, endColumn: 4});
  assert.match(found[0].help, /component props/);
});

test('a report without a label stands at its instruction, or at its function, and only then is the unit asked for', () => {
  const {unit} = unitsOf(SOURCE, {filename: 'a.jsx'})[0];
  const positions = new Positions(SOURCE);
  const at = unit.root.instructions.findIndex(i => i.value.kind === 'PropertyStore');
  const of = (place, label, unitOf) => reports([`lint root 0 ${place} Immutability "No" -${label}`], unitOf, positions)[0].range;
  assert.deepStrictEqual(of(at, '', () => unit), {line: 4, column: 3, endLine: 4, endColumn: 10});
  assert.deepStrictEqual(of('end', '', () => unit), {line: 2, column: 1, endLine: 6, endColumn: 2});
  assert.deepStrictEqual(of(at, ' 6..14 "here"', () => assert.fail()), {line: 2, column: 1, endLine: 2, endColumn: 9});
});
