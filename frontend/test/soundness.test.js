'use strict';
/**
 * Does the inference hold when the code runs? Each write of a run is held against ranges, freezes and reports; what
 * says otherwise is one of the causes of docs/BLINDSPOTS.md. PROGRAMS=n runs more random programs, from SEED on.
 */
const test = require('node:test');
const assert = require('node:assert');
const fs = require('node:fs');
const path = require('node:path');
const {trial} = require('../tools/soundness/trial.js');
const {tried, programs, options} = require('../tools/soundness/main.js');
const {CAUSES} = require('../tools/soundness/causes.js');
const {printed, COMPONENT} = require('../tools/soundness/printed.js');
const inputs = require('../tools/soundness/inputs.js');
const {skip} = require('../tools/program.js');

const COUNT = Number(process.env.PROGRAMS || 30);
const SEED = Number(process.env.SEED || 0);
const run = (...words) => tried(programs(options(words)), options(words));
/** Reasons that are none: the rules promise nothing there, and need not. */
const NONE = new Set(['nobody reads the identifier', 'it is reported', 'it was frozen', 'only a function that reads it reaches it',
  'a ref, or reached by one', 'the identifier is of a part that was left']);

for (const cause of CAUSES) {
  const {title, reason, source, instead, isComponent} = cause;
  test(`a cause: ${title}`, {skip}, async () => {
    const of = isComponent ? COMPONENT : inputs.HAND;
    const reasonsOf = async text => {
      const t = await trial(text, of);
      assert.ok(!t.refused, t.refused);
      return new Set([...t.reasons, ...t.silences].map(x => x.reason).filter(x => !NONE.has(x)));
    };
    assert.ok((await reasonsOf(source)).has(reason), source);
    assert.deepStrictEqual([...await reasonsOf(instead)], [], instead);
    const told = (await printed(cause)).replace(/^(lint|infer) /, '`$1` ');
    assert.ok(page.includes(`${source} ${told}.`), told);
  });
}

const page = fs.readFileSync(path.join(__dirname, '../../docs/BLINDSPOTS.md'), 'utf8').replace(/\s+/g, ' ');

test('the page has each cause, in order', () => {
  let at = 0;
  for (const {title, source, instead} of CAUSES) {
    for (const part of [`## ${title}`, source, instead]) {
      assert.ok(page.indexOf(part, at) >= at, part);
      at = page.indexOf(part, at);
    }
  }
});

test('programs by hand', {skip}, async () => {
  const {total, unexplained} = await run('--gen=hand');
  assert.ok(total.programs > 150 && total.pairs > 10000);
  assert.deepStrictEqual(unexplained, []);
});

for (const gen of ['aliasing', 'components', 'programs']) {
  test(`random programs: ${gen}`, {skip}, async () => {
    const {total, unexplained} = await run(`--gen=${gen}`, `--from=${SEED}`, `--count=${COUNT}`);
    assert.ok(total.programs >= COUNT * 0.8 && total.writes > COUNT);
    assert.deepStrictEqual(unexplained, []);
  });
}

test('ranges that end too early are found', {skip}, async () => {
  const {unexplained} = await run('--gen=aliasing', '--count=12', '--shorter=1', '--off=loops,unknown,iterators');
  assert.ok(unexplained.length >= 6, String(unexplained.length));
});
