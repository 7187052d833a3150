'use strict';
/** The process of the front end and the library: its answers are those of the library. */
const test = require('node:test');
const assert = require('node:assert');
const {spawn} = require('node:child_process');
const path = require('node:path');
const readline = require('node:readline');
const {jirrambeo, skip, runs} = require('./data.js');
const {unitsOf} = require('../../../frontend/src/index.js');

const SERVER = path.join(__dirname, '../serve.js');
const SOURCE = 'function C(props) {\n  props.n = 1;\n  return <b/>;\n}\nfunction* g() {}\n';

/** What the server answers to these requests. @param {Array<object>} requests @returns {Promise<Array<any>>} */
async function served(requests) {
  const child = spawn(process.execPath, [SERVER], {stdio: ['pipe', 'pipe', 'inherit']});
  child.stdin.end(requests.map(request => `${JSON.stringify(request)}\n`).join(''));
  const found = [];
  for await (const line of readline.createInterface({input: child.stdout})) found.push(JSON.parse(line));
  return found;
}

test('runs on bytes', {skip}, async () => {
  const few = runs().filter(({input}) => input.length < 1 << 20);
  const answers = await served(few.map(({words, input}, id) => ({id, words, input: input.toString('latin1')})));
  assert.deepStrictEqual(answers, few.map(({status, text}, id) => ({id, status, text})));
});

test('runs on the units of a file', {skip}, async () => {
  const [asked, plain, broken] = await served([{id: 1, file: 'a.jsx', text: SOURCE, words: 'lint'}, {id: 2, file: 'a.jsx', text: SOURCE},
    {id: 3, file: 'a.jsx', text: 'function (', words: 'lint'}]);
  const [{unit, ...made}, generator] = unitsOf(SOURCE);
  assert.deepStrictEqual(asked, {id: 1, file: 'a.jsx', functions: [{...made, ...jirrambeo.run('lint', unit)}, generator]});
  assert.deepStrictEqual(plain, {id: 2, file: 'a.jsx', functions: JSON.parse(JSON.stringify([{...made, unit}, generator]))});
  assert.strictEqual(broken.error.kind, 'syntax');
});
