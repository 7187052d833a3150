'use strict';
/** Calls side by side, many calls, and environments that end. */
const test = require('node:test');
const assert = require('node:assert');
const path = require('node:path');
const v8 = require('node:v8');
const vm = require('node:vm');
const {Worker} = require('node:worker_threads');
const {jirrambeo, skip, panel} = require('./data.js');
const {unitsOf} = require('../../../frontend/src/index.js');
const {moduleOf} = require('../../../frontend/src/parse.js');

v8.setFlagsFromString('--expose-gc');
/** Has the collector come now. */
const collect = /** @type {() => void} */ (vm.runInNewContext('gc'));

const INDEX = path.join(__dirname, '../index.js');

test('8 calls at once', {skip}, async () => {
  const wanted = jirrambeo.certify(panel);
  for (const found of await Promise.all(Array.from({length: 8}, () => jirrambeo.certifyAsync(panel)))) assert.deepStrictEqual(found, wanted);
});

test('calls on threads of their own: each answer is that of its call', {skip}, () => {
  const units = [panel, Buffer.from('['), Buffer.from('{}'), Buffer.from('['.repeat(200))];
  for (const words of ['infer', 'lint', 'certify', 'nothing']) {
    for (const count of [0, 1, 2, 40]) {
      const inputs = Array.from({length: count}, (_, i) => units[i % units.length]);
      const calls = jirrambeo.begin(words);
      for (const input of inputs) calls.put(input);
      assert.deepStrictEqual(calls.answers(), inputs.map(input => jirrambeo.run(words, input)));
      assert.throws(() => calls.answers(), /the answers were asked for/);
      assert.throws(() => calls.put(panel), /the answers were asked for/);
    }
  }
});

test('what was put in may be written after, and several are begun at once', {skip}, () => {
  const all = Array.from({length: 5}, () => jirrambeo.begin('infer'));
  const unit = Buffer.from(panel);
  for (const calls of all) calls.put(unit);
  unit.fill(0);
  const wanted = [jirrambeo.run('infer', panel)];
  for (const calls of all) assert.deepStrictEqual(calls.answers(), wanted);
});

/** The addon itself, which takes units as codes too. */
const given = () => require(path.join(__dirname, '../../lib/jirrambeo.node'));
const SOURCE = `import {useState} from 'react';
  function Card({items, "a b": c = -1, ...é}) { const [n, setN] = useState(c ?? 12345678); items.push(n); return <b ref={é.x} {...é}>{items.map(i => setN(i))}</b>; }
  function useX(a) { try { for (const x of a) x.y = () => a; } catch (e) { return e.message; } return useState(a); }`;

/** Whether the parser is there, which Debian has outside of what another Node looks at. */
function hasParser() {
  try {
    return Boolean(moduleOf('@babel/parser'));
  } catch {
    return false;
  }
}

test('units as codes are those as bytes', {skip: skip || (hasParser() ? false : 'the parser is not there')}, () => {
  const addon = given();
  for (const options of [{}, {compiler: true, others: /** @type {'root'} */ ('root')}]) {
    const calls = addon.begin('infer');
    const units = unitsOf(SOURCE, {...options, as: 'codes'}).map(one => one.unit);
    for (const unit of units) addon.putCodes(calls, unit.codes, unit.texts(), unit.lines());
    const wanted = unitsOf(SOURCE, {...options, as: 'bytes'}).map(({unit}) => jirrambeo.run('infer', unit));
    assert.deepStrictEqual(addon.answers(calls).map(([status, text]) => ({status, text: text.toString()})), wanted);
    assert.deepStrictEqual(wanted.map(one => one.status), [0, 0]);
  }
});

test('what are no codes are refused', {skip}, () => {
  const addon = given();
  const calls = addon.begin('infer');
  const none = Buffer.alloc(0);
  const put = (codes, texts = '', strings = '') => addon.putCodes(calls, Int32Array.from(codes), Buffer.from(texts), Buffer.from(strings));
  const wrong = [[-1], [-1, 1], [-2, -1], [-2, 1], [-3], [-3, 1], [-3, 1, -1], [-3, 1, -3, 2, 3], [-4], [-2147483648]];
  for (const codes of wrong) assert.throws(() => put(codes, 'a%%', 'b'), /^TypeError: the codes are those of the front end$/);
  assert.throws(() => addon.putCodes(calls, [1], none, none), /the codes are an Int32Array/);
  assert.throws(() => addon.putCodes(calls, new Uint8Array(1), none, none), /the codes are an Int32Array/);
  assert.throws(() => addon.putCodes(calls, new Int32Array(1), '', none), TypeError);
  assert.throws(() => addon.putCodes(calls, new Int32Array(1)), TypeError);
  const right = [[], [0, -3, 2147483647, -4, 1, 2147483647, -5, -1, 0, -2, 1]];
  for (const codes of right) put(codes, 'ab\n%c[%]\n', 'x%\n"é"');
  const texts = ['', '0ab21474836471c[2147483647]"x%""é"'];
  assert.deepStrictEqual(addon.answers(calls).map(([status, text]) => ({status, text: text.toString()})), texts.map(text => jirrambeo.run('infer', text)));
});

test('calls whose answers nobody asks for grow nothing', {skip: skip || (process.env.JIRRAMBEO_FEW ? 'few calls are asked for' : false)}, async () => {
  const begun = async count => {
    for (let i = 0; i < count; i++) {
      const calls = jirrambeo.begin('infer');
      for (let k = 0; k < 4; k++) calls.put(panel);
      if (i % 2 === 0) calls.answers();
      if (i % 50 !== 0) continue;
      collect(); // when the collector comes by itself is its own affair, and depends on the machine
      await new Promise(resolve => setTimeout(resolve, 0)); // finalizers run between tasks
    }
  };
  await begun(1000);
  const before = process.memoryUsage().rss;
  await begun(5000);
  const grown = process.memoryUsage().rss - before;
  assert.ok(grown < 32 << 20, `${grown} bytes`);
});

test('the input may be written once an asynchronous call has begun', {skip}, async () => {
  const unit = Buffer.from(panel);
  const found = jirrambeo.inferAsync(unit);
  unit.fill(0);
  assert.deepStrictEqual(await found, jirrambeo.infer(panel));
});

test('100,000 calls grow nothing', {skip: skip || (process.env.JIRRAMBEO_FEW ? 'few calls are asked for' : false)}, async () => {
  const unit = Buffer.from('[');
  const calls = async count => {
    for (let i = 0; i < count; i++) {
      jirrambeo.run(i % 2 ? 'infer' : 'lint', i % 2 ? unit : panel);
      if (i % 100 === 0) await jirrambeo.runAsync('infer', panel);
    }
  };
  await calls(10000);
  collect();
  const before = process.memoryUsage().rss;
  await calls(100000);
  collect();
  const grown = process.memoryUsage().rss - before;
  assert.ok(grown < 32 << 20, `${grown} bytes`); // each call's text alone would be 200 MB
});

/** Ends when the worker has. @param {string} code @param {number} after milliseconds, when it is ended, if it hasn't by itself */
async function ended(code, after) {
  const worker = new Worker(code, {eval: true, workerData: {index: INDEX, panel: panel.toString()}});
  await new Promise(resolve => worker.once('message', resolve));
  await new Promise(resolve => setTimeout(resolve, after));
  await worker.terminate();
}

test('workers end in the middle of calls', {skip}, async () => {
  const start = `const {parentPort, workerData: {index, panel}} = require('worker_threads'); const j = require(index);`;
  const onPool = `${start} for (let i = 0; i < 200; i++) j.certifyAsync(panel); parentPort.postMessage(1);`;
  const inLine = `${start} parentPort.postMessage(1); setImmediate(function go() { for (let i = 0; i < 50; i++) j.infer(panel); setImmediate(go); });`;
  const onThreads = `${start} const calls = j.begin('certify'); for (let i = 0; i < 200; i++) calls.put(panel); parentPort.postMessage(1); setInterval(() => calls, 1);`;
  for (let i = 0; i < 10; i++) await Promise.all([ended(onPool, i), ended(inLine, i), ended(onPool, 0), ended(onThreads, i), ended(onThreads, 0)]);
  assert.ok(jirrambeo.infer(panel).ranges.length > 0);
});

test('what nests deeply is read, whatever the thread', {skip}, async () => {
  const deep = '['.repeat(1 << 20);
  assert.deepStrictEqual(jirrambeo.run('infer', deep), {status: 3, text: 'refused NotJson\n'});
  assert.deepStrictEqual(await jirrambeo.runAsync('infer', deep), {status: 3, text: 'refused NotJson\n'});
  const within = '{"format":2,"config":{},"types":'.concat('['.repeat(120), ']'.repeat(120), '}');
  assert.strictEqual(jirrambeo.run('infer', within).status, 4);
});
