'use strict';
/** What a pack has in place of the front end's modules makes the same units, with the code that V8 made of it or without. */
const test = require('node:test');
const assert = require('node:assert');
const {spawnSync} = require('node:child_process');
const fs = require('node:fs');
const os = require('node:os');
const path = require('node:path');
const {skip, given, messages} = require('./data.js');
const bundle = require('../bundle.js');
const {load} = require('../src/frontend.js');
const modules = require('../../frontend/src/index.js');
const {WRONG, RIGHT} = require('../../frontend/test/data/react.js');
const {BY_HAND} = require('../../frontend/test/data/byhand.js');

const parser = given('@babel/parser');
const why = parser ? false : 'the parser is not there';
const SOURCES = [...WRONG, ...RIGHT].map(one => one.source).concat(Object.values(BY_HAND));

/** @template T @param {(folder: string) => T} run */
function inFolder(run) {
  const folder = fs.mkdtempSync(path.join(os.tmpdir(), 'pack-'));
  try {
    return run(folder);
  } finally {
    fs.rmSync(folder, {recursive: true});
  }
}

/** The units of each source, or why there are none. */
function units({unitsOfProgram}) {
  return SOURCES.map(text => {
    try {
      const {program} = parser.parse(text, {sourceType: 'module', plugins: ['jsx', 'estree']});
      return JSON.stringify(unitsOfProgram(program, text, {offsets: 'utf16', others: 'nested'}));
    } catch (error) {
      assert.ok(error instanceof SyntaxError);
      return error.message;
    }
  });
}

/** Whether the code is refused, in a process that hasn't compiled the script before. @param {string} file */
function isRejected(file) {
  const load = `require(${JSON.stringify(require.resolve('../src/frontend.js'))}).load(${JSON.stringify(file)})`;
  const {stdout, stderr} = spawnSync(process.execPath, ['-e', `process.stdout.write(String(${load}.isRejected))`], {encoding: 'utf8'});
  assert.strictEqual(stderr, '');
  return stdout;
}

test('the script of a pack is the front end', {skip: why}, () => inFolder(folder => {
  const file = path.join(folder, 'frontend.js');
  bundle.write(file);
  const {front} = load(file);
  assert.deepStrictEqual(Object.keys(front), Object.keys(modules));
  assert.deepStrictEqual(units(front), units(modules));
}));

test('code of another V8 is refused, and none is wanted', {skip: why}, () => inFolder(folder => {
  const file = path.join(folder, 'frontend.js');
  bundle.write(file);
  assert.strictEqual(isRejected(file), 'false');
  fs.writeFileSync(`${file}.code`, 'of another V8');
  assert.strictEqual(isRejected(file), 'true');
  fs.rmSync(`${file}.code`);
  assert.strictEqual(isRejected(file), 'undefined');
}));

test('a package says what a checkout does', {skip}, () => inFolder(folder => {
  const pack = spawnSync(process.execPath, [path.join(__dirname, '../pack.js'), '--into', folder], {encoding: 'utf8'});
  assert.deepStrictEqual([pack.stderr, pack.status], ['', 0]);
  assert.deepStrictEqual(fs.readdirSync(path.join(folder, 'vendor')), ['frontend.js', 'frontend.js.code', 'jirrambeo.node']);
  const said = `const {messages} = require(${JSON.stringify(path.join(__dirname, 'data.js'))});
    const plugin = require(${JSON.stringify(folder)});
    process.stdout.write(JSON.stringify(${JSON.stringify(SOURCES)}.map(text => messages(text, undefined, {}, plugin))));`;
  const {stdout, stderr} = spawnSync(process.execPath, ['-e', said], {encoding: 'utf8', maxBuffer: 1 << 26});
  assert.strictEqual(stderr, '');
  assert.deepStrictEqual(JSON.parse(stdout), JSON.parse(JSON.stringify(SOURCES.map(text => messages(text)))));
}));
