'use strict';
/** The program around the library: lines for files, and the server. */
const test = require('node:test');
const assert = require('node:assert');
const {spawnSync} = require('node:child_process');
const fs = require('node:fs');
const os = require('node:os');
const path = require('node:path');

const PROGRAM = path.join(__dirname, '../bin/units.js');
const folder = fs.mkdtempSync(path.join(os.tmpdir(), 'units-'));
test.after(() => fs.rmSync(folder, {recursive: true}));

const fileOf = (name, content) => {
  const file = path.join(folder, name);
  fs.writeFileSync(file, content);
  return file;
};
const units = (words, input = '') => spawnSync(process.execPath, [PROGRAM, ...words], {input, encoding: 'utf8'});
const linesOf = text => text.split('\n').filter(Boolean).map(l => JSON.parse(l));

test('a line for each outermost function', () => {
  const file = fileOf('a.jsx', 'const C = () => <b/>;\nfunction useX() { return useState(1); }\nclass A { *m() { yield 1; } }\n');
  const {stdout, status} = units([file]);
  assert.strictEqual(status, 0);
  const found = linesOf(stdout);
  assert.deepStrictEqual(found.map(f => [f.file, f.name, f.kind, f.at]), [
    [file, 'C', 'component', {line: 1, column: 11, offset: 10}],
    [file, 'useX', 'hook', {line: 2, column: 1, offset: 22}],
    [file, 'm', 'other', {line: 3, column: 11, offset: 72}],
  ]);
  assert.deepStrictEqual(found.map(f => f.unit ? f.unit.format : f.refused.reason), [1, 1, 'a generator']);
});

test('a file that has no functions to give is told, and the others go on', () => {
  const bad = fileOf('bad.js', 'let a = ;\n');
  const binary = fileOf('binary.js', Buffer.from([0x66, 0xff, 0xfe]));
  const good = fileOf('good.js', 'function f() {}\n');
  const {stdout, status} = units([bad, path.join(folder, 'none.js'), folder, binary, good]);
  assert.strictEqual(status, 2);
  const found = linesOf(stdout);
  assert.deepStrictEqual(found.map(f => f.error ? f.error.kind : f.name), ['syntax', 'unreadable', 'unreadable', 'nottext', 'f']);
  assert.deepStrictEqual(found[0].error, {kind: 'syntax', message: 'Unexpected token', line: 1, column: 9, offset: 8});
});

test('the server answers each request, in order', () => {
  const file = fileOf('b.js', 'function f() {}\n');
  const {stdout, status} = units(['--stdio'], [
    JSON.stringify({id: 7, file}), JSON.stringify({id: 'x', file: 'c.ts', text: 'const g = (a: number) => a;'}),
    JSON.stringify({id: 8, file: 'c.js', text: '('}), 'no request', '', JSON.stringify({id: 9, file: 'd.js', text: ''}),
    JSON.stringify({id: 10, file: 'e.js', text: 'const s = "é"; function f() {}', options: {offsets: 'utf16'}}),
  ].join('\n'));
  assert.strictEqual(status, 0);
  const found = linesOf(stdout);
  assert.deepStrictEqual(found.map(a => [a.id, a.functions ? a.functions.map(f => f.name) : a.error.kind]),
    [[7, ['f']], ['x', ['g']], [8, 'syntax'], [null, 'request'], [9, []], [10, ['f']]]);
  assert.strictEqual(found[5].functions[0].at.offset, 15);
});

test('the unit of one function alone', () => {
  const file = fileOf('c.js', 'function f() {}\nfunction* g() {}\n');
  assert.strictEqual(JSON.parse(units(['--only=f', file]).stdout).format, 1);
  const {stderr, status} = units(['--only=g', file]);
  assert.strictEqual(status, 2);
  assert.match(stderr, /c\.js:2:\d+: /);
});

test('words that are none of the options', () => {
  for (const words of [[], ['--nope', 'a.js'], ['--offsets=lines', 'a.js'], ['--stdio', 'a.js']]) {
    const {status, stderr} = units(words);
    assert.strictEqual(status, 2);
    assert.match(stderr, /^usage: units\.js/);
  }
});
