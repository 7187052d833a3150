'use strict';
/** Bad input: an answer with its place, and no crash. */
const test = require('node:test');
const assert = require('node:assert');
const fs = require('node:fs');
const os = require('node:os');
const path = require('node:path');
const {answer, MOST_BYTES} = require('../src/answers.js');

const MANY = 10000;
const nest = (open, inside, close = '') => open.repeat(MANY) + inside + close.repeat(MANY);
/** Sources that nest: the first kind is read by a parser with a stack, the second without. */
const DEEP = {
  parentheses: nest('(', '1', ')'), arrays: nest('[', '1', ']'), objects: nest('({a: ', '1', '})'), JSX: nest('<a>', 'x', '</a>'),
  arrows: nest('a => ', '1'), calls: nest('f(', '1', ')'), ternaries: nest('a ? b : ', '1'), unary: nest('!', '1'),
  assignments: nest('a = ', '1'), templates: nest('`${', '1', '}`'), patterns: `${nest('[', 'a', ']')} = 1`, awaits: nest('void ', '1'),
  functions: nest('function () { return ', '1', '}').replace(/^/, '(') + ')', ifs: nest('if (a) ', ';'), blocks: nest('{', '', '}'),
  classes: nest('(class { a = ', '1', '})'), loops: nest('for (;;) ', ';'), labels: Array.from({length: MANY}, (_, i) => `l${i}: `).join('') + ';',
};
const LONG = {
  sums: nest('1 + ', '1'), 'sums to the left': `1${' + a'.repeat(MANY)}`, members: `a${'.b'.repeat(MANY)}`, 'calls one behind the other': `a${'()'.repeat(MANY)}`,
  'optional chains': `a${'?.b'.repeat(MANY)}`, ands: `a${' && b'.repeat(MANY)}`, commas: `a${', b'.repeat(MANY)}`, tags: `a${'``'.repeat(MANY)}`,
  statements: 'a;'.repeat(MANY), elses: `${'if (a) b; else '.repeat(MANY)};`, strings: JSON.stringify('x'.repeat(MANY)),
};
const isStatement = text => /^(if|for|\{|l0:|a;)/.test(text);

for (const [name, text] of Object.entries({...DEEP, ...LONG})) {
  test(`10,000 levels: ${name}`, () => {
    for (const source of [`function f() {\n${isStatement(text) ? text : `return ${text}`}\n}\nfunction g() {}\n`, `${isStatement(text) ? text : `x = ${text}`}\nfunction g() {}\n`]) {
      const {functions, error} = answer({file: 'a.jsx', text: source});
      if (error) {
        assert.strictEqual(error.kind, 'syntax', error.message);
        assert.ok(error.line >= 1 && error.column >= 1 && error.offset <= source.length);
        assert.match(error.message, /nested too deeply/);
      } else {
        const g = functions.find(f => f.name === 'g');
        assert.ok(g.unit);
        for (const {refused} of functions) if (refused) assert.ok(/nested too deeply/.test(refused.reason) && refused.offset > 0);
      }
    }
  });
}

test('what nests too deeply is told where it does', () => {
  const text = `let a;\nconst b = ${DEEP.arrays};`;
  const {error} = answer({file: 'a.jsx', text});
  assert.strictEqual(error.line, 2);
  assert.ok(error.column > 100 && error.column < 2 * MANY);
});

test('long chains are lowered', () => {
  const sum = `a${' + a'.repeat(500)}`;
  const {functions} = answer({file: 'a.js', text: `function f(a) { return ${sum}; }`});
  assert.strictEqual(functions[0].unit.functions[0].instructions.filter(i => i.value.kind === 'BinaryExpression').length, 500);
});

const placed = (text, options) => answer({file: 'a.jsx', text, options});

test('a byte order mark is in offsets, and in no column', () => {
  const {functions: [f]} = placed('\ufefffunction f(a) {}');
  assert.deepStrictEqual(f.at, {line: 1, column: 1, offset: 3});
  assert.deepStrictEqual(f.unit.functions[0].params[0].slice(1), [14, 15]);
  assert.deepStrictEqual(placed('\ufefffunction f(a) {}', {offsets: 'utf16'}).functions[0].at.offset, 1);
  assert.deepStrictEqual(placed('\ufeff#!/usr/bin/node\nlet a = ;').error, {kind: 'syntax', message: 'Unexpected token', line: 2, column: 9, offset: 27});
});

test('lines end by CRLF too', () => {
  const {functions: [f, g]} = placed('function f() {}\r\n  function g() {}\r\n');
  assert.deepStrictEqual([f.at, g.at], [{line: 1, column: 1, offset: 0}, {line: 2, column: 3, offset: 19}]);
});

test('characters of several bytes', () => {
  const {functions: [f]} = placed('const é = "😀𝒳"; const f = () => "\u2028";');
  assert.deepStrictEqual(f.at, {line: 1, column: 29, offset: 33});
});

test('surrogates that stand alone', () => {
  const {functions: [f]} = placed('const a = "\ud800"; const f = () => "\udc00\ud800"; function g() {}');
  assert.deepStrictEqual(f.at, {line: 1, column: 26, offset: 27});
  assert.ok(f.unit);
  assert.strictEqual(JSON.parse(JSON.stringify(f.unit)).format, 1);
});

test('empty texts', () => {
  for (const text of ['', ' ', '\n', '\ufeff', '// a', '/* a */', '#!/usr/bin/node', '"use strict"']) assert.deepStrictEqual(placed(text).functions, [], text);
});

test('texts that are no program', () => {
  for (const text of ['(', '}', '`', '/*', '<a>', 'let let', '\\', '\u0000', 'function', 'class {', 'a b', '"', '\ufffe', '{{{', 'import', '@', '?.', 'x = {a: }']) {
    const {error} = placed(text);
    assert.strictEqual(error.kind, 'syntax', text);
    assert.ok(error.line >= 1 && error.column >= 1 && error.offset >= 0 && error.message.length > 3, text);
  }
});

test('files that are no text, too large, or not there', () => {
  const folder = fs.mkdtempSync(path.join(os.tmpdir(), 'input-'));
  const file = (name, content) => {
    fs.writeFileSync(path.join(folder, name), content);
    return path.join(folder, name);
  };
  const kind = name => answer({file: name}).error.kind;
  assert.strictEqual(kind(file('latin1.js', Buffer.from('const s = "\xe9"', 'latin1'))), 'nottext');
  assert.strictEqual(kind(file('utf16.js', Buffer.from('\ufefflet a;', 'utf16le'))), 'nottext');
  assert.strictEqual(kind(file('picture.js', Buffer.from([0x89, 0x50, 0x4e, 0x47, 0]))), 'nottext');
  assert.strictEqual(kind(file('nul.js', 'let a\u0000;')), 'nottext');
  assert.strictEqual(kind(file('large.js', ' '.repeat(MOST_BYTES + 1))), 'toolarge');
  assert.strictEqual(kind(path.join(folder, 'none.js')), 'unreadable');
  assert.strictEqual(kind(folder), 'unreadable');
  fs.rmSync(folder, {recursive: true});
});

test('no code of a file is run', () => {
  delete globalThis.wasRun;
  placed('globalThis.wasRun = 1; (() => { globalThis.wasRun = 2; })(); class A { static x = globalThis.wasRun = 3; }');
  placed('let a = ; globalThis.wasRun = 1;');
  assert.strictEqual(globalThis.wasRun, undefined);
});

test('random damage of a source', () => {
  const source = 'import a from "b"; export const C = ({x, ...y}) => { const [s, t] = useState(`${x}`); for (const i of y) { try { t(i?.[s]); } finally { a`b`; } } return <A {...y} b={/c/g}>d {s}</A>; };';
  for (let i = 0; i < 400; i++) {
    const at = (i * 7919) % source.length;
    const text = source.slice(0, at) + ['', '(', '}', '`', '<', '"', '\\', '/', 'await ', '...', '\ud800'][i % 11] + source.slice(at + 1 + (i % 3));
    const {error} = placed(text);
    if (error) assert.strictEqual(error.kind, 'syntax', `${error.message}\n${text}`);
  }
});
