'use strict';
/** ESLint 8 and 9, by a stand-in for what they hand to a rule: the same is reported as by the ESLint that is there. */
const test = require('node:test');
const assert = require('node:assert');
const fs = require('node:fs');
const path = require('node:path');
const {skip, plugin, PARSER_OPTIONS, messages, given} = require('./data.js');
const {verify} = require('./standin.js');
const {WRONG, RIGHT} = require('../../frontend/test/data/react.js');

const why = skip || (given('espree') ? false : 'espree is not there');
const {'flat/recommended': recommended} = plugin.configs;
const JSX = {files: ['**/*.{js,jsx}'], languageOptions: {parserOptions: {ecmaFeatures: {jsx: true}}}};
const PROPS = 'function C(props) {\n  props.n = 1;\n  return <b>{props.n}</b>;\n}\n';

const placed = ({ruleId, message, line, column, endLine, endColumn}) => ({ruleId, message, line, column, endLine, endColumn});
const sorted = list => list.map(one => JSON.stringify(placed(one))).sort();

/** Whether the parser that is there reads it. @param {string} source */
function isRead(source) {
  try {
    return Boolean(given('espree').parse(source, PARSER_OPTIONS));
  } catch {
    return false;
  }
}

for (const release of /** @type {Array<8 | 9>} */ ([8, 9])) {
  test(`release ${release} reports what the ESLint that is there does, of each case`, {skip: why}, () => {
    let count = 0;
    for (const {source} of [...WRONG, ...RIGHT]) {
      if (!isRead(source)) continue;
      assert.deepStrictEqual(sorted(verify(source, [JSX, recommended], {release})), sorted(messages(source)), source);
      count++;
    }
    assert.ok(count >= 100, `${count}`);
  });
}

/** The configuration that a README shows. @param {string} file */
function shown(file) {
  const text = fs.readFileSync(path.join(__dirname, file), 'utf8');
  const [, code] = /```js\n([^`]*module\.exports[^`]*)```/.exec(text) || [];
  const made = {exports: null};
  new Function('module', 'require', code)(made, name => (name === 'eslint-plugin-jirrambeo' ? plugin : null));
  return made.exports;
}

test('the flat configuration that is shown to users', {skip: why}, () => {
  assert.deepStrictEqual(verify(PROPS, shown('../README.md'), {filename: 'a.jsx'}).map(one => one.ruleId), ['jirrambeo/immutability']);
});

test('flat configurations', {skip: why}, () => {
  assert.deepStrictEqual(verify(PROPS, [JSX, recommended]).map(one => one.ruleId), ['jirrambeo/immutability']);
  assert.deepStrictEqual(verify(PROPS, [JSX, recommended, {rules: {'jirrambeo/immutability': 'off'}}]), []);
  const unsupported = {rules: {'jirrambeo/report-unsupported': 'warn'}};
  assert.deepStrictEqual(verify('function* g() {}\n', [JSX, recommended, unsupported]).map(one => [one.ruleId, one.severity]), [['jirrambeo/report-unsupported', 1]]);
  assert.deepStrictEqual(verify('\ufefffunction C(props) { props.n = 1; return <b/>; }', [JSX, recommended]).map(one => one.column), [21]);
});

test('no rule takes options, and each says so', {skip: why}, () => {
  for (const name of Object.keys(plugin.rules)) {
    assert.throws(() => verify(PROPS, [JSX, recommended, {rules: {[`jirrambeo/${name}`]: ['error', {}]}}]), /should NOT have more than 0 items/);
  }
  assert.throws(() => verify(PROPS, [JSX, recommended, {rules: {'jirrambeo/other': 'error'}}]), /Could not find "jirrambeo\/other"/);
});

test('the configuration of the old form is none of the new', {skip: why}, () => {
  assert.throws(() => verify(PROPS, [JSX, plugin.configs.recommended]), /eslintrc format/);
});

test('@babel/eslint-parser in a flat configuration', {skip: why || (given('@babel/eslint-parser') ? false : 'the parser is not there')}, () => {
  const config = plugins => ({files: ['**/*.js'], languageOptions: {parser: given('@babel/eslint-parser'),
    parserOptions: {requireConfigFile: false, sourceType: 'module', babelOptions: {parserOpts: {plugins}}}}});
  const flow = '// @flow\nfunction C(props: {n?: ?number}) {\n  props.n ??= 1;\n  return <b>{props?.n}</b>;\n}\n';
  const typed = 'export function C<T>(props: {n: T}) {\n  (props as any).n = 1;\n  return <b>{props!.n}</b>;\n}\n';
  assert.deepStrictEqual(verify(flow, [config(['jsx', 'flow']), recommended]).map(one => [one.ruleId, one.line]), [['jirrambeo/immutability', 3]]);
  assert.deepStrictEqual(verify(typed, [config(['jsx', 'typescript']), recommended]).map(one => [one.ruleId, one.line]), [['jirrambeo/immutability', 2]]);
});
