'use strict';
/** The plugin around the rules: one analysis a file, configurations, comments, parsers, refusals, what isn't there. */
const test = require('node:test');
const assert = require('node:assert');
const {eslint, skip, plugin, PARSER_OPTIONS, linterOf, messages, given: parser} = require('./data.js');
const {analysis, wantAll} = require('../src/analysis.js');
const {parse} = require('../../frontend/src/parse.js');
const {linting} = require('../src/inference.js');

const PROPS = 'function C(props) {\n  props.n = 1;\n  return <b>{props.n}</b>;\n}\n';

test('one analysis a file, however many rules', {skip}, () => {
  const linter = linterOf();
  let first;
  let asked = 0;
  linter.defineRule('ask', {create: context => {
    asked++;
    const found = analysis(context.sourceCode || context.getSourceCode());
    first = first || found;
    assert.strictEqual(found, first);
    return {};
  }});
  const levels = {...plugin.configs.recommended.rules, ask: 'error'};
  const found = linter.verify(PROPS, {parserOptions: PARSER_OPTIONS, rules: levels});
  assert.deepStrictEqual([asked, found.length], [1, 1]);
});

test('a report has its whole place and says what helps', {skip}, () => {
  const [{ruleId, message, line, column, endLine, endColumn}, ...more] = messages(PROPS);
  assert.deepStrictEqual(more, []);
  assert.deepStrictEqual([ruleId, line, column, endLine, endColumn], ['jirrambeo/immutability', 2, 3, 2, 8]);
  assert.strictEqual(message, 'This value cannot be modified. ' +
    'Modifying component props or hook arguments is not allowed. Consider using a local variable instead.');
});

test('other labels stand in the message, with their lines', {skip}, () => {
  const found = messages('function C() {\n  const l = [];\n  return <b onClick={() => {\n    l.push(1);\n  }}>{l}</b>;\n}\n');
  assert.deepStrictEqual(found.map(({line, column}) => [line, column]), [[3, 22]]);
  assert.match(found[0].message, / Line 4: This modifies `l`\. /);
});

test('places count as the editor does', {skip}, () => {
  const text = 'const é = "𝒳𝒳"; function C(props) { /* ü𝒳 */ props.n = 1; return <b/>; }';
  const [{line, column}] = messages(text);
  assert.deepStrictEqual([line, column], [1, text.indexOf('props.n') + 1]);
  const [marked] = messages(`\ufeff${PROPS}`);
  assert.deepStrictEqual([marked.line, marked.column], [2, 3]);
  const [returned] = messages(PROPS.replace(/\n/g, '\r\n'));
  assert.deepStrictEqual([returned.line, returned.column], [2, 3]);
});

test('comments that disable work', {skip}, () => {
  const disabled = '// eslint-disable-next-line jirrambeo/immutability\n  props.n';
  assert.deepStrictEqual(messages(PROPS.replace('props.n', disabled)), []);
  assert.deepStrictEqual(messages(`/* eslint-disable jirrambeo/immutability */\n${PROPS}`), []);
  assert.strictEqual(messages(`/* eslint-disable jirrambeo/globals */\n${PROPS}`).length, 1);
});

test('what isn\'t analysed is told by `report-unsupported` alone', {skip}, () => {
  const text = `function* g() { yield 1; }\n${PROPS}`;
  assert.deepStrictEqual(messages(text).map(m => m.line), [3]);
  const found = messages(text, {'jirrambeo/report-unsupported': 'warn'});
  assert.deepStrictEqual(found.map(m => [m.line, m.message]), [[1, 'This function isn\'t analysed: a generator.']]);
});

test('a file without components and hooks is passed over, whatever it has, unless all is asked for', {skip: parser('@babel/parser') ? false : 'the parser is not there'}, () => {
  const text = 'import {useTable} from "table";\nfunction* g() {}\nfunction help(a) { useState(a).x = 1; outer = Math.random(); }\n';
  const sourceCode = {ast: parse(text).program, text};
  assert.deepStrictEqual(analysis(sourceCode), []);
  const generator = {ast: parse('function* g() {}').program, text: 'function* g() {}'};
  assert.deepStrictEqual(analysis(generator), []);
  wantAll(generator);
  wantAll(generator);
  assert.deepStrictEqual(analysis(generator).map(one => one.message), ['This function isn\'t analysed: a generator.']);
  assert.strictEqual(analysis(generator), analysis(generator));
});

test('a function that calls what can\'t be memoized is told of, though it is no component', {skip}, () => {
  const text = 'import {useReactTable} from "@tanstack/react-table";\nfunction help(x) {\n  return useReactTable(x);\n}\n';
  assert.deepStrictEqual(messages(text).map(one => [one.ruleId, one.line]), [['jirrambeo/incompatible-library', 3]]);
});

test('`report-unsupported` tells of all functions, whichever rule is asked first', {skip}, () => {
  const levels = plugin.configs.recommended.rules;
  const text = `function* g() { yield 1; }\n${PROPS}`;
  for (const rules of [{...levels, 'jirrambeo/report-unsupported': 'warn'}, {'jirrambeo/report-unsupported': 'warn', ...levels}]) {
    assert.deepStrictEqual(messages(text, rules).map(one => [one.ruleId, one.line]), [['jirrambeo/report-unsupported', 1], ['jirrambeo/immutability', 3]]);
  }
});

test('a file that doesn\'t parse has ESLint\'s own report', {skip}, () => {
  assert.deepStrictEqual(messages('function (').map(m => m.fatal), [true]);
  assert.deepStrictEqual(messages(''), []);
});

test('the configurations name the rules that are there', () => {
  const {recommended, 'flat/recommended': flat} = plugin.configs;
  assert.deepStrictEqual(recommended.plugins, ['jirrambeo']);
  assert.strictEqual(flat.plugins.jirrambeo, plugin);
  assert.deepStrictEqual(flat.rules, recommended.rules);
  for (const name of Object.keys(flat.rules)) assert.ok(plugin.rules[name.replace('jirrambeo/', '')], name);
  assert.ok(!('jirrambeo/report-unsupported' in flat.rules));
});

test('a flat configuration works', {skip: skip || (Number(eslint.Linter.version.split('.')[0]) >= 8 ? false : 'this eslint has no flat configurations')}, () => {
  const linter = new eslint.Linter({configType: 'flat'});
  const found = linter.verify(PROPS, [{files: ['**/*.js'], languageOptions: {parserOptions: {ecmaFeatures: {jsx: true}}}}, plugin.configs['flat/recommended']], 'a.js');
  assert.deepStrictEqual(found.map(m => m.ruleId), ['jirrambeo/immutability']);
});

test('a tree of Babel\'s parser with its plugin `estree`, with types', {skip: skip || (parser('@babel/parser') ? false : 'the parser is not there')}, () => {
  const linter = linterOf();
  const parse = plugins => ({parse(text) {
    const {program, comments} = parser('@babel/parser').parse(text, {sourceType: 'module', ranges: true, plugins: ['estree', 'jsx', ...plugins]});
    return Object.assign(program, {tokens: [], comments: comments.map(c => ({...c, range: [c.start, c.end], type: c.type.replace('Comment', '')}))});
  }});
  linter.defineParser('flow', parse(['flow']));
  linter.defineParser('typescript', parse(['typescript']));
  const verify = (name, text) => linter.verify(text, {parser: name, rules: plugin.configs.recommended.rules, parserOptions: PARSER_OPTIONS});
  const flow = verify('flow', '// @flow\nfunction C(props: {n?: ?number}) {\n  props.n = 1;\n  return <b>{props?.n}</b>;\n}\n');
  const typed = verify('typescript', 'export function C<T>(props: {n: T}) {\n  (props as any).n = 1;\n  return <b>{props!.n}</b>;\n}\n');
  assert.deepStrictEqual(flow.map(m => [m.ruleId, m.line]), [['jirrambeo/immutability', 3]]);
  assert.deepStrictEqual(typed.map(m => [m.ruleId, m.line]), [['jirrambeo/immutability', 2]]);
});

test('@babel/eslint-parser', {skip: skip || (parser('@babel/eslint-parser') ? false : 'the parser is not there')}, () => {
  const linter = linterOf();
  linter.defineParser('babel', parser('@babel/eslint-parser'));
  const config = plugins => ({parser: 'babel', rules: plugin.configs.recommended.rules,
    parserOptions: {requireConfigFile: false, sourceType: 'module', babelOptions: {parserOpts: {plugins}}}});
  const flow = linter.verify('// @flow\nfunction C(props: {n?: ?number}) {\n  props.n ??= 1;\n  return <b>{props?.n}</b>;\n}\n', config(['jsx', 'flow']));
  const typed = linter.verify('export function C<T>(props: {n: T}) {\n  (props as any).n = 1;\n  return <b>{props!.n}</b>;\n}\n', config(['jsx', 'typescript']));
  assert.deepStrictEqual(flow.map(m => [m.ruleId, m.line]), [['jirrambeo/immutability', 3]]);
  assert.deepStrictEqual(typed.map(m => [m.ruleId, m.line]), [['jirrambeo/immutability', 2]]);
});

test('@typescript-eslint/parser', {skip: skip || (parser('@typescript-eslint/parser') ? false : 'the parser is not there')}, () => {
  const linter = linterOf();
  linter.defineParser('typescript', parser('@typescript-eslint/parser'));
  const found = linter.verify('export function C<T>(props: {n: T}) {\n  (props as any).n = 1;\n  return <b>{props!.n}</b>;\n}\n',
    {parser: 'typescript', rules: plugin.configs.recommended.rules, parserOptions: PARSER_OPTIONS});
  assert.deepStrictEqual(found.map(m => [m.ruleId, m.line]), [['jirrambeo/immutability', 2]]);
});

test('without the inference a sentence says what to do', () => {
  assert.throws(() => linting('/nowhere').put(Buffer.from('{}')), /the inference isn't there\. `hosts\/build` makes it/);
});
