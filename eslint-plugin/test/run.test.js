'use strict';
/** ESLint's own program over fixtures, with the form `unix`. */
const test = require('node:test');
const assert = require('node:assert');
const {spawnSync} = require('node:child_process');
const fs = require('node:fs');
const os = require('node:os');
const path = require('node:path');
const {eslint, skip, FIXTURES} = require('./data.js');

const major = eslint ? Number(eslint.Linter.version.split('.')[0]) : 0;
const why = skip || (major < 9 ? false : 'this eslint has neither `.eslintrc` nor the form `unix`');

/** What eslint prints of fixtures, with a configuration of the old form that a user would have. */
function printed(files, config) {
  const folder = fs.mkdtempSync(path.join(os.tmpdir(), 'eslint-'));
  try {
    fs.mkdirSync(path.join(folder, 'node_modules'));
    fs.symlinkSync(path.join(__dirname, '..'), path.join(folder, 'node_modules/eslint-plugin-jirrambeo'));
    fs.writeFileSync(path.join(folder, '.eslintrc.json'), JSON.stringify({root: true,
      parserOptions: {ecmaVersion: 2020, sourceType: 'module', ecmaFeatures: {jsx: true}}, ...config}));
    for (const file of files) fs.copyFileSync(path.join(FIXTURES, file), path.join(folder, file));
    const program = path.join(path.dirname(require.resolve('eslint/package.json')), 'bin/eslint.js');
    const {stdout, stderr, status} = spawnSync(process.execPath, [program, '--format', 'unix', ...files], {cwd: folder, encoding: 'utf8'});
    return {text: stdout.split(`${fs.realpathSync(folder)}/`).join('').split(`${folder}/`).join(''), stderr, status};
  } finally {
    fs.rmSync(folder, {recursive: true});
  }
}

test('the configuration `recommended` on a component', {skip: why}, () => {
  const {text, stderr, status} = printed(['Card.jsx'], {extends: ['plugin:jirrambeo/recommended']});
  assert.strictEqual(stderr, '');
  assert.strictEqual(text, fs.readFileSync(path.join(FIXTURES, 'Card.txt'), 'utf8'));
  assert.strictEqual(status, 1);
});

test('`report-unsupported`, and a comment that disables', {skip: why}, () => {
  const {text, stderr, status} = printed(['unsupported.jsx'], {extends: ['plugin:jirrambeo/recommended'], rules: {'jirrambeo/report-unsupported': 'warn'}});
  assert.strictEqual(stderr, '');
  assert.strictEqual(text, 'unsupported.jsx:1:8: This function isn\'t analysed: a generator. [Warning/jirrambeo/report-unsupported]\n\n1 problem\n');
  assert.strictEqual(status, 0);
});
