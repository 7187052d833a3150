'use strict';
/** What the tests share: ESLint, where it is, and whether the inference is there. */
const fs = require('node:fs');
const path = require('node:path');
const {Module} = require('node:module');

process.env.NODE_PATH = [process.env.NODE_PATH, '/usr/share/nodejs'].filter(Boolean).join(':'); // where Debian's modules look
/** @type {any} */ (Module)._initPaths();
const {ADDON} = require('../src/parts.js');

// Debian's @babel/eslint-parser asks for the classes of eslint-scope under a name that no package of Debian has.
const LACKING = '@nicolo-ribaudo/eslint-scope-5-internals';
const {_resolveFilename: find} = /** @type {any} */ (Module);
/** @type {any} */ (Module)._resolveFilename = (name, ...more) => {
  try {
    return find(name, ...more);
  } catch (error) {
    if (name !== LACKING) throw error;
    return find('eslint-scope', ...more);
  }
};

/** A module that may not be there. @returns {any} */
function given(name) {
  try {
    return require(name);
  } catch (error) {
    if (error.code !== 'MODULE_NOT_FOUND') throw error;
    return null;
  }
}

const eslint = given('eslint');
const isThere = fs.existsSync(ADDON);
/** What `node --test` says of a test that wants ESLint and the inference. */
const skip = !eslint ? 'eslint is not there' : !isThere ? 'the inference is not built: hosts/build' : false;
const plugin = /** @type {any} */ (require('../src/index.js'));

const PARSER_OPTIONS = {ecmaVersion: 2020, sourceType: 'module', ecmaFeatures: {jsx: true}};

/** A linter with all rules, in the old form or the new. */
function linterOf(from = plugin) {
  const linter = new eslint.Linter({configType: 'eslintrc'});
  for (const [name, rule] of Object.entries(from.rules)) linter.defineRule(`jirrambeo/${name}`, rule);
  return linter;
}

/** @param {string} text @param {object} [rules] @param {object} [more] of the configuration @param {any} [from] another one */
function messages(text, rules = plugin.configs.recommended.rules, more = {}, from = plugin) {
  return linterOf(from).verify(text, {parserOptions: PARSER_OPTIONS, rules, ...more}, {filename: 'file.js'});
}

module.exports = {eslint, skip, plugin, PARSER_OPTIONS, linterOf, messages, given, FIXTURES: path.join(__dirname, 'fixtures')};
