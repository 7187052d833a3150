'use strict';
/**
 * A stand-in for ESLint 8 and 9, which Debian doesn't have: what these releases hand to a rule and take from it, and what
 * flat configurations may be, by their documentation. Whatever else is asked of a context throws, so that a rule which
 * goes by methods that are gone fails here.
 *
 * @typedef {{filename?: string, release?: 8 | 9}} How
 */
const {given} = require('./data.js');

const espree = given('espree');
const CONFIG_KEYS = new Set(['name', 'basePath', 'files', 'ignores', 'language', 'languageOptions', 'linterOptions', 'processor', 'plugins', 'rules', 'settings']);
const LANGUAGE_KEYS = new Set(['ecmaVersion', 'sourceType', 'globals', 'parser', 'parserOptions']);
const SEVERITIES = {off: 0, warn: 1, error: 2};

/** An object of which only what it has may be asked. @param {object} object @param {string} what */
function strict(object, what) {
  return new Proxy(Object.freeze(object), {get(target, key) {
    if (typeof key === 'string' && !(key in target)) throw new TypeError(`${what} has no \`${key}\``);
    return target[key];
  }});
}

/** A pattern of files: an ending, or several in braces. @param {string} pattern @param {string} filename */
function fits(pattern, filename) {
  const [, endings] = /^\*\*\/\*\.\{?([\w,]+)\}?$/.exec(pattern) || [];
  if (!endings) throw new Error(`the stand-in doesn't know the pattern ${pattern}`);
  return endings.split(',').some(ending => filename.endsWith(`.${ending}`));
}

function checked(config) {
  for (const key of Object.keys(config)) if (!CONFIG_KEYS.has(key)) throw new TypeError(`Unexpected key "${key}" found.`);
  if (Array.isArray(config.plugins)) throw new TypeError('Key "plugins": This appears to be in eslintrc format because `plugins` is an array.');
  for (const key of Object.keys(config.languageOptions || {})) if (!LANGUAGE_KEYS.has(key)) throw new TypeError(`Unexpected key "${key}" found.`);
  return config;
}

/** Those of a flat configuration that are for the file, as one. @param {Array<any>} configs @param {string} filename */
function merged(configs, filename) {
  const made = {languageOptions: {ecmaVersion: 2020, sourceType: 'module', parserOptions: {}}, plugins: {}, rules: {}, settings: {}};
  for (const config of configs.map(checked)) {
    if (config.files && !config.files.some(pattern => fits(pattern, filename))) continue;
    for (const part of ['languageOptions', 'plugins', 'rules', 'settings']) Object.assign(made[part], config[part]);
  }
  return made;
}

/** What a file is parsed to. ESLint hands it out frozen. */
function sourceCodeOf(given, languageOptions) {
  const text = given.replace(/^\ufeff/, '');
  const {parser = espree, ecmaVersion, sourceType, parserOptions} = languageOptions;
  const asked = {loc: true, range: true, tokens: true, comment: true, ecmaVersion, sourceType, ...parserOptions};
  const ast = parser.parseForESLint ? parser.parseForESLint(text, asked).ast : parser.parse(text, asked);
  return strict({text, ast, hasBOM: text !== given, lines: text.split(/\r\n|[\r\n\u2028\u2029]/), parserServices: {}, scopeManager: null, visitorKeys: {},
    getText: () => text}, 'the source code');
}

function filled(message, data = {}) {
  const text = message.replace(/\{\{\s*([^{}]+?)\s*\}\}/g, (whole, key) => (key in data ? data[key] : whole));
  if (typeof text !== 'string' || (Object.keys(data).length === 0 && /\{\{.*\}\}/.test(message))) throw new Error('The reported message has an unsubstituted placeholder.');
  return text;
}

/** What ESLint makes of a report. */
function problemOf(ruleId, severity, {loc, node, message, data, ...others}) {
  if (Object.keys(others).length > 0) throw new TypeError(`a report has no ${Object.keys(others)}`);
  if (typeof message !== 'string') throw new TypeError('Missing message.');
  const at = loc || node.loc;
  const start = at.start || at;
  const end = at.end ? {endLine: at.end.line, endColumn: at.end.column + 1} : {};
  return {ruleId, severity, message: filled(message, data), line: start.line, column: start.column + 1, ...end};
}

/** What a rule is made with: of 9 without the methods that are gone, of 8 in its first releases with them alone. */
function contextOf({id, options, report}, sourceCode, config, {filename, release}) {
  const of8 = {getSourceCode: () => sourceCode, getFilename: () => filename, parserOptions: config.languageOptions.parserOptions};
  const of9 = {sourceCode, filename, physicalFilename: filename, cwd: '/', languageOptions: config.languageOptions};
  const context = strict({id, options, settings: config.settings, report, ...(release === 8 ? of8 : of9)}, 'the context of a rule');
  // Before a release had `sourceCode`, asking for it gave undefined.
  return release === 8 ? new Proxy(context, {get: (target, key) => (key === 'sourceCode' ? undefined : target[key])}) : context;
}

/** A rule has to say which options it takes. @param {any} rule */
function checkRule(id, rule, options) {
  if (!rule) throw new TypeError(`Could not find "${id}".`);
  if (typeof rule !== 'object' || typeof rule.create !== 'function') throw new TypeError('a rule is an object with `create`');
  if (!rule.meta || !('schema' in rule.meta)) throw new TypeError('Key "schema" is missing.');
  if (options.length > 0 && Array.isArray(rule.meta.schema) && rule.meta.schema.length === 0) throw new TypeError(`Key "${id}": Value ${JSON.stringify(options)} should NOT have more than 0 items.`);
}

function visit(node, listeners) {
  if (listeners[node.type]) listeners[node.type](node);
  for (const [key, value] of Object.entries(node)) {
    if (key === 'parent') continue;
    for (const one of Array.isArray(value) ? value : [value]) if (one && typeof one.type === 'string' && key !== 'tokens' && key !== 'comments') visit(one, listeners);
  }
  if (listeners[`${node.type}:exit`]) listeners[`${node.type}:exit`](node);
}

/**
 * What a run of such a release reports of a text, by a flat configuration.
 * @param {string} text @param {Array<any>} configs @param {How} how
 */
function verify(text, configs, how = {}) {
  const {filename = 'file.js', release = 9} = how;
  const config = merged(configs, filename);
  const sourceCode = sourceCodeOf(text, config.languageOptions);
  const problems = [];
  for (const [id, level] of Object.entries(config.rules)) {
    const [given, ...options] = Array.isArray(level) ? level : [level];
    const severity = SEVERITIES[given] ?? given;
    if (severity === 0) continue;
    const [plugin, name] = id.split('/');
    const rule = (config.plugins[plugin] || {rules: {}}).rules[name];
    checkRule(id, rule, options);
    const report = (...args) => problems.push(problemOf(id, severity, args[0]));
    visit(sourceCode.ast, strictListeners(rule.create(contextOf({id, options, report}, sourceCode, config, {filename, release}))));
  }
  return problems.sort((a, b) => a.line - b.line || a.column - b.column);
}

/** Listeners are functions by what they wait for. @param {any} listeners */
function strictListeners(listeners) {
  for (const [key, value] of Object.entries(listeners)) if (typeof value !== 'function') throw new TypeError(`the listener of ${key} is no function`);
  return listeners;
}

module.exports = {verify};
