'use strict';
/**
 * The front end as one script, and the code that V8 made of it. A pack has both: a file is read in place of forty, and
 * where the V8 is the same nothing has to be compiled that was compiled here.
 */
const fs = require('fs');
const path = require('path');
const vm = require('vm');

const TOP = path.join(__dirname, '..');
const FROM = path.join(TOP, 'frontend/src');
const TABLES = path.join(TOP, 'frontend/test/data');
const REQUEST = /\brequire\('(\.[^']*)'\)/g;

/** The modules that are reached from the first, each with what it asks for. @param {string} first */
function modulesFrom(first) {
  /** @type {Map<string, {text: string, requests: Record<string, string>}>} */
  const found = new Map();
  const left = [first];
  for (let name = left.pop(); name; name = left.pop()) {
    if (found.has(name)) continue;
    const text = fs.readFileSync(path.join(FROM, name), 'utf8');
    /** @type {Record<string, string>} */
    const requests = {};
    for (const [, request] of text.matchAll(REQUEST)) requests[request] = path.posix.join(path.posix.dirname(name), request);
    found.set(name, {text, requests});
    left.push(...Object.values(requests));
  }
  return found;
}

/** A script whose value is a function: it is handed Node's `require`, and gives what the first module exports. */
function bundled(first = 'index.js') {
  const makers = [...modulesFrom(first)].map(([name, {text, requests}]) => (
    `${JSON.stringify(name)}: [${JSON.stringify(requests)}, function (module, exports, require) {${text}\n}]`));
  return `(function (outer) {
'use strict';
const made = {};
const makers = {${makers.join(',\n')}};
function load(name) {
  if (made[name]) return made[name].exports;
  const module = made[name] = {exports: {}};
  const [requests, make] = makers[name];
  make(module, module.exports, request => (requests[request] ? load(requests[request]) : outer(request)));
  return module.exports;
}
return load(${JSON.stringify(first)});
})`;
}

/** What no case of the tests has, and many a file. */
const BESIDES = ['export function C() { return <>text</>; }'];

/** Has functions of the front end run, so that V8 compiles them: over the cases of its tests, as the plugin does too. */
function used({unitsOf, unitsOfProgram, isIncompatible, reports, Positions}) {
  const {moduleOf} = require('../frontend/src/parse.js');
  const {WRONG, RIGHT} = require(path.join(TABLES, 'react.js'));
  const {BY_HAND} = require(path.join(TABLES, 'byhand.js'));
  const options = {offsets: 'utf16', as: 'bytes', others: 'none'};
  const each = ({unit}) => unit && [unit.texts(), unit.lines(), unit.bytes()];
  isIncompatible('react');
  reports(['lint root 1 0 Immutability "a text" - 0..1 "a text"'], () => null, new Positions('text', 'utf16'));
  for (const text of [...WRONG, ...RIGHT].map(one => one.source).concat(Object.values(BY_HAND), BESIDES)) {
    try {
      const {program} = moduleOf('@babel/parser').parse(text, {sourceType: 'module', plugins: ['jsx', 'estree']});
      unitsOfProgram(program, text, options);
      unitsOfProgram(program, text, {...options, as: 'codes', each});
      unitsOf(text, {...options, others: 'nested'});
    } catch (error) {
      if (!(error instanceof SyntaxError)) throw error;
    }
  }
}

/** @param {string} file where the script will stand; its code stands in a file of the same name with `.code` behind */
function write(file) {
  const text = bundled();
  fs.writeFileSync(file, text);
  const script = new vm.Script(text, {filename: file});
  try {
    used(script.runInThisContext()(require));
  } catch (error) {
    if (error.code !== 'MODULE_NOT_FOUND') throw error; // the parser; code has less in it then
  }
  fs.writeFileSync(`${file}.code`, script.createCachedData());
}

module.exports = {write};
