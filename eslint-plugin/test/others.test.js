'use strict';
/**
 * Functions that are no components and no hooks are passed over: here they are inferred too, and none of them has a
 * report but that it isn't analysed.
 */
const test = require('node:test');
const assert = require('node:assert');
const fs = require('node:fs');
const path = require('node:path');
const {skip, given} = require('./data.js');
const {analysis, wantAll, UNSUPPORTED} = require('../src/analysis.js');
const {unitsOf} = require('../../frontend/src/index.js');
const {parse} = require('../../frontend/src/parse.js');
const {program} = require('../../frontend/tools/programs.js');
const {BY_HAND} = require('../../frontend/test/data/byhand.js');
const {WRONG, RIGHT} = require('../../frontend/test/data/react.js');

const why = skip || (given('@babel/parser') ? false : 'the parser is not there');
const TOP = path.join(__dirname, '../..');
const FOLDERS = (process.env.JIRRAMBEO_SAMPLES || path.join(TOP, 'examples')).split(':');
const ENDING = /\.[jt]sx?$/;

/** @returns {Array<string>} the sources in a folder */
function filesIn(folder) {
  return fs.readdirSync(folder, {withFileTypes: true}).flatMap(one => {
    const file = path.join(folder, one.name);
    return one.isDirectory() ? filesIn(file) : one.isFile() && ENDING.test(one.name) ? [file] : [];
  });
}

/** The text, where the parser reads it. @param {string} text @param {string} [filename] */
function treeOf(text, filename) {
  try {
    return {ast: parse(text, filename).program, text};
  } catch (error) {
    if (!(error instanceof SyntaxError)) throw error;
    return null;
  }
}

/** All that is reported of a text with all functions, and of it without the others. */
function assertSame(text, filename) {
  const all = treeOf(text, filename);
  const few = treeOf(text, filename);
  if (!all || !few) return false;
  wantAll(all);
  const said = analysis(all).filter(one => one.category !== UNSUPPORTED);
  assert.deepStrictEqual(said, analysis(few).filter(one => one.category !== UNSUPPORTED), filename || text);
  return true;
}

/** A case whose component or hook has a name that is none. */
const asOther = source => source.replace(/\b(function|const|let) (use)?([A-Z])/g, '$1 helper$3');

test('what is reported as a component or hook isn\'t where the function is neither', {skip: why}, () => {
  let count = 0;
  for (const {source} of [...WRONG, ...RIGHT]) {
    const text = asOther(source);
    if (!treeOf(text) || unitsOf(text).some(one => one.kind !== 'other')) continue;
    assertSame(text);
    count++;
  }
  assert.ok(count >= 40, `${count}`);
});

test('the cases of the tables, as they are', {skip: why}, () => {
  for (const text of [...WRONG, ...RIGHT].map(one => one.source).concat(Object.values(BY_HAND))) assertSame(text);
});

test('random programs', {skip: why}, () => {
  for (let seed = 300; seed < 330; seed++) assertSame(program(seed));
});

test('files: those of examples/, or of the folders JIRRAMBEO_SAMPLES', {skip: why}, () => {
  let count = 0;
  for (const file of FOLDERS.flatMap(filesIn)) if (assertSame(fs.readFileSync(file, 'utf8'), file)) count++;
  assert.ok(count > 0);
});
