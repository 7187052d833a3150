'use strict';
/**
 * The front end: modules in the repository, and in a pack one script, with the code that V8 made of it when it was packed
 * (bundle.js). Another V8 takes no such code, and makes its own.
 */
const fs = require('fs');
const path = require('path');
const vm = require('vm');
const {BUNDLE, MODULES} = require('./parts.js');

/** @param {string} file */
function codeOf(file) {
  try {
    return fs.readFileSync(`${file}.code`);
  } catch {
    return undefined;
  }
}

/** @param {string} file a script that bundle.js wrote */
function load(file) {
  const script = new vm.Script(fs.readFileSync(file, 'utf8'), {filename: file, cachedData: codeOf(file)});
  return {front: script.runInThisContext()(require), isRejected: script.cachedDataRejected};
}

const {unitsOfProgram, isIncompatible, reports, sourceMap, Positions} = BUNDLE ? load(BUNDLE).front
  : require(path.join(MODULES, 'index.js'));

module.exports = {unitsOfProgram, isIncompatible, reports, sourceMap, Positions, load};
