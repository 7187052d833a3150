'use strict';
/** Text to a Babel tree. Nothing else of Babel is used: scopes are those of scope.js. */

/** A module, or where Debian has it. @param {string} name */
function moduleOf(name) {
  try {
    return require(name);
  } catch {
    return require(`/usr/share/nodejs/${name}`);
  }
}

const {unmarked} = require('./positions.js');

const COMMON = ['jsx', 'decorators-legacy', 'classProperties', 'exportDefaultFrom'];

/** Ways to read the file, in order. */
function pluginsOf(text, filename) {
  if (/\.[mc]?ts$/.test(filename)) return [COMMON.filter(x => x !== 'jsx').concat('typescript')];
  if (/\.tsx$/.test(filename)) return [COMMON.concat('typescript')];
  if (/@flow/.test(text.slice(0, 2000))) return [COMMON.concat('flow'), COMMON];
  return [COMMON, COMMON.concat('flow'), COMMON.concat('typescript')];
}

/** The least part of the text, from its beginning, that is nested too deeply to be read. */
function tooDeep(text, read) {
  const isDeep = length => {
    try {
      read(text.slice(0, length));
      return false;
    } catch (error) {
      return error instanceof RangeError;
    }
  };
  let low = 0;
  let high = text.length;
  while (low < high) {
    const middle = (low + high) >> 1;
    if (isDeep(middle)) high = middle;
    else low = middle + 1;
  }
  return Object.assign(new SyntaxError('It is nested too deeply'), {pos: Math.max(0, low - 1)});
}

/**
 * @param {string} text
 * @param {string} filename its ending says whether types are TypeScript's; `.js` and `.jsx` are read as
 *   plain, and as Flow where they have `@flow` or don't parse otherwise
 * @returns {{type: string, program: import('./syntax.js').Node}} the tree; throws a SyntaxError with `pos`
 */
function parse(text, filename = 'file.jsx') {
  const {parse: read} = moduleOf('@babel/parser');
  let first = null;
  for (const plugins of pluginsOf(text, filename)) {
    for (const sourceType of ['module', 'script']) {
      const readAs = given => read(given, {sourceType, plugins, allowReturnOutsideFunction: true,
        allowSuperOutsideMethod: true, allowUndeclaredExports: true, allowNewTargetOutsideFunction: true});
      try {
        return readAs(unmarked(text));
      } catch (error) {
        if (error instanceof RangeError) throw tooDeep(unmarked(text), readAs);
        first = first || error;
      }
    }
  }
  throw first;
}

module.exports = {parse, moduleOf};
