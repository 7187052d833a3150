'use strict';
/**
 * What the inference says of units, by the addon, in this process.
 *
 * @typedef {{status: number, text: string}} Answer
 * @typedef {{codes: Int32Array, texts: () => Buffer, lines: () => Buffer, bytes: () => Buffer}} Codes of a unit, as the front end has them
 */
const fs = require('fs');
const {ADDON} = require('./parts.js');

const MISSING = 'eslint-plugin-jirrambeo: the inference isn\'t there. `hosts/build` makes it in a checkout of Jirrambeo; a package has it for Linux on x86-64';

/**
 * What `lint` says of units, which are told one by one: each is inferred on another thread while the next is made.
 * @param {string} [addon] where it is
 */
function linting(addon = ADDON) {
  let library = null;
  let calls = null;
  return {
    /** @param {Codes} unit */
    put(unit) {
      if (calls === null) {
        if (!fs.existsSync(addon)) throw new Error(MISSING);
        library = require(addon);
        calls = library.begin('lint');
      }
      library.putCodes(calls, unit.codes, unit.texts(), unit.lines());
    },
    /** @returns {Array<Answer>} of each unit */
    answers: () => (calls === null ? [] : library.answers(calls).map(([status, text]) => ({status, text: text.toString()}))),
  };
}

module.exports = {linting};
