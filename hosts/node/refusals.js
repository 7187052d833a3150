'use strict';
/** Why there is no result: a class with the status, and what its line says. */
const {Line, Unreadable} = require('./lines.js');

/** What each status means; docs/FORMAT.md, Statuses. @type {Record<number, string>} */
const MEANS = {
  2: 'the words are no command',
  3: 'the unit is no JSON, or nests deeper than 127 levels',
  4: 'the unit is JSON, and the value at this JSON Pointer doesn\'t fit a unit',
  5: 'the unit breaks the rule of this number',
  6: 'the unit can\'t be inferred',
  9: 'the input has more than 16,777,216 bytes',
  10: 'memory ran out',
  12: 'this line of the certificate isn\'t in its grammar',
  13: 'the certificate isn\'t one of the unit',
  14: 'the identifier doesn\'t stand in the function',
  15: 'it isn\'t known whether the unit is plain',
  16: 'this line of the certificate isn\'t the one that follows',
};

/** What stands behind the number of a rule of units, or of a fault of a certificate, where it isn't `function` alone. */
const FIT = {
  1: ['table', 'number'], 3: ['function', 'block', 'named'], 6: ['number'], 7: ['function', 'instruction'], 8: ['function', 'instruction'],
  9: ['function', 'handler'], 10: ['function', 'block', 'named'], 11: ['function', 'order'], 12: [], 13: ['function', 'identifier'],
  14: ['identifier', 'function'], 15: ['holder', 'number'],
};
const FAULTS = {
  1: ['position'], 2: ['function'], 4: ['function'], 5: ['function'], 9: ['function', 'block', 'successor'], 11: ['function'], 12: ['counter'],
};
/** What stands behind the name of a cause of the inference, or of `plain`. */
const CAUSES = {
  Reinitialized: ['function', 'instruction', 'identifier'], AliasBeforeCreate: ['function', 'instruction', 'identifier'],
  IncompatibleLibrary: ['function', 'instruction'], SpreadArgument: ['function', 'instruction'], TooMany: ['counter'],
  Uninitialized: ['function', 'block', 'identifier'], NotSettled: ['function', 'visits'], UnreplacedApply: ['instruction'],
  EffectsNotInferred: ['identifier'],
};
const WORDS = new Set(['table', 'counter', 'holder']);

/** The fields of these names. @param {Line} line @param {Array<string>} names */
function fields(line, names) {
  const found = {};
  for (const name of names) {
    if (name === 'function') found[name] = line.fn();
    else if (name === 'holder') {
      const word = line.word();
      found[name] = word === 'root' || word === 'signature' ? word : line.numberOf(word);
    } else found[name] = WORDS.has(name) ? line.word() : line.number();
  }
  return found;
}

/** @param {Line} line @param {string} name */
function dataOf(line, name) {
  switch (name) {
    case 'Words': case 'NotJson': case 'TooLong': case 'NotHere': return {};
    case 'NotUnit': return {pointer: line.quoted(), rule: line.word()};
    case 'BadLine': return {line: line.number()};
    case 'Differs': return {line: line.number(), follows: line.isAtEnd() ? null : line.rest()};
    case 'Unfit': {
      const rule = line.number();
      return {rule, ...fields(line, FIT[rule] || ['function'])};
    }
    case 'Rejected': {
      const fault = line.number();
      return {fault, ...fields(line, FAULTS[fault] || ['function', 'block'])};
    }
    case 'PlainRefused': {
      const cause = line.word();
      return {cause, ...fields(line, cause === 'TooMany' ? ['counter'] : ['function'])};
    }
    default: return CAUSES[name] ? fields(line, CAUSES[name]) : line.fail();
  }
}

class JirrambeoError extends Error {
  /** @param {number} status but 0 @param {string} text of the run */
  constructor(status, text) {
    const line = text.replace(/\n$/, '');
    super(`${MEANS[status] || `status ${status}`}${line ? ` (${line})` : ''}`);
    this.name = 'JirrambeoError';
    this.status = status;
    this.line = line;
    /** @type {string} */
    this.refusal = status === 10 ? 'Memory' : '';
    /** @type {Record<string, any>} */
    this.data = {};
    if (status !== 10) this.read();
  }

  read() {
    const line = new Line(this.line);
    if (line.word() !== 'refused') throw new Unreadable(this.line);
    this.refusal = line.word();
    this.data = dataOf(line, this.refusal);
    line.end();
  }
}

module.exports = {JirrambeoError};
