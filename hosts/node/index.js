'use strict';
/** Jirrambeo in Node's own process: the program's commands as functions. index.d.ts has the types. */
const path = require('path');
const answers = require('./answers.js');
const {JirrambeoError} = require('./refusals.js');

/** The addon: beside this file in a package, or where hosts/node/build puts it. */
function loaded() {
  const places = [path.join(__dirname, 'jirrambeo.node'), path.join(__dirname, '../lib/jirrambeo.node')];
  for (const place of places) {
    try {
      return require(place);
    } catch (error) {
      if (error.code !== 'MODULE_NOT_FOUND') throw error;
    }
  }
  throw new Error('the addon isn\'t built: hosts/build makes it');
}

const addon = loaded();
const NEWLINE = 10;
const RETURN = 13;

/** The bytes of a unit or a certificate. @returns {Uint8Array} */
function bytesOf(given, what, takesObjects = true) {
  // Bytes that another thread may write meanwhile are copied first.
  if (given instanceof Uint8Array) return given.buffer instanceof ArrayBuffer ? given : Uint8Array.from(given);
  if (typeof given === 'string') return Buffer.from(given);
  if (takesObjects && given !== null && typeof given === 'object' && !Array.isArray(given) && !ArrayBuffer.isView(given)) return Buffer.from(JSON.stringify(given));
  throw new TypeError(`${what} is a Uint8Array or a string${takesObjects ? ', or an object that JSON has' : ''}`);
}

/** A number that a word may be. @param {*} given @param {number} most */
function numberOf(given, what, most) {
  if (Number.isInteger(given) && given >= 0 && given <= most) return String(given);
  throw new TypeError(`${what} is a whole number from 0 to ${most}`);
}

const U32 = 2 ** 32 - 1;
const functionOf = given => (given === 'root' ? given : numberOf(given, 'the function that isn\'t \'root\'', U32));

function seedOf(given) {
  if (typeof given === 'bigint' && given >= 0n && given < 2n ** 64n) return String(given);
  if (Number.isSafeInteger(given) && given >= 0) return String(given);
  throw new TypeError('the seed is a whole number or a bigint, from 0 and below 2^64');
}

/** A unit and its certificate, as `check` and `verify` read them: the first newline ends the unit, and those in it become returns. */
function joined(unit, certificate) {
  const isObject = certificate !== null && typeof certificate === 'object' && typeof certificate.text === 'string';
  const [first, second] = [bytesOf(unit, 'a unit'), bytesOf(isObject ? certificate.text : certificate, 'a certificate', false)];
  const input = Buffer.alloc(first.length + 1 + second.length);
  input.set(first);
  for (let at = input.indexOf(NEWLINE); at >= 0; at = input.indexOf(NEWLINE, at + 1)) input[at] = RETURN;
  input[first.length] = NEWLINE;
  input.set(second, first.length + 1);
  return input;
}

function told([status, text], read) {
  const said = text.toString();
  if (status !== 0) throw new JirrambeoError(status, said);
  return read(said);
}

/** Each command: the words and the input of its arguments, and what reads the text. */
const COMMANDS = {
  infer: [unit => ['infer', bytesOf(unit, 'a unit')], answers.inference],
  certify: [unit => ['certify', bytesOf(unit, 'a unit')], answers.certificate],
  check: [(unit, certificate) => ['check', joined(unit, certificate)], answers.accepted],
  brief: [unit => ['brief', bytesOf(unit, 'a unit')], answers.brief],
  verify: [(unit, text) => ['verify', joined(unit, text)], answers.accepted],
  lint: [unit => ['lint', bytesOf(unit, 'a unit')], answers.lints],
  explain: [(unit, fn, identifier) => [`explain ${functionOf(fn)} ${numberOf(identifier, 'the identifier', U32)}`, bytesOf(unit, 'a unit')],
    answers.explanation],
  explainFunction: [(unit, fn) => [`explain ${functionOf(fn)}`, bytesOf(unit, 'a unit')], answers.explanations],
  plain: [unit => ['plain', bytesOf(unit, 'a unit')], answers.plainness],
  made: [(seed, size) => [`made ${seedOf(seed)} ${numberOf(size, 'the size', U32)}`, Buffer.alloc(0)], answers.counts],
};

/** What any words ask for: the status and the text, as the program has them. @param {string} words */
function run(words, input = '') {
  if (typeof words !== 'string') throw new TypeError('the words are a string');
  const [status, text] = addon.run(words, bytesOf(input, 'the input'));
  return {status, text: text.toString()};
}

async function runAsync(words, input = '') {
  if (typeof words !== 'string') throw new TypeError('the words are a string');
  const [status, text] = await addon.runAsync(words, bytesOf(input, 'the input'));
  return {status, text: text.toString()};
}

/**
 * Calls of the same words that run on threads of their own while the caller goes on.
 * @param {string} words
 */
function begin(words) {
  if (typeof words !== 'string') throw new TypeError('the words are a string');
  const calls = addon.begin(words);
  return {
    put(input) {
      addon.put(calls, bytesOf(input, 'the input'));
    },
    answers: () => addon.answers(calls).map(([status, text]) => ({status, text: text.toString()})),
  };
}

const exported = {JirrambeoError, run, runAsync, begin};
for (const [name, [asked, read]] of Object.entries(COMMANDS)) {
  exported[name] = (...given) => {
    const [words, input] = asked(...given);
    return told(addon.run(words, input), read);
  };
  exported[`${name}Async`] = async (...given) => {
    const [words, input] = asked(...given);
    return told(await addon.runAsync(words, input), read);
  };
}

module.exports = exported;
