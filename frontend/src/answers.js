'use strict';
/**
 * What is said of a file: its functions, or why there are none. Nothing that a file holds ends it.
 *
 * @typedef {object} Request
 * @property {*} [id]
 * @property {string} file
 * @property {string} [text] instead of what the file has
 * @property {import('./index.js').Options} [options]
 *
 * @typedef {object} FileError
 * @property {'syntax'|'unreadable'|'toolarge'|'nottext'|'internal'} kind
 * @property {string} message
 * @property {number} [line]
 * @property {number} [column]
 * @property {number} [offset]
 *
 * @typedef {{id?: *, file: string, functions?: Array<import('./index.js').Made>, error?: FileError}} Answer has one of the two
 */
const fs = require('fs');
const {unitsOf, Positions} = require('./index.js');

const MOST_BYTES = 8 * 1024 * 1024;

/** Why a file has no answer. */
class Unanswered extends Error {
  /** @param {FileError['kind']} kind @param {string} message @param {object} [position] */
  constructor(kind, message, position = {}) {
    super(message);
    this.kind = kind;
    this.position = position;
  }
}

function sizeChecked(bytes) {
  if (bytes > MOST_BYTES) throw new Unanswered('toolarge', `the file has ${bytes} bytes, and ${MOST_BYTES} are the most that is read`);
}

/** The text of a file; its byte order mark, if any, is kept. */
function textOf(file) {
  let bytes;
  try {
    const {size} = fs.statSync(file);
    sizeChecked(size);
    bytes = fs.readFileSync(file);
  } catch (error) {
    if (error instanceof Unanswered) throw error;
    throw new Unanswered('unreadable', error.code === 'EISDIR' ? 'it is a folder' : error.message);
  }
  let text;
  try {
    text = new TextDecoder('utf-8', {fatal: true, ignoreBOM: true}).decode(bytes);
  } catch {
    throw new Unanswered('nottext', 'the file is no text in UTF-8');
  }
  if (text.includes('\0')) throw new Unanswered('nottext', 'the file has a NUL, as no text has');
  return text;
}

/** @param {Request} request */
function functionsOf({file, text: given, options}) {
  const text = given === undefined || given === null ? textOf(file) : given;
  sizeChecked(Buffer.byteLength(text));
  try {
    return unitsOf(text, {filename: file, ...options});
  } catch (error) {
    if (!(error instanceof SyntaxError)) throw error;
    const message = error.message.replace(/ \(\d+:\d+\)$/, '');
    throw new Unanswered('syntax', message, new Positions(text, options ? options.offsets : undefined).position(/** @type {*} */ (error).pos || 0));
  }
}

/**
 * @param {Request} request
 * @returns {Answer}
 */
function answer(request) {
  const head = request.id === undefined ? {file: request.file} : {id: request.id, file: request.file};
  try {
    return {...head, functions: functionsOf(request)};
  } catch (error) {
    if (error instanceof Unanswered) return {...head, error: {kind: error.kind, message: error.message, ...error.position}};
    return {...head, error: {kind: 'internal', message: String(error && error.stack || error)}};
  }
}

module.exports = {answer, MOST_BYTES};
