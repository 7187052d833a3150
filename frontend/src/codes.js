'use strict';
/**
 * JSON text that grows, as codes: numbers stand for themselves, and texts, which are less than 0, for their bytes. A text
 * may have holes, which the numbers behind its code fill. The bytes are made in the end, here or by the addon
 * (hosts/node/codes.c), in a tenth of the time.
 */
const [ZERO, QUOTE, HOLE] = [...'0"%'].map(c => c.charCodeAt(0));
const LONGEST = 10; // digits of a number
const MOST_SPARE = 64;
const LONGEST_SPARE = 1 << 16;

/** Codes that another follows: the places of a name between quotes, and of any JSON. */
const QUOTED = -1;
const JSON_TEXT = -2;
const FIRST_TEXT = -3;

/** @type {Array<Uint8Array>} the bytes of texts, by their codes */
const TEXTS = [];
let longestText = LONGEST;

/** @type {?Buffer} all of them, once they are known */
let joinedTexts = null;

/** The code of a text of ASCII alone, before any unit is made. A hole in it is `%`. @param {string} text */
function ascii(text) {
  longestText = Math.max(longestText, text.length + LONGEST * (text.split('%').length - 1));
  return FIRST_TEXT + 1 - TEXTS.push(Buffer.from(text, 'latin1'));
}

const [COMMA_CODE, OPEN_CODE, CLOSE_CODE] = [',', '[', ']'].map(ascii);

/** How many digits a number has. */
function sizeOf(number) {
  if (number < 1000) return number < 10 ? 1 : number < 100 ? 2 : 3;
  if (number < 1000000) return number < 10000 ? 4 : number < 100000 ? 5 : 6;
  return number < 10000000 ? 7 : number < 100000000 ? 8 : number < 1000000000 ? 9 : 10;
}

/**
 * Puts the digits of a number there.
 * @param {Uint8Array} bytes @param {number} at @param {number} number @returns {number} where they end
 */
function putNumber(bytes, at, number) {
  const end = at + sizeOf(number);
  let left = number;
  for (let i = end - 1; i >= at; i--) {
    const next = (left / 10) | 0;
    bytes[i] = ZERO + left - 10 * next;
    left = next;
  }
  return end;
}

/** The same of a name of ASCII alone, between quotes. @param {Uint8Array} bytes @param {number} at @param {string} name */
function putQuoted(bytes, at, name) {
  const size = name.length;
  bytes[at] = QUOTE;
  for (let i = 0; i < size; i++) bytes[at + 1 + i] = name.charCodeAt(i);
  bytes[at + 1 + size] = QUOTE;
  return at + size + 2;
}

/** @type {Uint8Array} where bytes are made */
let room = new Uint8Array(1 << 16);

/** Room for what is there and more. @param {number} length that is used @param {number} more */
function reserve(length, more) {
  if (length + more <= room.length) return room;
  const wider = new Uint8Array(Math.max(2 * room.length, length + more));
  wider.set(room.subarray(0, length));
  room = wider;
  return room;
}

/** Puts any bytes there. @param {number} at @param {Uint8Array} text */
function putBytes(at, text) {
  const bytes = reserve(at, text.length);
  bytes.set(text, at);
  return bytes;
}

/** @param {Int32Array} codes @param {number} length @param {Array<string>} strings @returns {Buffer} */
function bytesOf(codes, length, strings) {
  let bytes = room;
  let at = 0;
  for (let i = 0; i < length; i++) {
    const code = codes[i];
    if (at + longestText > bytes.length) bytes = reserve(at, longestText);
    if (code >= 0) at = putNumber(bytes, at, code);
    else if (code <= FIRST_TEXT) {
      const text = TEXTS[FIRST_TEXT - code];
      for (let k = 0; k < text.length; k++) {
        if (text[k] === HOLE) at = putNumber(bytes, at, codes[++i]);
        else bytes[at++] = text[k];
      }
    } else if (code === QUOTED) {
      const name = strings[codes[++i]];
      bytes = reserve(at, name.length + 2);
      at = putQuoted(bytes, at, name);
    } else {
      const text = Buffer.from(strings[codes[++i]]);
      bytes = putBytes(at, text);
      at += text.length;
    }
  }
  return Buffer.from(bytes.subarray(0, at));
}

/** @type {Array<Int32Array>} rooms that were given back */
const spare = [];

class Codes {
  /** @param {Array<string>} strings those of all that are put together */
  constructor(strings) {
    this.strings = strings;
    this.codes = spare.pop() || new Int32Array(1 << 10);
    this.length = 0;
  }

  /** Gives its room back: nobody uses it after. */
  release() {
    if (spare.length < MOST_SPARE && this.codes.length <= LONGEST_SPARE) spare.push(this.codes);
  }

  /** Room for so many codes from `length` on, which whoever asks for it sets. @param {number} more */
  room(more) {
    if (this.length + more > this.codes.length) this.grow(more);
    return this.codes;
  }

  grow(more) {
    const wider = new Int32Array(Math.max(2 * this.codes.length, this.length + more));
    wider.set(this.codes.subarray(0, this.length));
    this.codes = wider;
  }

  /** @param {number} code of `ascii`, of a text without holes */
  text(code) {
    this.room(1)[this.length++] = code;
  }

  /** @param {number} number a whole one, from 0, below 2^31 */
  number(number) {
    this.room(1)[this.length++] = number;
  }

  comma() {
    this.text(COMMA_CODE);
  }

  open() {
    this.text(OPEN_CODE);
  }

  close() {
    this.text(CLOSE_CODE);
  }

  /** A text with one hole. @param {number} code @param {number} number */
  one(code, number) {
    const codes = this.room(2);
    codes[this.length++] = code;
    codes[this.length++] = number;
  }

  /** A text with two. @param {number} code @param {number} first @param {number} second */
  two(code, first, second) {
    const codes = this.room(3);
    const {length} = this;
    codes[length] = code;
    codes[length + 1] = first;
    codes[length + 2] = second;
    this.length = length + 3;
  }

  /** A text with three. @param {number} code @param {number} first @param {number} second @param {number} third */
  three(code, first, second, third) {
    const codes = this.room(4);
    const {length} = this;
    codes[length] = code;
    codes[length + 1] = first;
    codes[length + 2] = second;
    codes[length + 3] = third;
    this.length = length + 4;
  }

  /** @param {number} kind @param {string} text */
  string(kind, text) {
    this.one(kind, this.strings.push(text) - 1);
  }

  /** @param {string} name of ASCII alone, as JSON has it between quotes */
  quoted(name) {
    this.string(QUOTED, name);
  }

  /** What is JSON already. @param {string} text */
  json(text) {
    this.string(JSON_TEXT, text);
  }

  /** All of another one. @param {Codes} other */
  add({codes, length}) {
    this.room(length).set(codes.subarray(0, length), this.length);
    this.length += length;
  }

  /** The bytes; the room is given back. @returns {Buffer} */
  taken() {
    const made = bytesOf(this.codes, this.length, this.strings);
    this.release();
    return made;
  }

  /** What the bytes are made of; the room is given back. */
  unwritten() {
    const made = new Unwritten(this.codes.slice(0, this.length), this.strings);
    this.release();
    return made;
  }
}

/** Codes as the addon takes them, with the texts and strings that they name, each in a line: JSON has no line's end. */
class Unwritten {
  /** @param {Int32Array} codes @param {Array<string>} strings */
  constructor(codes, strings) {
    this.codes = codes;
    this.strings = strings;
  }

  /** @returns {Buffer} */
  texts() {
    return (joinedTexts ||= Buffer.from(TEXTS.map(String).join('\n')));
  }

  /** @returns {Buffer} */
  lines() {
    return Buffer.from(this.strings.join('\n'));
  }

  /** @returns {Buffer} */
  bytes() {
    return bytesOf(this.codes, this.codes.length, this.strings);
  }
}

module.exports = {Codes, ascii, QUOTED, JSON_TEXT};
