'use strict';
/**
 * Where indices of a text stand: lines, columns, and offsets in bytes of UTF-8 or in units of UTF-16.
 *
 * An index counts from behind the byte order mark, which isn't parsed; an offset counts from the beginning of
 * the file.
 */
const MARK = '\ufeff';

/** The text without its byte order mark. */
const unmarked = text => (text.startsWith(MARK) ? text.slice(1) : text);

class Positions {
  /** @param {string} given the text of the file @param {'bytes'|'utf16'} [offsets] */
  constructor(given, offsets = 'bytes') {
    const text = unmarked(given);
    this.text = text;
    this.isBytes = offsets === 'bytes';
    this.before = text === given ? 0 : this.isBytes ? 3 : 1;
    this.lines = [0];
    for (let i = text.indexOf('\n'); i >= 0; i = text.indexOf('\n', i + 1)) this.lines.push(i + 1);
    this.isAscii = /^[\x00-\x7f]*$/.test(text); // eslint-disable-line no-control-regex
    /** @type {?Uint32Array} */
    this.table = null;
  }

  /** @param {number} index @returns {{line: number, column: number}} counted from 1 */
  at(index) {
    const line = lastAtMost(this.lines, this.lines.length, index);
    return {line: line + 1, column: index - this.lines[line] + 1};
  }

  /** @param {number} index @returns {import('./index.js').Position} */
  position(index) {
    return {...this.at(index), offset: this.offset(index)};
  }

  /** @param {number} index */
  offset(index) {
    return this.before + (this.isBytes && !this.isAscii ? this.bytes()[index] : index);
  }

  /** What `offset` does, for one who asks it of many. @returns {(index: number) => number} */
  toOffset() {
    const {before} = this;
    if (!this.isBytes || this.isAscii) return before === 0 ? index => index : index => before + index;
    const table = this.bytes();
    return index => before + table[index];
  }

  /** From an offset back to an index. @param {number} offset */
  index(offset) {
    const rest = Math.max(0, offset - this.before);
    return this.isBytes && !this.isAscii ? lastAtMost(this.bytes(), this.text.length + 1, rest) : rest;
  }

  /** From indices to bytes of UTF-8; a surrogate that stands alone has three. */
  bytes() {
    if (this.table) return this.table;
    const table = new Uint32Array(this.text.length + 1);
    let at = 0;
    for (let i = 0; i < this.text.length; i++) {
      table[i] = at;
      const c = this.text.codePointAt(i) || 0;
      if (c > 0xffff) table[++i] = at;
      at += c < 0x80 ? 1 : c < 0x800 ? 2 : c > 0xffff ? 4 : 3;
    }
    table[this.text.length] = at;
    this.table = table;
    return table;
  }
}

/** The last place of a rising list that holds no more than `most`. */
function lastAtMost(list, length, most) {
  let low = 0;
  let high = length - 1;
  while (low < high) {
    const mid = (low + high + 1) >> 1;
    if (list[mid] <= most) low = mid;
    else high = mid - 1;
  }
  return low;
}

module.exports = {Positions, unmarked};
