'use strict';
/** The texts of the library, line by line and word by word: docs/FORMAT.md has their grammar. */

/** A text of the library that isn't as docs/FORMAT.md says, which is an error of one of the two. */
class Unreadable extends Error {
  /** @param {string} line */
  constructor(line) {
    super(`the library wrote a line that can't be read: ${line}`);
    this.name = 'Unreadable';
  }
}

/** A line that is read from the left. */
class Line {
  /** @param {string} text @param {number} [at] */
  constructor(text, at = 0) {
    this.text = text;
    this.at = at;
  }

  isAtEnd() {
    return this.at >= this.text.length;
  }

  /** The next word. */
  word() {
    if (this.isAtEnd()) throw new Unreadable(this.text);
    const blank = this.text.indexOf(' ', this.at);
    const end = blank < 0 ? this.text.length : blank;
    const word = this.text.slice(this.at, end);
    this.at = end + 1;
    return word;
  }

  /** @param {string} word of digits */
  numberOf(word) {
    if (!/^(0|[1-9]\d*)$/.test(word)) throw new Unreadable(this.text);
    return Number(word);
  }

  number() {
    return this.numberOf(this.word());
  }

  /** All numbers up to the end. */
  numbers() {
    const found = [];
    while (!this.isAtEnd()) found.push(this.number());
    return found;
  }

  /** The name of a function: its number, or `root`. @returns {number | 'root'} */
  fn() {
    const word = this.word();
    return word === 'root' ? word : this.numberOf(word);
  }

  /** A JSON text, which may have blanks in it. @returns {string} */
  quoted() {
    const pattern = /"(?:[^"\\]|\\.)*"/y;
    pattern.lastIndex = this.at;
    const found = pattern.exec(this.text);
    if (!found) throw new Unreadable(this.text);
    this.at = pattern.lastIndex + 1;
    return JSON.parse(found[0]);
  }

  /** A JSON text, or `-` where there is none. @returns {string | null} */
  quotedOrNone() {
    if (this.text[this.at] === '"') return this.quoted();
    if (this.word() !== '-') throw new Unreadable(this.text);
    return null;
  }

  /** What is left. */
  rest() {
    const rest = this.text.slice(this.at);
    this.at = this.text.length;
    return rest;
  }

  /** Nothing is left. */
  end() {
    if (!this.isAtEnd()) throw new Unreadable(this.text);
  }

  /** @returns {never} */
  fail() {
    throw new Unreadable(this.text);
  }
}

/** Lines one after the other; each ends with a newline. */
class Lines {
  /** @param {string} text */
  constructor(text) {
    if (!text.endsWith('\n')) throw new Unreadable(text.slice(text.lastIndexOf('\n') + 1));
    this.lines = text.split('\n');
    this.lines.pop();
    this.next = 0;
  }

  /** The first word of the next line; empty at the end. */
  head() {
    const line = this.lines[this.next];
    if (line === undefined) return '';
    const blank = line.indexOf(' ');
    return blank < 0 ? line : line.slice(0, blank);
  }

  /** The next line behind its first word, where that is this one. @param {string} word @returns {Line | null} */
  take(word) {
    return this.head() === word ? this.line() : null;
  }

  /** The next line, behind its first word. */
  line() {
    const head = this.head();
    if (head === '') throw new Unreadable('');
    return new Line(this.lines[this.next++], head.length + 1);
  }

  /** @param {string} word */
  need(word) {
    return this.take(word) || this.fail();
  }

  /**
   * What the next lines say that begin with this word.
   * @template T
   * @param {string} word
   * @param {(line: Line) => T} read
   */
  all(word, read) {
    const found = [];
    for (let line = this.take(word); line; line = this.take(word)) {
      found.push(read(line));
      line.end();
    }
    return found;
  }

  /** No line is left. */
  end() {
    if (this.next < this.lines.length) this.fail();
  }

  /** @returns {never} */
  fail() {
    throw new Unreadable(this.lines[this.next] || '');
  }
}

module.exports = {Line, Lines, Unreadable};
