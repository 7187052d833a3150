'use strict';
/** From what the inference says of a unit back to the text. */

/**
 * @typedef {{line: number, column: number, endLine: number, endColumn: number}} Range counted from 1
 * @typedef {object} SourceMap
 * @property {Array<{name: ?string, promoted: boolean, declaration: number, range: Range}>} identifiers by number
 * @property {Array<{range: Range, instructions: Array<{kind: string, order: number, range: Range}>}>} functions by
 *   number; the root is the last
 */

class Ranges {
  /** @param {import('./positions.js').Positions} positions with the offsets of the unit */
  constructor(positions) {
    this.positions = positions;
  }
  of([start, end]) {
    const from = this.positions.at(this.positions.index(start));
    const to = this.positions.at(this.positions.index(end));
    return {...from, endLine: to.line, endColumn: to.column};
  }
}

/** @returns {SourceMap} */
function sourceMap(unit, positions) {
  const ranges = new Ranges(positions);
  return {
    identifiers: unit.identifiers.map(i => ({
      name: typeof i.name === 'string' ? i.name : null, promoted: typeof i.name === 'object', declaration: i.declaration,
      range: ranges.of(i.span)})),
    functions: [...unit.functions, unit.root].map(f => ({
      range: ranges.of(f.span),
      instructions: f.instructions.map(i => ({kind: i.value.kind, order: i.id, range: ranges.of(i.span)}))})),
  };
}

/** The span of what a line is about: an instruction, or a whole function. @param {string} fn @param {string} at */
function spanOf(unit, fn, at) {
  const named = fn === 'root' ? unit.root : unit.functions[Number(fn)];
  return at === 'end' ? named.span : named.instructions[Number(at)].span;
}

/**
 * The lines of `lint` as reports with places in the text. One that is there twice counts once: a function
 * that is called twice tells its reports twice.
 * @param {Array<string>} lines
 * @param {() => any} unitOf the unit, which is asked for only where a line has no label, whose place it tells
 * @param {import('./positions.js').Positions} positions
 * @returns {Array<{category: string, message: string, help: ?string, range: Range, labels: Array<{range: Range, text: ?string}>}>}
 */
function reports(lines, unitOf, positions) {
  const ranges = new Ranges(positions);
  const seen = new Set();
  const out = [];
  for (const line of lines) {
    const [, fn, at, category, rest] = /^lint (\S+) \d+ (\S+) (\w+) (.*)$/.exec(line);
    const tokens = rest.match(/"(?:[^"\\]|\\.)*"|\S+/g);
    const text = t => (t === '-' ? null : JSON.parse(t));
    const labels = [];
    for (let i = 2; i + 1 < tokens.length; i += 2) {
      const [start, end] = tokens[i].split('..').map(Number);
      labels.push({range: ranges.of([start, end]), text: text(tokens[i + 1])});
    }
    const range = labels.length > 0 ? labels[0].range : ranges.of(spanOf(unitOf(), fn, at));
    const key = JSON.stringify([category, text(tokens[0]), text(tokens[1]), labels]);
    if (seen.has(key)) continue;
    seen.add(key);
    out.push({category, message: text(tokens[0]), help: text(tokens[1]), range, labels});
  }
  return out;
}

module.exports = {sourceMap, reports};
