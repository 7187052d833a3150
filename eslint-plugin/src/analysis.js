'use strict';
/**
 * What there is to say of a file: found once, however many rules ask.
 *
 * @typedef {{line: number, column: number}} Point line from 1, column from 0, as ESLint counts
 * @typedef {{start: Point, end?: Point}} Loc
 * @typedef {{category: string, message: string, loc: Loc}} Found
 */
const {linting} = require('./inference.js');
const {unitsOfProgram, isIncompatible, reports, sourceMap, Positions} = require('./frontend.js');

/** Categories of this plugin's own: what isn't analysed, and a call by which a function can't be. */
const UNSUPPORTED = 'Unsupported';
const INCOMPATIBLE = 'IncompatibleLibrary';

/** @type {WeakMap<object, Array<Found>>} */
const known = new WeakMap();

/** Files of which it is told what isn't analysed. @type {WeakSet<object>} */
const wanted = new WeakSet();

/** @param {{line: number, column: number, endLine: number, endColumn: number}} range counted from 1 */
const locOf = ({line, column, endLine, endColumn}) => ({start: {line, column: column - 1}, end: {line: endLine, column: endColumn - 1}});

/** A sentence ends with a point. @param {string} text */
const sentence = text => (/[.!?]$/.test(text) ? text : `${text}.`);

/** All that a report says in one text: what is wrong, its label where that says more, other labels with their lines, and what helps. */
function messageOf({message, help, labels}) {
  const [first, ...others] = labels;
  const isMore = first && first.text && !message.toLowerCase().includes(first.text.toLowerCase());
  const parts = [sentence(isMore ? `${message}: ${first.text}` : message)];
  for (const {range, text} of others) parts.push(sentence(`Line ${range.line}: ${text || 'here'}`));
  if (help) parts.push(sentence(help));
  return parts.join(' ');
}

/** What the inference refuses, at the instruction that its line names, or at the function. */
function refusalOf(text, unit, positions) {
  const line = text.trim();
  const map = sourceMap(unit, positions);
  const [, cause, fn, number] = /^refused (\w+)(?: (root|\d+))?(?: (\d+))?/.exec(line) || [];
  const named = map.functions[fn === undefined || fn === 'root' ? map.functions.length - 1 : Number(fn)] || map.functions[map.functions.length - 1];
  const instruction = cause === 'IncompatibleLibrary' || cause === 'SpreadArgument' ? named.instructions[Number(number)] : null;
  const loc = locOf(instruction ? instruction.range : named.range);
  if (cause === 'IncompatibleLibrary') {
    return {category: INCOMPATIBLE, loc, message: 'This API gives functions that can\'t be memoized without the risk of a stale UI, so this function isn\'t analysed.'};
  }
  return {category: UNSUPPORTED, loc, message: `This function isn't analysed: ${line}.`};
}

/** @param {import('./inference.js').Codes} codes of a unit @param {{status: number, text: string}} answer @returns {Array<Found>} */
function foundIn(codes, {status, text}, positions) {
  if (status === 0 && !text.startsWith('lint ')) return [];
  const unitOf = () => JSON.parse(codes.bytes().toString());
  if (status !== 0) return [refusalOf(text, unitOf(), positions)];
  const lines = text.split('\n').filter(line => line.startsWith('lint '));
  return reports(lines, unitOf, positions).map(report => ({category: report.category, message: messageOf(report), loc: locOf(report.range)}));
}

/** A function within one that has a unit of its own too may be told of twice. @param {Array<Found>} found */
function once(found) {
  const keys = new Set();
  return found.filter(one => {
    const key = JSON.stringify(one);
    return !keys.has(key) && keys.add(key);
  });
}

/**
 * Whether a function that is no component and no hook may have a report besides that it isn't analysed. Its unit's root
 * only makes it, and of a function that is only made none is reported; but one that calls what is incompatible is refused.
 * @param {any} ast
 */
const mayReportOthers = ast => ast.body.some(s => s.type === 'ImportDeclaration' && isIncompatible(s.source.value));

/** @param {{ast: object, text: string}} sourceCode @param {boolean} isAll @returns {Array<Found>} */
function analysed({ast, text}, isAll) {
  const calls = linting();
  const each = ({unit}) => unit && calls.put(unit);
  let made;
  try {
    const others = isAll || mayReportOthers(ast) ? 'nested' : 'none';
    made = unitsOfProgram(ast, text, {offsets: 'utf16', as: 'codes', others, each, config: {validate_no_impure_functions_in_render: true}});
  } catch (error) {
    if (!(error instanceof SyntaxError)) throw error;
    return [{category: UNSUPPORTED, message: `This file isn't analysed: ${sentence(error.message)}`, loc: {start: {line: 1, column: 0}}}];
  }
  const refused = made.filter(one => one.refused).map(({refused: {line, column, reason}}) => (
    {category: UNSUPPORTED, message: `This function isn't analysed: ${sentence(reason)}`, loc: {start: {line, column: column - 1}}}));
  const units = made.filter(one => one.unit).map(one => one.unit);
  if (units.length === 0) return refused;
  const positions = new Positions(text, 'utf16');
  const answers = calls.answers();
  return once([...refused, ...units.flatMap((unit, i) => foundIn(unit, answers[i], positions))]);
}

/**
 * Asks for all functions of a file, so that each that isn't analysed is told of. Else they are those of which there may
 * be another report. ESLint makes all rules of a file before it asks any of them.
 * @param {object} sourceCode
 */
function wantAll(sourceCode) {
  if (wanted.has(sourceCode)) return;
  wanted.add(sourceCode);
  known.delete(sourceCode);
}

/**
 * All that is found in a file.
 * @param {{ast: object, text: string}} sourceCode ESLint's, the same object for all rules of a run
 * @returns {Array<Found>}
 */
function analysis(sourceCode) {
  let found = known.get(sourceCode);
  if (!found) {
    found = analysed(sourceCode, wanted.has(sourceCode));
    known.set(sourceCode, found);
  }
  return found;
}

module.exports = {analysis, wantAll, UNSUPPORTED, INCOMPATIBLE};
