'use strict';
/**
 * What the commands answer, as objects: index.d.ts has their types.
 *
 * @typedef {import('./lines.js').Line} Line
 * @typedef {import('./index')} Jirrambeo
 */
const {Line: LineOf, Lines} = require('./lines.js');

const FLOWS = new Set(['CreateFrom', 'ImmutableCapture', 'Assign', 'Alias', 'Capture', 'MaybeAlias']);
const MUTATIONS = new Set(['MutateConditionally', 'MutateTransitive', 'MutateTransitiveConditionally']);
const REPORTED = new Set(['MutateFrozen', 'MutateGlobal', 'Impure']);

/** @param {Line} line @returns {any} */
function otherEffect(kind, line) {
  switch (kind) {
    case 'Create': return {kind, into: line.number(), value: line.word(), reason: line.word()};
    case 'Freeze': return {kind, value: line.number(), reason: line.word()};
    case 'Mutate': {
      const value = line.number();
      const reason = line.isAtEnd() ? null : line.word();
      return {kind, value, reason};
    }
    case 'Render': return {kind, place: line.number()};
    case 'CreateFunction': return {kind, into: line.number(), function: line.number(), captures: line.numbers()};
    case 'Apply': {
      const [receiver, fn, ...args] = line.numbers();
      return {kind, receiver, function: fn, arguments: args.slice(0, -1), into: args[args.length - 1]};
    }
    default: return line.fail();
  }
}

/** @param {Line} line */
function effect(line) {
  const kind = line.word();
  if (FLOWS.has(kind)) return {kind, from: line.number(), into: line.number()};
  if (MUTATIONS.has(kind)) return {kind, value: line.number()};
  if (REPORTED.has(kind)) return {kind, place: line.number(), report: line.number()};
  return otherEffect(kind, line);
}

/** The effects of a block's instructions and of its end. @param {Lines} lines */
function blockEffects(lines) {
  const instructions = [];
  while (/^\d/.test(lines.head())) {
    const instruction = Number(lines.head());
    const line = lines.line();
    const found = effect(line);
    line.end();
    const last = instructions[instructions.length - 1];
    if (last && last.instruction === instruction) last.effects.push(found);
    else instructions.push({instruction, effects: [found]});
  }
  return {instructions, end: lines.all('end', effect)};
}

/** Site(numbers and words). @param {Line} line */
function site(line) {
  const text = line.word();
  const found = /^(\w+)\((.*)\)$/.exec(text);
  if (!found) return line.fail();
  const [, kind, inner] = found;
  const parts = inner.split(',');
  const numbers = parts.filter(part => /^\d+$/.test(part)).map(Number);
  if (kind === 'Created') return {kind, into: numbers[0], value: parts[1], reason: parts[2]};
  if (kind === 'Function') return {kind, function: numbers[0]};
  return numbers.length === 2 ? {kind, from: numbers[0], into: numbers[1]} : {kind, identifier: numbers[0]};
}

/** @param {Line} line */
function siteValue(line) {
  const [of, kind, reasons] = [site(line), line.word(), line.word()];
  return {site: of, kind, reasons: reasons === '-' ? [] : reasons.split('+')};
}

/** @param {Line} line */
function variable(line) {
  const identifier = line.number();
  const sites = [];
  while (!line.isAtEnd()) sites.push(site(line));
  return {identifier, sites};
}

/** @param {Line} line */
function temporary(line) {
  const identifier = line.number();
  const text = line.rest();
  const rest = /^Rest\((\d+)\)$/.exec(text);
  if (rest) return {identifier, key: {kind: 'Rest', function: Number(rest[1])}};
  const named = /^Named\((\d+),(".*")\)$/.exec(text);
  return named ? {identifier, key: {kind: 'Named', into: Number(named[1]), name: JSON.parse(named[2])}} : line.fail();
}

/** @param {Line} line */
function label(line) {
  const found = /^(\d+)\.\.(\d+)$/.exec(line.word());
  if (!found) return line.fail();
  return {span: {start: Number(found[1]), end: Number(found[2])}, text: line.quotedOrNone()};
}

/** @param {Line} line */
function report(line) {
  const found = {category: line.word(), message: line.quoted(), help: line.quotedOrNone(), labels: []};
  while (!line.isAtEnd()) found.labels.push(label(line));
  return found;
}

/** @param {Line} line */
const rangeOf = line => ({start: line.number(), end: line.number()});

/** The ranges and the reports, which stand behind all functions. @param {Lines} lines */
function rest(lines) {
  const ranges = lines.all('range', line => ({identifier: line.number(), ...rangeOf(line)}));
  const count = lines.need('reports').number();
  const reports = lines.all('report', report);
  if (reports.length !== count) lines.fail();
  lines.end();
  return {ranges, reports};
}

/** @param {Lines} lines @param {(lines: Lines, name: number | 'root') => any} read */
function functions(lines, read) {
  const found = [];
  for (let line = lines.take('function'); line; line = lines.take('function')) found.push(read(lines, line.fn()));
  return found;
}

/** @param {Lines} lines @param {() => object} [entry] what the block is entered with, read from the lines */
function blocks(lines, entry = () => ({})) {
  const found = [];
  for (let line = lines.take('block'); line; line = lines.take('block')) found.push({id: line.number(), ...entry(), ...blockEffects(lines)});
  return found;
}

/** @param {string} text @returns {any} */
function inference(text) {
  const lines = new Lines(text);
  const found = functions(lines, (_, name) => ({name, blocks: blocks(lines), summary: lines.all('summary', effect)}));
  return {functions: found, ...rest(lines)};
}

/** @param {string} text @returns {any} */
function certificate(text) {
  const lines = new Lines(text);
  const found = functions(lines, (_, name) => ({
    name,
    visits: lines.need('visits').numbers(),
    blocks: blocks(lines, () => ({entry: {values: lines.all('value', siteValue), variables: lines.all('variable', variable)}})),
    first: lines.all('first', effect),
    temporaries: lines.all('temporary', temporary),
    summary: lines.all('summary', effect),
  }));
  return {functions: found, ...rest(lines), text};
}

/** @param {string} text @returns {any} */
function brief(text) {
  const lines = new Lines(text);
  const found = functions(lines, (_, name) => ({
    name,
    blocks: blocks(lines, () => ({beyond: {values: lines.all('value', siteValue), variables: lines.all('variable', variable)}})),
    temporaries: lines.all('temporary', temporary),
    summary: lines.all('summary', effect),
  }));
  return {functions: found, ...rest(lines), text};
}

/** @param {Line} line */
function lint(line) {
  const [fn, block, place] = [line.fn(), line.number(), line.word()];
  return {function: fn, block, instruction: place === 'end' ? 'end' : line.numberOf(place), ...report(line)};
}

/** @param {string} text @returns {any} */
function lints(text) {
  const lines = new Lines(text);
  const found = lines.all('lint', lint);
  if (lines.need('lints').number() !== found.length) lines.fail();
  lines.end();
  return found;
}

/** @param {Line} line */
const step = line => ({identifier: line.number(), reach: line.word(), direction: line.word(), kind: line.word()});

/** @param {Lines} lines @returns {any} */
function whyOf(lines) {
  const range = rangeOf(lines.need('range'));
  const kind = lines.head();
  const line = lines.line();
  if (kind === 'unset' || kind === 'nocause') return {range, cause: {kind}};
  if (kind === 'defined') return {range, cause: {kind, instruction: line.number()}};
  if (kind === 'mutated') return {range, cause: {kind, instruction: line.number(), path: lines.all('step', step)}};
  return line.fail();
}

/** @param {string} text @returns {any} */
function explanation(text) {
  const lines = new Lines(text);
  const found = whyOf(lines);
  lines.end();
  return found;
}

/** @param {string} text @returns {any} */
function explanations(text) {
  if (text === '') return [];
  const lines = new Lines(text);
  const found = [];
  for (let line = lines.take('identifier'); line; line = lines.take('identifier')) found.push({identifier: line.number(), ...whyOf(lines)});
  lines.end();
  return found;
}

/** @param {string} text @returns {any} */
function plainness(text) {
  const line = new LineOf(text.replace(/\n$/, ''));
  const word = line.word();
  if (word === 'plain') return {plain: true};
  if (word !== 'not' || line.word() !== 'plain') return line.fail();
  return {plain: false, function: line.fn(), instruction: line.number(), condition: line.number()};
}

/** @param {string} text @returns {any} */
const accepted = text => ({functions: new Lines(text).need('accepted').number()});

/** @param {string} text @returns {any} */
function counts(text) {
  const lines = new Lines(text);
  const found = {};
  for (const word of ['blocks', 'instructions', 'effects', 'visits', 'ranges', 'reports']) found[word] = lines.need(word).number();
  lines.end();
  return found;
}

module.exports = {inference, certificate, brief, lints, explanation, explanations, plainness, accepted, counts};
