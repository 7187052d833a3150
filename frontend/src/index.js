'use strict';
/**
 * Source text to units: parse, names, and then for each outermost function lower, single assignment,
 * types, unit.
 *
 * @typedef {object} Position
 * @property {number} line from 1
 * @property {number} column from 1, in units of UTF-16, as editors count
 * @property {number} offset from the beginning of the file, in what `offsets` says
 *
 * @typedef {object} Made
 * @property {?string} name
 * @property {'component'|'hook'|'other'} kind
 * @property {Position} at of its beginning
 * @property {any} [unit] where it was lowered: an object, or with `as` its JSON
 * @property {{reason: string, message: string} & Position} [refused] where it wasn't, and why
 */
const {parse} = require('./parse.js');
const {fromESTree, isESTree} = require('./fromESTree.js');
const {resolveNames} = require('./scope.js');
const {markInlined} = require('./sharing.js');
const {memoName} = require('./lower/memo.js');
const {isIncompatible} = require('./ObjectShape.js');
const {findFunctions} = require('./findFunctions.js');
const {compile, emit} = require('./compile.js');
const {children} = require('./syntax.js');
const {Refused} = require('./refused.js');
const {Positions} = require('./positions.js');
const {passedOver, startOf} = require('./passedOver.js');

/**
 * @typedef {object} Options
 * @property {string} [filename] its ending says which language it is
 * @property {'utf16'|'bytes'} [offsets] what spans count; as the React Compiler's, bytes
 * @property {'nested'|'root'|'none'} [others] functions that are no component and no hook stand below a root that
 *   makes them (the default): their parameters, and `this` as the last one, are whatever callers hand in. As
 *   roots their parameters are taken to be frozen, as the React Compiler's mode `all` has it. With `none` they
 *   are left out, and components and hooks in them are there alone
 * @property {boolean} [dropMemo] whether useMemo and useCallback become what they do, between memo markers; they do
 *   unless it is false
 * @property {boolean} [compiler] the React Compiler's own way of lowering, where this front end has a better one
 * @property {object} [config] of the unit
 * @property {'bytes'|'codes'} [as] units are Buffers of their JSON, or what the addon makes its bytes of (codes.js), which
 *   is faster where they are only handed on
 * @property {(made: Made) => void} [each] is told of each as soon as it is made
 */

/**
 * @param {string} text
 * @param {Options} [options]
 * @returns {Array<Made>} one for each outermost function, in order of the text. Throws a SyntaxError
 */
function unitsOf(text, options = {}) {
  return unitsOfProgram(parse(text, options.filename), text, options);
}

/**
 * The names of a file, and its functions that get units.
 * @param {object} file a Babel tree
 * @param {Options} options
 * @param {(statement: object) => boolean} [isRead] those of other statements are left out
 */
function functionsOf(file, options, isRead) {
  const names = resolveNames(file.program, isRead);
  markInlined(names, call => options.dropMemo !== false && memoName(names, call) === 'useMemo');
  return {names, functions: findFunctions(file, names)};
}

/** The node that is nested most deeply. @param {object} top */
function deepest(top) {
  let level = [top];
  for (let next = level; next.length > 0; next = level.flatMap(children)) level = next;
  return level[0];
}

/**
 * The same, of either form of trees: with `none` but those of statements in which a component or hook may stand.
 * @param {any} ast @param {string} text @param {Options} options
 */
function functionsOfProgram(ast, text, options) {
  const program = ast.type === 'File' ? ast.program : ast;
  const left = options.others === 'none' ? passedOver(program.body, text) : new Set();
  if (left.size > 0 && left.size === program.body.length) return {names: null, functions: []};
  const isRead = statement => !left.has(startOf(statement));
  return functionsOf(isESTree(ast) ? fromESTree(program, isRead) : {program}, options, isRead);
}

/** What goes out of the machine's stack is no program that can be read. */
function guarded(ast, run) {
  try {
    return run();
  } catch (error) {
    if (!(error instanceof RangeError)) throw error;
    const node = deepest(ast);
    throw Object.assign(new SyntaxError('It is nested too deeply'), {pos: node.start ?? node.range[0]});
  }
}

/** A unit in the form that is asked for. @param {import('./codes.js').Codes} codes @param {Options['as']} as */
function formed(codes, as) {
  if (as === 'codes') return codes.unwritten();
  const bytes = codes.taken();
  return as === 'bytes' ? bytes : JSON.parse(bytes.toString());
}

/**
 * @param {object} ast a tree of Babel's parser, or of ESTree (espree, acorn, @typescript-eslint/parser, Babel's with
 *   its `estree` plugin): a program, or a file of one. Its nodes have `start` and `end`, or `range`. It isn't changed
 * @param {string} text of which it is the tree
 * @param {Options} [options]
 * @returns {Array<Made>} one for each outermost function, and for components and hooks in those that are neither
 */
function unitsOfProgram(ast, text, options = {}) {
  const {names, functions} = guarded(ast, () => functionsOfProgram(ast, text, options));
  const positions = new Positions(text, options.offsets);
  const offset = positions.toOffset();
  const wanted = options.others === 'none' ? functions.filter(({kind}) => kind !== 'Other') : functions;
  return wanted.map(({func, name, kind}) => {
    /** @type {Made} */
    const made = {name, kind: /** @type {Made['kind']} */ (kind.toLowerCase()), at: positions.position(func.node.start)};
    try {
      const {root} = compile(names, func, kind, options);
      made.unit = formed(emit(root, {config: options.config, compiler: options.compiler, offset}), options.as);
    } catch (given) {
      const error = given instanceof RangeError ? new Refused('it is nested too deeply', deepest(func.node)) : given;
      if (!(error instanceof Refused)) throw error;
      made.refused = {reason: error.reason, message: error.message, ...positions.position(error.start)};
    }
    if (options.each) options.each(made);
    return made;
  });
}

module.exports = {unitsOf, unitsOfProgram, functionsOf, isIncompatible, Refused, Positions, ...require('./sourcemap.js')};
