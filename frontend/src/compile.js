'use strict';
/** The stages from a function of a file to its unit. */
const {lower} = require('./lower/index.js');
const {enterSSA} = require('./enterSSA.js');
const {eliminateRedundantPhi} = require('./eliminateRedundantPhi.js');
const {inferTypes} = require('./inferTypes.js');
const {optimizePropsMethodCalls} = require('./optimizePropsMethodCalls.js');
const {makeIdent} = require('./HIR.js');
const {emit} = require('./unit.js');

/**
 * A function that only makes the given one, and returns it. As a nested function its parameters may be
 * anything that callers hand in, where a root's are taken to be frozen: so for functions that are no
 * component and no hook.
 * @param {import('./HIR.js').Fn} fn
 * @returns {import('./HIR.js').Fn}
 */
function wrapped(fn) {
  const {start, end} = fn;
  const place = () => ({ident: makeIdent(start, end), start, end});
  const made = place();
  const block = {id: 0, phis: [], preds: new Set(), instructions: [
    {lvalue: made, value: {kind: 'FunctionExpression', fn: {...fn, kind: 'Other'}}, start, end, order: 0},
  ], terminal: {kind: 'Return', value: made, start, end}};
  return {kind: 'Other', name: null, params: [], context: [], returns: place(), isAsync: false, entry: 0,
    blocks: new Map([[0, block]]), start, end};
}

/**
 * @param {import('./scope.js').Names} names
 * @param {import('./scope.js').Func} func
 * @param {'Component'|'Hook'|'Other'} kind
 * @param {import('./index.js').Options} options
 * @returns {{fn: import('./HIR.js').Fn, root: import('./HIR.js').Fn}} the function, in single assignment and with
 *   types, and the root of its unit: itself, or one that makes it
 */
function compile(names, func, kind, options) {
  const isNested = kind === 'Other' && options.others !== 'root';
  let fn = lower(names, func, {dropMemo: options.dropMemo, allowThis: isNested, compiler: options.compiler});
  fn.kind = kind;
  const root = isNested ? wrapped(fn) : fn;
  if (isNested) fn = root.blocks.get(root.entry).instructions[0].value.fn;
  eliminateRedundantPhi(root, enterSSA(root));
  inferTypes(root, options);
  optimizePropsMethodCalls(root);
  return {fn, root};
}

module.exports = {compile, emit};
