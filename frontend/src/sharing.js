'use strict';
/**
 * Which variables several functions share, and which functions run where they stand.
 *
 * @typedef {import('./scope.js').Binding} Binding
 * @typedef {import('./scope.js').Func} Func
 */
const {isWithin} = require('./syntax.js');

/** The function in whose code this one's stands: itself, or where it was inlined. @param {?Func} fn @returns {?Func} */
function home(fn) {
  let f = fn;
  while (f && f.inlinedInto) f = f.inlinedInto;
  return f;
}

/**
 * A variable that lives in memory of its own, as several functions share and write it: one that an inner
 * function writes, or that is written anew and used by an inner function.
 * @param {Binding} binding
 * @param {(fn: ?Func) => ?Func} [of] which functions count as one
 */
function isShared(binding, of = home) {
  const countsInit = binding.kind === 'var' && !isLikeLet(binding);
  const own = of(binding.fn);
  const writes = binding.refs.filter(r => r.write && (countsInit || !r.init));
  return writes.some(r => of(r.fn) !== own) || (writes.length > 0 && binding.refs.some(r => of(r.fn) !== own));
}

/** A `var` that `let` in its place would be: declared once, by a statement of the body, before its function uses it. */
function isLikeLet(binding) {
  if (binding.declarators.length !== 1 || !binding.declarators[0].atTop) return false;
  const [{node, end}] = binding.declarators;
  return binding.refs.every(r => r.fn !== binding.fn || r.node === node || r.node.start >= end);
}

/**
 * Of a variable of a loop's head, of which JavaScript makes a new one for each round: whether inner functions of
 * the body see it, and whether it is written in there.
 * @param {Binding} binding
 * @param {import('./syntax.js').Node} body
 */
function inRound(binding, body) {
  const refs = binding.refs.filter(r => isWithin(r.node, body));
  const isCaptured = refs.some(r => home(r.fn) !== home(binding.fn));
  const isWritten = refs.some(r => r.write);
  return {isCaptured, isWritten};
}

/** @param {import('./syntax.js').Node} body a program's or a block's */
const usesStrict = body => (body.directives || []).some(d => d.value.value === 'use strict');

/** Whether code is strict, as far as it says so: by a directive, as a part of a class, or as that of a module. @param {import('./scope.js').Names} names @param {Func} func */
function isStrict(names, func) {
  for (let f = /** @type {?Func} */ (func); f; f = f.parent) {
    const holder = names.parentOf.get(f.node);
    if (usesStrict(f.node.body) || (holder && /^Class/.test(holder.type))) return true;
  }
  const {program} = names;
  return usesStrict(program) || program.body.some(s => /^(Import|Export)/.test(s.type));
}

/** Whether `arguments` has its items for itself, where in old code they are the parameters. @param {import('./scope.js').Names} names @param {Func} func */
const hasOwnArguments = (names, func) => func.node.params.some(p => p.type !== 'Identifier') || isStrict(names, func);

/** A function without parameters of its own that does no more than its body, where it is called. @param {Func} func */
function isPlain(func) {
  const {node} = func;
  if (node.type !== 'ArrowFunctionExpression' && node.type !== 'FunctionExpression') return false;
  return node.params.length === 0 && !node.async && !node.generator && func.parent !== null &&
    (node.type === 'ArrowFunctionExpression' || (func.self.refs.length === 0 && func.args.refs.length === 0));
}

/**
 * Marks the functions that are called at once, as inlineImmediatelyInvokedFunctionExpressions of the React Compiler
 * takes them, and those that useMemo calls.
 * @param {import('./scope.js').Names} names
 * @param {(call: import('./syntax.js').Node) => boolean} isMemo
 */
function markInlined(names, isMemo) {
  for (const func of names.funcs) {
    const {node} = func;
    const holder = names.parentOf.get(node);
    if (!holder || holder.type !== 'CallExpression' || !isPlain(func)) continue;
    const self = node.id ? names.bindingOf.get(node.id) : null;
    if (self && self.refs.length > 0) continue;
    const isCalled = holder.callee === node && holder.arguments.length === 0;
    if (isCalled || (holder.arguments[0] === node && isMemo(holder))) func.inlinedInto = func.parent;
  }
}

module.exports = {home, isShared, isLikeLet, inRound, hasOwnArguments, markInlined};
