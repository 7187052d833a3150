'use strict';
/**
 * Statements of one scope: what is there before it is declared.
 *
 * @typedef {import('./builder.js').Builder} Builder
 * @typedef {import('../syntax.js').Node} Node
 * @typedef {import('../scope.js').Binding} Binding
 */
const {isLikeLet} = require('../sharing.js');
const {isWithin} = require('../syntax.js');
const {Refused} = require('../refused.js');
const statements = require('./statements.js');

const EXITS = new Set(['ReturnStatement', 'ThrowStatement', 'BreakStatement', 'ContinueStatement']);
const HOISTED = {const: 'HoistedConst', let: 'HoistedLet', var: 'HoistedLet', class: 'HoistedLet',
  function: 'HoistedFunction', self: 'HoistedConst'};
const NEVER_LATE = new Set(['param', 'catch', 'this', 'arguments']);

/** Whether its place in the text is where it is declared. @param {Binding} binding */
const isPlaced = binding => !NEVER_LATE.has(binding.kind) && !(binding.kind === 'var' && !isLikeLet(binding));

/**
 * A name that is used by an inner function before its declaration, or a function that is called before it, is
 * declared where the first statement that does so begins.
 * @param {Builder} b
 * @param {Array<Node>} list
 * @param {Node} scopeNode what declares the names
 * @param {?string} [onlyKind] of the names that are looked at
 */
function lowerStatements(b, list, scopeNode, onlyKind = null) {
  const {names, hoisted} = b.shared;
  const all = names.declared.get(scopeNode);
  /** @type {Array<{binding: Binding, uses: Array<import('../scope.js').Reference>}>} those that aren't declared yet */
  let left = all ? all.filter(x => isPlaced(x) && (onlyKind === null || x.kind === onlyKind))
    .map(binding => ({binding, uses: hoistingUses(b, binding)})).filter(({uses}) => uses.length > 0) : [];
  for (const s of withFunctionsMoved(b, list, scopeNode)) {
    if (left.length > 0) {
      for (const {binding, uses} of left) {
        const use = hoisted.has(binding) ? null : uses.find(r => isWithin(r.node, s));
        if (use) hoist(b, binding, use.node);
      }
      left = left.filter(({binding}) => !isWithin(binding.node, s));
    }
    statements.lowerStatement(b, s);
  }
}

/** The uses before which a name has to be declared: those by inner functions, and of a function its own. @param {Builder} b @param {Binding} binding */
const hoistingUses = (b, binding) => binding.refs.filter(r => (b.isOwn(r) ? binding.kind === 'function' && !r.init : true));

/**
 * Declares a name before its declaration.
 * @param {Builder} b @param {Binding} binding @param {Node} use
 */
function hoist(b, binding, use) {
  b.local(binding.node);
  const kind = HOISTED[binding.kind];
  if (!kind) throw new Refused('a declaration that is used before it', use, binding.kind);
  b.ident(binding).shared = true;
  b.shared.hoisted.add(binding);
  b.emit({kind: 'DeclareContext', lvalue: {kind, place: b.place(binding, use)}}, use);
}

/**
 * A function is there from the beginning of its block on. One that is used by the function itself before
 * its declaration comes before that statement, with the functions that it uses, where all else that they
 * take from the block is there by then; so does one behind where the block is left. (The React Compiler
 * declares a variable in its place, and refuses the second. So does this where something isn't there yet.)
 */
function withFunctionsMoved(b, list, scopeNode) {
  const {bindingOf, declared} = b.shared.names;
  if (!list.some(s => s.type === 'FunctionDeclaration')) return list;
  const at = new Map(); // from functions to where they stand
  list.forEach((s, i) => {
    if (s.type === 'FunctionDeclaration') at.set(bindingOf.get(s.id), i);
  });
  const others = (declared.get(scopeNode) || []).filter(x => !at.has(x) && x.kind !== 'param' && !(x.kind === 'var' && !isLikeLet(x)))
    .map(x => /** @type {[Binding, number]} */ ([x, list.findIndex(s => isWithin(x.node, s))]));
  const target = goals(b, list, at, others);
  return list.flatMap((s, i) => [
    ...[...at].filter(([binding, own]) => own !== i && target.get(binding) === i).map(([, own]) => list[own]),
    ...(s.type === 'FunctionDeclaration' && target.get(bindingOf.get(s.id)) !== i ? [] : [s]),
  ]);
}

/** Before which statement each function comes. */
function goals(b, list, at, others) {
  const target = new Map(at);
  const exit = list.findIndex(s => EXITS.has(s.type));
  const uses = (binding, member) => binding.refs.some(r => isWithin(r.node, list[at.get(member)]));
  for (const [binding, own] of at) {
    const first = list.findIndex((s, i) => i < own && s.type !== 'FunctionDeclaration' &&
      binding.refs.some(r => b.isOwn(r) && !r.init && isWithin(r.node, s)));
    const isBehind = exit >= 0 && exit < own;
    const goal = Math.min(...[first, isBehind ? exit : -1].filter(i => i >= 0), own);
    if (goal === own) continue;
    const group = new Set([binding]); // grows while it is gone through
    for (const member of group) for (const [other, where] of at) if (where > goal && uses(other, member)) group.add(other);
    const isReady = [...group].every(member => others.every(([x, where]) => where < goal || !uses(x, member)));
    if (isReady) for (const member of group) target.set(member, Math.min(target.get(member), goal));
    else if (isBehind) target.set(binding, Math.min(target.get(binding), exit));
  }
  return target;
}

/**
 * Names of a loop's head aren't hoisted: a use by an inner function before the declaration is refused.
 * @param {Builder} b @param {Node} node the loop @param {?Node} declaration
 */
function refuseHoisting(b, node, declaration) {
  for (const binding of b.shared.names.declared.get(node) || []) {
    const early = binding.refs.find(r => !b.isOwn(r) && r.node.start < binding.node.start) ||
      (declaration && binding.refs.find(r => !b.isOwn(r) && isWithin(r.node, declaration)));
    if (early) throw new Refused('a use before the declaration, in a loop\'s head', early.node, binding.name);
  }
}

exports.lowerStatements = lowerStatements;
exports.hoist = hoist;
exports.refuseHoisting = refuseHoisting;
