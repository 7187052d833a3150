'use strict';
/**
 * Loops.
 *
 * @typedef {import('./builder.js').Builder} Builder
 * @typedef {import('../syntax.js').Node} Node
 */
const {makeIdent} = require('../HIR.js');
const {Refused} = require('../refused.js');
const {inRound} = require('../sharing.js');
const hoisting = require('./hoisting.js');
const statements = require('./statements.js');
const assignments = require('./assignments.js');
const expressions = require('./expressions.js');

/** @param {Builder} b @param {Node} node @param {?string} label @param {number} again @param {{id: number}} next */
function lowerBody(b, node, label, again, next, begin = () => {}) {
  const {blocks} = b;
  return blocks.enter(() => blocks.within({label, break: next.id, continue: again}, () => {
    begin();
    statements.lowerStatement(b, node.body);
    return {kind: 'Goto', block: again};
  }));
}

function lowerWhile(b, node, label) {
  const {blocks} = b;
  const test = blocks.reserve();
  const next = blocks.reserve();
  const body = lowerBody(b, node, label, test.id, next);
  blocks.goOn({kind: 'While', test: test.id, fallthrough: next.id}, test);
  b.branch(expressions.lowerExpressionToTemporary(b, node.test), body, next);
}

function lowerDoWhile(b, node, label) {
  const {blocks} = b;
  const test = blocks.reserve();
  const next = blocks.reserve();
  const body = lowerBody(b, node, label, test.id, next);
  blocks.goOn({kind: 'DoWhile', loop_block: body, test: test.id, fallthrough: next.id}, test);
  b.branch(expressions.lowerExpressionToTemporary(b, node.test), body, next);
}

function lowerFor(b, node, label) {
  const {blocks} = b;
  hoisting.refuseHoisting(b, node, node.init);
  const rounds = roundVariables(b, node);
  const test = blocks.reserve();
  const next = blocks.reserve();
  const init = blocks.enter(() => {
    if (node.init && node.init.type === 'VariableDeclaration') statements.lowerDeclaration(b, node.init);
    else if (node.init) expressions.lowerExpressionToTemporary(b, node.init);
    return {kind: 'Goto', block: test.id};
  });
  const again = rounds.some(r => r.isWritten) || node.update ? blocks.reserve() : test;
  const body = inRounds(b, rounds, () => lowerBody(b, node, label, again.id, next, () => rounds.forEach(r => beginRound(b, r))));
  if (again !== test) {
    blocks.enter(() => {
      for (const r of rounds) if (r.isWritten) endRound(b, r);
      if (node.update) expressions.lowerExpressionToTemporary(b, node.update);
      return {kind: 'Goto', block: test.id};
    }, again);
  }
  blocks.goOn({kind: 'For', init, fallthrough: next.id}, test);
  if (node.test) b.branch(expressions.lowerExpressionToTemporary(b, node.test), body, next);
  else blocks.goOn({kind: 'Goto', block: body}, next); // only `break` leaves it; the React Compiler refuses
}

/**
 * The variables of the head that functions of the body see while the loop writes them. JavaScript makes a new one for
 * each round: so each round begins with a variable of its own, which goes back to that of the head at its end. (The
 * React Compiler has one for all rounds.)
 */
function roundVariables(b, node) {
  const isLet = node.init && node.init.type === 'VariableDeclaration' && node.init.kind === 'let';
  if (!isLet || b.shared.asCompiler) return [];
  return (b.shared.names.declared.get(node) || []).filter(binding => b.isShared(binding)).flatMap(binding => {
    const {isCaptured, isWritten} = inRound(binding, node.body);
    if (!isCaptured) return [];
    const {start, end, name} = b.ident(binding);
    const head = makeIdent(start, end, name);
    const own = makeIdent(start, end, name);
    own.shared = isWritten;
    b.shared.idents.set(binding, head);
    return [{binding, head, own, isWritten}];
  });
}

/** Lowers what a round does: there, the variables are the round's own. */
function inRounds(b, rounds, fill) {
  for (const {binding, own} of rounds) b.shared.idents.set(binding, own);
  const result = fill();
  for (const {binding, head} of rounds) b.shared.idents.set(binding, head);
  return result;
}

function beginRound(b, {binding, head, own}) {
  const {node} = binding;
  const at = {start: node.start, end: node.end};
  const value = b.emit({kind: 'LoadLocal', place: {ident: head, ...at}}, node);
  b.emit({kind: own.shared ? 'StoreContext' : 'StoreLocal', lvalue: {kind: 'Let', place: {ident: own, ...at}}, value}, node);
}

function endRound(b, {binding, head, own}) {
  const {node} = binding;
  const at = {start: node.start, end: node.end};
  const value = b.emit({kind: 'LoadContext', place: {ident: own, ...at}}, node);
  b.emit({kind: 'StoreLocal', lvalue: {kind: 'Reassign', place: {ident: head, ...at}}, value}, node);
}

/** What each round of a for-of or for-in loop begins with. */
function assignRound(b, node, value) {
  const {left} = node;
  if (left.type !== 'VariableDeclaration') return b.emit(assignments.lowerAssignment(b, left, 'Reassign', value, false, left), left);
  const [{id, init}] = left.declarations;
  if (init) throw new Refused('a kind of loop', node);
  const kind = left.kind === 'var' ? 'Reassign' : 'Let';
  return b.emit(assignments.lowerAssignment(b, id, kind, value, false, left), left);
}

/** A round of `for await` waits for its item. (The React Compiler refuses it.) */
function lowerForOf(b, node, label) {
  const {blocks} = b;
  hoisting.refuseHoisting(b, node, node.left);
  const init = blocks.reserve();
  const test = blocks.reserve();
  const next = blocks.reserve();
  const body = lowerBody(b, node, label, init.id, next);
  const collection = expressions.lowerExpressionToTemporary(b, node.right);
  blocks.goOn({kind: 'ForOf', init: init.id, fallthrough: next.id}, init);
  const iterator = b.emit({kind: 'GetIterator', collection}, node.right);
  blocks.goOn({kind: 'Goto', block: test.id}, test);
  let item = b.emit({kind: 'IteratorNext', iterator, collection}, node.left);
  if (node.await) item = b.emit({kind: 'Await', value: item}, node.left);
  b.branch(assignRound(b, node, item), body, next, 'more');
}

function lowerForIn(b, node, label) {
  const {blocks} = b;
  hoisting.refuseHoisting(b, node, node.left);
  const init = blocks.reserve();
  const next = blocks.reserve();
  const body = lowerBody(b, node, label, init.id, next);
  const value = expressions.lowerExpressionToTemporary(b, node.right);
  blocks.goOn({kind: 'ForIn', init: init.id, fallthrough: next.id}, init);
  const item = b.emit({kind: 'NextPropertyOf', value}, node.left);
  b.branch(assignRound(b, node, item), body, next, 'more');
}

exports.lowerWhile = lowerWhile;
exports.lowerDoWhile = lowerDoWhile;
exports.lowerFor = lowerFor;
exports.lowerForOf = lowerForOf;
exports.lowerForIn = lowerForIn;
