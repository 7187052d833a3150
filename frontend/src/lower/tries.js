'use strict';
/**
 * `try`, `catch`, `finally` and `throw`. The React Compiler refuses `finally`, and `throw` in `try`.
 *
 * @typedef {import('./builder.js').Builder} Builder
 * @typedef {import('../syntax.js').Node} Node
 * @typedef {import('../HIR.js').Place} Place
 */
const {Refused} = require('../refused.js');
const {isWithin} = require('../syntax.js');
const assignments = require('./assignments.js');
const expressions = require('./expressions.js');
const statements = require('./statements.js');

const MOST_COPIES = 200;

/** @param {Builder} b @param {Node} node */
function lowerThrow(b, node) {
  throwValue(b, expressions.lowerExpressionToTemporary(b, node.argument), node);
}

/** Within a `try`, what is thrown becomes the binding of its handler. @param {Builder} b @param {Place} value @param {Node} node */
function throwValue(b, value, node) {
  const {blocks} = b;
  const handler = blocks.handlers.at(-1);
  if (!handler) {
    blocks.end({kind: 'Throw', value, start: node.start, end: node.end});
    return;
  }
  if (handler.binding) b.emit({kind: 'StoreLocal', lvalue: {kind: 'Reassign', place: handler.binding}, value}, node);
  blocks.end({kind: 'Goto', block: handler.block});
}

/** @param {Builder} b @param {Node} node */
function lowerTry(b, node) {
  if (node.finalizer) lowerFinally(b, node);
  else lowerCatch(b, node);
}

/** The variable that holds what was thrown. @param {Builder} b @param {Node} node */
function catchBinding(b, node) {
  const binding = b.temporary(node, true);
  b.emit({kind: 'DeclareLocal', lvalue: {kind: 'Catch', place: binding}}, node);
  return binding;
}

function lowerCatch(b, node) {
  const {blocks} = b;
  const {param, body} = node.handler;
  const next = blocks.reserve();
  const binding = param ? catchBinding(b, param) : null;
  const handler = blocks.enter(() => {
    if (binding) assignments.lowerAssignment(b, param, 'Catch', binding, false, param);
    statements.lowerStatement(b, body);
    return {kind: 'Goto', block: next.id};
  });
  const block = blocks.enter(() => {
    blocks.withHandler({block: handler, binding}, () => statements.lowerStatement(b, node.block));
    return {kind: 'Goto', block: next.id};
  });
  blocks.goOn({kind: 'Try', block, handler, handler_binding: binding, fallthrough: next.id}, next);
}

/**
 * Each way out of the statement has a copy of the `finally`: its end, what is thrown (which is thrown again
 * behind it), and each `return`, `break` and `continue`.
 */
function lowerFinally(b, node) {
  const {blocks} = b;
  const next = blocks.reserve();
  const {handlers} = blocks;
  const finalizer = () => {
    blocks.handlers = handlers;
    lowerCopy(b, node.finalizer);
  };
  const binding = catchBinding(b, node.finalizer);
  const handler = blocks.enter(() => {
    lowerCopy(b, node.finalizer);
    throwValue(b, binding, node.finalizer);
    return {kind: 'Unreachable'};
  });
  const block = blocks.enter(() => {
    blocks.handlers = [...handlers, {block: handler, binding}];
    blocks.within({finalizer}, () => {
      if (node.handler) lowerCatch(b, node);
      else statements.lowerStatement(b, node.block);
    });
    blocks.handlers = handlers;
    return {kind: 'Goto', block: next.id};
  });
  blocks.goOn({kind: 'Try', block, handler, handler_binding: binding, fallthrough: next.id}, next);
  lowerCopy(b, node.finalizer);
}

/** Lowers a `finally` once more: what it declares are other variables in each copy. */
function lowerCopy(b, finalizer) {
  const {idents, hoisted} = b.shared;
  b.shared.copies += 1;
  if (b.shared.copies > MOST_COPIES) throw new Refused('`finally` that is left in too many ways', finalizer);
  for (const binding of [...idents.keys()]) {
    const isFunctionWide = binding.kind === 'var' && !(binding.fn && isWithin(binding.fn.node, finalizer));
    if (isFunctionWide || !isWithin(binding.node, finalizer)) continue;
    idents.delete(binding);
    hoisted.delete(binding);
  }
  statements.lowerStatement(b, finalizer);
}

exports.lowerThrow = lowerThrow;
exports.lowerTry = lowerTry;
