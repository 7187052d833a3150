'use strict';
/**
 * Calls.
 *
 * @typedef {import('./builder.js').Builder} Builder
 * @typedef {import('../syntax.js').Node} Node
 * @typedef {import('../HIR.js').Value} Value
 */
const {loaded} = require('./builder.js');
const {Refused} = require('../refused.js');
const {unwrapped} = require('../syntax.js');
const expressions = require('./expressions.js');
const hoisting = require('./hoisting.js');
const lowering = require('./index.js');
const memo = require('./memo.js');
const properties = require('./properties.js');

/** @param {Builder} b @param {Array<Node>} list */
function lowerArguments(b, list) {
  return list.map(a => {
    if (a.type === 'SpreadElement') return {spread: expressions.lowerExpressionToTemporary(b, a.argument)};
    if (a.type === 'ArgumentPlaceholder') throw new Refused('a kind of argument', a);
    return expressions.lowerExpressionToTemporary(b, a);
  });
}

/** A call of a function, or of a method of a receiver, without its arguments. @param {Builder} b @param {Node} node @returns {Value} */
function lowerCallee(b, node) {
  const x = unwrapped(node);
  if (x.type === 'Super') { // the constructor that it calls has `this` as its receiver
    const receiver = expressions.lowerExpressionToTemporary(b, x);
    return {kind: 'MethodCall', receiver, property: b.emit({kind: 'PropertyLoad', object: receiver, name: 'constructor'}, x), args: []};
  }
  if (x.type === 'MemberExpression') {
    const {object, value} = properties.lowerMember(b, x);
    return {kind: 'MethodCall', receiver: object, property: value, args: []};
  }
  return {kind: 'CallExpression', callee: expressions.lowerExpressionToTemporary(b, node), args: []};
}

/** @param {Builder} b @param {Node} node @returns {Value} */
function lowerCall(b, node) {
  const known = b.shared.dropMemo ? memo.lowerMemoCall(b, node) : null;
  if (known) return known;
  const func = b.shared.names.funcOf.get(node.callee);
  if (func && func.inlinedInto) return lowerInlined(b, func, node);
  const call = lowerCallee(b, node.callee);
  call.args = lowerArguments(b, node.arguments);
  if (node.callee.type !== 'Super') return call;
  b.emit(call, node);
  return loaded(call.receiver);
}

/**
 * The body of a function that is called at once, in the place of the call. (The React Compiler does it in
 * inlineImmediatelyInvokedFunctionExpressions, for calls that are statements or the values of some, and leaves the
 * variables that the body shares with its surroundings shared.)
 * @param {Builder} b @param {import('../scope.js').Func} func @param {Node} node the call
 * @returns {Value}
 */
function lowerInlined(b, func, node) {
  const {blocks} = b;
  const {body} = func.node;
  if (body.type !== 'BlockStatement') return expressions.lowerExpression(b, body);
  const place = b.temporary(node, true);
  b.emit({kind: 'DeclareLocal', lvalue: {kind: 'Let', place}}, node);
  const next = blocks.reserve();
  const block = blocks.enter(() => {
    blocks.within({returns: {next, place}}, () => {
      lowering.declareVars(b, func);
      hoisting.lowerStatements(b, body.body, func.node);
    });
    return b.give(place, b.primitive({start: func.node.end, end: func.node.end}), next, func.node);
  });
  blocks.goOn({kind: 'Label', block, fallthrough: next.id}, next);
  return loaded(place);
}

/**
 * A tag is called with the texts and the values. The React Compiler has a kind of its own for a tag without
 * values, which calls nothing, and refuses one with values.
 * @param {Builder} b @param {Node} node @returns {Value}
 */
function lowerTagged(b, node) {
  const {quasi, tag} = node;
  if (b.shared.asCompiler && quasi.expressions.length === 0) {
    return {kind: 'TaggedTemplateExpression', tag: expressions.lowerExpressionToTemporary(b, tag), text: quasi.quasis[0].value};
  }
  const call = lowerCallee(b, tag);
  const elements = quasi.quasis.map(q => b.primitive(q, q.value.cooked));
  const texts = b.emit({kind: 'ArrayExpression', elements, raw: quasi.quasis.map(q => q.value.raw)}, quasi);
  call.args = [texts, ...quasi.expressions.map(e => expressions.lowerExpressionToTemporary(b, e))];
  return call;
}

exports.lowerArguments = lowerArguments;
exports.lowerCallee = lowerCallee;
exports.lowerCall = lowerCall;
exports.lowerInlined = lowerInlined;
exports.lowerTagged = lowerTagged;
