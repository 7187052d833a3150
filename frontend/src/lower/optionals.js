'use strict';
/**
 * Optional chains.
 *
 * @typedef {import('./builder.js').Builder} Builder
 * @typedef {import('../syntax.js').Node} Node
 * @typedef {import('../HIR.js').Place} Place
 */
const {unwrapped} = require('../syntax.js');
const calls = require('./calls.js');
const expressions = require('./expressions.js');
const properties = require('./properties.js');

function absent(b, place, next, node) {
  return b.blocks.enter(() => b.give(place, b.primitive(node), next, node));
}

/** The test of one link: the chain goes on behind it unless it is optional and there is nothing. */
const link = (node, test, consequent, alternate, next) => ({kind: 'Branch', how: node.optional ? 'present' : 'always', test,
  consequent: consequent.id, alternate, fallthrough: next.id});

/**
 * @param {Builder} b @param {Node} node @param {?number} parentAlternate where the chain around goes if it ends
 * @returns {{object: Place, value: Place}}
 */
function lowerOptionalMember(b, node, parentAlternate) {
  const {blocks} = b;
  const place = b.temporary(node);
  const next = blocks.reserve();
  const consequent = blocks.reserve();
  const alternate = parentAlternate ?? absent(b, place, next, node);
  let object = null;
  const test = blocks.enter(() => {
    const inner = unwrapped(node.object);
    if (inner.type === 'OptionalMemberExpression') object = lowerOptionalMember(b, inner, alternate).value;
    else if (inner.type === 'OptionalCallExpression') object = lowerOptionalCall(b, inner, alternate);
    else object = expressions.lowerExpressionToTemporary(b, node.object);
    return link(node, object, consequent, alternate, next);
  });
  blocks.enter(() => b.give(place, properties.lowerMember(b, node, object).value, next, node), consequent);
  blocks.goOn({kind: 'Optional', test, fallthrough: next.id}, next);
  return {object, value: place};
}

/** @param {Builder} b @param {Node} node @param {?number} parentAlternate @returns {Place} */
function lowerOptionalCall(b, node, parentAlternate) {
  const {blocks} = b;
  const place = b.temporary(node);
  const next = blocks.reserve();
  const consequent = blocks.reserve();
  const alternate = parentAlternate ?? absent(b, place, next, node);
  let callee;
  const test = blocks.enter(() => {
    const inner = unwrapped(node.callee);
    if (inner.type === 'OptionalCallExpression') callee = {kind: 'CallExpression', callee: lowerOptionalCall(b, inner, alternate)};
    else if (inner.type === 'OptionalMemberExpression') {
      const {object, value} = lowerOptionalMember(b, inner, alternate);
      callee = {kind: 'MethodCall', receiver: object, property: value};
    } else callee = calls.lowerCallee(b, node.callee);
    return link(node, callee.kind === 'MethodCall' ? callee.property : callee.callee, consequent, alternate, next);
  });
  blocks.enter(() => {
    const result = b.temporary(node);
    b.push(result, {...callee, args: calls.lowerArguments(b, node.arguments)}, node);
    return b.give(place, result, next, node);
  }, consequent);
  blocks.goOn({kind: 'Optional', test, fallthrough: next.id}, next);
  return place;
}

exports.lowerOptionalMember = lowerOptionalMember;
exports.lowerOptionalCall = lowerOptionalCall;
