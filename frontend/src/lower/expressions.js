'use strict';
/**
 * Expressions.
 *
 * @typedef {import('./builder.js').Builder} Builder
 * @typedef {import('../syntax.js').Node} Node
 * @typedef {import('../HIR.js').Place} Place
 * @typedef {import('../HIR.js').Value} Value
 */
const {loaded} = require('./builder.js');
const {Refused} = require('../refused.js');
const {bare, CASTS, PLAIN_CASTS} = require('../syntax.js');
const assignments = require('./assignments.js');
const calls = require('./calls.js');
const classes = require('./classes.js');
const hoisting = require('./hoisting.js');
const jsx = require('./jsx.js');
const lowering = require('./index.js');
const optionals = require('./optionals.js');
const properties = require('./properties.js');

const constant = (b, node) => ({kind: 'Primitive', constant: node.value});

/** @type {Record<string, (b: Builder, node: Node) => Value>} */
const EXPRESSIONS = {
  Identifier: lowerIdentifier,
  NullLiteral: () => ({kind: 'Primitive', constant: null}),
  BooleanLiteral: constant,
  NumericLiteral: constant,
  StringLiteral: constant,
  BigIntLiteral: (b, node) => ({kind: 'Primitive', constant: BigInt(node.value)}),
  RegExpLiteral: (b, node) => ({kind: 'RegExpLiteral', pattern: node.pattern, flags: node.flags}),
  TemplateLiteral: (b, node) => ({kind: 'TemplateLiteral', texts: node.quasis.map(q => q.value.cooked),
    subexprs: node.expressions.map(e => lowerExpressionToTemporary(b, e))}),
  TaggedTemplateExpression: (b, node) => calls.lowerTagged(b, node),
  ArrayExpression: (b, node) => ({kind: 'ArrayExpression', elements: node.elements.map(e => (e === null ? 'hole'
    : e.type === 'SpreadElement' ? {spread: lowerExpressionToTemporary(b, e.argument)} : lowerExpressionToTemporary(b, e)))}),
  ObjectExpression: (b, node) => ({kind: 'ObjectExpression', properties: node.properties.map(p => lowerObjectProperty(b, p))}),
  FunctionExpression: lowerFunctionExpression,
  ArrowFunctionExpression: (b, node) => ({kind: 'FunctionExpression', fn: lowering.lowerNested(b, node)}),
  ClassExpression: (b, node) => classes.lowerClass(b, node),
  UnaryExpression: lowerUnary,
  BinaryExpression: lowerBinary,
  LogicalExpression: (b, node) => lowerLogical(b, node, node.operator, () => lowerExpressionToTemporary(b, node.left),
    () => lowerExpressionToTemporary(b, node.right)),
  ConditionalExpression: lowerConditional,
  SequenceExpression: lowerSequence,
  AssignmentExpression: (b, node) => assignments.lowerAssignmentExpression(b, node),
  UpdateExpression: (b, node) => assignments.lowerUpdate(b, node),
  MemberExpression: (b, node) => loaded(properties.lowerMember(b, node).value),
  OptionalMemberExpression: (b, node) => loaded(optionals.lowerOptionalMember(b, node, null).value),
  OptionalCallExpression: (b, node) => loaded(optionals.lowerOptionalCall(b, node, null)),
  CallExpression: (b, node) => calls.lowerCall(b, node),
  NewExpression(b, node) {
    const callee = lowerExpressionToTemporary(b, node.callee);
    return {kind: 'NewExpression', callee, args: calls.lowerArguments(b, node.arguments)};
  },
  AwaitExpression: (b, node) => ({kind: 'Await', value: lowerExpressionToTemporary(b, node.argument)}),
  JSXElement: (b, node) => jsx.lowerJsxElement(b, node),
  JSXFragment: (b, node) => ({kind: 'JsxFragment', children: jsx.lowerJsxChildren(b, node.children)}),
  MetaProperty(b, node) {
    if (node.meta.name !== 'import') throw new Refused('`new.target`', node);
    return {kind: 'MetaProperty'};
  },
  Import: (b, node) => loaded(b.emit({kind: 'LoadGlobal', global: {name: 'import', source: null, imported: null, isModule: false}}, node)),
  ThisExpression: lowerIdentifier,
  Super: lowerIdentifier,
  YieldExpression(b, node) {
    throw new Refused('a generator', node);
  },
};

/** @param {Builder} b @param {Node} node @returns {Value} */
function lowerExpression(b, node) {
  const lower = EXPRESSIONS[node.type];
  if (lower) return lower(b, node);
  if (CASTS.has(node.type)) return {kind: 'TypeCastExpression', value: lowerExpressionToTemporary(b, node.expression)};
  if (PLAIN_CASTS.has(node.type)) return lowerExpression(b, node.expression);
  throw new Refused('a kind of expression', node, node.type);
}

/** @param {Builder} b @param {Node} node */
function lowerExpressionToTemporary(b, node) {
  return b.emit(lowerExpression(b, node), node);
}

function lowerIdentifier(b, node) {
  const binding = b.local(node);
  if (binding) return b.load(binding, node);
  if (node.name === 'undefined' && !b.shared.names.bindingOf.has(node)) return {kind: 'Primitive', constant: undefined};
  return loaded(b.emit({kind: 'LoadGlobal', global: b.global(node)}, node));
}

/** One that refers to itself is a constant of its own name; the React Compiler refuses it. */
function lowerFunctionExpression(b, node) {
  const self = node.id ? b.shared.names.bindingOf.get(node.id) : null;
  if (!self || self.refs.length === 0 || !b.isInside(self.fn)) return {kind: 'FunctionExpression', fn: lowering.lowerNested(b, node)};
  if (!b.shared.hoisted.has(self)) hoisting.hoist(b, self, self.refs[0].node);
  const value = b.emit({kind: 'FunctionExpression', fn: lowering.lowerNested(b, node)}, node);
  return assignments.lowerAssignment(b, node.id, 'Const', value, false, node);
}

function lowerUnary(b, node) {
  if (node.operator === 'throw') throw new Refused('a kind of expression', node, 'throw');
  if (node.operator !== 'delete') return {kind: 'UnaryExpression', operator: node.operator, value: lowerExpressionToTemporary(b, node.argument)};
  const argument = bare(node.argument);
  if (argument.type !== 'MemberExpression') throw new Refused('`delete` of what is no property', node);
  const object = properties.lowerObject(b, argument);
  const property = properties.lowerProperty(b, argument);
  return property.computed ? {kind: 'ComputedDelete', object, property: property.computed}
    : {kind: 'PropertyDelete', object, name: property.name};
}

/** A sum of thousands is read without a stack. */
function lowerBinary(b, node) {
  const chain = [];
  let first = node;
  while (first.type === 'BinaryExpression') {
    if (first.operator === '|>') throw new Refused('a kind of expression', first, '|>');
    chain.push(first);
    first = first.left;
  }
  let left = first.type === 'PrivateName' ? b.primitive(first, `#${first.id.name}`) : lowerExpressionToTemporary(b, first);
  for (const sum of chain.reverse()) {
    const value = {kind: 'BinaryExpression', operator: sum.operator, left, right: lowerExpressionToTemporary(b, sum.right)};
    if (sum === node) return value;
    left = b.emit(value, sum);
  }
  throw new Error('a sum has a last part');
}

/** @param {Builder} b @param {Node} node @param {string} operator @param {() => Place} left @param {() => Place} right @returns {Value} */
function lowerLogical(b, node, operator, left, right) {
  const {blocks} = b;
  const place = b.temporary(node);
  const leftPlace = b.temporary(node.left);
  const next = blocks.reserve();
  const test = blocks.reserve();
  const consequent = blocks.enter(() => b.give(place, leftPlace, next, node.left));
  blocks.goOn({kind: 'Logical', test: test.id, fallthrough: next.id}, test);
  const value = left();
  const alternate = blocks.enter(() => b.give(place, right(), next, node.right));
  b.push(leftPlace, loaded(value), node.left);
  const how = {'||': 'true', '&&': 'false', '??': 'present'}[operator];
  blocks.goOn({kind: 'Branch', how, test: leftPlace, consequent, alternate, fallthrough: next.id}, next);
  return loaded(place);
}

function lowerConditional(b, node) {
  const {blocks} = b;
  const place = b.temporary(node);
  const next = blocks.reserve();
  const test = blocks.reserve();
  const arm = x => blocks.enter(() => b.give(place, lowerExpressionToTemporary(b, x), next, x));
  const consequent = arm(node.consequent);
  const alternate = arm(node.alternate);
  blocks.goOn({kind: 'Ternary', test: test.id, fallthrough: next.id}, test);
  const testPlace = lowerExpressionToTemporary(b, node.test);
  blocks.goOn({kind: 'Branch', test: testPlace, consequent, alternate, fallthrough: next.id}, next);
  return loaded(place);
}

function lowerSequence(b, node) {
  const {blocks} = b;
  const place = b.temporary(node);
  const next = blocks.reserve();
  const block = blocks.enter(() => {
    let last = null;
    for (const e of node.expressions) last = lowerExpressionToTemporary(b, e);
    return b.give(place, last, next, node);
  });
  blocks.goOn({kind: 'Sequence', block, fallthrough: next.id}, next);
  return loaded(place);
}

function lowerObjectProperty(b, p) {
  if (p.type === 'SpreadElement') return {spread: lowerExpressionToTemporary(b, p.argument)};
  if (p.type === 'ObjectMethod' && p.kind !== 'method') throw new Refused('a getter or setter', p);
  const isComputed = p.computed && p.key.type !== 'StringLiteral' && p.key.type !== 'NumericLiteral';
  const computed = isComputed ? lowerExpressionToTemporary(b, p.key) : null;
  const place = p.type === 'ObjectMethod' ? b.emit({kind: 'ObjectMethod', fn: lowering.lowerNested(b, p)}, p)
    : lowerExpressionToTemporary(b, p.value);
  return {key: isComputed ? null : properties.keyName(p.key), computed, place};
}

exports.lowerExpression = lowerExpression;
exports.lowerExpressionToTemporary = lowerExpressionToTemporary;
exports.lowerLogical = lowerLogical;
