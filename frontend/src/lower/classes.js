'use strict';
/**
 * Classes in functions: an object that holds their methods. The React Compiler refuses them.
 *
 * The rules say that `new C()` writes nothing that the function C holds, so a class whose functions write what is
 * around it is refused.
 *
 * @typedef {import('./builder.js').Builder} Builder
 * @typedef {import('../syntax.js').Node} Node
 */
const {Refused} = require('../refused.js');
const {bare, children, isReorderable, isWithin} = require('../syntax.js');
const expressions = require('./expressions.js');
const lowering = require('./index.js');

const METHODS = new Set(['ClassMethod', 'ClassPrivateMethod']);
const FIELDS = new Set(['ClassProperty', 'ClassPrivateProperty']);

/** @param {Builder} b @param {Node} node @returns {import('../HIR.js').Value} */
function lowerClass(b, node) {
  refuseWrites(b, node, node.body);
  const own = node.type === 'ClassExpression' && node.id ? b.shared.names.bindingOf.get(node.id) : null;
  if (own && own.refs.length > 0) throw new Refused('a class in a function', node, 'which names itself');
  const properties = [];
  const add = (place, name, at) => properties.push({key: name, computed: null, place, at});
  if (node.superClass) add(expressions.lowerExpressionToTemporary(b, node.superClass), 'prototype', node.superClass);
  for (const m of node.body.body) {
    if (METHODS.has(m.type)) add(lowerMethod(b, m), 'method', m);
    else if (FIELDS.has(m.type)) {
      if (m.computed) throw new Refused('a class in a function', m, 'with a computed field');
      if (m.value) add(lowerField(b, m), 'field', m);
    } else if (!/^TS/.test(m.type)) throw new Refused('a class in a function', m, m.type);
  }
  return {kind: 'ObjectExpression', properties, class: node};
}

function lowerMethod(b, m) {
  if (m.kind === 'get' || m.kind === 'set') throw new Refused('a getter or setter', m);
  if (m.computed) expressions.lowerExpressionToTemporary(b, m.key);
  return b.emit({kind: 'ObjectMethod', fn: lowering.lowerNested(b, m)}, m);
}

/** The value of a field is made anew for each object; it is lowered once, where the class is made. */
function lowerField(b, m) {
  if (!isReorderable(m.value)) throw new Refused('a class in a function', m, 'with a field that does something');
  return expressions.lowerExpressionToTemporary(b, m.value);
}

/** Refuses a write of a variable from around the class, or of a property of one. */
function refuseWrites(b, node, below) {
  for (const child of children(below)) {
    for (const written of writtenRoots(child)) {
      const binding = b.shared.names.bindingOf.get(written);
      const isAround = binding && binding.kind !== 'this' && b.isInside(binding.fn) && !isWithin(binding.node, node);
      if (isAround) throw new Refused('a class in a function', child, `which writes \`${binding.name}\` of the function around it`);
    }
    refuseWrites(b, node, child);
  }
}

/** The variables of which an assignment, update, `delete` or loop writes, or writes a part. @returns {Array<Node>} */
function writtenRoots(node) {
  if (node.type === 'AssignmentExpression' || node.type === 'ForOfStatement' || node.type === 'ForInStatement') return targetRoots(node.left);
  const isWrite = node.type === 'UpdateExpression' || (node.type === 'UnaryExpression' && node.operator === 'delete');
  return isWrite ? targetRoots(node.argument) : [];
}

function targetRoots(target) {
  let root = bare(target);
  if (root.type === 'ObjectPattern') return root.properties.flatMap(p => targetRoots(p.type === 'RestElement' ? p.argument : p.value));
  if (root.type === 'ArrayPattern') return root.elements.filter(Boolean).flatMap(targetRoots);
  if (root.type === 'AssignmentPattern') return targetRoots(root.left);
  if (root.type === 'RestElement') return targetRoots(root.argument);
  while (root.type === 'MemberExpression') root = bare(root.object);
  return root.type === 'Identifier' ? [root] : [];
}

exports.lowerClass = lowerClass;
