'use strict';
/**
 * JSX.
 *
 * @typedef {import('./builder.js').Builder} Builder
 * @typedef {import('../syntax.js').Node} Node
 * @typedef {import('../HIR.js').Value} Value
 */
const {Refused} = require('../refused.js');
const expressions = require('./expressions.js');

/** The value of a tag; null for one that is a name alone, as `div`. */
function lowerTag(b, node) {
  if (node.type === 'JSXNamespacedName') return null;
  if (node.type === 'JSXIdentifier') return /^[A-Z]/.test(node.name) ? lowerName(b, node) : null;
  const object = node.object.type === 'JSXIdentifier' ? lowerName(b, node.object) : lowerTag(b, node.object);
  return b.emit({kind: 'PropertyLoad', object, name: node.property.name}, node);
}

function lowerName(b, node) {
  const binding = b.local(node);
  if (binding) return b.emit(b.load(binding, node), node);
  return b.emit({kind: 'LoadGlobal', global: b.global(node)}, node);
}

/** @returns {import('../HIR.js').Place} */
function lowerAttributeValue(b, attribute) {
  const {value} = attribute;
  if (value === null || value === undefined) return b.primitive(attribute, true);
  if (value.type !== 'JSXExpressionContainer') return expressions.lowerExpressionToTemporary(b, value);
  if (value.expression.type === 'JSXEmptyExpression') return b.primitive(attribute, true);
  return expressions.lowerExpressionToTemporary(b, value.expression);
}

/** @param {Builder} b @param {Node} node @returns {Value} */
function lowerJsxElement(b, node) {
  const {name, attributes} = node.openingElement;
  const tag = lowerTag(b, name);
  const names = [];
  const props = attributes.map(a => {
    if (a.type === 'JSXSpreadAttribute') {
      names.push(null);
      return {spread: expressions.lowerExpressionToTemporary(b, a.argument)};
    }
    names.push(a.name.type === 'JSXNamespacedName' ? `${a.name.namespace.name}:${a.name.name.name}` : a.name.name);
    return lowerAttributeValue(b, a);
  });
  return {kind: 'JsxExpression', tag, props, names, children: lowerJsxChildren(b, node.children)};
}

/** @param {Builder} b @param {Array<Node>} list */
function lowerJsxChildren(b, list) {
  const out = [];
  for (const child of list) {
    if (child.type === 'JSXText') {
      if (/\S/.test(child.value) || (child.value !== '' && !/\n/.test(child.value))) out.push(b.emit({kind: 'JSXText', text: child.value}, child));
    } else if (child.type === 'JSXExpressionContainer') {
      if (child.expression.type !== 'JSXEmptyExpression') out.push(expressions.lowerExpressionToTemporary(b, child.expression));
    } else if (child.type === 'JSXSpreadChild') throw new Refused('children that are spread', child);
    else out.push(expressions.lowerExpressionToTemporary(b, child));
  }
  return out;
}

exports.lowerJsxElement = lowerJsxElement;
exports.lowerJsxChildren = lowerJsxChildren;
