'use strict';
/**
 * What is asked of a Babel tree by its nodes alone.
 *
 * @typedef {{type: string, start: number, end: number, [field: string]: any}} Node
 */

const SKIPPED = new Set(['loc', 'extra', 'leadingComments', 'trailingComments', 'innerComments', 'typeAnnotation',
  'typeParameters', 'typeArguments', 'returnType', 'superTypeParameters', 'superTypeArguments', 'implements', 'predicate', 'errors',
  'range', 'tokens', 'comments', 'directives', 'interpreter', 'decorators', 'parent']);
const FUNCTIONS = new Set(['FunctionDeclaration', 'FunctionExpression', 'ArrowFunctionExpression', 'ObjectMethod',
  'ClassMethod', 'ClassPrivateMethod']);
/** Wrappers of the two type languages around an expression; all their other nodes have no names of values. */
const TYPED = new Set(['TSAsExpression', 'TSSatisfiesExpression', 'TSNonNullExpression', 'TSTypeAssertion',
  'TSInstantiationExpression', 'TypeCastExpression', 'TSExportAssignment', 'TSParameterProperty']);
const CASTS = new Set(['TSAsExpression', 'TSSatisfiesExpression', 'TypeCastExpression', 'TSTypeAssertion']);
const PLAIN_CASTS = new Set(['TSNonNullExpression', 'TSInstantiationExpression', 'ParenthesizedExpression']);

/** @param {*} x @returns {x is Node} */
const isNode = x => x !== null && typeof x === 'object' && typeof x.type === 'string';
/** @param {Node} node */
const isFunction = node => FUNCTIONS.has(node.type);
/** @type {Map<string, boolean>} what is known of types of nodes, which are few */
const typeOnly = new Map();

/** @param {string} type */
const isTypeOfTypes = type => (/^(TS|Declare|Interface|Opaque)/.test(type) || type === 'TypeAlias' || type === 'EnumDeclaration') && !TYPED.has(type);

/** Has no value at all: a declaration of a type. @param {Node} node */
function isTypeOnly({type}) {
  let known = typeOnly.get(type);
  if (known === undefined) {
    known = isTypeOfTypes(type);
    typeOnly.set(type, known);
  }
  return known;
}

/** The nodes directly below, in order of their fields. @param {Node} node @returns {Array<Node>} */
function children(node) {
  const out = [];
  for (const key in node) {
    const value = node[key];
    if (value === null || typeof value !== 'object') continue;
    if (Array.isArray(value)) {
      if (value.length > 0 && !SKIPPED.has(key)) for (const item of value) if (isNode(item)) out.push(item);
    } else if (typeof value.type === 'string' && !SKIPPED.has(key)) out.push(value);
  }
  return out;
}

/** The identifiers that a pattern declares or writes, in order; expressions in it are left out. */
function patternNames(pattern, out = []) {
  if (!pattern) return out;
  switch (pattern.type) {
    case 'Identifier': out.push(pattern); break;
    case 'ObjectPattern':
      for (const p of pattern.properties) patternNames(p.type === 'RestElement' ? p.argument : p.value, out);
      break;
    case 'ArrayPattern': for (const e of pattern.elements) patternNames(e, out); break;
    case 'AssignmentPattern': patternNames(pattern.left, out); break;
    case 'RestElement': patternNames(pattern.argument, out); break;
    case 'TSParameterProperty': patternNames(pattern.parameter, out); break;
    default: break;
  }
  return out;
}

/** The expression within casts. @param {Node} node @returns {Node} */
function bare(node) {
  let x = node;
  while (CASTS.has(x.type) || PLAIN_CASTS.has(x.type)) x = x.expression;
  return x;
}

/** The expression within wrappers that make no value of their own. @param {Node} node @returns {Node} */
const unwrapped = node => (PLAIN_CASTS.has(node.type) ? bare(node) : node);

/** @param {Node} node whether it lies within the other by its place @param {Node} outer */
const isWithin = (node, outer) => node.start >= outer.start && node.end <= outer.end;

const LITERALS = new Set(['NumericLiteral', 'StringLiteral', 'BooleanLiteral', 'NullLiteral', 'BigIntLiteral']);

/** Whether evaluating it later changes nothing that anybody could see but for getters. @param {Node} node */
function isReorderable(node) {
  const x = bare(node);
  if (LITERALS.has(x.type)) return true;
  switch (x.type) {
    case 'Identifier': case 'RegExpLiteral': case 'ArrowFunctionExpression': case 'FunctionExpression': return true;
    case 'UnaryExpression': return x.operator !== 'delete' && isReorderable(x.argument);
    case 'ArrayExpression': return x.elements.every(e => e && e.type !== 'SpreadElement' && isReorderable(e));
    case 'ObjectExpression':
      return x.properties.every(p => p.type === 'ObjectProperty' && !p.computed && isReorderable(p.value));
    case 'ConditionalExpression': return [x.test, x.consequent, x.alternate].every(isReorderable);
    case 'LogicalExpression': case 'BinaryExpression':
      return x.left.type !== 'PrivateName' && isReorderable(x.left) && isReorderable(x.right);
    case 'MemberExpression': return !x.computed && x.property.type === 'Identifier' && isReorderable(x.object);
    case 'TemplateLiteral': return x.expressions.every(isReorderable);
    default: return false;
  }
}

module.exports = {isNode, isFunction, isTypeOnly, children, patternNames, bare, unwrapped, isWithin, isReorderable, CASTS,
  PLAIN_CASTS};
