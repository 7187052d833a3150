'use strict';
/**
 * Assignments, patterns and updates.
 *
 * @typedef {import('./builder.js').Builder} Builder
 * @typedef {import('../syntax.js').Node} Node
 * @typedef {import('../HIR.js').Place} Place
 * @typedef {import('../HIR.js').Value} Value
 * @typedef {'Const'|'Let'|'Reassign'|'Function'|'Catch'} Kind
 */
const {loaded} = require('./builder.js');
const {Refused} = require('../refused.js');
const {bare, isReorderable} = require('../syntax.js');
const expressions = require('./expressions.js');
const properties = require('./properties.js');

const COMPOUND = {'+=': '+', '-=': '-', '*=': '*', '/=': '/', '%=': '%', '**=': '**', '&=': '&', '|=': '|', '^=': '^',
  '<<=': '<<', '>>=': '>>', '>>>=': '>>>'};
const LOGICAL = new Set(['||=', '&&=', '??=']);

/**
 * Puts the value into the target. `isDestructure` tells a declaration or assignment by a pattern from a
 * parameter and the like, whose pattern holds shared variables directly in the React Compiler: there, a prop that
 * a pattern takes is frozen for good where a function sees it.
 * @param {Builder} b @param {Node} given @param {Kind} kind @param {Place} value
 * @param {boolean} isDestructure @param {Node} node
 * @returns {Value} what the assignment gives
 */
function lowerAssignment(b, given, kind, value, isDestructure, node) {
  const target = bare(given);
  switch (target.type) {
    case 'Identifier': return lowerNameAssignment(b, target, kind, value, node);
    case 'MemberExpression': {
      const object = properties.lowerObject(b, target);
      return properties.store(b, object, properties.lowerProperty(b, target), value, node);
    }
    case 'ArrayPattern': return lowerArrayPattern(b, target, kind, value, isDestructure, node);
    case 'ObjectPattern': return lowerObjectPattern(b, target, kind, value, isDestructure, node);
    case 'AssignmentPattern':
      return lowerAssignment(b, target.left, kind, withDefault(b, target, value), isDestructure, node);
    default: throw new Refused('a kind of assignment target', target, target.type);
  }
}

function lowerNameAssignment(b, target, kind, value, node) {
  const binding = b.local(target);
  if (binding === null) {
    if (kind !== 'Reassign') throw new Refused('a declaration of a global', target);
    return loaded(b.emit({kind: 'StoreGlobal', name: target.name, value}, node));
  }
  const lvalue = {kind, place: b.place(binding, target)};
  if (kind === 'Reassign' && b.ident(binding).constant) throw new Refused('a `const` that is assigned again', target, target.name);
  if (!lvalue.place.ident.shared) return loaded(b.emit({kind: 'StoreLocal', lvalue, value}, node));
  if (kind === 'Catch') lvalue.kind = 'Let'; // the React Compiler refuses
  return loaded(b.emit({kind: 'StoreContext', lvalue, value}, node));
}

/** The value, or the default of the pattern where it is undefined. @returns {Place} */
function withDefault(b, target, value) {
  const {blocks} = b;
  const place = b.temporary(target);
  const next = blocks.reserve();
  const test = blocks.reserve();
  const consequent = blocks.enter(() => b.give(place, expressions.lowerExpressionToTemporary(b, target.right), next, target));
  const alternate = blocks.enter(() => b.give(place, value, next, target));
  blocks.goOn({kind: 'Ternary', test: test.id, fallthrough: next.id}, test);
  const right = b.primitive(target);
  const isAbsent = b.emit({kind: 'BinaryExpression', operator: '===', left: value, right}, target);
  blocks.goOn({kind: 'Branch', test: isAbsent, consequent, alternate, fallthrough: next.id}, next);
  return place;
}

// --- patterns ------------------------------------------------------------------

/** A pattern on the way: its targets that aren't in it themselves are assigned behind it, from temporaries. */
class Pattern {
  constructor(b, kind, isDestructure, targets) {
    this.b = b;
    this.kind = kind;
    this.isDestructure = isDestructure;
    /** @type {Array<[Node, Place]>} */
    this.later = [];
    this.needsTemporaries = kind === 'Reassign' && targets.some(n => n.type !== 'Identifier' || this.isOutside(n));
  }

  isOutside(node) {
    const binding = this.b.local(node);
    return binding === null || this.b.isShared(binding);
  }

  /** The place of a target within the pattern. */
  item(node, isDestructure = this.isDestructure) {
    const {b} = this;
    if (node.type === 'Identifier' && !this.needsTemporaries) {
      const binding = b.local(node);
      const isLater = isDestructure || !b.shared.asCompiler;
      if (binding !== null && !(isLater && b.isShared(binding)) && !(this.kind === 'Reassign' && b.ident(binding).constant)) {
        return b.place(binding, node);
      }
    }
    const temporary = b.temporary(node, true);
    this.later.push([node, temporary]);
    return temporary;
  }

  /** Ends the pattern. */
  put(pattern, value, node) {
    const {b, kind} = this;
    const result = b.emit({kind: 'Destructure', lvalue: {kind, pattern}, value}, node);
    for (const [target, place] of this.later) lowerAssignment(b, target, kind, place, this.isDestructure, target);
    return result;
  }
}

const isEffective = target => target !== null && target.type === 'AssignmentPattern' && !isReorderable(target.right);

function lowerArrayPattern(b, target, kind, value, isDestructure, node) {
  const inner = e => (e.type === 'RestElement' ? e.argument : e);
  const early = target.elements.slice(0, -1).find(isEffective);
  if (early) throw new Refused('a default that does something, before others of its pattern', early.right);
  const pattern = new Pattern(b, kind, isDestructure, target.elements.filter(Boolean).map(inner));
  const array = target.elements.map(e => {
    if (e === null) return 'hole';
    const place = pattern.item(inner(e));
    return e.type === 'RestElement' ? {spread: place} : place;
  });
  return loaded(pattern.put({array}, value, node));
}

/**
 * A default that does something comes before what is behind it in the pattern is read: so the pattern is cut
 * there. (The React Compiler refuses it.)
 */
function lowerObjectPattern(b, target, kind, value, isDestructure, node) {
  const all = target.properties;
  const inner = p => (p.type === 'RestElement' ? p.argument : p.value);
  let from = 0;
  let result = all.length > 0 ? value : b.emit({kind: 'Destructure', lvalue: {kind, pattern: {object: []}}, value}, node);
  for (let i = 0; i < all.length; i++) {
    if (i < all.length - 1 && !isEffective(inner(all[i]))) continue;
    const pattern = new Pattern(b, kind, isDestructure, all.map(inner));
    const part = all.slice(from, i + 1);
    const before = part.at(-1)?.type === 'RestElement' ? all.slice(0, from) : [];
    result = pattern.put({object: [...before.map(p => keyAlone(b, p)), ...part.map(p => objectItem(b, pattern, p))]}, value, node);
    from = i + 1;
  }
  return loaded(result);
}

/** A key that a rest leaves out, as it was read before. */
function keyAlone(b, p) {
  if (p.computed && !isLiteralKey(p.key)) throw new Refused('a default that does something, before others of its pattern', p);
  return {key: properties.keyName(p.key), computed: null, place: b.temporary(p, true)};
}

const isLiteralKey = key => key.type === 'StringLiteral' || key.type === 'NumericLiteral';

function objectItem(b, pattern, p) {
  if (p.type === 'RestElement') {
    if (p.argument.type !== 'Identifier' && p.argument.type !== 'MemberExpression') throw new Refused('a rest of an object that is no name', p);
    return {spread: pattern.item(p.argument, true)};
  }
  // the React Compiler refuses a computed key
  const computed = p.computed && !isLiteralKey(p.key) ? expressions.lowerExpressionToTemporary(b, p.key) : null;
  return {key: computed ? null : properties.keyName(p.key), computed, place: pattern.item(p.value)};
}

// --- expressions -----------------------------------------------------------------

/** @param {Builder} b @param {Node} node @returns {Value} */
function lowerAssignmentExpression(b, node) {
  const left = bare(node.left);
  if (node.operator === '=') {
    if (left.type === 'MemberExpression') { // the object stands before the value
      const object = properties.lowerObject(b, left);
      const property = properties.lowerProperty(b, left);
      return properties.store(b, object, property, expressions.lowerExpressionToTemporary(b, node.right), node);
    }
    const isPattern = left.type === 'ArrayPattern' || left.type === 'ObjectPattern';
    return lowerAssignment(b, left, 'Reassign', expressions.lowerExpressionToTemporary(b, node.right), isPattern, node);
  }
  if (LOGICAL.has(node.operator)) return lowerLogicalAssignment(b, node, left);
  if (!COMPOUND[node.operator]) throw new Refused('an assignment operator', node, node.operator);
  return lowerCompoundAssignment(b, node, left);
}

/** The React Compiler refuses these. */
function lowerLogicalAssignment(b, node, left) {
  const operator = node.operator.slice(0, 2);
  const value = () => expressions.lowerExpressionToTemporary(b, node.right);
  if (left.type === 'Identifier') {
    return expressions.lowerLogical(b, node, operator, () => expressions.lowerExpressionToTemporary(b, left),
      () => b.emit(lowerAssignment(b, left, 'Reassign', value(), false, node), node));
  }
  if (left.type !== 'MemberExpression') throw new Refused('a kind of assignment target', left, left.type);
  let parts;
  return expressions.lowerLogical(b, node, operator, () => {
    parts = properties.lowerMember(b, left);
    return parts.value;
  }, () => b.emit(properties.store(b, parts.object, parts.property, value(), node), node));
}

function lowerCompoundAssignment(b, node, left) {
  const operator = COMPOUND[node.operator];
  if (left.type === 'Identifier') {
    const before = expressions.lowerExpressionToTemporary(b, left);
    const right = expressions.lowerExpressionToTemporary(b, node.right);
    const value = b.emit({kind: 'BinaryExpression', operator, left: before, right}, node);
    const stored = lowerAssignment(b, left, 'Reassign', value, false, node);
    const binding = b.local(left);
    return binding ? b.load(binding, left) : stored;
  }
  if (left.type !== 'MemberExpression') throw new Refused('a kind of assignment target', left, left.type);
  const {object, property, value: before} = properties.lowerMember(b, left);
  const right = expressions.lowerExpressionToTemporary(b, node.right);
  const value = b.emit({kind: 'BinaryExpression', operator, left: before, right}, node);
  return properties.store(b, object, property, value, node);
}

/** @param {Builder} b @param {Node} node @returns {Value} */
function lowerUpdate(b, node) {
  const argument = bare(node.argument);
  const operator = node.operator === '++' ? '+' : '-';
  // JavaScript makes a number first; the React Compiler hasn't it
  const numeric = value => b.emit({kind: 'UnaryExpression', operator: '+', value}, node);
  const changed = left => b.emit({kind: 'BinaryExpression', operator, left, right: b.primitive(node, 1)}, node);
  if (argument.type === 'MemberExpression') {
    const {object, property, value: before} = properties.lowerMember(b, argument);
    const left = numeric(before);
    const stored = properties.store(b, object, property, changed(left), node);
    return node.prefix ? stored : loaded(left);
  }
  if (argument.type !== 'Identifier') throw new Refused('a kind of assignment target', argument, argument.type);
  const binding = b.local(argument);
  if (binding !== null && b.ident(binding).constant) throw new Refused('a `const` that is assigned again', argument, argument.name);
  if (binding !== null && !b.isShared(binding)) {
    const place = b.place(binding, argument);
    return {kind: node.prefix ? 'PrefixUpdate' : 'PostfixUpdate', operator: node.operator, lvalue: place, value: place};
  }
  const left = numeric(expressions.lowerExpressionToTemporary(b, argument)); // the React Compiler refuses shared and global ones
  const stored = lowerAssignment(b, argument, 'Reassign', changed(left), false, node);
  return node.prefix ? stored : loaded(left);
}

exports.lowerAssignment = lowerAssignment;
exports.lowerAssignmentExpression = lowerAssignmentExpression;
exports.lowerUpdate = lowerUpdate;
