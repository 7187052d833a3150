'use strict';
/**
 * Members of objects.
 *
 * @typedef {import('./builder.js').Builder} Builder
 * @typedef {import('../syntax.js').Node} Node
 * @typedef {import('../HIR.js').Place} Place
 * @typedef {{name?: string, isNumber?: boolean, computed?: Place}} Property
 */
const {loaded} = require('./builder.js');
const {Refused} = require('../refused.js');
const expressions = require('./expressions.js');

/** @param {Node} key of an object or pattern */
function keyName(key) {
  if (key.type === 'Identifier') return key.name;
  if (key.type === 'StringLiteral') return key.value;
  if (key.type === 'NumericLiteral' || key.type === 'BigIntLiteral') return String(key.value);
  throw new Refused('a kind of key', key, key.type);
}

/** @param {Builder} b @param {Node} node a member @returns {Property} */
function lowerProperty(b, node) {
  const {property} = node;
  if (property.type === 'PrivateName') return {name: `#${property.id.name}`, isNumber: false}; // the React Compiler refuses
  if (!node.computed) return {name: property.name, isNumber: false};
  if (property.type === 'NumericLiteral') return {name: String(property.value), isNumber: true};
  if (property.type === 'StringLiteral' && /^[A-Za-z_$][\w$]*$/.test(property.value)) return {name: property.value, isNumber: false};
  return {computed: expressions.lowerExpressionToTemporary(b, property)};
}

/** The object of a member; of `super.x` it is `this`, whose property it is but for who declares it. @returns {Place} */
function lowerObject(b, node) {
  return expressions.lowerExpressionToTemporary(b, node.object);
}

/** @param {Place} object @param {Property} property */
function fetch(object, property) {
  return property.computed ? {kind: 'ComputedLoad', object, property: property.computed}
    : {kind: 'PropertyLoad', object, name: property.name};
}

/**
 * Stores a property. Its value is what is stored; the React Compiler takes the result of the store, which the
 * inference makes a Primitive.
 * @param {Builder} b @param {Place} object @param {Property} property @param {Place} value @param {Node} node
 */
function store(b, object, property, value, node) {
  const result = b.emit(property.computed ? {kind: 'ComputedStore', object, property: property.computed, value}
    : {kind: 'PropertyStore', object, property: property.isNumber ? null : property.name, name: property.name, value}, node);
  return loaded(b.shared.asCompiler ? result : value);
}

/** The object of a member, and its property in a temporary. @param {Builder} b @param {Node} node @param {?Place} [given] */
function lowerMember(b, node, given = null) {
  const object = given || lowerObject(b, node);
  const property = lowerProperty(b, node);
  return {object, property, value: b.emit(fetch(object, property), node)};
}

exports.keyName = keyName;
exports.lowerProperty = lowerProperty;
exports.lowerObject = lowerObject;
exports.store = store;
exports.lowerMember = lowerMember;
