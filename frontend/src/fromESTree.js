'use strict';
/**
 * An ESTree program to the tree that Babel's parser gives, which is what all else reads: of espree, acorn,
 * @typescript-eslint/parser, and Babel's own with its `estree` plugin. The given tree isn't changed.
 *
 * @typedef {import('./syntax.js').Node} Node
 */
const {isNode} = require('./syntax.js');

const LEFT_OUT = new Set(['type', 'start', 'end', 'parent', 'loc', 'range', 'tokens', 'comments', 'leadingComments', 'trailingComments', 'innerComments']);
/** Types of TypeScript's parser that are called something else in Babel's tree. */
const RENAMED = {
  PropertyDefinition: 'ClassProperty', TSEmptyBodyFunctionExpression: 'TSDeclareMethod',
  TSAbstractMethodDefinition: 'TSDeclareMethod', TSAbstractPropertyDefinition: 'TSDeclareField',
  TSAbstractAccessorProperty: 'TSDeclareField', AccessorProperty: 'ClassAccessorProperty',
};

/** A node's place: that of its own, or of its range. @param {*} node */
const placeOf = node => (typeof node.start === 'number' ? {start: node.start, end: node.end}
  : {start: node.range[0], end: node.range[1]});

/** The node with all nodes below it turned: itself where none of them changes. @param {*} node */
function copied(node) {
  /** @type {Array<*>} keys, each with its value behind it */
  const changed = [];
  for (const key in node) {
    const value = node[key];
    if (value === null || typeof value !== 'object') continue;
    const isList = Array.isArray(value);
    if (isList ? value.length === 0 || typeof value[0] === 'number' : typeof value.type !== 'string') continue; // as `range` and `loc`
    if (LEFT_OUT.has(key)) continue;
    const now = isList ? allTurned(value) : turned(value);
    if (now !== value) changed.push(key, now);
  }
  if (changed.length === 0 && typeof node.start === 'number' && !RENAMED[node.type]) return node;
  /** @type {Node} */
  const out = {type: RENAMED[node.type] || node.type, ...placeOf(node)};
  for (const key in node) if (!LEFT_OUT.has(key) && typeof node[key] !== 'function') out[key] = node[key];
  for (let i = 0; i < changed.length; i += 2) out[changed[i]] = changed[i + 1];
  if (Array.isArray(node.body) && node.body.some(isDirective)) out.directives = node.body.filter(isDirective).map(directive);
  return out;
}

/** The list with all nodes in it turned, and without directives: itself where nothing changes. @param {Array<*>} list */
function allTurned(list) {
  /** @type {?Array<*>} */
  let out = null;
  list.forEach((item, i) => {
    const now = isDirective(item) ? null : turned(item);
    if (!out && (now !== item || isDirective(item))) out = list.slice(0, i);
    if (out && !isDirective(item)) out.push(now);
  });
  return out || list;
}

/** @param {*} node a statement */
const directive = node => ({type: 'Directive', ...placeOf(node), value: {type: 'DirectiveLiteral', ...placeOf(node), value: node.directive}});

/** As "use strict": Babel keeps them apart. @param {*} x */
const isDirective = x => x !== null && x.type === 'ExpressionStatement' && typeof x.directive === 'string';

function turned(value) {
  if (!isNode(value)) return value;
  const turn = TURNS[value.type];
  return turn ? turn(value) : copied(value);
}

function literal(node) {
  const at = placeOf(node);
  if (node.regex) return {type: 'RegExpLiteral', ...at, pattern: node.regex.pattern, flags: node.regex.flags};
  if (node.bigint) return {type: 'BigIntLiteral', ...at, value: node.bigint.replace(/_|n$/g, '')};
  if (node.value === null) return {type: 'NullLiteral', ...at};
  const type = {string: 'StringLiteral', number: 'NumericLiteral', boolean: 'BooleanLiteral'}[typeof node.value];
  return {type, ...at, value: node.value};
}

/** The function that a method's value is, with the place and the key of the method. */
function method(node, type) {
  const {params, body, async, generator, returnType, typeParameters} = copied(node.value);
  if (!body) return {type: 'TSDeclareMethod', ...placeOf(node)};
  return {type, ...placeOf(node), key: turned(node.key), computed: node.computed, params, body, async, generator,
    returnType, typeParameters, kind: node.kind === 'init' ? 'method' : node.kind, static: node.static};
}

function property(node) {
  if (node.method || node.kind === 'get' || node.kind === 'set') return method(node, 'ObjectMethod');
  return {type: 'ObjectProperty', ...placeOf(node), key: turned(node.key), value: turned(node.value), computed: node.computed,
    shorthand: node.shorthand};
}

/** Within an optional chain Babel has nodes of their own. */
function chain(node) {
  const inner = node.expression;
  if (inner.type === 'TSNonNullExpression') return {...copied(inner), expression: chain({...node, expression: inner.expression})};
  return link(inner);
}

/** Whether a `?.` stands in the chain up to here. */
function isOptional(node) {
  if (node.type === 'ChainExpression') return false;
  if (node.optional) return true;
  if (node.type === 'MemberExpression') return isOptional(node.object);
  if (node.type === 'CallExpression') return isOptional(node.callee);
  return node.type === 'TSNonNullExpression' && isOptional(node.expression);
}

function link(node) {
  if (!isOptional(node)) return turned(node);
  if (node.type === 'TSNonNullExpression') return {...copied(node), expression: link(node.expression)};
  const out = copied({...node, object: null, callee: null});
  if (node.type === 'MemberExpression') return {...out, type: 'OptionalMemberExpression', object: link(node.object)};
  return {...out, type: 'OptionalCallExpression', callee: link(node.callee)};
}

/** @type {Record<string, (node: any) => any>} */
const TURNS = {
  Literal: literal,
  Property: property,
  MethodDefinition: node => method(node, node.key.type === 'PrivateIdentifier' || node.key.type === 'PrivateName' ? 'ClassPrivateMethod' : 'ClassMethod'),
  PrivateIdentifier: node => ({type: 'PrivateName', ...placeOf(node), id: {type: 'Identifier', ...placeOf(node), name: node.name}}),
  PropertyDefinition(node) {
    const out = copied(node);
    return node.key.type === 'PrivateIdentifier' || node.key.type === 'PrivateName' ? {...out, type: 'ClassPrivateProperty'} : out;
  },
  ChainExpression: chain,
  ImportExpression: node => ({type: 'CallExpression', ...placeOf(node), callee: {type: 'Import', ...placeOf(node)},
    arguments: [node.source, node.options, node.attributes].filter(isNode).map(turned)}),
  /** espree's texts of a template begin and end with what is around them. */
  TemplateLiteral(node) {
    const out = copied(node);
    if (placeOf(node.quasis[0]).start !== out.start) return out;
    const quasis = node.quasis.map(q => ({...copied(q), start: placeOf(q).start + 1, end: placeOf(q).end - (q.tail ? 1 : 2)}));
    return {...out, quasis};
  },
  JSXText: node => ({type: 'JSXText', ...placeOf(node), value: node.value}),
  /** In Babel's tree an export of all under a name is one of a specifier. */
  ExportAllDeclaration: node => ({type: 'ExportAllDeclaration', ...placeOf(node)}),
};

/** Whether the tree is an ESTree one. @param {*} ast */
function isESTree(ast) {
  if (ast.type === 'File') return isESTree(ast.program);
  return !Array.isArray(ast.directives);
}

/**
 * @param {*} ast a program, or a file of one
 * @param {(statement: *) => boolean} [isRead] statements that aren't stay as they are
 * @returns {{type: string, program: Node}}
 */
function fromESTree(ast, isRead = () => true) {
  const program = ast.type === 'File' ? ast.program : ast;
  const body = program.body.filter(one => !isDirective(one)).map(one => (isRead(one) ? turned(one) : one));
  const directives = program.body.filter(isDirective).map(directive);
  return {type: 'File', program: {type: 'Program', ...placeOf(program), body, directives}};
}

module.exports = {fromESTree, isESTree};
