'use strict';
/**
 * A function's tree to blocks of instructions, as BuildHIR of the React Compiler does it. Where this goes
 * beyond that compiler (var, ||=, updates of shared variables, loops without a test, `finally`, ..) the
 * code says so. What isn't lowered throws Refused.
 *
 * @typedef {import('./builder.js').Builder} Builder
 * @typedef {import('../syntax.js').Node} Node
 */
const {Builder: HIRBuilder} = require('./builder.js');
const {mergeConsecutiveBlocks} = require('../mergeConsecutiveBlocks.js');
const {isLikeLet, hasOwnArguments} = require('../sharing.js');
const {Refused} = require('../refused.js');
const hoisting = require('./hoisting.js');
const assignments = require('./assignments.js');
const expressions = require('./expressions.js');

const PATTERNS = new Set(['ObjectPattern', 'ArrayPattern', 'AssignmentPattern']);

/**
 * @param {Builder} b
 * @returns {import('../HIR.js').Fn}
 */
function lowerFunction(b) {
  const {node} = b.func;
  if (node.generator) throw new Refused('a generator', node);
  const params = parameters(b);
  if (node.body.type === 'BlockStatement') {
    hoisting.lowerStatements(b, node.body.body, node);
    b.blocks.close({kind: 'Return', value: b.primitive({start: node.end, end: node.end})});
  } else {
    const value = expressions.lowerExpressionToTemporary(b, node.body);
    b.blocks.close({kind: 'Return', value, start: node.body.start, end: node.body.end});
  }
  /** @type {Array<import('../HIR.js').Place>} */
  const context = [];
  b.func.free.forEach((use, binding) => {
    if (binding.kind === 'this' ? b.self(use) : b.isInside(binding.fn)) context.push(b.place(binding, use));
  });
  const {entry, done} = b.blocks;
  return {
    kind: 'Other', name: node.id ? node.id.name : null, params, context, returns: b.temporary(node),
    isAsync: node.async === true, hasThis: params.length > 0 && selfIdent(b) !== undefined && params.at(-1).ident === selfIdent(b), entry, blocks: mergeConsecutiveBlocks(entry, done), start: node.start, end: node.end,
  };
}

/** The parameters, and what the function begins with: its `var`s, and the patterns of parameters. @param {Builder} b */
function parameters(b) {
  const {node, self} = b.func;
  const {params, later} = b.func.args && b.func.args.refs.length > 0 ? throughArguments(b) : ownParameters(b, node);
  const properties = node.params.filter(p => p.type === 'TSParameterProperty');
  const isHanded = b.func !== b.shared.root || b.shared.allowThis;
  if (self && isHanded && self.refs.length + properties.length > 0) params.push(b.place(self, self.node));
  declareVars(b, b.func);
  for (const assign of later) assign();
  for (const p of properties) storeParameterProperty(b, p);
  return params;
}

/** What its `this` is, where it has one as a parameter. @param {Builder} b */
const selfIdent = b => (b.func.self ? b.shared.idents.get(b.func.self) : undefined);

function ownParameters(b, node) {
  const params = [];
  const later = [];
  for (const param of node.params) {
    const target = param.type === 'TSParameterProperty' ? param.parameter : param;
    if (target.type === 'Identifier') {
      if (target.name === 'this') continue; // a type of TypeScript
      const binding = b.local(target);
      if (b.isShared(binding) && !b.shared.asCompiler) { // the variable isn't what was handed in
        const place = b.temporary(target, true);
        params.push(place);
        later.push(() => assignments.lowerAssignment(b, target, 'Let', place, false, target));
      } else params.push(b.place(binding, target));
    } else if (target.type === 'RestElement' || PATTERNS.has(target.type)) {
      const place = b.temporary(target, true);
      const isRest = target.type === 'RestElement';
      params.push(isRest ? {spread: place} : place);
      later.push(() => assignments.lowerAssignment(b, isRest ? target.argument : target, 'Let', place, false, target));
    } else throw new Refused('a kind of parameter', param, param.type);
  }
  return {params, later};
}

/** A constructor's parameter with `private` and the like is a property as well. */
function storeParameterProperty(b, param) {
  const {parameter} = param;
  const id = parameter.type === 'AssignmentPattern' ? parameter.left : parameter;
  const value = b.emit(b.load(b.local(id), id), id);
  b.emit({kind: 'PropertyStore', object: b.place(b.func.self, b.func.self.node), property: id.name, name: id.name, value}, param);
}

/**
 * A function that uses `arguments` gets them as a rest, of which its parameters are the first. (The React
 * Compiler refuses it.) In old code a write of a parameter may be one of `arguments`, too, so it is refused there.
 * @param {Builder} b
 */
function throughArguments(b) {
  const {node, args} = b.func;
  const {names} = b.shared;
  const all = b.place(b.local(args.refs[0].node), args.node);
  const later = node.params.map((param, i) => () => {
    if (param.type === 'RestElement') throw new Refused('`arguments`', args.refs[0].node, 'and a rest');
    const written = names.declared.get(node).find(x => x.kind === 'param' && x.refs.some(r => r.write && !r.init));
    if (written && !hasOwnArguments(names, b.func)) throw new Refused('`arguments`', args.refs[0].node, `and a parameter that is written, ${written.name}`);
    const value = b.emit({kind: 'PropertyLoad', object: all, name: String(i)}, param);
    assignments.lowerAssignment(b, param, 'Let', value, false, param);
  });
  return {params: [{spread: all}], later};
}

/** `var`s that are no `let`s are there from the beginning. @param {Builder} b @param {import('../scope.js').Func} func */
function declareVars(b, func) {
  for (const binding of func.vars) {
    if (isLikeLet(binding)) continue;
    const place = b.place(b.local(binding.node), binding.node);
    const kind = place.ident.shared ? 'DeclareContext' : 'DeclareLocal';
    b.emit({kind, lvalue: {kind: 'Let', place}}, binding.node);
  }
}

/** @param {Builder} b @param {Node} node a function within the one that is lowered */
function lowerNested(b, node) {
  return lowerFunction(new HIRBuilder(b.shared, b.shared.names.funcOf.get(node)));
}

/**
 * @param {import('../scope.js').Names} names of the file
 * @param {import('../scope.js').Func} func an outermost function
 * @param {{dropMemo?: boolean, allowThis?: boolean, compiler?: boolean}} [options]
 * @returns {import('../HIR.js').Fn} its blocks, not yet in single assignment
 */
function lower(names, func, options = {}) {
  const shared = {names, root: func, idents: new Map(), hoisted: new Set(), copies: 0, dropMemo: options.dropMemo !== false,
    allowThis: options.allowThis === true, asCompiler: options.compiler === true};
  return lowerFunction(new HIRBuilder(shared, func));
}

exports.lower = lower;
exports.lowerNested = lowerNested;
exports.declareVars = declareVars;
