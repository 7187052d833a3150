'use strict';
/**
 * What the inference is told of types: which values are primitive, arrays, sets, maps, refs, JSX, functions
 * and hooks. Equations are solved in the order of the code, as InferTypes of the React Compiler does, so a
 * property is known only where its object was known before.
 *
 * A type is {kind: 'Var', bound}, or {kind: 'Primitive'|'ObjectMethod'}, {kind: 'Object', shape},
 * {kind: 'Function', shape, returns} or {kind: 'Phi', operands}.
 */
const {globalType, propertyType} = require('./ObjectShape.js');
const {nestedOf} = require('./HIR.js');

const PRIMITIVE = {kind: 'Primitive'};
const variable = () => ({kind: 'Var', bound: null});
const object = shape => ({kind: 'Object', shape});
const ARITHMETIC = new Set(['+', '-', '/', '%', '*', '**', '&', '|', '>>', '<<', '^', '>', '<', '>=', '<=']);

function find(type) {
  let t = type;
  while (t.kind === 'Var' && t.bound) t = t.bound;
  return t;
}

function same(a, b) {
  const x = find(a);
  const y = find(b);
  if (x === y) return true;
  if (x.kind !== y.kind || x.kind === 'Var' || x.kind === 'Phi') return false;
  if (x.kind === 'Object') return x.shape === y.shape;
  if (x.kind === 'Function') return x.shape === y.shape && same(x.returns, y.returns);
  return true;
}

function occurs(v, type) {
  const t = find(type);
  if (t === v) return true;
  if (t.kind === 'Function') return occurs(v, t.returns);
  if (t.kind === 'Phi') return t.operands.some(o => occurs(v, o));
  return false;
}

/** @param {?import('./ObjectShape.js').Known} known */
function instance(known) {
  if (known === null || known === undefined || known.kind === 'Poly') return null;
  if (known.kind === 'Function') return {kind: 'Function', shape: known.shape, returns: instance(known.returns) || variable()};
  return known.kind === 'Object' ? object(known.shape) : PRIMITIVE;
}

function bind(v, type) {
  const t = find(type);
  if (t === v) return;
  if (t.kind === 'Phi') {
    const first = find(t.operands[0]);
    if (t.operands.every(o => same(o, first))) {
      unify(v, first);
      return;
    }
  }
  if (!occurs(v, t)) v.bound = t; // a cycle, as that of a loop's phi, leaves it open
}

function unify(a, b) {
  const x = find(a);
  const y = find(b);
  if (same(x, y)) return;
  if (x.kind === 'Var') bind(x, y);
  else if (y.kind === 'Var') bind(y, x);
  else if (x.kind === 'Function' && y.kind === 'Function') unify(x.returns, y.returns);
}

/** The type of a property goes to `into`, where something is known of it. */
function unifyProperty(into, objectType, name, objectName) {
  if (name === 'current' && objectName && /^([a-zA-Z$_][a-zA-Z$_0-9]*)Ref$|^ref$/.test(objectName)) {
    unify(objectType, object('BuiltInUseRefId'));
    unify(into, object('BuiltInRefValue'));
    return;
  }
  const t = find(objectType);
  const shape = t.kind === 'Object' || t.kind === 'Function' ? t.shape : null;
  const known = instance(propertyType(shape, name));
  if (known) unify(into, known);
}

/** What the equations of one unit share. */
class Equations {
  /** @param {boolean} asCompiler operands of arithmetic are Primitive, in all of the function */
  constructor(asCompiler) {
    this.asCompiler = asCompiler;
    /** @type {Map<object, ?string>} names of variables that temporaries were loaded from */
    this.names = new Map();
  }

  /** @param {import('./HIR.js').Place} place */
  nameOf(place) {
    return this.names.get(place.ident) || place.ident.name;
  }

  /** @param {import('./HIR.js').Fn} fn */
  addFunction(fn) {
    if (fn.kind === 'Component') {
      const [props, ref] = /** @type {Array<*>} */ (fn.params);
      if (props && !props.spread) unify(props.ident.type, object('BuiltInProps'));
      if (ref && !ref.spread) unify(ref.ident.type, object('BuiltInUseRefId'));
    }
    const returned = [];
    for (const block of fn.blocks.values()) {
      for (const phi of block.phis) {
        unify(phi.place.ident.type, {kind: 'Phi', operands: [...phi.operands.values()].map(type)});
      }
      for (const i of block.instructions) {
        const add = EQUATIONS[i.value.kind];
        if (add) add(i.lvalue.ident.type, i.value, this, i);
      }
      if (block.terminal.kind === 'Return') returned.push(type(block.terminal.value));
    }
    if (returned.length === 1) unify(type(fn.returns), returned[0]);
    else if (returned.length > 1) unify(type(fn.returns), {kind: 'Phi', operands: returned});
  }
}

/** @param {import('./HIR.js').Place} place */
const type = place => place.ident.type;
const primitive = left => unify(left, PRIMITIVE);

function call(left, value) {
  const returns = variable();
  unify(type(value.callee || value.property || value.tag), {kind: 'Function', shape: null, returns});
  unify(left, returns);
}

function load(left, value, all, i) {
  all.names.set(i.lvalue.ident, all.nameOf(value.place));
  if (value.kind === 'LoadLocal' || value.place.ident.constant) unify(left, type(value.place));
}

function update(left, value, all) {
  if (all.asCompiler) unify(type(value.value), PRIMITIVE);
  unify(type(value.lvalue), PRIMITIVE);
  unify(left, PRIMITIVE);
}

function nested(left, value, all) {
  const fn = nestedOf(value);
  all.addFunction(fn);
  unify(left, value.kind === 'ObjectMethod' ? {kind: 'ObjectMethod'}
    : {kind: 'Function', shape: 'BuiltInFunction', returns: type(fn.returns)});
}

/** Of shared variables that aren't constants nothing is known, as they may hold values of several types. */
const EQUATIONS = {
  Primitive: primitive, JSXText: primitive, UnaryExpression: primitive, TemplateLiteral: primitive,
  NextPropertyOf: primitive, PropertyDelete: primitive, ComputedDelete: primitive,
  LoadGlobal(left, value) {
    const known = instance(globalType(value.global));
    if (known) unify(left, known);
  },
  LoadLocal: load,
  LoadContext: load,
  StoreLocal(left, value) {
    unify(left, type(value.value));
    unify(type(value.lvalue.place), type(value.value));
  },
  StoreContext(left, value) {
    if (value.lvalue.kind === 'Const') unify(type(value.lvalue.place), type(value.value));
  },
  StoreGlobal: (left, value) => unify(left, type(value.value)),
  TypeCastExpression: (left, value) => unify(left, type(value.value)),
  BinaryExpression(left, value, all) {
    if (all.asCompiler && ARITHMETIC.has(value.operator)) {
      unify(type(value.left), PRIMITIVE);
      unify(type(value.right), PRIMITIVE);
    }
    unify(left, PRIMITIVE);
  },
  PostfixUpdate: update,
  PrefixUpdate: update,
  CallExpression: call, NewExpression: call, MethodCall: call, TaggedTemplateExpression: call,
  ObjectExpression(left, value) {
    for (const p of value.properties) if (p.computed) unify(type(p.computed), PRIMITIVE);
    unify(left, object('BuiltInObject'));
  },
  ArrayExpression: left => unify(left, object('BuiltInArray')),
  PropertyLoad: (left, value, all) => unifyProperty(left, type(value.object), value.name, all.nameOf(value.object)),
  ComputedLoad: (left, value) => unifyProperty(left, type(value.object), null, null),
  PropertyStore(left, value, all) {
    if (value.property !== null) unifyProperty(variable(), type(value.object), value.property, all.nameOf(value.object));
  },
  Destructure(left, {lvalue: {pattern}, value}, all) {
    const of = (place, name) => unifyProperty(type(place), type(value), name, all.nameOf(value));
    for (const p of pattern.object || []) if (!p.spread && p.key !== null) of(p.place, p.key);
    (pattern.array || []).forEach((e, i) => {
      if (e === 'hole') return;
      if (e.spread) unify(type(e.spread), object('BuiltInArray'));
      else of(e, String(i));
    });
  },
  FunctionExpression: nested,
  ObjectMethod: nested,
  JsxExpression(left, value) {
    value.props.forEach((p, i) => {
      if (value.names[i] === 'ref' && !p.spread) unify(type(p), object('BuiltInUseRefId'));
    });
    unify(left, object('BuiltInJsx'));
  },
  JsxFragment: left => unify(left, object('BuiltInJsx')),
};

/**
 * @param {import('./HIR.js').Fn} fn the outermost function, in single assignment
 * @param {{compiler?: boolean}} [options]
 */
function inferTypes(fn, options = {}) {
  new Equations(options.compiler === true).addFunction(fn);
}

module.exports = {inferTypes, find};
