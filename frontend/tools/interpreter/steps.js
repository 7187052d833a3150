'use strict';
/**
 * What each kind of instruction does in a run. It reads what the units don't have: constants, names of properties,
 * operators. There is no `await` and no generator.
 */
const {classOf} = require('./classes.js');

const operator = (params, text) => new Function(...params, `return ${text}`);
const BINARY = Object.fromEntries(['+', '-', '*', '/', '%', '**', '&', '|', '^', '<<', '>>', '>>>', '<', '>', '<=', '>=',
  '==', '!=', '===', '!==', 'in', 'instanceof'].map(o => [o, operator(['a', 'b'], `a ${o} b`)]));
const UNARY = Object.fromEntries(['!', '-', '+', '~', 'typeof', 'void'].map(o => [o, operator(['a'], `${o} a`)]));

class Jsx {
  constructor(tag, props, children) {
    Object.assign(this, {tag, props, children});
  }
}

function storeProperty(frame, object, key, value) {
  if (object === null || object === undefined) throw new TypeError('no object');
  frame.machine.write(object, 'store');
  object[key] = value;
  return value;
}

function deleteProperty(frame, object, key) {
  if (Object(object) === object && Object.prototype.hasOwnProperty.call(object, key)) frame.machine.write(object, 'delete');
  return delete object[key];
}

function storeLocal(frame, v) {
  frame.set(v.lvalue.place, frame.get(v.value));
  return frame.get(v.value);
}

function storeContext(frame, v) {
  const {place, kind} = v.lvalue;
  const value = frame.get(v.value);
  if (kind === 'Reassign' || frame.table.hoisted.has(place.ident)) {
    const cell = frame.get(place);
    frame.machine.write(cell, 'variable');
    cell.cell = value;
  } else frame.set(place, value);
  return value;
}

function update(frame, v) {
  const old = frame.get(v.value);
  /** @type {*} */
  const before = typeof old === 'bigint' ? old : Number(old);
  /** @type {*} */
  const one = typeof before === 'bigint' ? 1n : 1;
  const now = v.operator === '++' ? before + one : before - one;
  frame.set(v.lvalue, now);
  return v.kind === 'PrefixUpdate' ? now : before;
}

function array(frame, v) {
  const out = [];
  for (const e of v.elements) {
    if (e === 'hole') out.length++;
    else if (e.spread) out.push(...frame.machine.iterate(frame.get(e.spread)));
    else out.push(frame.get(e));
  }
  return v.raw ? Object.assign(out, {raw: v.raw}) : out;
}

function object(frame, v) {
  if (v.class) return classOf(frame, v);
  const out = {};
  for (const p of v.properties) {
    if (p.spread) Object.assign(out, frame.get(p.spread));
    else {
      const key = p.computed ? frame.get(p.computed) : p.key;
      Object.defineProperty(out, key, {value: frame.get(p.place), writable: true, enumerable: true, configurable: true});
    }
  }
  return out;
}

function destructureArray(frame, pattern, from) {
  const items = from[Symbol.iterator]();
  if (items === from) frame.machine.write(from, 'array pattern');
  let isDone = false;
  const next = () => {
    if (isDone) return undefined;
    const {value, done} = items.next();
    isDone = done === true;
    return isDone ? undefined : value;
  };
  for (const e of pattern) {
    if (e !== 'hole' && e.spread) {
      const rest = [];
      for (let value = next(); !isDone; value = next()) rest.push(value);
      frame.set(e.spread, rest);
    } else {
      const value = next();
      if (e !== 'hole') frame.set(e, value);
    }
  }
  if (!isDone && typeof items.return === 'function') items.return();
}

function destructureObject(frame, pattern, from) {
  if (from === null || from === undefined) throw new TypeError('no object');
  const left = new Set();
  for (const p of pattern) {
    if (p.spread) {
      const rest = {...from};
      for (const key of left) delete rest[key];
      frame.set(p.spread, rest);
    } else {
      const key = p.computed ? frame.get(p.computed) : p.key;
      frame.set(p.place, from[key]);
      left.add(typeof key === 'symbol' ? key : String(key));
    }
  }
}

function jsx(frame, v) {
  const props = {};
  (v.props || []).forEach((p, k) => {
    if (p.spread) Object.assign(props, frame.get(p.spread));
    else props[v.names[k]] = frame.get(p);
  });
  return new Jsx(v.tag ? frame.get(v.tag) : null, props, v.children.map(c => frame.get(c)));
}

function keysOf(value) {
  const keys = [];
  for (const k in value) keys.push(k); // eslint-disable-line guard-for-in
  return keys;
}

const load = (frame, v) => frame.get(v.place || v.value);
const nothing = () => undefined;
const declare = (frame, v) => frame.set(v.lvalue.place, undefined);
const make = (frame, v, i) => frame.make(v.fn, i);

const STEPS = {
  Primitive: (frame, v) => v.constant,
  JSXText: (frame, v) => v.text,
  RegExpLiteral: (frame, v) => new RegExp(v.pattern, v.flags),
  TemplateLiteral: (frame, v) => v.texts.reduce((a, t, k) => a + String(frame.get(v.subexprs[k - 1])) + t),
  TaggedTemplateExpression(frame, v) {
    const f = frame.get(v.tag);
    return frame.machine.call(() => f(Object.assign([v.text.cooked], {raw: [v.text.raw]})), [f, undefined]);
  },
  UnaryExpression: (frame, v) => UNARY[v.operator](frame.get(v.value)),
  BinaryExpression: (frame, v) => BINARY[v.operator](frame.get(v.left), frame.get(v.right)),
  LoadGlobal(frame, {global: {name}}) {
    if (!(name in frame.machine.globals)) throw new ReferenceError(`${name} is not defined`);
    return frame.machine.globals[name];
  },
  StoreGlobal(frame, v) {
    frame.machine.globals[v.name] = frame.get(v.value);
    return frame.get(v.value);
  },
  LoadLocal: load,
  TypeCastExpression: load,
  LoadContext: (frame, v) => frame.get(v.place).cell,
  StoreLocal: storeLocal,
  StoreContext: storeContext,
  DeclareLocal: declare,
  DeclareContext: declare,
  PrefixUpdate: update,
  PostfixUpdate: update,
  ArrayExpression: array,
  ObjectExpression: object,
  PropertyLoad: (frame, v) => frame.get(v.object)[v.name],
  ComputedLoad: (frame, v) => frame.get(v.object)[frame.get(v.property)],
  PropertyStore: (frame, v) => storeProperty(frame, frame.get(v.object), v.name, frame.get(v.value)),
  ComputedStore: (frame, v) => storeProperty(frame, frame.get(v.object), frame.get(v.property), frame.get(v.value)),
  PropertyDelete: (frame, v) => deleteProperty(frame, frame.get(v.object), v.name),
  ComputedDelete: (frame, v) => deleteProperty(frame, frame.get(v.object), frame.get(v.property)),
  CallExpression(frame, v) {
    const f = frame.get(v.callee);
    const args = frame.args(v.args);
    return frame.machine.call(() => f(...args), [f, undefined, ...args]);
  },
  MethodCall(frame, v) {
    const f = frame.get(v.property);
    const receiver = frame.get(v.receiver);
    const args = frame.args(v.args);
    return frame.machine.call(() => Reflect.apply(f, receiver, args), [f, receiver, ...args]);
  },
  NewExpression(frame, v) {
    const f = frame.get(v.callee);
    const args = frame.args(v.args);
    return frame.machine.call(() => new f(...args), [f, undefined, ...args]);
  },
  FunctionExpression: make,
  ObjectMethod: make,
  JsxExpression: jsx,
  JsxFragment: jsx,
  /** A loop comes back here each round: its items are those of its first. */
  GetIterator(frame, v, i) {
    const loop = frame.loopOf(i);
    loop.items ||= frame.get(v.collection)[Symbol.iterator]();
    return loop;
  },
  NextPropertyOf(frame, v, i) {
    const loop = frame.loopOf(i);
    loop.items ||= keysOf(frame.get(v.value))[Symbol.iterator]();
    return frame.item(loop);
  },
  IteratorNext: (frame, v) => frame.item(frame.get(v.iterator)),
  Destructure(frame, v) {
    const from = frame.get(v.value);
    const {array: elements, object: properties} = v.lvalue.pattern;
    if (elements) destructureArray(frame, elements, from);
    else destructureObject(frame, properties, from);
    return from;
  },
  Debugger: nothing,
  StartMemoize: nothing,
  FinishMemoize: nothing,
};

module.exports = {STEPS, Jsx};
