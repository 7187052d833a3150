'use strict';
/** What a run's objects hold. */
const {Cell} = require('../interpreter/frame.js');

class Ref {
  constructor(current) {
    this.current = current;
  }
}

const isObject = x => (typeof x === 'object' && x !== null) || typeof x === 'function';
const isIterator = x => isObject(x) && !Array.isArray(x) && typeof x.next === 'function' && typeof x[Symbol.iterator] === 'function';
/** @type {Array<*>} */
const BUILTINS = [Object, Array, Map, Set, Math, Function, String, Number, Boolean, Date, RegExp, Error, Symbol, JSON, Reflect, Promise];

class Heap {
  /** @param {Array<*>} outside objects that are of no program */
  constructor(outside) {
    this.natives = new Set(outside.filter(isObject));
    for (const c of BUILTINS) for (const x of [c, c.prototype]) if (x) this.natives.add(x);
    /** @type {Map<Function, Array<[object, *]>>} what functions of the program hold */
    this.held = new Map();
    /** @type {Map<Function, Set<number>>} and what the inference says that they capture */
    this.captures = new Map();
    this.sourceOf = new Map(); // of iterators
    /** @type {(ident: object) => ?number} */
    this.number = () => undefined;
  }

  /** What the object holds; of closures, with `claimed`, only what the inference says that they capture. */
  children(x, claimed = false) {
    if (x instanceof Cell) return [x.cell].filter(isObject);
    const out = typeof x === 'function' ? this.heldBy(x, claimed) : [];
    if (typeof x === 'function' && !this.held.has(x)) return [];
    if (x instanceof Map) for (const [k, v] of Map.prototype.entries.call(x)) out.push(k, v);
    else if (x instanceof Set) for (const v of Set.prototype.values.call(x)) out.push(v);
    if (this.sourceOf.has(x)) out.push(this.sourceOf.get(x));
    for (const k of Reflect.ownKeys(x)) {
      if ((k === 'prototype' || k === 'toString') && typeof x === 'function') continue;
      const d = Reflect.getOwnPropertyDescriptor(x, k);
      if (d && 'value' in d) out.push(d.value);
    }
    return out.filter(isObject);
  }

  heldBy(f, claimed) {
    const only = claimed ? this.captures.get(f) : null;
    return (this.held.get(f) || []).filter(([ident]) => !only || only.has(this.number(ident))).map(([, v]) => v);
  }

  /** All that is reached from the roots; what `skip` says isn't entered. @param {Array<*>} roots @param {(x: *) => boolean} [skip] */
  reachable(roots, skip = x => false) { // eslint-disable-line no-unused-vars
    const seen = new Set();
    const todo = roots.filter(isObject);
    while (todo.length) {
      const x = todo.pop();
      if (seen.has(x) || this.natives.has(x) || skip(x)) continue;
      seen.add(x);
      todo.push(...this.children(x));
    }
    return seen;
  }

  /** The objects from which the target is reached, within what the roots hold. */
  reaching(roots, target, claimed = false, isEntered = x => true) { // eslint-disable-line no-unused-vars
    const parents = new Map();
    const seen = new Set();
    const todo = roots.filter(isObject);
    while (todo.length) {
      const x = todo.pop();
      if (seen.has(x) || this.natives.has(x)) continue;
      seen.add(x);
      if (!isEntered(x)) continue;
      for (const c of this.children(x, claimed)) {
        if (!parents.has(c)) parents.set(c, []);
        parents.get(c).push(x);
        todo.push(c);
      }
    }
    const out = new Set([target]);
    for (const x of out) for (const p of parents.get(x) || []) out.add(p);
    return out;
  }

  /** What is told of an object by looking at it: when this differs, it was written. */
  shape(x) {
    const own = [];
    for (const k of Reflect.ownKeys(x)) {
      const d = Reflect.getOwnPropertyDescriptor(x, k);
      if (d && 'value' in d) own.push(k, d.value);
    }
    if (x instanceof Map) for (const [k, v] of Map.prototype.entries.call(x)) own.push(k, v);
    else if (x instanceof Set) own.push(...Set.prototype.values.call(x));
    return own;
  }
}

module.exports = {Heap, Ref, isObject, isIterator};
