'use strict';
/**
 * Runs a lowered function and watches its heap: for each write of an object, on each activation of the stack, the ranges
 * of the identifiers that reach the object; and writes of what was frozen.
 */
const {Machine, Stopped} = require('../interpreter/machine.js');
const {Frame, Cell} = require('../interpreter/frame.js');
const {STEPS} = require('../interpreter/steps.js');
const {Heap, Ref, isObject, isIterator} = require('./heap.js');
const {Events} = require('./events.js');

const ALWAYS = new Set([Array.prototype.sort, Array.prototype.reverse, Array.prototype.pop, Array.prototype.shift, Array.prototype.fill]);

class WatchedFrame extends Frame {
  constructor(machine, fn, steps) {
    super(machine, fn, steps);
    this.setAt = new Map();
    this.around = 0; // how often it went back in stored order
    this.isAliased = false;
  }

  raw(ident, value) {
    super.raw(ident, value);
    this.setAt.set(ident, {block: this.block ? this.block.id : null, left: false});
  }

  arrive(block, before) {
    const {dom, at} = this.fn.watched;
    if (before !== null && at.get(block.id) <= at.get(before)) this.around++;
    for (const s of this.setAt.values()) if (s.block !== null && !dom.get(block.id).has(s.block)) s.left = true;
    super.arrive(block, before);
  }

  guarded(block) {
    const next = super.guarded(block);
    if (block.terminal.kind === 'MaybeThrow' && next === block.terminal.handler) {
      const binding = this.table.bindings.get(next);
      if (binding) this.machine.events.caught(this.get(binding));
    }
    return next;
  }

  /** The variable that a temporary was loaded from, or itself. */
  sourceOf(ident) {
    return this.fn.watched.loadedFrom.get(ident) || ident;
  }

  effects(i) {
    return this.machine.made.out.functions.get(this.fn.watched.number).get(i.index) || [];
  }

  /** What the inference says that the instruction freezes is frozen from here on. */
  done(i) {
    for (const e of this.effects(i)) {
      if (e[0] !== 'Freeze' && !(e[0] === 'Create' && e[2] === 'Frozen')) continue;
      for (const [ident, v] of this.values) {
        if (this.machine.made.number(ident) === Number(e[1])) this.machine.freeze(v instanceof Cell ? v.cell : v, this.sourceOf(ident));
      }
    }
  }
}

class Watcher extends Machine {
  constructor(made, globals, limit) {
    super(globals, limit, made.source);
    this.made = made;
    this.stack = [];
    this.heap = new Heap(Object.values(globals));
    this.heap.number = made.number;
    this.events = new Events(this);
    this.frozen = new Map();
    this.counts = {writes: 0, pairs: 0};
    this.violations = new Map();
    this.frozenWrites = new Map();
  }

  created(f, frame, instruction, held) {
    const e = frame.effects(instruction).find(x => x[0] === 'CreateFunction');
    this.heap.held.set(f, held);
    this.heap.captures.set(f, new Set(e ? e.slice(3).map(Number) : []));
  }

  enter(frame, given) {
    frame.isAliased = this.shareObjects(given);
    this.events.enter(frame);
    this.stack.push(frame);
  }

  leave() {
    this.stack.pop();
  }

  shareObjects(roots) {
    const seen = new Set();
    for (const r of roots) {
      const own = this.heap.reachable([r]);
      for (const x of own) if (seen.has(x)) return true;
      for (const x of own) seen.add(x);
    }
    return false;
  }

  roots() {
    return this.stack.flatMap(f => [...f.values.values()]);
  }

  /** @param {*} value @param {object} [by] the variable of which it was frozen */
  freeze(value, by = null) {
    if (!isObject(value)) return;
    for (const x of this.heap.reachable([value], y => y instanceof Ref)) {
      if (!this.frozen.has(x)) this.frozen.set(x, new Set());
      if (x === value) this.frozen.get(x).add(by);
    }
  }

  /** The object is written by the instruction that each activation of the stack is at. */
  write(target, how) {
    if (!isObject(target) || this.heap.natives.has(target)) return;
    this.counts.writes++;
    const {heap} = this;
    const look = {target, how, holders: heap.reaching(this.roots(), target), claimed: null, thawed: null};
    for (const f of this.stack) if (f.current) this.check(f, f.current, look);
    if (this.frozen.has(target)) this.checkFrozen(target, how);
    this.events.written(this.stack, target, how);
  }

  check(f, i, look) {
    const {made} = this;
    const {context, number} = f.fn.watched;
    for (const [ident, v] of f.values) {
      if (context.has(ident) || !isObject(v) || !look.holders.has(v)) continue;
      const n = made.number(ident);
      if (n === undefined) continue;
      this.counts.pairs++;
      const range = made.out.ranges.get(n) || [0, 0];
      const key = `${number}:${i.index}:${n}`;
      if (range[1] <= i.order && !this.violations.has(key)) this.violations.set(key, this.violation(f, i, ident, v, range, look));
    }
  }

  violation(f, i, ident, v, range, look) {
    const {heap, made, stack} = this;
    const {target, how, holders} = look;
    look.claimed ||= heap.reaching(this.roots(), target, true);
    look.thawed ||= this.frozen.size ? heap.reaching(this.roots(), target, true, x => !this.frozen.has(x)) : look.claimed;
    const {used, defs, isForward, number} = f.fn.watched;
    return {
      function: number, order: i.order, kind: i.value.kind, ident: made.number(ident), name: ident.name, def: defs.get(ident), range, how,
      isUsed: used.has(ident), isLive: i.live.has(ident), isCaptured: look.claimed.has(v), isHolderFrozen: !look.thawed.has(v),
      isRef: target instanceof Ref || [...holders].some(h => h instanceof Ref), isFrozen: this.frozen.has(target),
      isStale: f.setAt.get(ident).left, isAliased: f.isAliased, isAliasedBelow: stack.slice(stack.indexOf(f) + 1).some(g => g.isAliased),
      hasReports: made.out.reports.length > 0, hasLoop: !isForward || stack.some(g => !g.fn.watched.isForward), effects: f.effects(i).map(e => e.join(' ')).join('; '),
      causes: this.events.explain([...holders], this.stack),
    };
  }

  checkFrozen(target, how) {
    const {made} = this;
    const top = this.stack.at(-1);
    const isError = e => e[0] === 'MutateFrozen' || e[0] === 'MutateGlobal';
    const isTold = made.out.reports.length > 0 || [...made.out.functions.values()].some(f => [...f.values()].some(l => l.some(isError)));
    const {value, index} = top.current;
    const key = `${top.fn.watched.number}:${index}`;
    if (this.frozenWrites.has(key)) return;
    const by = this.frozen.get(target);
    const isByName = how === 'store' && value.object && by.has(top.sourceOf(value.object.ident));
    this.frozenWrites.set(key, {function: top.fn.watched.number, kind: value.kind, how, isTold, isByName, isPart: by.size === 0,
      effects: top.effects(top.current).map(e => e.join(' ')).join('; ')});
  }

  // --- calls of what isn't of the unit ------------------------------------------

  call(run, operands) {
    const [f] = operands;
    if (typeof f !== 'function') throw new TypeError('no function');
    const frame = this.stack.at(-1);
    const i = frame.current;
    const before = this.heap.reachable(operands);
    this.events.calling({frame, i, operands, before});
    const result = this.heap.held.has(f) ? run() : this.native(run, operands, before);
    this.events.called({frame, i, operands, before, result});
    return result;
  }

  /** What is different behind a call of a function from outside was written by it. */
  native(run, operands, before) {
    const [f, receiver] = operands;
    const shapes = new Map([...before].map(x => [x, this.heap.shape(x)]));
    const always = ALWAYS.has(f) && Array.isArray(receiver) && receiver.length > 0 ? receiver : null;
    const isNext = isIterator(receiver) && receiver.next === f;
    try {
      const result = run();
      if (isIterator(result) && isObject(receiver) && result !== receiver) this.heap.sourceOf.set(result, receiver);
      return result;
    } finally {
      for (const [x, old] of shapes) {
        const now = this.heap.shape(x);
        const isChanged = now.length !== old.length || now.some((v, k) => !Object.is(v, old[k]));
        if (x === always || (isNext && x === receiver) || isChanged) this.write(x, `a call of ${f.name || 'a function'}`);
      }
    }
  }

  iterate(x) {
    if (isIterator(x)) this.write(x, 'iteration');
    return [...x];
  }
}

/**
 * Runs the function on each input.
 * @param {object} made what analysis.js gives
 * @param {Array<Array<*>>} inputs
 * @param {() => Record<string, any>} globals
 */
function watched(made, inputs, globals, limit = 3000) {
  const total = {writes: 0, pairs: 0, runs: 0, stopped: 0, violations: new Map(), frozenWrites: new Map()};
  for (const args of inputs) {
    const machine = new Watcher(made, globals(), limit);
    try {
      if (made.fn === made.root) args.slice(0, made.kind === 'Component' ? 1 : undefined).forEach(a => machine.freeze(a));
      new WatchedFrame(machine, made.fn, STEPS).run(args);
    } catch (error) {
      if (error instanceof Stopped || error instanceof RangeError) total.stopped++;
      else if (error instanceof Error && !(error instanceof TypeError || error instanceof ReferenceError)) throw error;
    }
    total.runs++;
    total.writes += machine.counts.writes;
    total.pairs += machine.counts.pairs;
    for (const [k, v] of machine.violations) if (!total.violations.has(k)) total.violations.set(k, v);
    for (const [k, v] of machine.frozenWrites) if (!total.frozenWrites.has(k)) total.frozenWrites.set(k, v);
  }
  return total;
}

module.exports = {watched};
