'use strict';
/** One activation of a lowered function. */
const {successors} = require('../../src/HIR.js');
const {Stopped} = require('./machine.js');

/** A shared variable's own memory. */
class Cell {
  constructor(cell) {
    this.cell = cell;
  }
}

/** What is looked up of a function, once. */
const tables = new WeakMap();

function tableOf(fn) {
  if (tables.has(fn)) return tables.get(fn);
  const table = {hoisted: new Set(), bindings: new Map(), loopOf: new Map(), leaves: new Map()};
  for (const b of fn.blocks.values()) {
    const t = b.terminal;
    for (const {value: v} of b.instructions) {
      if (v.kind === 'DeclareContext' && v.lvalue.kind.startsWith('Hoisted')) table.hoisted.add(v.lvalue.place.ident);
    }
    if (t.kind === 'Try') table.bindings.set(t.handler, t.handler_binding);
    if (t.kind === 'ForOf' || t.kind === 'ForIn') for (const i of fn.blocks.get(t.init).instructions) table.loopOf.set(i, t.init);
    if (t.kind === 'Branch' && t.how === 'more') table.leaves.set(t.alternate, b.id);
  }
  tables.set(fn, table);
  return table;
}

const isTaken = {
  present: v => v !== null && v !== undefined, false: v => !v, more: () => true, always: () => true, true: v => v,
};

class Frame {
  /** @param {import('./machine.js').Machine} machine @param {import('../../src/HIR.js').Fn} fn @param {object} steps by kind */
  constructor(machine, fn, steps) {
    /** @type {*} */
    this.machine = machine;
    /** @type {*} */
    this.fn = fn;
    this.steps = steps;
    this.table = tableOf(fn);
    /** @type {Map<object, *>} */
    this.values = new Map();
    this.loops = new Map();
    this.exit = null; // where a loop that is over goes
    /** @type {*} */
    this.current = null;
    this.block = null;
  }

  get(place) {
    if (!this.values.has(place.ident)) throw new Stopped(`no value of ${place.ident.name}`);
    return this.values.get(place.ident);
  }

  raw(ident, value) {
    this.values.set(ident, value);
  }

  set(place, value) {
    this.raw(place.ident, place.ident.shared ? new Cell(value) : value);
  }

  args(list) {
    return list.flatMap(a => (a.spread ? this.machine.iterate(this.get(a.spread)) : [this.get(a)]));
  }

  /** A function of the unit, with what it holds. */
  make(fn, instruction) {
    const held = fn.context.map(p => [p.ident, this.values.get(p.ident)]);
    const {machine, steps} = this;
    const Own = /** @type {typeof Frame} */ (this.constructor);
    const made = function (...args) {
      return new Own(machine, fn, steps).run(args, held, this);
    };
    machine.created(made, this, instruction, held);
    return machine.named(made, fn);
  }

  run(args, held = [], self = undefined) {
    for (const [ident, value] of held) this.raw(ident, value);
    this.block = this.fn.blocks.get(this.fn.entry);
    const given = this.fn.hasThis ? [...args.slice(0, this.fn.params.length - 1)] : args;
    if (this.fn.hasThis) given[this.fn.params.length - 1] = self;
    /** @type {Array<*>} */
    const params = this.fn.params;
    params.forEach((p, i) => this.set(p.spread || p, p.spread ? args.slice(i) : given[i]));
    this.machine.enter(this, [...held.map(([, v]) => v), ...params.map((p, i) => (p.spread ? args.slice(i) : given[i]))]);
    try {
      return this.go();
    } finally {
      this.machine.leave(this);
    }
  }

  /** Phis are read all at once, on the way from the block before. */
  arrive(block, before) {
    const now = before === null ? [] : block.phis.map(phi => [phi.place, phi.operands.get(before)])
      .filter(([, o]) => o && this.values.has(o.ident)).map(([place, o]) => [place, this.get(o)]);
    this.block = block;
    for (const [place, value] of now) this.raw(place.ident, value);
  }

  go() {
    let before = null;
    let block = this.block;
    for (;;) {
      this.machine.tick();
      this.arrive(block, before);
      const next = this.guarded(block);
      if (next === null) {
        const t = block.terminal;
        if (t.kind === 'Throw') throw this.get(t.value);
        return this.get(t.value);
      }
      before = this.exit === null ? block.id : this.table.leaves.get(next);
      this.exit = null;
      block = this.fn.blocks.get(next);
    }
  }

  /** The block that comes next, or null where the function ends. */
  guarded(block) {
    const t = block.terminal;
    try {
      if (!this.instructions(block)) return this.exit;
    } catch (error) {
      if (t.kind !== 'MaybeThrow' || error instanceof Stopped || error instanceof RangeError) throw error;
      const binding = this.table.bindings.get(t.handler);
      if (binding) this.set(binding, error);
      return t.handler;
    }
    return t.kind === 'Return' || t.kind === 'Throw' ? null : this.next(t);
  }

  /** Runs them; false where a loop is over. The form leaves it behind the assignment of a round: here it is before. */
  instructions(block) {
    for (const i of block.instructions) {
      this.machine.tick();
      this.current = i;
      const value = this.steps[i.value.kind](this, i.value, i);
      if (this.exit !== null) return false;
      this.set(i.lvalue, value);
      this.done(i);
    }
    this.current = null;
    return true;
  }

  done(i) {} // eslint-disable-line no-unused-vars

  next(t) {
    switch (t.kind) {
      case 'If': return this.get(t.test) ? t.consequent : t.alternate;
      case 'Branch': return isTaken[t.how || 'true'](this.get(t.test)) ? t.consequent : t.alternate;
      case 'Switch': {
        const v = this.get(t.test);
        return (t.cases.find(c => c.test && this.get(c.test) === v) || t.cases.find(c => !c.test)).block;
      }
      case 'ForOf': case 'ForIn':
        this.loops.set(t.init, {items: null, exit: t.fallthrough});
        return t.init;
      default: return successors(t)[0];
    }
  }

  loopOf(i) {
    return this.loops.get(this.table.loopOf.get(i));
  }

  /** The loop's next item, or its end. */
  item(loop) {
    const {value, done} = loop.items.next();
    if (done) this.exit = loop.exit;
    return value;
  }
}

module.exports = {Frame, Cell};
