'use strict';
/**
 * Source to what the inference says of it, with the tables that a watched run asks for: the number of each identifier
 * and function of the lowered form, dominators, and what is read later on.
 */
const {parse} = require('../../src/parse.js');
const {functionsOf, Refused} = require('../../src/index.js');
const {compile} = require('../../src/compile.js');
const {Emitter, CONFIG} = require('../../src/unit.js');
const {FIELDS, successors} = require('../../src/HIR.js');
const {run} = require('../program.js');

class Numbered extends Emitter {
  constructor() {
    super(x => x);
    this.numberOf = new Map(); // of nested functions
  }

  nested(fn) {
    const number = super.nested(fn);
    this.numberOf.set(fn, number);
    return number;
  }
}

/** The places of one field of a value. */
function placesOf(x, how) {
  if (how === 'place') return [x];
  if (how === 'optional') return x ? [x] : [];
  if (how === 'properties') return x.flatMap(p => (p.spread ? [p.spread] : p.computed ? [p.computed, p.place] : [p.place]));
  return x.filter(a => a !== 'hole').map(a => a.spread || a);
}

/** Identifiers that a value reads; of functions their context places. */
function readsOf(value) {
  const places = FIELDS[value.kind].flatMap(({field, how}) => placesOf(value[field], how));
  if (value.kind === 'Destructure') places.push(...(value.lvalue.pattern.object || []).flatMap(p => (p.computed ? [p.computed] : [])));
  if (value.kind === 'StoreContext') places.push(value.lvalue.place);
  if (value.fn) places.push(...value.fn.context);
  return places.map(p => p.ident);
}

function writesOf(i) {
  const {value: v} = i;
  const out = [i.lvalue.ident];
  if (v.kind === 'StoreLocal' || v.kind === 'DeclareLocal' || v.kind === 'DeclareContext') out.push(v.lvalue.place.ident);
  else if (v.kind === 'PostfixUpdate' || v.kind === 'PrefixUpdate') out.push(v.lvalue.ident);
  else if (v.kind === 'Destructure') {
    const {array, object} = v.lvalue.pattern;
    for (const e of array || []) if (e !== 'hole') out.push((e.spread || e).ident);
    for (const p of object || []) out.push((p.spread || p.place).ident);
  }
  return out;
}

/** What is read behind each instruction before it is assigned anew. */
class Liveness {
  constructor(fn) {
    this.fn = fn;
    this.used = new Set();
    this.out = new Map([...fn.blocks.keys()].map(id => [id, new Set()]));
    const todo = [...fn.blocks.keys()];
    while (todo.length) todo.push(...this.step(fn.blocks.get(todo.pop())));
    for (const b of fn.blocks.values()) this.back(b, true);
  }

  read(live, ident) {
    live.add(ident);
    this.used.add(ident);
  }

  back(b, isLast) {
    const live = new Set(this.out.get(b.id));
    const t = b.terminal;
    for (const p of [t.test, t.value, ...(t.cases || []).map(c => c.test)]) if (p && p.ident) this.read(live, p.ident);
    for (let k = b.instructions.length - 1; k >= 0; k--) {
      const i = b.instructions[k];
      if (isLast) i.live = new Set(live);
      for (const x of writesOf(i)) live.delete(x);
      for (const x of readsOf(i.value)) this.read(live, x);
    }
    for (const phi of b.phis) live.delete(phi.place.ident);
    return live;
  }

  /** The blocks before, where more is live now. */
  step(b) {
    const live = this.back(b, false);
    return [...b.preds].filter(p => {
      const out = this.out.get(p);
      const before = out.size;
      for (const x of live) out.add(x);
      for (const phi of b.phis) if (phi.operands.has(p)) this.read(out, phi.operands.get(p).ident);
      return out.size !== before;
    });
  }
}

/** From each block to those through which each way to it goes. */
function dominators(fn) {
  const order = [...fn.blocks.keys()];
  const dom = new Map(order.map(id => [id, new Set(id === fn.entry ? [id] : order)]));
  for (let changed = true; changed;) {
    changed = false;
    for (const id of order) {
      if (id === fn.entry) continue;
      const preds = [...fn.blocks.get(id).preds];
      const now = new Set(preds.length ? [...dom.get(preds[0])].filter(x => preds.every(p => dom.get(p).has(x))) : []);
      now.add(id);
      if (now.size !== dom.get(id).size) {
        dom.set(id, now);
        changed = true;
      }
    }
  }
  return dom;
}

/** From temporaries to the variables that they were loaded from. What a shared one gives has no name for the rules. */
function loads(fn) {
  const from = new Map();
  for (const b of fn.blocks.values()) {
    for (const {value, lvalue} of b.instructions) {
      if (value.kind === 'LoadLocal') from.set(lvalue.ident, from.get(value.place.ident) || value.place.ident);
    }
  }
  return from;
}

function definitions(fn) {
  const defs = new Map(fn.params.map(p => [(p.spread || p).ident, 'parameter']));
  for (const b of fn.blocks.values()) {
    for (const phi of b.phis) defs.set(phi.place.ident, 'phi');
    for (const i of b.instructions) for (const x of writesOf(i)) defs.set(x, `${i.value.kind}${x === i.lvalue.ident ? '' : ' variable'}`);
  }
  return defs;
}

/** Adds what the checks ask of a lowered function and of those below it. */
function prepare(fn, number, emitter) {
  const at = new Map([...fn.blocks.keys()].map((id, k) => [id, k]));
  let index = 0;
  let isForward = true;
  for (const b of fn.blocks.values()) {
    for (const i of b.instructions) {
      i.index = index++;
      if (i.value.fn) prepare(i.value.fn, emitter.numberOf.get(i.value.fn), emitter);
    }
    for (const s of successors(b.terminal)) if (at.get(s) <= at.get(b.id)) isForward = false;
  }
  const {used} = new Liveness(fn);
  fn.watched = {number, used, defs: definitions(fn), loadedFrom: loads(fn), at, dom: dominators(fn), isForward, context: new Set(fn.context.map(p => p.ident))};
}

/** @param {string} text of `infer` @param {number} shorter by how much each longer range is made shorter: a fault on purpose */
function parseOutput(text, shorter) {
  const out = {functions: new Map(), ranges: new Map(), reports: []};
  let f = null;
  for (const line of text.split('\n')) {
    const [word, ...rest] = line.split(' ');
    if (word === 'function') {
      f = new Map();
      out.functions.set(rest[0] === 'root' ? 'root' : Number(rest[0]), f);
    } else if (/^\d+$/.test(word) && f) {
      if (!f.has(Number(word))) f.set(Number(word), []);
      f.get(Number(word)).push(rest);
    } else if (word === 'range') {
      const [number, start, end] = rest.map(Number);
      out.ranges.set(number, [start, end > start + 1 ? end - shorter : end]);
    } else if (word === 'report') out.reports.push(line);
  }
  return out;
}

/**
 * The last function of the source: lowered, emitted and inferred.
 * @param {string} source @param {number} [shorter]
 * @returns {Promise<*>} what is told, or {refused}
 */
async function inferred(source, shorter = 0) {
  const {names, functions} = functionsOf(parse(source, 'a.jsx'), {});
  const {func, kind} = functions.at(-1);
  let made;
  try {
    made = compile(names, func, kind, {});
  } catch (error) {
    if (error instanceof Refused) return {refused: `front end: ${error.message}`};
    throw error;
  }
  const emitter = new Numbered();
  const unit = emitter.unit(made.root, CONFIG);
  const {status, text} = await run('infer', JSON.stringify(unit));
  if (status !== 0) return {refused: `program: ${status} ${text.slice(0, 200)}`};
  prepare(made.root, 'root', emitter);
  return {...made, kind, unit, source, out: parseOutput(text, shorter), number: ident => emitter.tables.numberOf(ident)};
}

module.exports = {inferred};
