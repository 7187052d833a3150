'use strict';
/**
 * What happened in a run of which the rules of the inference say less than JavaScript does, with the objects that it
 * was about. A write that no range reaches is explained where such an object is on the way to what was written.
 * docs/BLINDSPOTS.md tells each cause.
 */

const CALLERS = new Set(['BinaryExpression', 'TemplateLiteral', 'UnaryExpression', 'ComputedLoad', 'ComputedStore']);

const ITERATE = new Set(['Destructure', 'ArrayExpression', 'GetIterator', 'IteratorNext']);

class Events {
  /** @param {object} machine */
  constructor(machine) {
    this.machine = machine;
    /** @type {Map<string, Set<*>>} */
    this.seen = new Map();
  }

  note(cause, objects) {
    if (!this.seen.has(cause)) this.seen.set(cause, new Set());
    for (const x of objects) this.seen.get(cause).add(x);
  }

  /** The causes that an object of these is of. */
  explain(objects, stack) {
    const found = [...this.seen].filter(([, about]) => objects.some(x => about.has(x))).map(([cause]) => cause);
    const isAt = (f, kinds) => f.current && kinds.has(f.current.value.kind);
    if (stack.slice(0, -1).some(f => isAt(f, CALLERS))) found.push('operators call methods');
    if (stack.slice(0, -1).some(f => isAt(f, ITERATE)) || isAt(stack.at(-1), ITERATE)) found.push('patterns, spreads and loops run iterators');
    return found;
  }

  caught(error) {
    this.note('what is thrown', this.machine.heap.reachable([error]));
  }

  enter(frame) {} // eslint-disable-line no-unused-vars

  /** A store of a called function into what it chose among several, and of what it took from a part. */
  written(stack, target, how) {
    const top = stack.at(-1);
    if (how !== 'store' || stack.length < 2) return;
    const {object, value} = top.current.value;
    const isChosen = top.fn.watched.defs.get(top.sourceOf(object.ident)) === 'phi';
    if (isChosen) this.note('a called function stores into what it chose', [target, ...(value ? this.machine.heap.reachable([top.get(value)]) : [])]);
  }

  /** @param {{frame: *, i: *, operands: Array<*>, before: Set<*>}} call that begins */
  calling({frame, i, operands, before}) {
    const {heap} = this.machine;
    const args = i.value.args || [];
    if (i.value.kind === 'NewExpression') this.note('what is called by new', heap.reachable([operands[0]]));
    if (args.some(a => a.spread)) this.note('a spread argument', before);
    const isInVariable = a => !a.spread && heap.held.has(frame.get(a)) && /^Load|^phi/.test(frame.fn.watched.defs.get(a.ident));
    if (args.some(isInVariable) && !heap.held.has(operands[0])) this.note('a callback in a variable', before);
    for (const x of before) if (x instanceof RegExp) this.note('a regular expression has a state', [x]);
  }

  /** @param {{frame: *, i: *, operands: Array<*>, before: Set<*>, result: *}} call that is over */
  called({frame, i, operands, before, result}) {
    const {heap} = this.machine;
    const isUnknown = frame.effects(i).some(e => e[0] === 'MaybeAlias');
    const given = [...heap.reachable([result])].filter(x => before.has(x) && !operands.includes(x));
    if (given.length > 0) this.note(isUnknown ? 'the result of an unknown call' : 'a function gives a part', given);
  }
}

module.exports = {Events};
