'use strict';
/**
 * Collects the blocks of one function while its statements are lowered, as HIRBuilder of the React Compiler.
 *
 * @typedef {import('./HIR.js').Block} Block
 * @typedef {import('./HIR.js').Terminal} Terminal
 * @typedef {import('./HIR.js').Instruction} Instruction
 * @typedef {{id: number, instructions: Array<Instruction>}} Open
 *
 * @typedef {object} Target a statement that a jump can leave
 * @property {?string} [label]
 * @property {number} [break] where `break` goes
 * @property {number} [continue]
 * @property {boolean} [onlyLabel] no loop and no switch: only its label leaves it
 * @property {() => void} [finalizer] lowers a copy of the `finally` that runs whenever it is left
 * @property {{next: Open, place: import('./HIR.js').Place}} [returns] of a function that is inlined
 */

/** @typedef {{block: number, binding: ?import('./HIR.js').Place}} Handler */

const {NO_BLOCKS} = require('./HIR.js');

class Blocks {
  constructor() {
    /** @type {Map<number, Block>} */
    this.done = new Map();
    this.count = 0;
    this.current = this.reserve();
    this.entry = this.current.id;
    /** @type {Array<Handler>} */
    this.handlers = [];
    /** @type {Array<Target>} of the statements around, innermost last */
    this.targets = [];
  }

  /** @returns {Open} */
  reserve() {
    return {id: this.count++, instructions: []};
  }

  /** @param {Instruction} instruction */
  push(instruction) {
    this.current.instructions.push(instruction);
    const handler = this.handlers.at(-1);
    if (!handler) return;
    const rest = this.reserve();
    this.goOn({kind: 'MaybeThrow', continuation: rest.id, handler: handler.block}, rest);
  }

  /** @param {Terminal} terminal */
  close(terminal) {
    const {id, instructions} = this.current;
    this.done.set(id, {id, instructions, terminal, phis: [], preds: NO_BLOCKS});
  }

  /** Ends the current block and goes on with the given one. @param {Terminal} terminal @param {Open} next */
  goOn(terminal, next) {
    this.close(terminal);
    this.current = next;
  }

  /** Ends the current block; what follows can't be reached. @param {Terminal} terminal */
  end(terminal) {
    this.goOn(terminal, this.reserve());
  }

  /**
   * Fills a block of its own.
   * @param {() => Terminal} fill gives its terminal
   */
  enter(fill, block = this.reserve()) {
    const outer = this.current;
    this.current = block;
    const terminal = fill();
    this.close(terminal);
    this.current = outer;
    return block.id;
  }

  /** @template T @param {Target} target @param {() => T} fill */
  within(target, fill) {
    this.targets.push(target);
    const result = fill();
    this.targets.pop();
    return result;
  }

  /** @param {Handler} handler @param {() => void} fill */
  withHandler(handler, fill) {
    const outer = this.handlers;
    this.handlers = [...outer, handler];
    fill();
    this.handlers = outer;
  }

  /** The number of the statement around that `break` or `continue` leaves or begins anew; -1 where there is none. */
  targetOf(what, label) {
    for (let i = this.targets.length - 1; i >= 0; i--) {
      const t = this.targets[i];
      if (t.returns) return -1;
      if (t[what] != null && (label == null ? !t.onlyLabel : t.label === label)) return i;
    }
    return -1;
  }

  /** The number of the inlined function around, or -1 where `return` leaves the function itself. */
  inlined() {
    for (let i = this.targets.length - 1; i >= 0; i--) if (this.targets[i].returns) return i;
    return -1;
  }

  /** Lowers each `finally` that a jump to out of the statement of that number runs. @param {number} number */
  leave(number) {
    const {targets, handlers} = this;
    for (let i = targets.length - 1; i > number; i--) {
      const {finalizer} = targets[i];
      if (!finalizer) continue;
      this.targets = targets.slice(0, i);
      finalizer();
      this.targets = targets;
      this.handlers = handlers;
    }
  }
}

module.exports = {Blocks};
