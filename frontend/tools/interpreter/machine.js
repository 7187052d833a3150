'use strict';
/** What all functions of a run share. A tool that watches a run overrides what it wants to see. */
class Machine {
  /**
   * @param {Record<string, any>} globals what global names mean
   * @param {number} steps the most that are done
   * @param {string} source
   */
  constructor(globals, steps, source) {
    this.globals = globals;
    this.left = steps;
    this.source = source;
  }

  /** A function's text is that of the source, as JavaScript has it. */
  named(f, {start, end}) {
    return Object.defineProperty(f, 'toString', {value: () => this.source.slice(start, end)});
  }

  tick() {
    if (this.left-- <= 0) throw new Stopped('too many steps');
  }

  /** Calls a function that may be none of the unit; `operands` are the function, the receiver and the arguments. */
  call(run, operands) {
    if (typeof operands[0] !== 'function') throw new TypeError('no function');
    return run();
  }

  /** Reads an iterable to its end. */
  iterate(x) {
    return [...x];
  }

  /** An object is about to be written. @param {*} object @param {string} how */
  write(object, how) {} // eslint-disable-line no-unused-vars

  /** A function of the unit was made. */
  created(f, frame, instruction, held) {} // eslint-disable-line no-unused-vars

  /** A function was entered, or left. */
  enter(frame, given) {} // eslint-disable-line no-unused-vars

  leave(frame) {} // eslint-disable-line no-unused-vars
}

/** The run itself can't go on: nothing that a program could catch. */
class Stopped extends Error {}

module.exports = {Machine, Stopped};
