'use strict';
/** Runs a lowered function as a program, so that tests can hold it against JavaScript itself. */
const {parse} = require('../../src/parse.js');
const {functionsOf} = require('../../src/index.js');
const {compile} = require('../../src/compile.js');
const {Machine, Stopped} = require('./machine.js');
const {Frame} = require('./frame.js');
const {STEPS} = require('./steps.js');

/**
 * @param {string} source of a file whose last function is run
 * @returns {(globals: Record<string, any>, limit?: number) => Function} the function, with what global names mean
 */
function runnable(source) {
  const {names, functions} = functionsOf(parse(source), {});
  const {fn} = compile(names, functions.at(-1).func, 'Other', {});
  return (globals, limit = 200000) => (...args) => new Frame(new Machine(globals, limit, source), fn, STEPS).run(args);
}

module.exports = {runnable, Stopped};
