'use strict';
/** What the program prints of a cause's program: the line that a run contradicts. */
const {trial} = require('./trial.js');
const {run} = require('../program.js');
const inputs = require('./inputs.js');

const COMPONENT = () => [[{x: {}, l: [{}], c: 1}]];

/** @param {import('./causes.js').Cause} cause @returns {Promise<string>} */
async function printed({source, reason, isComponent}) {
  const {made, reasons} = await trial(source, isComponent ? COMPONENT : inputs.HAND);
  const found = reasons.filter(v => v.reason === reason && v.name !== null && !made.unit.identifiers[v.ident].name.promoted);
  if (found.length === 0) return `lint prints \`${(await run('lint', JSON.stringify(made.unit))).text.trim()}\``;
  const [v] = found.sort((a, b) => b.order - a.order);
  return `infer prints \`range ${v.ident} ${v.range.join(' ')}\` of \`${v.name}\`, which the ${v.kind} at ${v.order} writes`;
}

module.exports = {printed, COMPONENT};
