#!/usr/bin/env node
'use strict';
/**
 * main.js [--gen=hand|aliasing|components|programs] [--from=0] [--count=200] [--on=f,g | --off=f,g] [--shorter=1] [--show=3]
 *
 * Runs programs, prints how often each cause explains what a run says against the inference, and shows what none
 * explains: status 1 where there is such. JIRRAMBEO names the program that infers. --shorter ends each longer range
 * that much earlier: a fault on purpose, to see that it is found.
 */
const {trial} = require('./trial.js');
const {aliasing, component, FEATURES} = require('./aliasing.js');
const {HAND} = require('./hand.js');
const inputs = require('./inputs.js');
const {program} = require('../programs.js');
const {inParallel} = require('../program.js');

function options(argv) {
  const given = Object.fromEntries(argv.map(w => w.replace(/^--/, '').split(/=(.*)/s)));
  const off = (given.off || '').split(',');
  const on = new Set(given.on !== undefined ? given.on.split(',').filter(Boolean) : FEATURES.filter(f => !off.includes(f)));
  return {gen: given.gen || 'aliasing', from: Number(given.from || 0), count: Number(given.count || 200), on,
    shorter: Number(given.shorter || 0), show: Number(given.show || 3)};
}

/** @returns {Array<{name: string|number, source: string, inputs: () => Array<Array<*>>}>} */
function programs({gen, from, count, on}) {
  if (gen === 'hand') {
    return Object.entries(HAND).map(([name, source]) => ({name, source, inputs: /^[CH]:/.test(name) ? inputs.HAND_COMPONENT : inputs.HAND}));
  }
  const seeds = Array.from({length: count}, (_, i) => from + i);
  if (gen === 'programs') return seeds.map(name => ({name, source: program(name), inputs: inputs.HAND}));
  if (gen === 'components') return seeds.map(name => ({name, source: component(name, on), inputs: inputs.COMPONENT}));
  return seeds.map(name => ({name, source: aliasing(name, on), inputs: inputs.ALIASING}));
}

/** Runs them, and counts. */
async function tried(list, given) {
  const total = {programs: 0, refused: 0, runs: 0, stopped: 0, writes: 0, pairs: 0};
  const reasons = new Map();
  const unexplained = [];
  await inParallel(list.map(({name, source, inputs: of}) => async () => {
    let t;
    try {
      t = await trial(source, of, given);
    } catch (error) {
      if (error instanceof SyntaxError) return;
      throw Object.assign(error, {message: `${error.message}\n${name}: ${source}`});
    }
    if (t.refused) {
      total.refused++;
      return;
    }
    total.programs++;
    for (const key of ['runs', 'stopped', 'writes', 'pairs']) total[key] += t.seen[key];
    for (const r of [...t.reasons, ...t.silences]) if (r.reason) reasons.set(r.reason, (reasons.get(r.reason) || 0) + 1);
    if (t.unexplained.length > 0) unexplained.push({name, source, first: t.unexplained[0]});
  }));
  return {total, reasons, unexplained};
}

async function main() {
  const given = options(process.argv.slice(2));
  const {total, reasons, unexplained} = await tried(programs(given), given);
  console.log(JSON.stringify(total));
  for (const [reason, n] of [...reasons].sort((a, b) => b[1] - a[1])) console.log(`${String(n).padStart(8)} ${reason}`);
  console.log(`${String(unexplained.length).padStart(8)} programs with what nothing explains`);
  for (const u of unexplained.sort((a, b) => a.source.length - b.source.length).slice(0, given.show)) {
    console.log(`\n[${u.name}] ${u.source}\n    ${JSON.stringify(u.first)}`);
  }
  process.exitCode = unexplained.length > 0 ? 1 : 0;
}

if (require.main === module) main();

module.exports = {tried, programs, options};
