'use strict';
/**
 * The inference, for tests: the command of JIRRAMBEO (words between spaces), or else the repository's proved
 * program, where it is built. Without one its tests are skipped.
 */
const {spawn} = require('node:child_process');
const fs = require('node:fs');
const os = require('node:os');
const path = require('node:path');
const {unitsOf} = require('../src/index.js');

const BUILT = path.join(__dirname, '../../crates/alias_tool/out/alias_tool');
const command = process.env.JIRRAMBEO ? process.env.JIRRAMBEO.split(' ') : fs.existsSync(BUILT) ? [BUILT] : null;
/** What `node --test` says of a test that wants the program. */
const skip = command ? false : 'the proved program is not built, and JIRRAMBEO names none';

/**
 * @param {string} word of the command
 * @param {string} input
 * @returns {Promise<{status: number, text: string}>}
 */
function run(word, input) {
  const [program, ...words] = command || [''];
  return new Promise((resolve, reject) => {
    const child = spawn(program, [...words, word], {stdio: ['pipe', 'pipe', 'inherit']});
    const parts = [];
    child.on('error', reject);
    child.stdin.on('error', () => {}); // it may answer before it has read all
    child.stdout.on('data', part => parts.push(part));
    child.on('close', status => resolve({status, text: Buffer.concat(parts).toString()}));
    child.stdin.end(input);
  });
}

/** Runs the jobs, a few at a time, and gives what they gave, in order. */
async function inParallel(jobs) {
  const given = new Array(jobs.length);
  let next = 0;
  const worker = async () => {
    while (next < jobs.length) {
      const own = next++;
      given[own] = await jobs[own]();
    }
  };
  await Promise.all(Array.from({length: os.cpus().length}, worker));
  return given;
}

/**
 * Each case has one function, or names the last: its unit, and what the program says of it.
 * @param {Array<{source: string} & import('../src/index.js').Options>} cases
 * @returns {Promise<Array<{unit?: object, refused?: object, status?: number, lints?: Array<string>, text?: string}>>}
 */
function answers(cases) {
  return inParallel(cases.map(({source, ...options}) => async () => {
    const made = unitsOf(source, options).at(-1);
    if (made.refused) return made;
    const {status, text} = await run('lint', JSON.stringify(made.unit));
    return {...made, status, text, lints: text.split('\n').filter(l => l.startsWith('lint '))};
  }));
}

module.exports = {answers, run, inParallel, skip};
