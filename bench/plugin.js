#!/usr/bin/env node
'use strict';
/**
 * What the plugin adds to ESLint's own time: bench/plugin.js [FILE..]
 *
 * Of each file, or of two made ones of 1,000 lines (143 small functions; 50 components), it prints in milliseconds what a
 * run with the recommended rules takes beyond one with a rule that is told of the program and does nothing: by the clock,
 * and in brackets of the processor, of the main thread and of all (which infer, compile and collect meanwhile). That of the
 * first file of a process, in which ESLint's own code runs for the first time too: the middle of PROCESSES=8 with the rules beyond the
 * middle of as many without, in turns. That of a file after others (the least and the middle of ROUNDS=12). And what it takes
 * to load the plugin, which is in none of them. The plugin is what `npm pack` makes of it. Without the built addon it is the
 * checkout's, units are made and nothing is inferred, and it says so. NODE_PATH=/usr/share/nodejs where Debian has ESLint.
 */
const fs = require('fs');
const os = require('os');
const path = require('path');
const {execFileSync, spawnSync} = require('child_process');

const CHECKOUT = path.join(__dirname, '../eslint-plugin');
const {ADDON} = require(path.join(CHECKOUT, 'src/parts.js'));
const ROUNDS = Number(process.env.ROUNDS || 12);
const PROCESSES = Number(process.env.PROCESSES || 8);
const OPTIONS = {parserOptions: {ecmaVersion: 2020, sourceType: 'module', ecmaFeatures: {jsx: true}}};

const small = i => `function helper${i}(list, key) {
  const found = list.filter(item => item.key === key);
  if (found.length === 0) return null;
  const first = found[0];
  return {...first, count: found.length};
}

`;

const component = i => `export function Card${i}({title, items, onPick}) {
  const [open, setOpen] = useState(false);
  const shown = items.filter(item => open || item.pinned);
  const total = useMemo(() => shown.reduce((sum, item) => sum + item.price, 0), [shown]);
  const pick = useCallback(event => {
    event.preventDefault();
    onPick(title, shown.length);
  }, [title, onPick, shown]);
  useEffect(() => {
    document.title = title + total;
  }, [title, total]);
  return (
    <div className="card" onClick={() => setOpen(!open)}>
      <h2>{title}</h2>
      {shown.map(item => <Row key={item.id} item={item} onPick={pick} />)}
      <b>{total > 0 ? total.toFixed(2) : 'none'}</b>
    </div>
  );
}

`;

const many = (count, make) => Array.from({length: count}, (_, i) => make(i)).join('');
const MADE = {
  'small functions': many(143, small),
  components: `import {useState, useMemo, useCallback, useEffect} from 'react';\n\n${many(50, component)}`,
};

/** Milliseconds by each clock: on the wall, of the processor for this thread, and of it for all. */
function clocks() {
  const {user, system} = process.cpuUsage();
  const main = Number(fs.readFileSync(`/proc/self/task/${process.pid}/schedstat`, 'latin1').split(' ')[0]) / 1e6;
  return [Number(process.hrtime.bigint()) / 1e6, main, (user + system) / 1000];
}

/** @param {Array<number>} a @param {Array<number>} b */
const beyond = (a, b) => a.map((x, i) => x - b[i]);

/** Where the addon isn't built, nothing is said of units. @param {string} folder of the plugin */
function withoutInference(folder) {
  if (folder !== CHECKOUT) return false;
  const inference = path.join(CHECKOUT, 'src/inference.js');
  require(inference);
  const linting = () => {
    let count = 0;
    return {put: () => count++, answers: () => Array.from({length: count}, () => ({status: 0, text: 'lints 0\n'}))};
  };
  require.cache[inference].exports = {linting};
  return true;
}

/** The middle by each clock. @param {Array<Array<number>>} all */
function middle(all) {
  return all[0].map((_, clock) => all.map(one => one[clock]).sort((a, b) => a - b)[all.length >> 1]);
}

/**
 * ESLint with the plugin: what loading that took, and a run with its rules and one with a rule that does nothing.
 * @param {string} text @param {string} folder of the plugin
 */
function prepared(text, folder) {
  const {Linter} = /** @type {any} */ (require('eslint'));
  const isBare = withoutInference(folder);
  const begun = clocks();
  const plugin = /** @type {any} */ (require(path.join(folder, 'src/index.js')));
  const loading = beyond(clocks(), begun);
  const linter = new Linter();
  for (const [name, rule] of Object.entries(plugin.rules)) linter.defineRule(`jirrambeo/${name}`, rule);
  linter.defineRule('nothing', {create: () => ({Program() {}})});
  const timed = rules => {
    const begun = clocks();
    const [fatal] = linter.verify(text, {...OPTIONS, rules}, {filename: 'file.jsx'}).filter(one => one.fatal);
    if (fatal) throw new Error(fatal.message);
    return beyond(clocks(), begun);
  };
  return {isBare, loading, full: () => timed(plugin.configs.recommended.rules), bare: () => timed({nothing: 'error'})};
}

/** What a process measures: its first file with the rules or without, or files after others. */
const MEASURES = {
  full: ({full, loading, isBare}) => ({isBare, loading, first: full()}),
  bare: ({bare}) => ({first: bare()}),
  later({full, bare}) {
    for (let i = 0; i < 5; i++) beyond(full(), bare());
    const rounds = Array.from({length: ROUNDS}, () => beyond(full(), bare()));
    return {least: rounds[0].map((_, clock) => Math.min(...rounds.map(round => round[clock]))), middle: middle(rounds)};
  },
};

/** The texts, each with its name. @param {Array<string>} files */
function texts(files) {
  return files.length > 0 ? Object.fromEntries(files.map(file => [file, fs.readFileSync(file, 'utf8')])) : MADE;
}

/** What a process of its own measures. @param {string} what @param {string} text @param {string} folder of the plugin */
function measured(what, text, folder) {
  const {stdout} = spawnSync(process.execPath, [__filename, '--one', what, folder], {input: text, encoding: 'utf8', stdio: ['pipe', 'pipe', 'inherit']});
  return JSON.parse(stdout);
}

/** A line for each file. @param {Array<string>} files @param {string} folder of the plugin */
function print(files, folder) {
  for (const [name, text] of Object.entries(texts(files))) {
    const turns = Array.from({length: PROCESSES}, () => [measured('bare', text, folder), measured('full', text, folder)]);
    const fulls = turns.map(([, full]) => full);
    const first = beyond(middle(fulls.map(one => one.first)), middle(turns.map(([bare]) => bare.first)));
    const later = measured('later', text, folder);
    const told = Object.entries({'first file': first, 'after others, least': later.least, middle: later.middle, loading: middle(fulls.map(one => one.loading))})
      .map(([what, [wall, main, all]]) => `${what} ${wall.toFixed(0)} (${main.toFixed(0)}, ${all.toFixed(0)})`);
    console.log(`${name}, ${text.split('\n').length - 1} lines: ${told.join(', ')}${fulls[0].isBare ? ' (without the inference)' : ''}`);
  }
}

/** Has the plugin packed into a folder of its own for a while, where its addon is built. @param {(folder: string) => void} run */
function packed(run) {
  if (!fs.existsSync(ADDON)) return run(CHECKOUT);
  const folder = fs.mkdtempSync(path.join(os.tmpdir(), 'plugin-'));
  try {
    execFileSync(process.execPath, [path.join(CHECKOUT, 'pack.js'), '--into', folder]);
    run(folder);
  } finally {
    fs.rmSync(folder, {recursive: true});
  }
}

const [asked, what, folder] = process.argv.slice(2);
if (asked === '--one') process.stdout.write(JSON.stringify(MEASURES[what](prepared(fs.readFileSync(0, 'utf8'), folder))));
else packed(made => print(process.argv.slice(2), made));
