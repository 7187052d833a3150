'use strict';
/** What the tests share: the addon, where it is built, and the worked examples that a host can run. */
const {spawnSync} = require('node:child_process');
const fs = require('node:fs');
const os = require('node:os');
const path = require('node:path');

const TOP = path.join(__dirname, '../../..');
const isBuilt = fs.existsSync(path.join(TOP, 'hosts/lib/jirrambeo.node'));
/** What `node --test` says of a test that wants the addon. */
const skip = isBuilt ? false : 'the addon is not built: hosts/build';
/** @type {typeof import('../index')} */
const jirrambeo = isBuilt ? require('../index.js') : /** @type {any} */ (null);

/**
 * The runs of a file that hosts/cases.py wrote: that of JIRRAMBEO_CASES, or one with the worked examples.
 * @returns {Array<{status: number, words: string, input: Buffer, text: string}>}
 */
function runs() {
  let file = process.env.JIRRAMBEO_CASES;
  const folder = file ? null : fs.mkdtempSync(path.join(os.tmpdir(), 'cases-'));
  if (folder) {
    file = path.join(folder, 'cases');
    const {status, stderr} = spawnSync('python3', [path.join(TOP, 'hosts/cases.py'), file], {encoding: 'utf8'});
    if (status !== 0) throw new Error(stderr);
  }
  const bytes = fs.readFileSync(file);
  if (folder) fs.rmSync(folder, {recursive: true});
  const found = [];
  for (let at = 0; at < bytes.length;) {
    const [status, ...lengths] = [0, 4, 8, 12].map(i => bytes.readUInt32LE(at + i));
    at += 16;
    const [words, input, text] = lengths.map(length => bytes.subarray(at, at += length));
    found.push({status, words: words.toString(), input, text: text.toString()});
  }
  return found;
}

const panel = fs.readFileSync(path.join(TOP, 'examples/panel.json'));

module.exports = {TOP, skip, jirrambeo, runs, panel};
