'use strict';
/**
 * Puts into `vendor` what a package holds besides its own sources, and with `--clear` takes it away again, so that a checkout
 * goes on with its own: `npm pack` runs both. With `--into FOLDER` the package is laid out in a folder that is there.
 */
const fs = require('fs');
const path = require('path');
const bundle = require('./bundle.js');

const TOP = path.join(__dirname, '..');
const ADDON = path.join(TOP, 'hosts/lib/jirrambeo.node');

/** @param {string} folder */
function clear(folder) {
  fs.rmSync(path.join(folder, 'vendor'), {recursive: true, force: true});
  fs.rmSync(path.join(folder, 'LICENSE'), {force: true});
}

/** @param {string} folder */
function fill(folder) {
  const vendor = path.join(folder, 'vendor');
  fs.mkdirSync(vendor);
  fs.copyFileSync(path.join(TOP, 'LICENSE'), path.join(folder, 'LICENSE'));
  fs.copyFileSync(ADDON, path.join(vendor, 'jirrambeo.node'));
  bundle.write(path.join(vendor, 'frontend.js'));
}

/** What npm packs of the folder itself. @param {string} folder */
function layOut(folder) {
  for (const name of ['src', 'package.json']) fs.cpSync(path.join(__dirname, name), path.join(folder, name), {recursive: true});
  fill(folder);
}

/** @param {Array<string>} words */
function run([what, folder]) {
  if (what !== '--clear' && !fs.existsSync(ADDON)) {
    console.error(`eslint-plugin: ${ADDON} isn't there: hosts/build makes it`);
    process.exit(1);
  }
  if (what === '--into') return layOut(folder);
  clear(__dirname);
  if (what !== '--clear') fill(__dirname);
}

run(process.argv.slice(2));
