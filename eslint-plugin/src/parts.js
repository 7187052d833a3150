'use strict';
/** Where the front end and the inference are: in `vendor` of the pack, or in the repository. */
const fs = require('fs');
const path = require('path');

const VENDOR = path.join(__dirname, '../vendor');
const TOP = path.join(__dirname, '../..');
const SCRIPT = path.join(VENDOR, 'frontend.js');
const isPacked = fs.existsSync(SCRIPT);

/** The one script of a pack. @type {?string} */
const BUNDLE = isPacked ? SCRIPT : null;
const MODULES = path.join(TOP, 'frontend/src');
const ADDON = isPacked ? path.join(VENDOR, 'jirrambeo.node') : path.join(TOP, 'hosts/lib/jirrambeo.node');

module.exports = {BUNDLE, MODULES, ADDON};
