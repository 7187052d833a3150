#!/usr/bin/env node
'use strict';
/**
 * units.js [options] FILE..    one line of JSON for each outermost function: {file, name, kind, at, unit} or
 *                              {file, name, kind, at, refused}; {file, error} for a file that has none. Status 2
 *                              where there is such a file
 * units.js [options] --stdio   one request a line on stdin, {id, file, text?, options?}; one answer a line on
 *                              stdout, in the order of the requests: {id, file, functions} or {id, file, error}
 * units.js --only=NAME FILE    the unit of that function alone, as the program reads it
 *
 * Options: --offsets=bytes|utf16  --others=nested|root  --keep-memo  --compiler  --impure
 */
const readline = require('readline');
const {answer} = require('../src/answers.js');

const USAGE = 'usage: units.js [--offsets=bytes|utf16] [--others=nested|root] [--keep-memo] [--compiler] [--impure] [--only=NAME] FILE.. | --stdio';

function words(argv) {
  const asked = {options: {config: {}}, files: [], only: null, isServer: false};
  for (const word of argv) {
    const [, key, value] = /^(--[a-z-]+)(?:=(.*))?$/s.exec(word) || [];
    if (key === undefined) asked.files.push(word);
    else if (key === '--offsets' && /^(bytes|utf16)$/.test(value)) asked.options.offsets = value;
    else if (key === '--others' && /^(nested|root)$/.test(value)) asked.options.others = value;
    else if (key === '--keep-memo') asked.options.dropMemo = false;
    else if (key === '--compiler') asked.options.compiler = true;
    else if (key === '--impure') asked.options.config.validate_no_impure_functions_in_render = true;
    else if (key === '--only' && value) asked.only = value;
    else if (key === '--stdio') asked.isServer = true;
    else return null;
  }
  return asked.isServer === (asked.files.length === 0) ? asked : null;
}

function write(line) {
  process.stdout.write(`${JSON.stringify(line)}\n`);
}

function requestOf(line) {
  try {
    const request = JSON.parse(line);
    return request !== null && typeof request === 'object' && typeof request.file === 'string' ? request : null;
  } catch {
    return null;
  }
}

async function serve(options) {
  for await (const line of readline.createInterface({input: process.stdin, crlfDelay: Infinity})) {
    if (line.trim() === '') continue;
    const request = requestOf(line);
    if (request) write(answer({...request, options: {...options, ...request.options}}));
    else write({id: null, file: null, error: {kind: 'request', message: 'a request is an object with a `file`'}});
  }
}

function only(name, found) {
  const made = (found.functions || []).find(f => f.name === name);
  if (made && made.unit) return write(made.unit);
  const why = found.error || (made && made.refused) || {message: `no function \`${name}\``};
  process.stderr.write(`${found.file}:${why.line ? `${why.line}:${why.column}:` : ''} ${why.message}\n`);
  process.exitCode = 2;
  return undefined;
}

function main() {
  const asked = words(process.argv.slice(2));
  if (!asked) {
    process.stderr.write(`${USAGE}\n`);
    process.exitCode = 2;
    return;
  }
  if (asked.isServer) {
    serve(asked.options);
    return;
  }
  for (const file of asked.files) {
    const found = answer({file, options: asked.options});
    if (asked.only !== null) only(asked.only, found);
    else if ('error' in found) {
      write(found);
      process.exitCode = 2;
    } else for (const made of found.functions) write({file, ...made});
  }
}

main();
