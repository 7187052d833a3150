'use strict';
/**
 * Real code: each function is lowered, or refused with a reason; what is lowered is inferred.
 *
 * The code is that of Debian's packages under /usr/share/nodejs, or what REAL_CODE names: files and folders, between
 * colons. FILES says how many files are read (40), UNITS how many units are inferred (60); REACT=1 that it is React code,
 * of which nearly all components and hooks have to be lowered.
 */
const test = require('node:test');
const assert = require('node:assert');
const fs = require('node:fs');
const path = require('node:path');
const {answer} = require('../src/answers.js');
const {run, inParallel, skip} = require('../tools/program.js');

const NODE = '/usr/share/nodejs';
const PLACES = (process.env.REAL_CODE || (fs.existsSync(NODE) ? NODE : '')).split(':').filter(Boolean);
const REASONS = new Set(['a generator', '`arguments`', 'a getter or setter', '`eval`', 'a class in a function', '`super`', '`with`',
  '`new.target`', 'a use before the declaration', 'a `const` that is assigned again', 'a name that is declared twice',
  'a function of a block, used outside of it', 'a `case` that does something', 'it is nested too deeply', '`finally` that is left in too many ways',
  'a default that does something, before others of its pattern', 'a use before the declaration, in a loop\'s head',
  'a kind of statement', 'a kind of expression', '`delete` of what is no property', 'a kind of key', 'children that are spread',
  'a `var` pattern of names that are used before it and others', 'functions on more than 64 levels', 'a call of more than 1,024 arguments']);

/** Source files below the places, a few of them, from all over. */
function files() {
  const found = [];
  const left = PLACES.slice();
  for (let place = left.pop(); place; place = left.pop()) {
    if (fs.statSync(place).isDirectory()) {
      for (const name of fs.readdirSync(place).sort().reverse()) if (name !== '.git') left.push(path.join(place, name));
    } else if (/\.[cm]?[jt]sx?$/.test(place) && !/\.d\.[cm]?ts$/.test(place)) found.push(place);
  }
  const step = Math.max(1, Math.floor(found.length / Number(process.env.FILES || 40)));
  return found.filter((_, i) => i % step === 0);
}

const isThere = PLACES.length > 0 ? false : 'no code is there';
const answers = isThere ? [] : files().map(file => answer({file}));
const functions = answers.flatMap(a => (a.functions || []).map(f => ({...f, file: a.file})));

test('no file breaks the front end', {skip: isThere}, () => {
  for (const {file, error} of answers) assert.ok(!error || /^(syntax|toolarge|nottext)$/.test(error.kind), `${file}: ${error && error.message}`);
  assert.ok(answers.filter(a => a.error).length <= answers.length / 20);
});

test('nearly all functions are lowered, and the others refused with a reason', {skip: isThere}, () => {
  assert.ok(functions.length > 10);
  for (const {file, refused} of functions) if (refused) assert.ok(REASONS.has(refused.reason), `${file}:${refused.line} ${refused.message}`);
  assert.ok(functions.filter(f => f.unit).length >= 0.95 * functions.length);
  const react = functions.filter(f => f.kind !== 'other');
  if (process.env.REACT) assert.ok(react.length > 10 && react.filter(f => f.unit).length >= 0.99 * react.length);
});

test('each unit is well formed, and inferred but where the rules refuse it', {skip: isThere || skip}, async () => {
  const lowered = functions.filter(f => f.unit);
  const step = Math.max(1, Math.floor(lowered.length / Number(process.env.UNITS || 60)));
  const chosen = lowered.filter((_, i) => i % step === 0);
  const given = await inParallel(chosen.map(({unit}) => () => run('lint', JSON.stringify(unit))));
  given.forEach(({status, text}, i) => {
    const {file, name, at} = chosen[i];
    const isRefused = status === 6 && /^refused (IncompatibleLibrary|SpreadArgument)/.test(text);
    assert.ok(status === 0 || isRefused, `${file}:${at.line} ${name}: ${status} ${text.slice(0, 200)}`);
  });
});
