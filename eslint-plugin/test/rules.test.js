'use strict';
/** The rules of React, case by case, by ESLint's own RuleTester. */
const test = require('node:test');
const assert = require('node:assert');
const {eslint, skip, plugin, PARSER_OPTIONS, given} = require('./data.js');
const {WRONG, RIGHT} = require('../../frontend/test/data/react.js');

const IMPORTS = 'import React, {useState, useReducer, useContext, useEffect, useMemo, useCallback, useRef, forwardRef} from "react";\n';

/** The rule that says a text; each other text is one of `immutability`. */
function ruleOf(text) {
  if (text.startsWith('Cannot reassign variables declared outside')) return 'globals';
  return text.includes('is an impure function') ? 'purity' : 'immutability';
}

const espree = given('espree');
/** ESLint's own parser of an old release doesn't know all of today's syntax. */
function isRead(code) {
  try {
    return Boolean(espree.parse(code, PARSER_OPTIONS));
  } catch {
    return false;
  }
}

/**
 * ESLint has reports in the order of their places. Of the two of a variable that is assigned after render, that of the
 * function stands where the function goes out: behind the assignment, if it has a name there, and else before.
 */
const isNamed = source => /const \w+ = (\(\)|\w+) => \{ \/\*1\*\//.test(source);

const escaped = text => text.replace(/[.*+?^${}()|[\]\\]/g, '\\$&');

/** What the rule reports of a case: a part of the text, and the place of the mark of that number, if it has one. */
function errorsOf({source, reports = []}, rule) {
  const columns = new Map([...source.matchAll(/\/\*(\d)\*\//g)].map(m => [Number(m[1]), m.index + m[0].length + 1]));
  const found = reports.map((part, i) => ({part, column: columns.get(i + 1)})).filter(({part}) => ruleOf(part) === rule)
    .map(({part, column}) => ({message: new RegExp(escaped(part)), ...(column ? {line: 2, column} : {})}));
  return isNamed(source) ? found : found.reverse();
}

const counts = {valid: 0, invalid: 0};
if (!skip) {
  const {RuleTester} = eslint;
  RuleTester.describe = (_, body) => body();
  RuleTester.it = (name, body) => test(name, body);
  const cases = [...WRONG, ...RIGHT].map(one => ({...one, code: IMPORTS + one.source})).filter(({code}) => isRead(code));
  const tester = new RuleTester({parserOptions: PARSER_OPTIONS});
  for (const rule of ['immutability', 'globals', 'purity', 'report-unsupported']) {
    const all = cases.map(one => ({code: one.code, errors: errorsOf(one, rule)}));
    const invalid = all.filter(({errors}) => errors.length > 0);
    // What a case of another rule says is nothing to this one; few of these suffice.
    const valid = all.filter(({errors}, i) => errors.length === 0 && (rule === 'immutability' || i % 8 === 0)).map(({code}) => ({code}));
    counts.valid += valid.length;
    counts.invalid += invalid.length;
    if (invalid.length > 0) tester.run(rule, plugin.rules[rule], {valid, invalid});
    else tester.run(rule, plugin.rules[rule], {valid, invalid: [{code: 'function* f() { yield 1; }', errors: [{message: /a generator/, line: 1, column: 1}]}]});
  }
}

test('there are at least 40 cases of valid and 40 of invalid code', {skip}, () => {
  assert.ok(counts.valid >= 40 && counts.invalid >= 40, JSON.stringify(counts));
});
