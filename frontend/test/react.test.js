'use strict';
const test = require('node:test');
const assert = require('node:assert');
const {Positions, reports} = require('../src/index.js');
const {answers, skip} = require('../tools/program.js');
const {WRONG, RIGHT} = require('./data/react.js');

const IMPORTS = 'import React, {useState, useReducer, useContext, useEffect, useMemo, useCallback, useRef, forwardRef} from "react";\n';
const cases = [...WRONG, ...RIGHT].map(c => ({...c, source: IMPORTS + c.source, isWrong: WRONG.includes(c)}));
const all = skip ? null : answers(cases.map(({source, config}) => ({source, config})));

/** The column of each mark: where the n-th report is to begin. */
const marks = source => [...source.matchAll(/\/\*\d\*\//g)].map(m => m.index + m[0].length - IMPORTS.length + 1);

test('the table says where it differs from the rules of React', () => {
  assert.ok(cases.length >= 80);
  for (const {name, isWrong, reports: expected = [], word} of cases) {
    const isReported = expected.length > 0;
    assert.strictEqual(word, isWrong === isReported ? undefined : isWrong ? 'silent' : 'strict', name);
  }
});

cases.forEach(({name, source, reports: expected = []}, i) => {
  test(name, {skip}, async () => {
    const {status, lints, refused, text, unit} = (await all)[i];
    assert.strictEqual(status, 0, JSON.stringify(refused || text));
    const found = reports(lints, () => unit, new Positions(source));
    assert.strictEqual(found.length, expected.length, lints.join('\n'));
    expected.forEach((part, k) => assert.ok(lints[k].includes(part), lints[k]));
    marks(source).forEach((column, k) => assert.deepStrictEqual([found[k].range.line, found[k].range.column], [2, column], name));
  });
});
