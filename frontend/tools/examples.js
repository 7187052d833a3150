#!/usr/bin/env node
'use strict';
/** Prints the examples of the playground as JSON: the cases of the rules of React, each laid out in lines. */
const {parse} = require('../src/parse.js');
const {children} = require('../src/syntax.js');
const {WRONG, RIGHT} = require('../test/data/react.js');

const IMPORTS = 'import {useState, useReducer, useContext, useEffect, useMemo, useCallback, useRef, forwardRef} from \'react\';\n';
const INDENT = '  ';

/** Where lines begin, each with its depth: statements, and ends of blocks. @returns {Map<number, number>} */
function breaks(node, depth = 0, found = new Map()) {
  const list = node.type === 'Program' || node.type === 'BlockStatement' || node.type === 'ClassBody' ? node.body : null;
  const inner = list && node.type !== 'Program' ? depth + 1 : depth;
  if (list) for (const one of [...(node.directives || []), ...list]) found.set(one.start, inner);
  if (list && list.length > 0 && node.type !== 'Program') found.set(node.end - 1, depth);
  for (const child of children(node)) breaks(child, inner, found);
  return found;
}

/** A text in one line, laid out. @param {string} text */
function laidOut(text) {
  let made = '';
  let from = 0;
  for (const [at, depth] of [...breaks(parse(text).program)].sort((a, b) => a[0] - b[0])) {
    made += text.slice(from, at).trimEnd();
    if (at > 0) made += `\n${INDENT.repeat(depth)}`;
    from = at;
  }
  return `${made}${text.slice(from)}\n`;
}

/** The names of React that a text has are imported. @param {string} text */
function imported(text) {
  const names = (/\{(.*)\}/.exec(IMPORTS) || ['', ''])[1].split(', ').filter(name => new RegExp(`\\b${name}\\b`).test(text));
  return names.length > 0 && !/\breact\b/.test(text) ? `import {${names.join(', ')}} from 'react';\n\n${text}` : text;
}

const examples = [...WRONG, ...RIGHT].map(({name, source, why, reports = []}) => (
  {name, why, isWrong: WRONG.some(one => one.name === name), reports: reports.length, source: imported(laidOut(source.replace(/\/\*\d\*\//g, '')))}));

process.stdout.write(`${JSON.stringify(examples)}\n`);
