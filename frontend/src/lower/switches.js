'use strict';
/**
 * Switches.
 *
 * @typedef {import('./builder.js').Builder} Builder
 * @typedef {import('../syntax.js').Node} Node
 */
const {Refused} = require('../refused.js');
const {isReorderable, isWithin} = require('../syntax.js');
const hoisting = require('./hoisting.js');
const statements = require('./statements.js');
const expressions = require('./expressions.js');

/**
 * All cases are one scope: its functions are made, and names that inner functions use before their
 * declaration are declared, before any case. (The React Compiler does neither.)
 * @param {Builder} b @param {Node} node
 */
function beginScope(b, node) {
  const all = node.cases.flatMap(c => c.consequent);
  const functions = all.filter(s => s.type === 'FunctionDeclaration');
  for (const binding of b.shared.names.declared.get(node) || []) {
    const own = all.find(s => isWithin(binding.node, s));
    if (binding.kind === 'function' || !own || b.shared.hoisted.has(binding)) continue;
    const use = binding.refs.find(r => !b.isOwn(r) && (r.node.start < own.end || functions.some(f => isWithin(r.node, f))));
    if (use) hoisting.hoist(b, binding, use.node);
  }
  hoisting.lowerStatements(b, functions, node, 'function');
}

/** @param {Builder} b @param {Node} node @param {?string} label */
function lowerSwitch(b, node, label) {
  const {blocks} = b;
  const test = expressions.lowerExpressionToTemporary(b, node.discriminant);
  beginScope(b, node);
  const next = blocks.reserve();
  const tests = node.cases.map(c => {
    if (c.test && !isReorderable(c.test)) throw new Refused('a `case` that does something', c.test);
    return c.test ? expressions.lowerExpressionToTemporary(b, c.test) : null;
  });
  const cases = [];
  let fall = next.id;
  for (let i = node.cases.length - 1; i >= 0; i--) {
    const after = fall;
    fall = blocks.enter(() => blocks.within({label, break: next.id}, () => {
      for (const s of node.cases[i].consequent) if (s.type !== 'FunctionDeclaration') statements.lowerStatement(b, s);
      return {kind: 'Goto', block: after};
    }));
    cases.unshift({test: tests[i], block: fall});
  }
  if (!cases.some(c => c.test === null)) cases.push({test: null, block: next.id});
  blocks.goOn({kind: 'Switch', test, cases, fallthrough: next.id}, next);
}

exports.lowerSwitch = lowerSwitch;
