'use strict';
/**
 * Statements but for loops, switches and `try`.
 *
 * @typedef {import('./builder.js').Builder} Builder
 * @typedef {import('../syntax.js').Node} Node
 */
const {Refused} = require('../refused.js');
const {isTypeOnly, patternNames} = require('../syntax.js');
const {isLikeLet} = require('../sharing.js');
const hoisting = require('./hoisting.js');
const assignments = require('./assignments.js');
const expressions = require('./expressions.js');
const classes = require('./classes.js');
const lowering = require('./index.js');
const loops = require('./loops.js');
const switches = require('./switches.js');
const tries = require('./tries.js');

const LABELED = new Set(['ForStatement', 'ForOfStatement', 'ForInStatement', 'WhileStatement', 'DoWhileStatement', 'SwitchStatement']);

/** @type {Record<string, (b: Builder, node: Node, label: ?string) => void>} */
const STATEMENTS = {
  EmptyStatement() {},
  ExpressionStatement: (b, node) => {
    expressions.lowerExpressionToTemporary(b, node.expression);
  },
  DebuggerStatement: (b, node) => {
    b.emit({kind: 'Debugger'}, node);
  },
  ReturnStatement: lowerReturn,
  ThrowStatement: (b, node) => tries.lowerThrow(b, node),
  BlockStatement: (b, node) => hoisting.lowerStatements(b, node.body, node),
  VariableDeclaration: lowerDeclaration,
  FunctionDeclaration(b, node) {
    const value = b.emit({kind: 'FunctionExpression', fn: lowering.lowerNested(b, node)}, node);
    assignments.lowerAssignment(b, node.id, 'Function', value, false, node);
  },
  ClassDeclaration(b, node) {
    const value = b.emit(classes.lowerClass(b, node), node);
    assignments.lowerAssignment(b, node.id, 'Let', value, false, node);
  },
  IfStatement: lowerIf,
  ForStatement: (b, node, label) => loops.lowerFor(b, node, label),
  ForOfStatement: (b, node, label) => loops.lowerForOf(b, node, label),
  ForInStatement: (b, node, label) => loops.lowerForIn(b, node, label),
  WhileStatement: (b, node, label) => loops.lowerWhile(b, node, label),
  DoWhileStatement: (b, node, label) => loops.lowerDoWhile(b, node, label),
  SwitchStatement: (b, node, label) => switches.lowerSwitch(b, node, label),
  TryStatement: (b, node) => tries.lowerTry(b, node),
  BreakStatement: (b, node) => lowerJump(b, node, 'break'),
  ContinueStatement: (b, node) => lowerJump(b, node, 'continue'),
  LabeledStatement: lowerLabeled,
  WithStatement: (b, node) => {
    throw new Refused('`with`', node);
  },
};

/** @param {Builder} b @param {Node} node @param {?string} [label] */
function lowerStatement(b, node, label = null) {
  if (/^(TS)?(Enum|Module|ImportEquals)/.test(node.type) && !node.declare) throw new Refused('a kind of statement', node, node.type);
  if (isTypeOnly(node)) return;
  const lower = STATEMENTS[node.type];
  if (!lower) throw new Refused('a kind of statement', node, node.type);
  lower(b, node, label);
}

function lowerReturn(b, node) {
  const {blocks} = b;
  const value = node.argument ? expressions.lowerExpressionToTemporary(b, node.argument) : b.primitive(node);
  const inlined = blocks.inlined();
  if (inlined < 0) {
    blocks.leave(-1);
    blocks.end({kind: 'Return', value, start: node.start, end: node.end});
    return;
  }
  const {next, place} = blocks.targets[inlined].returns;
  blocks.leave(inlined);
  b.emit({kind: 'StoreLocal', lvalue: {kind: 'Reassign', place}, value}, node);
  blocks.end({kind: 'Goto', block: next.id});
}

function lowerJump(b, node, what) {
  const {blocks} = b;
  const number = blocks.targetOf(what, node.label ? node.label.name : null);
  if (number < 0) throw new Refused('a jump to nowhere', node);
  const block = blocks.targets[number][what];
  blocks.leave(number);
  blocks.end({kind: 'Goto', block});
}

function lowerLabeled(b, node) {
  const {blocks} = b;
  if (LABELED.has(node.body.type)) {
    lowerStatement(b, node.body, node.label.name);
    return;
  }
  const next = blocks.reserve();
  const block = blocks.enter(() => {
    blocks.within({label: node.label.name, break: next.id, onlyLabel: true}, () => lowerStatement(b, node.body));
    return {kind: 'Goto', block: next.id};
  });
  blocks.goOn({kind: 'Label', block, fallthrough: next.id}, next);
}

function lowerIf(b, node) {
  const {blocks} = b;
  const test = expressions.lowerExpressionToTemporary(b, node.test);
  const next = blocks.reserve();
  const arm = s => blocks.enter(() => {
    lowerStatement(b, s);
    return {kind: 'Goto', block: next.id};
  });
  const consequent = arm(node.consequent);
  const alternate = node.alternate ? arm(node.alternate) : next.id;
  blocks.goOn({kind: 'If', test, consequent, alternate, fallthrough: next.id}, next);
}

/** How a declaration stores: a `var` that isn't like `let` was declared where the function begins. */
function declarationKind(b, node, declarator) {
  if (node.kind === 'const') return 'Const';
  if (node.kind === 'let') return 'Let';
  if (node.kind !== 'var') throw new Refused('a kind of declaration', node, node.kind);
  const alike = new Set(patternNames(declarator.id).map(n => {
    const binding = b.local(n);
    return binding !== null && binding.kind === 'var' && isLikeLet(binding);
  }));
  if (alike.size > 1) throw new Refused('a `var` pattern of names that are used before it and others', declarator);
  return alike.has(true) ? 'Let' : 'Reassign';
}

/** @param {Builder} b @param {Node} node */
function lowerDeclaration(b, node) {
  for (const d of node.declarations) {
    const kind = declarationKind(b, node, d);
    if (d.init) {
      const value = expressions.lowerExpressionToTemporary(b, d.init);
      const isPattern = d.id.type === 'ObjectPattern' || d.id.type === 'ArrayPattern';
      assignments.lowerAssignment(b, d.id, kind, value, isPattern, d);
    } else if (kind !== 'Reassign') {
      if (d.id.type !== 'Identifier') throw new Refused('a declaration by a pattern without a value', d);
      const place = b.place(b.local(d.id), d.id);
      const isShared = place.ident.shared;
      b.emit({kind: isShared ? 'DeclareContext' : 'DeclareLocal', lvalue: {kind: isShared ? 'Let' : kind, place}}, d);
    }
  }
}

exports.lowerStatement = lowerStatement;
exports.lowerDeclaration = lowerDeclaration;
