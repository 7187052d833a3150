'use strict';
/**
 * useMemo and useCallback, as dropManualMemoization of the React Compiler takes them.
 *
 * @typedef {import('./builder.js').Builder} Builder
 * @typedef {import('../syntax.js').Node} Node
 * @typedef {import('../HIR.js').Place} Place
 */
const {loaded} = require('./builder.js');
const calls = require('./calls.js');
const expressions = require('./expressions.js');

const MEMOS = new Set(['useMemo', 'useCallback']);

/** Which of the two hooks the call calls; null where it is neither. @param {import('../scope.js').Names} names @param {Node} node */
function memoName(names, node) {
  const {callee} = node;
  /** @param {Node} name */
  const outside = name => {
    const binding = names.bindingOf.get(name);
    return binding === undefined ? {from: null, isGlobal: true} : binding.fn === null ? {from: binding.from, isGlobal: false} : null;
  };
  let name = null;
  if (callee.type === 'Identifier') {
    const known = outside(callee);
    if (known && known.isGlobal) name = callee.name;
    else if (known && known.from && known.from.source === 'react') name = known.from.imported;
  } else if (callee.type === 'MemberExpression' && !callee.computed && callee.object.type === 'Identifier' &&
      callee.object.name === 'React' && outside(callee.object)) {
    name = callee.property.name;
  }
  return MEMOS.has(name) ? name : null;
}

/** What the list of dependencies names: local variables, by the root of each path. @param {Builder} b @param {?Node} list */
function dependencies(b, list) {
  if (!list || list.type !== 'ArrayExpression') return [];
  return list.elements.flatMap(e => {
    let root = e;
    while (root && (root.type === 'MemberExpression' || root.type === 'OptionalMemberExpression') && !root.computed) root = root.object;
    const binding = root && root.type === 'Identifier' ? b.local(root) : null;
    return binding ? [b.place(binding, root)] : [];
  });
}

/**
 * useMemo(f, deps) is f(), and useCallback(f, deps) is f, with the two memo markers around.
 * @param {Builder} b @param {Node} node @returns {?import('../HIR.js').Value}
 */
function lowerMemoCall(b, node) {
  const name = memoName(b.shared.names, node);
  const [first, second] = node.arguments;
  if (name === null || !first || first.type === 'SpreadElement') return null;
  calls.lowerCallee(b, node.callee);
  b.emit({kind: 'StartMemoize', deps: dependencies(b, second)}, node);
  const given = name === 'useMemo' ? lowerMemoized(b, node) : expressions.lowerExpressionToTemporary(b, first);
  if (second) calls.lowerArguments(b, [second]);
  let result = given;
  if (name === 'useCallback') {
    result = b.temporary(node);
    b.push(result, loaded(given), node);
  }
  b.emit({kind: 'FinishMemoize', decl: given}, node);
  return loaded(result);
}

function lowerMemoized(b, node) {
  const [first] = node.arguments;
  const func = b.shared.names.funcOf.get(first);
  if (func && func.inlinedInto) return b.emit(calls.lowerInlined(b, func, node), node);
  const callee = expressions.lowerExpressionToTemporary(b, first);
  return b.emit({kind: 'CallExpression', callee, args: []}, node);
}

exports.lowerMemoCall = lowerMemoCall;
exports.memoName = memoName;
